// A capture at a node: which of its frames the interface of the node takes, at which moments, and what the node does then. The node is proved, this isn't.

const MILLISECOND = 10n ** 6n;
// Milliseconds from the first frame of a capture to the last one: two years.
const LONGEST_CAPTURE = 2 ** 36;

const receiver = (frame) => mac(frame.subarray(0, 6));
const sender = (frame) => mac(frame.subarray(6, 12));
const isGroup = (frame) => (frame[0] & 1) === 1;
const isWhole = ({ frame, length }) => typeof frame !== 'string' && frame.length >= length && frame.length >= 14;

// Returns the whole frames of packets that have a time, with their moments: the first is at `before`, in milliseconds since the node started. A packet
// whose time is before that of an earlier one has the moment of the earlier one.
function timedFrames(packets, before) {
    let last = before;
    return packets.filter((it) => it.time !== undefined && isWhole(it)).map(({ frame, time }, _, [first]) => {
        last = Math.max(last, before + Number((time - first.time) / MILLISECOND));
        return { at: last, frame };
    });
}

// Returns the packets that have a time and bytes, as a link has them: the milliseconds since the first whole one, the digits, and how long the frame
// was if it is cut.
function linkOf(packets) {
    const timed = packets.filter((it) => it.time !== undefined && typeof it.frame !== 'string' && it.frame.length > 0);
    const first = (timed.find(isWhole) ?? timed[0])?.time;
    return timed.map(({ frame, length, time }) => {
        return `${time > first ? (time - first) / MILLISECOND : 0}-${hexOf(frame)}${length > frame.length ? `-${length}` : ''}`;
    }).join('_');
}

// Returns the packets of a link. What isn't one is a packet that says so.
function packetsOfLink(text) {
    return text.split('_').filter((it) => it !== '').map((it) => {
        const [, at, digits, length] = /^(\d{1,15})-((?:[0-9a-f]{2})+)(?:-(\d{1,9}))?$/i.exec(it) ?? [];
        if (digits === undefined) return { frame: `the address has “${it.slice(0, 40)}” in place of a frame` };
        const frame = frameOfDigits(digits);
        return { frame, length: Number(length ?? frame.length), time: BigInt(at) * MILLISECOND };
    });
}

// Returns the Ethernet addresses of nodes in frames. The first is the likeliest to be replayed: of a host that tries an address or asks for routers.
function stations(frames) {
    const beginners = frames.filter(({ frame }) => /^(rs|ns ::) /.test(lineOf(frame, 'either')));
    const all = [...beginners.map(({ frame }) => sender(frame)), ...frames.flatMap(({ frame }) => (isGroup(frame) ? [] : [receiver(frame)])),
        ...frames.map(({ frame }) => sender(frame))];
    return [...new Set(all)];
}

// Returns true if the interface passes a frame to its node: to its own address or to a group, and not from itself (nd.h, FRAMES IN).
const passes = (frame, own) => (isGroup(frame) || receiver(frame) === own) && sender(frame) !== own;

// Returns the Ethernet address that is chosen for the host of whole packets: the first of its nodes that hears one of them, or else one of no node.
function hostFor(whole, known) {
    const others = ['34:56:78:9a:bc:de', '02:00:00:00:00:01'];
    return known.find((own) => whole.some(({ frame }) => passes(frame, own))) ?? others.find((it) => !known.includes(it));
}

// Lets a node hear frames at their moments, and time pass to `end`. Returns what happens, in order: frames that it hears, and its records.
function replayed(node, own, frames, end) {
    const events = [], isTooLong = frames.length > 0 && frames.at(-1).at - frames[0].at > LONGEST_CAPTURE;
    if (isTooLong) throw new Error('Two frames of this capture are more than two years apart.');
    const gather = () => events.push(...node.records().map((it) => ({ at: Number(it.moment), kind: it.kind, text: recordText(it), frame: it.bytes })));
    for (const { at, frame } of frames) {
        node.call('nd_pass', at);
        gather();
        if (!passes(frame, own)) continue;
        events.push({ at, kind: 0, frame });
        node.receive(at, frame);
        gather();
    }
    node.call('nd_pass', end);
    gather();
    return events;
}
