// The tab of a capture: a host hears its frames at the capture's times. They and what the host sends are arrows between stations.

const HEARD_EXAMPLE = @CAPTURE@;
const MOST_EVENTS = 300, AFTER = 5000;
let capture = [], hearings = 0;

// What a frame says, in a few words.
function brief(frame) {
    const line = lineOf(frame, 'either') ?? 'too long for this page', [word, source] = line.split(' ');
    const [, target] = / target (\S+)/.exec(line) ?? [], [, destination] = / destination (\S+)/.exec(line) ?? [];
    switch (word) {
        case 'rs': return 'rs: are there routers?';
        case 'ra': return / lifetime 0 reachable /.test(line) ? 'ra: I am no default router' : 'ra: I am a router';
        case 'ns': return source === '::' ? `ns: is ${target} taken?` : `ns: who has ${target}?`;
        case 'na': return `na: I have ${target}`;
        case 'redirect': return `redirect: to ${destination} by ${target}`;
        case 'drop': return frame[20] === 58 && frame[54] in MESSAGES ? MESSAGES[frame[54]].name : 'a frame';
        default: return word === 'other' ? `other: ${otherName(frame)}` : line;
    }
}

// What the host says of a frame that it drops: one that is not for it is no fault of the frame.
function dropNote(text, frame) {
    const meaning = dropMeaning(text, frame);
    if (isNotForUs(text)) return { kind: 'note aside', text: 'not for this host', meaning: `${text}: ${meaning}` };
    return { kind: 'note drop', text, meaning };
}

// What the host says besides its frames.
function noteOf({ kind, text }, frame) {
    if (kind === DROP) return dropNote(text, frame);
    return { kind: `note ${text.split(' ')[0]}`, text: kind === UP ? 'up: for an upper layer' : text, meaning: text };
}

// The row of a frame, whose first text says what it is.
function frameRow(at, kind, frame) {
    const to = isGroup(frame) ? null : receiver(frame);
    return { at, kind, from: sender(frame), to, frame, texts: [{ kind: 'label', text: brief(frame), meaning: lineOf(frame, 'either') }] };
}

// The rows of a picture of events. What the host says of a frame is in the row of the frame. A frame that is not valid is red, a valid one that is
// not for this host grey.
function hearingRows(events) {
    const rows = [];
    for (const event of events.filter((it) => it.kind !== HEARD)) {
        const { at, kind, frame } = event, last = rows.at(-1), isOfLast = last?.kind && last.kind !== 'sent' && last.at === at;
        if (kind === 0 || kind === TX) {
            rows.push(frameRow(at, kind === TX ? 'sent' : 'given', frame));
            continue;
        }
        const note = noteOf(event, last?.frame);
        if (kind === DROP && isOfLast) last.kind = isNotForUs(event.text) ? 'aside' : 'dropped';
        if (isOfLast) last.texts.push(note);
        else rows.push({ at, texts: [note] });
    }
    return rows;
}

// The stations of a picture, by the letters of their lines.
function stationsText(stations) {
    const named = laneNames(stations).map((name, index) => (name.length > 1 ? `${stations.length - index} others` : `${name} ${stations[index]}`));
    return `Stations: ${named.join(', ')}. A is the host here.`;
}

// The events as text, as on the tab of a node.
function hearingLines(events) {
    let heard = null;
    return events.map((it) => {
        if (it.kind !== 0) return outputLine(`${it.at} ${it.text}`, heard);
        heard = it.frame;
        return commandLine(`${it.at} rx ${hexOf(heard)}`);
    });
}

const hearingOptions = () => ({ mac: macIn('capture-mac'), draws: find('capture-draws').value.trim() });

// The frames of the capture with their moments at the host that is chosen.
const framesHeard = () => timedFrames(capture, numberIn('capture-before'));

// Why there is nothing to hear.
function whyNone() {
    if (capture.length === 0) return 'No capture yet.';
    const fault = faultOf(capture);
    if (fault) return `This file can't be read: ${fault}.`;
    const isTimed = capture.some((it) => it.time !== undefined);
    return isTimed ? 'Each frame of this capture is cut: a host takes whole ones.' : 'This is a text, without times: a replay needs a capture.';
}

// What was passed and sent, in one sentence.
function hearingSum(timed, own, events) {
    const mine = timed.filter(({ frame }) => sender(frame) === own).length, passed = timed.filter(({ frame }) => passes(frame, own)).length;
    const left = [[mine, 'of its own'], [timed.length - mine - passed, 'for others'], [capture.length - timed.length, 'not whole or without a time']];
    const without = left.filter(([count]) => count > 0).map(([count, what]) => `${count} ${what}`).join(', ');
    const sent = events.filter((it) => it.kind === TX).length;
    const known = stations(timed), isOther = known.length === 1 && known[0] !== own;
    const strange = isOther ? ` All frames are of one node, ${known[0]}: the host here is another one.` : '';
    return `The host hears ${passed} of ${counted(capture.length, 'frame')}, and sends ${sent}.${without && ` Left out: ${without}.`}${strange}`;
}

// Draws events, or nothing if there are none.
function showPicture(events, own) {
    const box = find('capture-diagram'), label = 'the frames of the capture and of the host as arrows; the same is below as text';
    const stations = events.length > 0 ? stationDiagram({ box, own, rows: hearingRows(events), label }) : [];
    if (events.length === 0) box.replaceChildren();
    find('capture-stations').textContent = events.length > 0 ? stationsText(stations) : '';
    find('capture-does').hidden = events.length === 0;
}

async function showCapture() {
    const mine = ++hearings, module = await compiled(), options = hearingOptions();
    let events = [], said = '', fault = null;
    try {
        const timed = framesHeard(), node = await opened(module, { role: 'host', ...options });
        if (timed.length > 0) {
            events = replayed(node, options.mac, timed, timed.at(-1).at + AFTER);
            said = hearingSum(timed, options.mac, events);
        } else said = whyNone();
    } catch (it) {
        fault = it;
    }
    if (mine !== hearings) return;
    showFieldFault('capture', fault);
    const shown = events.slice(0, MOST_EVENTS), more = events.length > MOST_EVENTS ? ` The first ${MOST_EVENTS} events of ${events.length} are shown.` : '';
    find('capture-sum').textContent = said + more;
    find('capture-sum').classList.toggle('fault', capture.length > 0 && events.length === 0);
    showPicture(shown, options.mac);
    find('capture-link').replaceChildren(...summaryElements(capture));
    find('capture-lines').replaceChildren(...hearingLines(shown));
}

// Takes another capture: the host is one of those in it that hears something.
function hearPackets(packets, before = 1500) {
    capture = packets;
    const whole = capture.filter(isWhole), known = stations(whole);
    find('capture-mac').value = hostFor(whole, known);
    find('capture-before').value = before;
    find('stations').replaceChildren(...known.slice(0, 64).map((it) => Object.assign(made('option', ''), { value: it })));
    return showCapture();
}

// Takes what is in a link, or else the example.
async function takeCapture({ mac: own, draws = 'word:0', before = 1200, frames: linked }) {
    await hearPackets(packetsOfLink(linked ?? HEARD_EXAMPLE), before);
    find('capture-mac').value = own ?? PAIR_MAC;
    find('capture-draws').value = draws;
    return showCapture();
}

function captureState() {
    const frames = capture.map((it) => it.frame).filter((it) => typeof it !== 'string');
    return isForLink(frames) ? { ...hearingOptions(), before: find('capture-before').value, frames: linkOf(capture) } : null;
}

// Puts what the host hears into a script, on the tab of a node.
function hearingScript() {
    if (!find('capture-fault').hidden) return null;
    const options = hearingOptions(), heard = framesHeard().filter(({ frame }) => passes(frame, options.mac));
    const lines = heard.map(({ at, frame }) => `${at} rx ${hexOf(frame)}`), end = (heard.at(-1)?.at ?? 0) + AFTER;
    return showTab('node', { ...options, script: [...lines, `${end} show addresses`].join('\n') });
}

function startCapture() {
    for (const id of ['capture-mac', 'capture-draws', 'capture-before']) find(id).addEventListener('input', showCapture);
    find('capture-example').addEventListener('click', async () => {
        await takeCapture({});
        bring(find('capture-sum'));
        changed();
    });
    find('capture-script').addEventListener('click', () => hearingScript()?.then(changed));
}
