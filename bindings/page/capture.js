// Frames out of text and out of files of captures. Nothing here is proved.

// Returns the frames of a text. Each is its bytes, or a text that says why they can't be read. A line is a frame in hexadecimal digits; colons, hyphens
// and spaces between them don't matter. Lines that begin with an offset, as tcpdump -xx and Wireshark print them, belong to one frame.
function framesOfText(text) {
    const frames = [];
    for (const line of text.split('\n').map((it) => it.trim()).filter((it) => it !== '')) {
        const dumped = /^(?:0x)?([0-9a-f]{4,8})(?::\s+|\s{2,})((?:[0-9a-f]{2,4} ?)+)/i.exec(line);
        const heading = !dumped && /^\d\d:\d\d:\d\d\.\d+ /.test(line);
        if (heading) continue;
        if (dumped && parseInt(dumped[1], 16) > 0 && frames.length > 0) frames.push(frames.pop() + dumped[2]);
        else frames.push(dumped ? dumped[2] : line);
    }
    return frames.map(frameOfDigits);
}

function frameOfDigits(text) {
    const digits = text.replace(/^0x/i, '').replace(/[\s:.-]/g, '');
    if (/[^0-9a-f]/i.test(digits)) return `“${text.slice(0, 40)}” is not hexadecimal`;
    if (digits.length % 2 === 1) return `${digits.length} hexadecimal digits: a byte is two`;
    return Uint8Array.from(digits.match(/../g) ?? [], (byte) => parseInt(byte, 16));
}

// Returns the packets of a file: a capture of tcpdump or Wireshark, or a text. A packet has its frame, as framesOfText has one, the `length` that it had on
// the link, and its `time` in nanoseconds since 1970; those of a text have neither.
function packetsOfFile(buffer) {
    const magic = buffer.byteLength >= 24 ? new DataView(buffer).getUint32(0) : 0;
    if (magic === 0x0a0d0d0a) return packetsOfBlocks(buffer);
    if ([0xa1b2c3d4, 0xa1b23c4d].includes(magic)) return packetsOfPcap(buffer, false);
    if ([0xd4c3b2a1, 0x4d3cb2a1].includes(magic)) return packetsOfPcap(buffer, true);
    return packetsOfText(new TextDecoder().decode(buffer));
}

// Returns the packets of a text in a file, or one that says what is wrong if most of its lines aren't frames.
function packetsOfText(text) {
    const frames = framesOfText(text), read = frames.filter((it) => typeof it !== 'string' && it.length > 0);
    if (2 * read.length < frames.length || frames.length === 0) return [{ frame: 'neither a capture nor frames in hexadecimal' }];
    return frames.map((frame) => ({ frame }));
}

// Returns why no packet of a file can be read, or null if one can.
const faultOf = (packets) => (packets.some(({ frame }) => typeof frame !== 'string') ? null : packets[0]?.frame ?? 'the file has no frames');

// Returns true if the bytes from a place to their end are one IPv6 packet.
const isPacket = (bytes, at) => bytes.length >= at + 40 && bytes[at] >> 4 === 6 && at + 40 + bytes[at + 4] * 256 + bytes[at + 5] === bytes.length;

// Returns true if lines that were read as frames are the lines of one frame.
function areOneFrame(frames) {
    const length = frames.reduce((sum, it) => sum + it.length, 0);
    if (frames.length < 2 || length > LONGEST || frames.some((it) => typeof it === 'string')) return false;
    return isPacket(Uint8Array.from(frames.flatMap((it) => [...it])), 14);
}

const ETHERNET = 1;
const SECOND = 10n ** 9n;
const otherLink = (type) => `a frame of link type ${type}: only Ethernet (type 1) is read`;

// A frame of a capture: its bytes, unless its link isn't Ethernet, or what it is in, the file or a block, ends before it does.
function captured(buffer, at, length, end, link) {
    if (link !== ETHERNET) return otherLink(link);
    if (at + length > end) return `the ${end < buffer.byteLength ? 'block' : 'file'} ends within this frame`;
    return new Uint8Array(buffer.slice(at, at + length));
}

// A file of pcap: a header of 24 bytes, and each frame behind a header of 16. Its times are in microseconds or, by its first bytes, in nanoseconds.
function packetsOfPcap(buffer, little) {
    const view = new DataView(buffer), link = view.getUint32(20, little) & 0xffff, packets = [];
    const part = view.getUint32(0, little) === 0xa1b23c4d ? 1n : 1000n;
    for (let at = 24; at + 16 <= buffer.byteLength; ) {
        const [seconds, parts, kept, length] = [0, 4, 8, 12].map((field) => view.getUint32(at + field, little));
        packets.push({ frame: captured(buffer, at + 16, kept, buffer.byteLength, link), length, time: BigInt(seconds) * SECOND + BigInt(parts) * part });
        at += 16 + kept;
    }
    return packets;
}

// A file of pcapng: blocks, each with its type and its length at its beginning.
function packetsOfBlocks(buffer) {
    const view = new DataView(buffer), packets = [];
    let interfaces = [], little = true;
    for (let at = 0; at + 12 <= buffer.byteLength; ) {
        const type = view.getUint32(at, little);
        if (type === 0x0a0d0d0a) {
            little = view.getUint32(at + 8, true) === 0x1a2b3c4d;
            interfaces = [];
        }
        const length = view.getUint32(at + 4, little);
        if (length < 12 || at + length > buffer.byteLength) break;
        if (type === 1 && length >= 20) interfaces.push(interfaceOf(view, at, at + length - 4, little));
        const packet = packetOfBlock(view, at, length, little, interfaces, packets.at(-1)?.time ?? 0n);
        if (packet) packets.push(packet);
        at += length;
    }
    return packets;
}

// The interface of a block: its link type, the units of a second of its times (option 9), and the seconds to add to them (option 14).
function interfaceOf(view, block, end, little) {
    const found = { link: view.getUint16(block + 8, little), units: 10n ** 6n, offset: 0n };
    for (let at = block + 16; at + 4 < end; ) {
        const code = view.getUint16(at, little), length = view.getUint16(at + 2, little), resolution = view.getUint8(at + 4);
        if (code === 0 || at + 4 + length > end) break;
        if (code === 9 && length === 1) found.units = (resolution & 128 ? 2n : 10n) ** BigInt(resolution & 127);
        if (code === 14 && length === 8) found.offset = view.getBigInt64(at + 4, little);
        at += 4 + Math.ceil(length / 4) * 4;
    }
    return found;
}

// The packet of a block, if it has one. One without a time has that of the packet before it, `last`.
function packetOfBlock(view, block, size, little, interfaces, last) {
    const word = (at) => view.getUint32(block + at, little), end = block + size - 4;
    if (word(0) === 3 && size >= 16) {
        return { frame: captured(view.buffer, block + 12, Math.min(word(8), size - 16), end, interfaces[0]?.link), length: word(8), time: last };
    }
    if (word(0) !== 6 || size < 32) return null;
    const { link, units = 1n, offset = 0n } = interfaces[word(8)] ?? {}, ticks = (BigInt(word(12)) << 32n) | BigInt(word(16));
    return { frame: captured(view.buffer, block + 28, word(20), end, link), length: word(24), time: (ticks * SECOND) / units + offset * SECOND };
}
