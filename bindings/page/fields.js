// The bytes of a frame next to its fields, for reading. Nothing here is proved: what a frame is, the line above the fields says.

const MESSAGES = {
    133: { name: 'Router Solicitation', fields: [['reserved', 4, ignored]] },
    134: {
        name: 'Router Advertisement',
        fields: [['hop limit for hosts', 1, number], ['flags', 1, advertisementFlags], ['router lifetime', 2, seconds],
            ['reachable time', 4, milliseconds], ['retrans timer', 4, milliseconds]],
    },
    135: { name: 'Neighbor Solicitation', fields: [['reserved', 4, ignored], ['target', 16, address]] },
    136: { name: 'Neighbor Advertisement', fields: [['flags', 4, neighborFlags], ['target', 16, address]] },
    137: { name: 'Redirect', fields: [['reserved', 4, ignored], ['target', 16, address], ['redirected destination', 16, address]] },
};

const OPTIONS = {
    1: ['Source Link-Layer Address', [['address', 6, mac]]],
    2: ['Target Link-Layer Address', [['address', 6, mac]]],
    3: ['Prefix Information', [['prefix length', 1, number], ['flags', 1, prefixFlags], ['valid lifetime', 4, seconds], ['preferred lifetime', 4, seconds],
        ['reserved', 4, ignored], ['prefix', 16, address]]],
    4: ['Redirected Header', [['reserved', 6, ignored], ['packet', Infinity, length]]],
    5: ['MTU', [['reserved', 2, ignored], ['MTU', 4, number]]],
    24: ['Route Information', [['prefix length', 1, number], ['preference', 1, routePreference], ['route lifetime', 4, seconds],
        ['prefix', Infinity, routePrefix]]],
    25: ['Recursive DNS Server', [['reserved', 2, ignored], ['lifetime', 4, seconds], ['server', 16, address, 'again']]],
    31: ['DNS Search List', [['reserved', 2, ignored], ['lifetime', 4, seconds], ['names', Infinity, names]]],
};

// What bytes stand for, as text.

function number(bytes) {
    return String(bytes.reduce((all, byte) => all * 256 + byte, 0));
}

function length(bytes) {
    return `${bytes.length} bytes`;
}

function ignored() {
    return 'ignored';
}

function seconds(bytes) {
    return bytes.length === 4 && bytes.every((byte) => byte === 255) ? 'without end' : `${number(bytes)} s`;
}

function milliseconds(bytes) {
    return bytes.every((byte) => byte === 0) ? 'not said' : `${number(bytes)} ms`;
}

function mac(bytes) {
    return [...bytes].map((byte) => byte.toString(16).padStart(2, '0')).join(':');
}

function address(bytes) {
    if (bytes.length < 16) return 'cut';
    const digits = [...bytes].map((byte) => byte.toString(16).padStart(2, '0')).join('');
    return new URL(`http://[${digits.match(/..../g).join(':')}]`).hostname.slice(1, -1);
}

function flags(bytes, names) {
    return names.filter(([mask]) => bytes[0] & mask).map(([, name]) => name).join(', ') || 'none set';
}

function advertisementFlags(bytes) {
    const preference = { 1: 'preference High', 3: 'preference Low' }[(bytes[0] >> 3) & 3] ?? 'preference Medium';
    return `${flags(bytes, [[0x80, 'managed (M)'], [0x40, 'other (O)']])}; ${preference}`;
}

function neighborFlags(bytes) {
    return flags(bytes, [[0x80, 'router (R)'], [0x40, 'solicited (S)'], [0x20, 'override (O)']]);
}

function prefixFlags(bytes) {
    return flags(bytes, [[0x80, 'on-link (L)'], [0x40, 'autonomous (A)']]);
}

// The preference of a route (RFC 4191, 2.1). One with the reserved value is ignored (2.3).
function routePreference(bytes) {
    return ['Medium', 'High', 'reserved: the route is ignored', 'Low'][(bytes[0] >> 3) & 3];
}

// A prefix of 0, 8 or 16 bytes.
function routePrefix(bytes) {
    const whole = new Uint8Array(16);
    whole.set(bytes.subarray(0, 16));
    return address(whole);
}

function names(bytes) {
    return new TextDecoder('latin1').decode(bytes).replace(/[^\w-]+/g, ' ').trim();
}

// The ICMPv6 checksum that the sum over a packet asks for (RFC 4443, section 2.3).
function checksum(packet, message) {
    const pseudo = new Uint8Array(8 + message.length + (message.length & 1));
    new DataView(pseudo.buffer).setUint32(0, message.length);
    pseudo[7] = 58;
    pseudo.set(message, 8);
    pseudo[10] = pseudo[11] = 0;
    let sum = 0;
    for (const bytes of [packet.subarray(8, 40), pseudo]) for (let at = 0; at < bytes.length; at += 2) sum += bytes[at] * 256 + bytes[at + 1];
    while (sum > 0xffff) sum = (sum & 0xffff) + (sum >>> 16);
    return ~sum & 0xffff;
}

// Where in a frame the parts of a list begin: a heading, or a field with its place, its bytes, its name and its value.
class Fields {
    constructor(frame) {
        Object.assign(this, { frame, at: 0, end: frame.length, rows: [] });
    }
    heading(text) {
        if (this.at < this.end) this.rows.push({ heading: text });
    }
    take(name, count, value) {
        const bytes = this.frame.subarray(this.at, Math.min(this.at + count, this.end));
        if (bytes.length === 0) return bytes;
        this.rows.push({ at: this.at, bytes, name, value: bytes.length < count && count !== Infinity ? `cut: ${count} bytes are needed` : value(bytes) });
        this.at += bytes.length;
        return bytes;
    }
}

// Returns headings and fields of a frame.
function fieldsOf(frame) {
    const fields = new Fields(frame);
    fields.heading('Ethernet');
    fields.take('Ethernet destination', 6, mac);
    fields.take('Ethernet source', 6, mac);
    const type = fields.take('type', 2, (it) => (number(it) === '34525' ? 'IPv6' : number(it) === '2048' ? 'IPv4' : 'not IPv6'));
    if (number(type) !== '34525') {
        fields.take('the rest', Infinity, length);
        return fields.rows;
    }
    packetFields(fields);
    fields.end = frame.length;
    fields.heading('Behind the packet');
    fields.take('padding', Infinity, ignored);
    return fields.rows;
}

function packetFields(fields) {
    const packet = fields.frame.subarray(14);
    fields.heading('IPv6');
    fields.take('version, traffic class, flow label', 4, (it) => `version ${it[0] >> 4}`);
    const announced = Number(number(fields.take('payload length', 2, (it) => `${number(it)} bytes`)));
    const known = { 58: '58, ICMPv6', 17: '17, UDP', 6: '6, TCP', 0: '0, hop-by-hop options' };
    const next = fields.take('next header', 1, (it) => known[it[0]] ?? String(it[0]))[0];
    fields.take('hop limit', 1, number);
    fields.take('source', 16, address);
    fields.take('destination', 16, address);
    if (fields.at < 54) return;
    fields.end = Math.min(fields.frame.length, 54 + announced);
    const message = packet.subarray(40, 40 + announced), kind = next === 58 ? MESSAGES[message[0]] : undefined;
    if (!kind) {
        fields.heading(next === 58 ? 'ICMPv6, no message of Neighbor Discovery' : 'Payload');
        fields.take('payload', Infinity, length);
        return;
    }
    messageFields(fields, kind, packet, message);
}

function messageFields(fields, kind, packet, message) {
    fields.heading(`ICMPv6: ${kind.name}`);
    fields.take('message type', 1, (it) => `${it[0]}, ${kind.name}`);
    fields.take('code', 1, number);
    fields.take('checksum', 2, (it) => {
        const wanted = checksum(packet, message), is = it[0] * 256 + it[1];
        return is === wanted || (wanted === 0 && is === 0xffff) ? 'good' : `the bytes ask for ${wanted.toString(16).padStart(4, '0')}`;
    });
    for (const [name, count, value] of kind.fields) fields.take(name, count, value);
    while (fields.at < fields.end) optionFields(fields);
}

function optionFields(fields) {
    const [type, units] = fields.frame.subarray(fields.at, fields.end), [name, parts] = OPTIONS[type] ?? [`Option ${type}`, []];
    const packetEnd = fields.end;
    fields.heading(`Option: ${name}`);
    fields.take('option type', 1, (it) => `${it[0]}${OPTIONS[type] ? `, ${name}` : ''}`);
    fields.take('option length', 1, (it) => (it[0] === 0 ? '0: no option has this length' : `${it[0]} × 8 bytes`));
    if (!units) {
        fields.take('the rest', Infinity, length);
        return;
    }
    const end = fields.at - 2 + 8 * units;
    if (end > packetEnd) {
        fields.take('the rest', Infinity, () => `${packetEnd - fields.at + 2} bytes are left of ${8 * units}`);
        return;
    }
    fields.end = end;
    for (const [part, count, value, again] of parts) do fields.take(part, count, value); while (again && fields.at < end);
    fields.take('data', Infinity, length);
    fields.end = packetEnd;
}
