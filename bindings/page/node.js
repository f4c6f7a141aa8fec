// A node: the functions of include/nd.h, over a module of WebAssembly of crates/nd_c that has a memory of its own.

const NODE_MODULE = '@NODE@';
const SIZES = { u8: 1, u16: 2, u32: 4, u64: 8, mac: 6, address: 16, name: 256 };
// The structures of nd.h: each field with its type, in order. Reserved fields that are behind the others are left out.
const STRUCTURES = {
    options: 'role:u32 mac:mac transmits:u8 draws:u8 policies:u32 start:u64 seed:u64 neighbours:u16 routers:u16 prefixes:u16 addresses:u16 '
        + 'servers:u16 names:u16 redirects:u16 destinations:u16 offers:u16 routes:u16 waiting:u16',
    out: 'moment:u64 length:u64 kind:u32 code:u32 limit:u32 changes:u32 address:address',
    neighbour: 'reachable_left:u64 address:address mac:mac has_mac:u8 is_router:u8 state:u32',
    router: 'left:u64 address:address preference:u32',
    prefix: 'left:u64 prefix:address bits:u32',
    address: 'preferred_left:u64 valid_left:u64 address:address state:u32 by_hand:u8',
    path: 'until:u64 version:u64 next_hop:address mac:mac has_mac:u8 reserved:u8 hop:u32 state:u32',
    own: 'address:address valid_lifetime:u32 preferred_lifetime:u32',
    server: 'left:u64 address:address',
    name: 'left:u64 length:u32 reserved:u32 text:name',
    redirect: 'destination:address target:address',
    parameters: 'reachable_time:u64 base_reachable_time:u32 retrans_timer:u32 mtu:u32 hop_limit:u8 managed:u8 other:u8',
    advertising: 'min_interval:u32 max_interval:u32 lifetime:u32 reachable_time:u32 retrans_timer:u32 mtu:u32 hop_limit:u8 managed:u8 other:u8 '
        + 'preference:u8 reserved:u32',
    offer: 'prefix:address bits:u32 valid_lifetime:u32 preferred_lifetime:u32 on_link:u8 autonomous:u8',
    route: 'prefix:address router:address bits:u32 hop:u32',
};
const LAYOUTS = Object.fromEntries(Object.entries(STRUCTURES).map(([name, words]) => [name, layoutOf(words)]));
const DONE = 0, NOTHING = 1, WAITING = 2, NO_MEMORY = -1, INVALID = -3, PAST = -4;
const OPTIONS_BYTES = 64, LONGEST_BYTES = 131072;

// Returns the fields of a structure with their places, as C lays them out.
function layoutOf(words) {
    let at = 0;
    return words.split(' ').map((word) => {
        const [field, type] = word.split(':'), aligned = { u16: 2, u32: 4, u64: 8 }[type] ?? 1;
        at = Math.ceil(at / aligned) * aligned;
        const place = { field, type, at };
        at += SIZES[type];
        return place;
    });
}

class NdNode {
    // `exports` are those of an instance of its own; `options` has the fields of nd_options and of its limits that are not 0, mac being six bytes.
    constructor(exports, options) {
        this.nd = exports;
        this.bytes = new Uint8Array(this.nd.memory.buffer);
        this.view = new DataView(this.nd.memory.buffer);
        // The places in the module's memory: the node, a structure, bytes, and then the pool to the end.
        this.slot = (Number(this.nd.nd_free_memory()) + 15) & ~15;
        this.at = this.slot + 16;
        this.data = this.at + 512;
        const pool = this.data + LONGEST_BYTES;
        this.nd.nd_give_pool(BigInt(pool), BigInt(this.bytes.length - pool));
        this.write('options', options);
        if (this.call('nd_open', this.at, OPTIONS_BYTES) !== DONE) throw new Error('these options open no node');
    }
    // Calls a function for this node. Numbers are passed as 64-bit ones, those of `narrow` as they are.
    call(name, ...words) {
        return this.nd[name](BigInt(this.slot), ...words.map((word) => (word instanceof Narrow ? word.value : BigInt(word))));
    }
    write(name, fields) {
        this.bytes.fill(0, this.at, this.at + 512);
        for (const { field, type, at } of LAYOUTS[name]) if (field in fields) this.put(this.at + at, type, fields[field]);
    }
    put(at, type, value) {
        if (type === 'u8') this.bytes[at] = value;
        else if (type === 'u16') this.view.setUint16(at, Number(value), true);
        else if (type === 'u32') this.view.setUint32(at, Number(value), true);
        else if (type === 'u64') this.view.setBigUint64(at, BigInt(value), true);
        else this.bytes.set(value, at);
    }
    read(name) {
        return Object.fromEntries(LAYOUTS[name].map(({ field, type, at }) => [field, this.get(this.at + at, type)]));
    }
    get(at, type) {
        if (type === 'u8') return this.bytes[at];
        if (type === 'u16') return this.view.getUint16(at, true);
        if (type === 'u32') return this.view.getUint32(at, true);
        if (type === 'u64') return this.view.getBigUint64(at, true);
        return this.bytes.slice(at, at + SIZES[type]);
    }
    // Puts bytes where a call reads them. A few that are short may be put at other places of the same room.
    place(bytes, offset = 0) {
        if (offset + bytes.length > LONGEST_BYTES) throw new Error(`${bytes.length} bytes are too many for this page`);
        this.bytes.set(bytes, this.data + offset);
        return this.data + offset;
    }
    lastMoment() {
        return this.call('nd_last_moment');
    }
    nextDue() {
        return this.call('nd_next_due');
    }
    receive(now, frame) {
        return this.call('nd_receive', now, this.place(frame), frame.length);
    }
    // Takes all records: their fields, and the bytes of those that have some.
    records() {
        const records = [];
        while (this.call('nd_poll', this.at, this.data, LONGEST_BYTES) === DONE) {
            const record = this.read('out');
            records.push({ ...record, bytes: this.bytes.slice(this.data, this.data + Number(record.length)) });
        }
        return records;
    }
    // Returns the rows of a table at a moment.
    rows(call, name, now) {
        const rows = [];
        while (this.call(call, now, rows.length, this.at) === DONE) rows.push(this.read(name));
        return rows;
    }
    // Returns the one row of a question, or null.
    row(call, name, now) {
        return this.call(call, now, this.at) === DONE ? this.read(name) : null;
    }
}

// A number of 32 bits or fewer in a call.
class Narrow {
    constructor(value) {
        this.value = value;
    }
}

let nodeModule = null;

// Returns the module of a node as a WebAssembly.Module.
async function compiled() {
    nodeModule ??= WebAssembly.compile(await unpacked(NODE_MODULE));
    return nodeModule;
}
