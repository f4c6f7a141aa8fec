// A script of `ndpctl run`: its lines, done at a node, and the texts of what the node reports and of its tables (docs/FORMATS.md). The node is proved; its
// records are put into words here.

const KINDS = ['', 'tx', 'heard', 'drop', 'up', 'duplicate', 'assigned', 'ended address', 'ended router', 'failed', 'lost', 'refused', '', 'resolved',
    'ignored'];
const [TX, HEARD, DROP, UP, LOST, REFUSAL, RESOLVED, IGNORED] = [1, 2, 3, 4, 10, 11, 13, 14];
const MESSAGE_NAMES = ['rs', 'ra', 'ns', 'na', 'redirect'];
const LOSSES = ['', 'unreachable', 'replaced', 'forgotten', 'no-route', 'hop-limit'];
const REFUSALS = ['', 'wrong-role', 'disabled', 'not-ours', 'too-long', 'full', '', '', 'tentative'];
const LIMITS = ['', 'neighbours', 'routers', 'prefixes', 'addresses', 'servers', 'names', 'offers', 'routes'];
const REACHABILITIES = ['', 'incomplete', 'reachable', 'stale', 'delay', 'probe'];
const STATES = ['', 'tentative', 'preferred', 'deprecated', 'duplicate'];
const PREFERENCES = ['medium', 'high', 'low'];
const CLEARABLES = ['', 'neighbours', 'routers', 'prefixes', 'redirects', 'dns'];
const REASONS = @REASONS@;
const POLICIES = {
    parts: 1, speakers: 2, timers: 4, self: 8, unicast: 16, unformed: 32, asked: 512, lifetimes: 2048, unredirected: 4096, strict: 8192,
};
const FOREVER = 2n ** 64n - 1n, MOMENT_LIMIT = 2n ** 62n;
// Milliseconds: 557 years, for which an idle node takes less than a second.
const LONGEST_RUN = 2n ** 44n;

// What a line of the script may be, by its word, and what its numbers may be beyond that (docs/FORMATS.md, docs/LIMITS.md).
const USAGES = {
    at: '<ms> at', rx: '<ms> rx <hex>', send: '<ms> send <source> <destination> <next header> <hex>', resolve: '<ms> resolve <address>',
    confirm: '<ms> confirm <address>', forget: '<ms> forget <address>', clear: '<ms> clear <table>',
    address: '<ms> address <address> <valid> <preferred>: a unicast address but :: and ::1, a valid lifetime above 0, a preferred one not above it',
    withdraw: '<ms> withdraw <address>',
    advertise: '<ms> advertise <min> <max> <lifetime> <hop limit> <flags> <reachable> <retrans> <mtu>: max from 4 to 1800, min from 3 to three quarters of '
        + 'max, lifetime 0 (then without h or l) or from max to 9000, reachable at most 3600000, mtu 0 or from 1280 to 1500',
    prefix: '<ms> prefix <prefix> <valid> <preferred> <flags>: no link-local or multicast prefix, and the preferred lifetime not above the valid one',
    route: '<ms> route <prefix> <address>: or direct in place of the address', stop: '<ms> stop', show: '<ms> show <table>',
};

// What is wrong with a line or an option: the word that is found, and what is expected in its place. A line that is malformed gets its number and its text.
class Malformed extends Error {
    constructor(found, expected) {
        super(`found ${found}. Expected: ${expected}`);
    }
}

// An error of an option, which gets the option's name.
const ofOption = (option, fault) => Object.assign(fault, { option });

const quoted = (word) => (word === '' ? 'an empty word' : `“${word}”`);

// ---- words of a line

class Words {
    constructor(line) {
        this.words = line.split(' ');
    }
    next(expected) {
        if (this.words.length === 0) throw new Malformed('the end of the line', expected);
        return this.words.shift();
    }
    // Reads a number below a limit, or takes another one for `-`.
    number(limit = 2n ** 32n, other = null) {
        const expected = `a number from 0 to ${limit - 1n}, without leading zeros${other === null ? '' : ', or -'}`, word = this.next(expected);
        if (word === '-' && other !== null) return BigInt(other);
        if (!/^(0|[1-9][0-9]*)$/.test(word) || BigInt(word) >= limit) throw new Malformed(quoted(word), expected);
        return BigInt(word);
    }
    address() {
        return addressOf(this.next(ADDRESS_EXPECTED));
    }
    prefix() {
        const expected = 'a prefix, such as 2001:db8::/64', word = this.next(expected), [address, bits, more] = word.split('/');
        if (more !== undefined || !/^(0|[1-9][0-9]{0,2})$/.test(bits ?? '') || Number(bits) > 128) throw new Malformed(quoted(word), expected);
        return { prefix: addressOf(address), bits: Number(bits) };
    }
    hex() {
        const expected = 'an even number of hexadecimal digits, or - for no byte', word = this.next(expected);
        if (word !== '-' && !/^([0-9a-f]{2})+$/i.test(word)) throw new Malformed(quoted(word), expected);
        return Uint8Array.from(word === '-' ? [] : word.match(/../g), (byte) => parseInt(byte, 16));
    }
    // Reads flags: `-`, or letters in their order.
    flags(letters) {
        const expected = `flags: -, or some of the letters ${[...letters].join(' ')} in this order`, word = this.next(expected);
        const allowed = new RegExp(`^(-|${[...letters].map((it) => `${it}?`).join('')})$`);
        if (word === '' || !allowed.test(word)) throw new Malformed(quoted(word), expected);
        return word;
    }
    end() {
        if (this.words.length > 0) throw new Malformed(quoted(this.words[0]), 'the end of the line');
    }
    // Reads one of several words.
    oneOf(choices, what) {
        const expected = `${what}: ${choices.join(', ')}`, word = this.next(expected);
        if (!choices.includes(word)) throw new Malformed(quoted(word), expected);
        return word;
    }
}

const ADDRESS_EXPECTED = 'an IPv6 address, such as fe80::1';

function addressOf(text) {
    const [before, after, more] = text.split('::').map((half) => (half === '' ? [] : half.split(':')));
    const groups = [...before, ...(after ?? [])], zeros = 8 - groups.length;
    if (more || groups.some((it) => !/^[0-9a-f]{1,4}$/i.test(it)) || (after ? zeros < 1 : zeros !== 0)) {
        throw new Malformed(quoted(text), ADDRESS_EXPECTED);
    }
    const all = [...before, ...Array(after ? zeros : 0).fill('0'), ...(after ?? [])];
    return Uint8Array.from(all.flatMap((it) => [parseInt(it, 16) >> 8, parseInt(it, 16) & 255]));
}

function macOf(text) {
    if (!/^([0-9a-f]{2}:){5}[0-9a-f]{2}$/i.test(text)) {
        throw ofOption('mac', new Malformed(quoted(text), 'six pairs of hexadecimal digits, such as 34:56:78:9a:bc:de'));
    }
    return Uint8Array.from(text.split(':'), (byte) => parseInt(byte, 16));
}

// ---- texts

const hexOf = (bytes) => [...bytes].map((byte) => byte.toString(16).padStart(2, '0')).join('');
const leftOf = (left) => (left === FOREVER ? 'inf' : String(left));

// The text of an address by RFC 5952.
function addressText(bytes) {
    const groups = Array.from({ length: 8 }, (_, i) => bytes[2 * i] * 256 + bytes[2 * i + 1]);
    let at = 8, length = 1;
    for (let i = 0; i < 8; i++) {
        let zeros = 0;
        while (i + zeros < 8 && groups[i + zeros] === 0) zeros++;
        if (zeros > length) [at, length] = [i, zeros];
    }
    const text = (from, to) => groups.slice(from, to).map((it) => it.toString(16)).join(':');
    return at === 8 ? text(0, 8) : `${text(0, at)}::${text(at + length, 8)}`;
}

// The text of a record, without its moment.
function recordText(record) {
    const word = KINDS[record.kind];
    switch (record.kind) {
        case TX: case UP: return `${word} ${hexOf(record.bytes)}`;
        case HEARD: return `${word} ${MESSAGE_NAMES[record.code - 133]}`;
        case DROP: return `${word} ${record.code} ${REASONS[record.code]}`;
        case LOST: return `${word} ${LOSSES[record.code]} ${addressText(record.bytes.subarray(8, 24))} ${addressText(record.bytes.subarray(24, 40))}`;
        case REFUSAL: return refusalText(record);
        case RESOLVED: return `${word} ${addressText(record.address)} ${mac(record.bytes)}`;
        case IGNORED: return `${word} ${LIMITS[record.limit]}`;
        default: return `${word} ${addressText(record.address)}`;
    }
}

function refusalText(record) {
    const why = REFUSALS[record.code];
    return `refused ${why}${why === 'not-ours' ? ` ${addressText(record.address)}` : ''}${why === 'full' ? ` ${LIMITS[record.limit]}` : ''}`;
}

// The text of a path, which no record has.
function pathText(node, destination, status, path) {
    const code = node.nd.nd_refusal_of(status);
    if (code) return refusalText({ code, limit: node.nd.nd_limit_of(status) });
    if (status === NOTHING) return `path ${addressText(destination)} no-route`;
    return `path ${addressText(destination)} ${addressText(path.next_hop)} ${path.has_mac ? mac(path.mac) : '-'}`;
}

// ---- tables

const TABLES = {
    neighbours: (node, now) => node.rows('nd_neighbour_at', 'neighbour', now).map((it) =>
        `neighbour ${addressText(it.address)} ${it.has_mac ? mac(it.mac) : '-'} ${REACHABILITIES[it.state]} ${it.is_router ? 'router' : 'host'}`),
    routers: (node, now) => node.rows('nd_router_at', 'router', now).map((it) =>
        `router ${addressText(it.address)} ${leftOf(it.left)} ${PREFERENCES[it.preference]}`),
    prefixes: (node, now) => node.rows('nd_prefix_at', 'prefix', now).map((it) => `prefix ${addressText(it.prefix)}/${it.bits} ${leftOf(it.left)}`),
    addresses: (node, now) => node.rows('nd_address_at', 'address', now).map((it) =>
        `address ${addressText(it.address)} ${STATES[it.state]} ${leftOf(it.preferred_left)} ${leftOf(it.valid_left)}`),
    dns: (node, now) => [...node.rows('nd_server_at', 'server', now).map((it) => `server ${addressText(it.address)} ${leftOf(it.left)}`),
        ...node.rows('nd_name_at', 'name', now).map((it) => `search ${new TextDecoder().decode(it.text.subarray(0, it.length))} ${leftOf(it.left)}`)],
    redirects: (node, now) => node.rows('nd_redirect_at', 'redirect', now).map((it) =>
        `redirect ${addressText(it.destination)} ${addressText(it.target)}`),
    params: (node, now) => [node.row('nd_parameters_of', 'parameters', now)].map((it) =>
        `params hop ${it.hop_limit} mtu ${it.mtu} reachable ${it.base_reachable_time} ${it.reachable_time} retrans ${it.retrans_timer} `
        + `managed ${it.managed} other ${it.other}`),
    advertise: (node, now) => (node.role === 'host' ? [] : [`advertise ${node.row('nd_advertising_of', 'advertising', now) ? 'on' : 'off'}`,
        ...node.rows('nd_offer_at', 'offer', now).map(offerText)]),
    routes: (node, now) => node.rows('nd_route_at', 'route', now).map((it) =>
        `route ${addressText(it.prefix)}/${it.bits} ${it.hop === 1 ? 'direct' : addressText(it.router)}`),
};

function offerText(offer) {
    const flags = `${offer.on_link ? 'l' : ''}${offer.autonomous ? 'a' : ''}`;
    return `offer ${addressText(offer.prefix)}/${offer.bits} ${offer.valid_lifetime} ${offer.preferred_lifetime} ${flags || '-'}`;
}

// ---- events

const hasLetter = (flags, letter) => (flags.includes(letter) ? 1 : 0);

const ofAddress = (call) => (node, now, words) => {
    const address = words.address();
    words.end();
    return node.call(call, now, node.place(address));
};

const EVENTS = {
    at: (node, now, words) => (words.end(), node.call('nd_pass', now)),
    rx: (node, now, words) => {
        const frame = words.hex();
        words.end();
        return node.receive(now, frame);
    },
    send: (node, now, words) => {
        const source = words.address(), destination = words.address(), next = new Narrow(Number(words.number(256n))), payload = words.hex();
        words.end();
        return node.call('nd_send', now, node.place(source), node.place(destination, 16), next, node.place(payload, 32), payload.length);
    },
    resolve: (node, now, words) => {
        const destination = words.address();
        words.end();
        const status = node.call('nd_resolve', now, node.place(destination), node.at);
        node.answered = pathText(node, destination, status, node.read('path'));
        return status;
    },
    confirm: ofAddress('nd_confirm'),
    forget: ofAddress('nd_forget'),
    clear: (node, now, words) => {
        const table = words.oneOf(CLEARABLES.slice(1), 'a table that can be cleared');
        words.end();
        return node.call('nd_clear', now, new Narrow(CLEARABLES.indexOf(table)));
    },
    address: (node, now, words) => {
        const address = words.address();
        const [valid_lifetime, preferred_lifetime] = [words.number(undefined, 4294967295), words.number(undefined, 4294967295)];
        words.end();
        node.write('own', { address, valid_lifetime, preferred_lifetime });
        return node.call('nd_add_address', now, node.at);
    },
    withdraw: ofAddress('nd_remove_address'),
    advertise: (node, now, words) => {
        const min_interval = words.number(2n ** 16n), max_interval = words.number(2n ** 16n, 600);
        const lifetime = words.number(2n ** 16n, 3n * max_interval);
        const hop_limit = Number(words.number(256n)), flags = words.flags('mohl');
        const [reachable_time, retrans_timer, mtu] = [words.number(), words.number(), words.number()];
        words.end();
        const preference = hasLetter(flags, 'h') + 2 * hasLetter(flags, 'l');
        node.write('advertising', { min_interval, max_interval, lifetime, hop_limit, managed: hasLetter(flags, 'm'), other: hasLetter(flags, 'o'), preference,
            reachable_time, retrans_timer, mtu });
        return node.call('nd_advertise', now, node.at);
    },
    prefix: (node, now, words) => {
        const prefix = words.prefix(), valid_lifetime = words.number(undefined, 2592000), preferred_lifetime = words.number(undefined, 604800);
        const flags = words.flags('la');
        words.end();
        node.write('offer', { ...prefix, valid_lifetime, preferred_lifetime, on_link: hasLetter(flags, 'l'), autonomous: hasLetter(flags, 'a') });
        return node.call('nd_advertise_prefix', now, node.at);
    },
    route: (node, now, words) => {
        const prefix = words.prefix(), hop = words.next(`${ADDRESS_EXPECTED}, or direct`);
        words.end();
        node.write('route', { ...prefix, ...(hop === 'direct' ? { hop: 1 } : { hop: 2, router: addressOf(hop) }) });
        return node.call('nd_add_route', now, node.at);
    },
    stop: (node, now, words) => (words.end(), node.call('nd_stop_advertising', now)),
};

// ---- a run

// Opens a node with the words of the command line of `ndpctl run`, the limits among them by their names, and the moment of its start.
async function opened(module, { role, mac: address, draws = 'seed:0', transmits = 1, policy = '', start = 0, ...limits }) {
    const [, source, seed] = /^(seed|word):(0|[1-9]\d*)$/.exec(draws) ?? [];
    if (!source || BigInt(seed) >= 2n ** (source === 'seed' ? 64n : 32n)) {
        throw ofOption('draws', new Malformed(quoted(draws), 'seed: and a number below 2^64, or word: and one below 2^32, such as word:0'));
    }
    const { exports } = await WebAssembly.instantiate(module, {});
    const draw = { draws: source === 'word' ? 1 : 0, seed };
    const policies = policy.split(',').reduce((bits, word) => bits | (POLICIES[word] ?? 0), 0);
    const node = new NdNode(exports, { role: role === 'router' ? 1 : 0, mac: macOf(address), transmits, policies, start, ...limits, ...draw });
    node.role = role;
    return node;
}

// Does a line at a node. Returns its moment, the records, and the lines of its output.
function answer(node, line) {
    const words = new Words(line), now = words.number(MOMENT_LIMIT), verb = words.oneOf(Object.keys(USAGES), 'a command'), last = node.lastMoment();
    if (now > LONGEST_RUN) throw new Malformed(quoted(String(now)), `a moment up to ${LONGEST_RUN}, 557 years, on this page`);
    const table = verb === 'show' ? words.oneOf(Object.keys(TABLES), 'a table') : null;
    const status = (EVENTS[verb] ?? EVENTS.at)(node, now, words);
    if (status === NO_MEMORY) throw new Error('the memory of the module is full');
    if (status === INVALID) throw new Malformed('a value outside its range', USAGES[verb]);
    const records = node.records(), lines = records.map((it) => `${it.moment} ${recordText(it)}`);
    if (status === PAST) lines.push(`${now} refused past ${last}`);
    if (verb === 'resolve' && status !== PAST) lines.push(`${now} ${node.answered}`);
    if (table && status !== PAST) {
        const rows = TABLES[table](node, now);
        lines.push(...rows.map((it) => `${now} ${it}`), `${now} end ${rows.length}`);
    }
    return { now, records, lines };
}

// Does the lines of a script at a node, one after the other: yields each with its number and what `answer` returns. Empty lines are passed over. The error of
// a line has its number and its text.
function* answers(node, script) {
    for (const [index, text] of script.split('\n').entries()) {
        const line = text.trim(), number = index + 1;
        try {
            if (line !== '') yield { number, line, ...answer(node, line) };
        } catch (fault) {
            throw Object.assign(fault, { number, line });
        }
    }
}
