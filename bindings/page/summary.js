// What the frames of a link say of it: its routers, prefixes, DNS servers, addresses and duplicates, off the lines of `ndpctl check`. Nothing here is
// proved.

// Milliseconds for which a node waits for an objection to an address (RFC 4861, 10, RETRANS_TIMER; RFC 4862, 5.4).
const OBJECTION = 1000;
// How many words are behind the word of an option, up to those that are counted (docs/FORMATS.md).
const OPTION_WORDS = { slla: 1, tlla: 1, prefix: 4, redirected: 1, mtu: 1, rdnss: 2, dnssl: 2, opt: 2 };
const ROUTE_INFORMATION = '24';
// The preferences of a router and of a route, by their two bits (RFC 4191, 2.1).
const ROUTE_PREFERENCES = { 0: 'Medium', 1: 'High', 3: 'Low' };

// Returns the options of a line: of each its word, and the words behind it.
function optionsIn(words) {
    const options = [];
    for (let at = words.findIndex((it) => Object.hasOwn(OPTION_WORDS, it)); at >= 0 && at < words.length; ) {
        const count = OPTION_WORDS[words[at]] + (['rdnss', 'dnssl'].includes(words[at]) ? Number(words[at + 2]) : 0);
        options.push(words.slice(at, at + 1 + count));
        at += 1 + count;
    }
    return options;
}

// Returns the route of a Route Information option by what is behind its length, or null if a receiver ignores it (RFC 4191, 2.3).
function routeOf(digits) {
    const bytes = Uint8Array.from(digits.match(/../g), (it) => parseInt(it, 16)), [bits] = bytes, preference = ROUTE_PREFERENCES[(bytes[1] >> 3) & 3];
    if (bits > 128 || bytes.length > 22 || 8 * (bytes.length - 6) < bits || !preference) return null;
    const prefix = new Uint8Array(16);
    prefix.set(bytes.subarray(6));
    for (let at = 0; at < 16; at++) prefix[at] &= 0xff00 >> Math.min(Math.max(bits - 8 * at, 0), 8);
    return { prefix: `${address(prefix)}/${bits}`, preference, lifetime: number(bytes.subarray(2, 6)) };
}

class LinkSummary {
    constructor() {
        const names = ['routers', 'prefixes', 'routes', 'servers', 'names', 'holders', 'trials', 'duplicates', 'invalid'];
        for (const name of names) this[name] = new Map();
    }
    // Takes a frame, with its moment in milliseconds if it has one. A later message is right where two differ.
    take(frame, at) {
        const line = lineOf(frame, 'either') ?? '', words = line.split(' '), [kind, source] = words;
        if (kind === 'drop') this.invalid.set(line, (this.invalid.get(line) ?? 0) + 1);
        if (!['rs', 'ra', 'ns', 'na'].includes(kind)) return;
        const station = sender(frame), target = words[words.indexOf('target') + 1];
        if (kind === 'na') this.objected(target, station, at);
        if (kind === 'ns' && source === '::') this.tried(target, station, at);
        else this.hold(kind === 'na' ? target : source, station);
        if (kind === 'ra') this.advertised(words, station);
    }
    // Takes an address that a station uses.
    hold(address, station) {
        if (address === '::') return;
        const holders = this.holders.get(address) ?? new Set();
        this.holders.set(address, holders.add(station));
        if (holders.size > 1) this.duplicates.set(address, `used at ${[...holders].join(' and ')}`);
    }
    // Takes a trial of an address: by two stations at a time, or of one that is in use elsewhere, it finds a duplicate (RFC 4862, 5.4.3).
    tried(address, station, at) {
        const other = (this.trials.get(address) ?? []).find((it) => it.station !== station && this.isSoon(it.at, at));
        if (other) this.duplicates.set(address, `tried by ${other.station} and ${station}`);
        this.trials.set(address, [...(this.trials.get(address) ?? []), { station, at }]);
    }
    // Takes an advertisement of an address. The station that tries it can't send one yet (RFC 4862, 5.4.4), so another one did, even with the same
    // Ethernet address.
    objected(address, station, at) {
        const trial = (this.trials.get(address) ?? []).find((it) => (it.station !== station || at !== undefined) && this.isSoon(it.at, at));
        if (trial) this.duplicates.set(address, `tried by ${trial.station}, in use at ${station}`);
    }
    isSoon(before, at) {
        return at === undefined || (at - before < OBJECTION && at >= before);
    }
    advertised(words, station) {
        const source = words[1], flags = words[words.indexOf('flags') + 1], lifetime = words[words.indexOf('lifetime') + 1];
        this.routers.set(source, { lifetime, preference: flags.includes('h') ? 'High' : flags.includes('l') ? 'Low' : 'Medium', station });
        for (const [word, ...values] of optionsIn(words)) {
            const [first, second, ...others] = values;
            if (word === 'prefix') this.prefixes.set(first, { flags: second, valid: others[0], preferred: others[1] });
            for (const it of word === 'rdnss' ? others : []) this.servers.set(it, first);
            for (const it of word === 'dnssl' ? others : []) this.names.set(it, first);
            const route = word === 'opt' && first === ROUTE_INFORMATION ? routeOf(second) : null;
            if (route) this.routes.set(`${route.prefix} ${source}`, { ...route, router: source });
        }
    }
}

// Returns what frames say of their link. Each has its bytes, and its moment in milliseconds if there is one.
function summaryOf(frames) {
    const made = new LinkSummary();
    for (const { frame, at } of frames) made.take(frame, at);
    return made;
}

// The whole frames of packets, with the milliseconds since the first one, for a summary.
function framesForSummary(packets) {
    const whole = packets.filter((it) => typeof it.frame !== 'string' && !(it.length > it.frame.length)), first = whole[0]?.time;
    return whole.map(({ frame, time }) => ({ frame, at: time === undefined ? undefined : Number((time - first) / MILLISECOND) }));
}

const counted = (count, what) => `${count} ${what}${count === 1 ? '' : 's'}`;
const lifetimeText = (seconds) => (seconds === '4294967295' ? 'without end' : `for ${Number(seconds).toLocaleString('en')} s`);

const routerLine = ([router, { lifetime, preference, station }]) => {
    return `${router} at ${station}, ${lifetime === '0' ? 'no default router' : `${lifetimeText(lifetime)}, preference ${preference}`}`;
};

const prefixLine = ([prefix, { flags, valid, preferred }]) => {
    const uses = [flags.includes('l') && 'on the link', flags.includes('a') && 'hosts form addresses of it'].filter(Boolean);
    const lifetimes = valid === '0' ? 'withdrawn' : `valid ${lifetimeText(valid)}, preferred ${lifetimeText(preferred)}`;
    return [prefix, ...uses, lifetimes].join(', ');
};

// Returns the lines of a summary by their headings.
function summaryLines({ routers, prefixes, routes, servers, names, holders, trials, duplicates, invalid }) {
    const tried = [...trials].filter(([it]) => !holders.has(it));
    const lasting = (some) => [...some].map(([it, lifetime]) => (lifetime === '0' ? `${it}, withdrawn` : `${it} ${lifetimeText(lifetime)}`));
    return {
        Routers: [...routers].map(routerLine),
        Prefixes: [...prefixes].map(prefixLine),
        'DNS servers': lasting(servers),
        'Search names': lasting(names),
        Routes: [...routes.values()].map((it) => `${it.prefix} by ${it.router}, ${lifetimeText(it.lifetime)}, preference ${it.preference}`),
        Addresses: [...[...holders].map(([it, stations]) => `${it} at ${[...stations].join(' and ')}`),
            ...tried.map(([it, [{ station }]]) => `${it}, tried by ${station}`)],
        Duplicates: [...duplicates].map(([it, why]) => `${it}, ${why}`),
        'Not valid': [...invalid].map(([line, count]) => `${counted(count, 'frame')}: ${line}`),
    };
}
