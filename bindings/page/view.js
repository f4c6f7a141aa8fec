// The page: its parts that need a browser. First the tab of frames: what is typed or dropped is read, and each frame's line is shown, with its fields when
// it is opened.

const EXAMPLES = @EXAMPLES@;
const MOST_ROWS = 500;
const LONGEST_LINK = 60000;
// Whom examples are for.
const FOR = { either: 'For either', host: 'For a host', router: 'For a router' };
// The fields that a reason to drop a frame looks at, by the reason's number.
const LOOKED_AT = { 2: ['type'], 4: ['version, traffic class, flow label'], 5: ['payload length'], 6: ['code'], 7: ['message type'], 8: ['option length'],
    9: ['option length'], 10: ['hop limit'], 11: ['checksum'], 12: ['source'], 13: ['target'], 14: ['source'], 15: ['destination'],
    16: ['flags', 'destination'], 17: ['target'], 18: ['redirected destination'], 19: ['message type'] };

// What is summed up of a link, also if there is none; and how many lines of each are shown.
const ALWAYS_SUMMED = ['Routers', 'Prefixes', 'DNS servers', 'Addresses', 'Duplicates'], MOST_SUMMED = 40;
// What the types of ICMPv6 messages and next headers are, of packets that are no messages of Neighbor Discovery (RFC 8200, 4; RFC 4443; RFC 2710; RFC
// 3810).
const ICMPV6_NAMES = { 1: 'an error (ICMPv6)', 2: 'an error (ICMPv6)', 3: 'an error (ICMPv6)', 4: 'an error (ICMPv6)', 128: 'a ping',
    129: 'the answer to a ping', 130: 'a query for groups (MLD)', 131: 'a report of groups (MLD)', 132: 'a group is left (MLD)',
    143: 'a report of groups (MLD)' };
const NEXT_HEADERS = { 0: 'hop-by-hop options', 6: 'TCP', 17: 'UDP', 43: 'a routing header', 44: 'a fragment', 50: 'ESP', 58: 'ICMPv6',
    59: 'no next header: an empty packet', 60: 'destination options' };

const find = (id) => document.getElementById(id);
const role = () => document.querySelector('input[name=role]:checked').value;
let frames = [], packets = [];

// Returns an element with a class, a text or elements in it.
function made(tag, name, ...inside) {
    const element = document.createElement(tag);
    if (name) element.className = name;
    element.append(...inside);
    return element;
}

// A word, which is broken only behind colons if it is an Ethernet or an IPv6 address.
function wordParts(word) {
    if (!/^[0-9a-f]*(:[0-9a-f]*){2,}(\/\d+)?$/.test(word)) return [word];
    return [made('bdi', 'address', ...word.match(/[^:]+:*|:+/g).flatMap((it) => [it, made('wbr')]))];
}

// The words of a line, those that mean something with that as their title.
function explainedWords(kind, line) {
    return explained(kind, line).flatMap(([word, meaning]) => {
        const element = made('abbr', '', ...wordParts(word));
        element.title = meaning;
        return [...(meaning ? [element] : wordParts(word)), ' '];
    }).slice(0, -1);
}

// Returns the whole number in a field, which is within the bounds of the field.
function numberIn(id) {
    const { value, min, max } = find(id), number = Number(value);
    if (value !== '' && Number.isInteger(number) && number >= min && number <= max) return number;
    throw Object.assign(new Malformed(value === '' ? 'no number' : quoted(value), `a whole number from ${min} to ${max}`), { field: id });
}

// Shows what is wrong with a tab, or that nothing is: of a field with its label first, and the field is marked.
function showFieldFault(tab, fault) {
    const field = fault?.field ?? (fault?.option && `${tab}-${fault.option}`), place = find(`${tab}-fault`);
    for (const it of find(tab).querySelectorAll('input, select')) it.setAttribute('aria-invalid', it.id === field);
    place.textContent = field ? `${find(field).labels[0].firstChild.data.trim()}: ${fault.message}` : fault?.message ?? '';
    place.hidden = !fault;
}

// The Ethernet address in a field, with colons. It may be typed with hyphens.
const macIn = (id) => find(id).value.trim().toLowerCase().replaceAll('-', ':');

// A link to a section of an RFC.
function sectionElement(section, text = sectionText(section)) {
    return Object.assign(made('a', 'section', text), { href: sectionLink(section), target: '_blank', rel: 'noreferrer' });
}

// Links to sections, each behind the number of its RFC if that isn't the one before.
function sectionElements(sections) {
    return sections.flatMap((section, index) => {
        const [rfc, part] = section.split(' ');
        return [index ? ', ' : '', sectionElement(section, rfc === sections[index - 1]?.split(' ')[0] ? part : sectionText(section))];
    });
}

// Brings an element into view, if most of the window is above it or it is above the window.
function bring(element) {
    const { top } = element.getBoundingClientRect();
    if (top < 0 || top > innerHeight / 2) element.scrollIntoView({ block: 'start' });
}

// Buttons for examples, by the role that they are for.
function exampleButtons(place, examples, takes) {
    for (const role of Object.keys(FOR)) {
        const buttons = examples.filter((it) => it.role === role).map((it) => {
            const button = made('button', '', it.title);
            button.addEventListener('click', () => takes(it));
            return button;
        });
        if (buttons.length > 0) place.append(made('p', 'examples', made('b', '', `${FOR[role]}: `), ...buttons));
    }
}

// Returns what a frame is: its kind, its line, and the number of the reason to drop it.
function tell(frame) {
    if (typeof frame === 'string') return { kind: 'unread', line: frame };
    const line = lineOf(frame, role());
    if (line === null) return { kind: 'unread', line: `a frame of ${frame.length} bytes is too long for this page` };
    const [word, reason] = line.split(' ');
    return { kind: word === 'drop' || word === 'other' ? word : 'message', line, reason: word === 'drop' ? reason : null };
}

// The part of a reason in the table below that a frame shows by itself, as text.
function reasonText(number) {
    const cell = find(`reason-${number}`)?.cells[1];
    return (cell?.querySelector('.alone') ?? cell)?.textContent ?? '';
}

// What a line of a node says of a frame that is dropped, or null if it drops none (docs/FORMATS.md).
function dropMeaning(line, frame, role = 'host') {
    const [, reason] = /^drop (\d+) /.exec(line) ?? [];
    if (!reason) return null;
    if (reason === '19') return `the frame is not for this node: ${notForNode(frame, role)[0]}`;
    return `the frame ${reason === '20' ? 'is a Redirect that is not from the first hop of its destination' : reasonText(reason)}`;
}

// True for the line of a frame that is valid, and dropped since it is not for this node or role (docs/FORMATS.md).
const isNotForUs = (line) => /^drop 19 /.test(line);

// What is behind the IPv6 header of a packet that is no message of Neighbor Discovery, in a few words.
function otherName(frame) {
    const next = frame[20], inner = next === 0 && frame[54] === 58 ? frame[54 + 8 * (1 + frame[55])] : next === 58 ? frame[54] : undefined;
    return ICMPV6_NAMES[inner] ?? NEXT_HEADERS[next] ?? `next header ${next}`;
}

// The table of what the frames of a capture say of their link, with a heading; nothing if there are none.
function summaryElements(packets) {
    const known = framesForSummary(packets), table = made('table', 'link');
    if (known.length === 0) return [];
    for (const [heading, lines] of Object.entries(summaryLines(summaryOf(known)))) {
        if (lines.length === 0 && !ALWAYS_SUMMED.includes(heading)) continue;
        const row = table.insertRow(), more = lines.length - MOST_SUMMED, cell = made('td', '');
        row.append(made('th', '', heading), cell);
        cell.append(...lines.slice(0, MOST_SUMMED).map((line) => made('div', '', ...line.split(' ').flatMap((it) => [...wordParts(it), ' ']))));
        if (more > 0) cell.append(made('div', 'quiet', `and ${more} more`));
        if (lines.length === 0) cell.append(made('span', 'quiet', 'none seen'));
        if (heading === 'Duplicates' || heading === 'Not valid') cell.classList.toggle('bad', lines.length > 0);
    }
    return [made('h2', '', 'What these frames say of the link'), table];
}

// Shows a reason in the table below.
function showReason(number) {
    for (const row of find('reasons').rows) row.classList.toggle('marked', row.id === `reason-${number}`);
    find(`reason-${number}`)?.scrollIntoView({ block: 'center' });
}

function fieldTable(frame, reason) {
    const table = made('table', '');
    const looked = LOOKED_AT[reason] ?? [], rows = fieldsOf(frame);
    // Of several options the last one that was reached is the bad one.
    const last = rows.findLast((it) => looked.includes(it.name));
    for (const row of rows) {
        const line = table.insertRow();
        if (row.heading) {
            const heading = made('th', '', row.heading);
            heading.colSpan = 4;
            line.append(heading);
            continue;
        }
        const bytes = [...row.bytes].map((byte) => byte.toString(16).padStart(2, '0')).join(' ');
        const isMarked = looked[0] === 'option length' ? row === last : looked.includes(row.name);
        if (isMarked) line.className = 'marked';
        line.append(made('td', 'at', String(row.at)), made('td', 'bytes', bytes), made('td', '', row.name), made('td', '', ...wordParts(row.value)));
    }
    return table;
}

function openedRow(frame, told) {
    const inside = made('div', 'frame');
    if (typeof frame !== 'string' && frame.length > 0) inside.append(fieldTable(frame, told.reason));
    return inside;
}

// What may have gone wrong with a frame, as a question.
function hintOf(frame, told) {
    if (!['1', '2'].includes(told.reason) || !isPacket(frame, 0)) return '';
    return '. These bytes are an IPv6 packet: is its Ethernet header missing? Put 14 bytes before it, of which the last two are 86dd.';
}

// What may have gone wrong with the lines of the text, and a button that mends it.
function joinHint() {
    const button = made('button', '', 'Join them');
    button.addEventListener('click', () => {
        takeFrames({ role: role(), text: frames.map(hexOf).join('') });
        changed();
    });
    return made('p', 'hint', 'Are these lines of one frame? Together they are a whole packet. ', button);
}

function rowOf(frame, told, index) {
    const [first] = told.kind === 'unread' ? ['not read'] : told.line.split(' ');
    const bold = told.kind === 'drop' ? told.line : first;
    const behind = { unread: [`: ${told.line}`], drop: [] }[told.kind] ?? explainedWords('frame', told.line).slice(1);
    const line = made('span', 'line', made('b', '', bold), ...behind), meaning = made('span', 'quiet');
    if (told.reason) meaning.append(`it ${reasonText(told.reason)}: `, sectionElement(sectionOf(told.reason, frame)), hintOf(frame, told));
    const summary = made('summary', '', made('span', 'nr', String(index + 1)), made('span', '', line, ' ', meaning));
    const row = made('details', isNotForUs(told.line) ? 'aside' : told.kind, summary);
    row.dataset.index = index;
    row.addEventListener('toggle', () => {
        if (row.open && row.children.length === 1) row.append(openedRow(frame, told));
    });
    return row;
}

// Shows a list of rows under a heading, the first ones at once and the others when a button asks for them.
function list(heading, rows) {
    const section = made('section', '', made('h2', '', `${heading} (${rows.length})`));
    let shown = 0;
    const more = made('button', '', '');
    const show = () => {
        more.before(...rows.slice(shown, shown + MOST_ROWS).map(([frame, told, index]) => rowOf(frame, told, index)));
        shown += MOST_ROWS;
        more.textContent = `Show more: ${rows.length - shown} are left`;
        more.hidden = shown >= rows.length;
    };
    section.append(more);
    more.addEventListener('click', show);
    show();
    return section;
}

// Returns how often each reason occurs, as links to the reasons.
function reasonCounts(dropped) {
    const counts = new Map();
    for (const [, told] of dropped) counts.set(told.line, (counts.get(told.line) ?? 0) + 1);
    return [...counts].sort(([, a], [, b]) => b - a).map(([line, count]) => {
        const chip = made('button', 'chip', `${line.slice(5)} (${count})`), reason = line.split(' ')[1];
        chip.title = reasonText(reason);
        chip.addEventListener('click', () => showReason(reason));
        return chip;
    });
}

function show() {
    const rows = frames.map((frame, index) => [frame, tell(frame), index]);
    const of = (...kinds) => rows.filter(([, told]) => kinds.includes(told.kind));
    const [messages, others, dropped, unread] = [of('message'), of('other'), of('drop'), of('unread')];
    const parts = [counted(messages.length, 'message'), counted(others.length, 'other packet'), `${dropped.length} dropped`];
    if (unread.length > 0) parts.push(`${unread.length} not read`);
    const sum = `${counted(frames.length, 'frame')}: ${parts.join(', ')}`;
    const fault = packets.length > 0 ? faultOf(packets) : null, none = 'No frames yet. Paste some, or press an example.';
    const said = frames.length === 0 ? none : sum;
    find('sum').textContent = fault ? `This file can't be read: ${fault}.` : said;
    find('frames-near').replaceChildren(frames.length === 0 ? '' : `${find('sum').textContent} `, belowButton('results'));
    const lists = areOneFrame(frames) ? [joinHint()] : [...(packets.length > 0 ? summaryElements(packets) : [])];
    if (dropped.length > 0) lists.push(made('p', 'counts', ...reasonCounts(dropped)));
    if (unread.length > 0) lists.push(list('Not read', unread));
    if (dropped.length > 0) lists.push(list('Dropped', dropped));
    if (messages.length + others.length > 0) lists.push(list('Heard', of('message', 'other')));
    find('lists').replaceChildren(...lists);
    find('replay-these').hidden = !packets.some((it) => it.time !== undefined);
}

// A button that brings results into view, which are below what is entered.
function belowButton(id) {
    const button = made('button', '', 'Show them');
    button.addEventListener('click', () => find(id).scrollIntoView({ block: 'start' }));
    return button;
}

function takeText() {
    [frames, packets] = [framesOfText(find('text').value), []];
    show();
}

function takeFrames({ role = 'either', text = '', frames: linked }) {
    document.querySelector(`input[name=role][value="${Object.hasOwn(ROLES, role) ? role : 'either'}"]`).checked = true;
    find('text').value = text;
    takeText();
    if (linked) takePackets(packetsOfLink(linked));
}

// Returns true if the digits of frames may be in a link.
const isForLink = (some) => some.reduce((sum, it) => sum + 2 * it.length, 0) <= LONGEST_LINK;

// What is in the text, or the frames of the capture that was read.
function framesState() {
    const text = find('text').value, whole = frames.filter((it) => typeof it !== 'string');
    if (text === '' && packets.some((it) => it.time !== undefined)) return isForLink(whole) ? { role: role(), frames: linkOf(packets) } : null;
    return text !== '' || isForLink(whole) ? { role: role(), text: text || whole.map(hexOf).join('\n') } : null;
}

function takePackets(read) {
    [frames, packets] = [read.map((it) => it.frame), read];
    find('text').value = '';
    show();
}

function startFrames() {
    exampleButtons(find('examples'), EXAMPLES, ({ role, digits }) => {
        takeFrames({ role, text: digits.join('\n') });
        bring(find('results'));
        changed();
    });
    for (const row of [...find('reasons').rows].slice(1)) {
        row.append(made('td', 'sections', ...sectionElements(sectionsOf(Number(row.id.slice(7))))));
    }
    find('text').addEventListener('input', takeText);
    find('role').addEventListener('change', show);
    find('clear').addEventListener('click', () => {
        takeFrames({ role: role() });
        changed();
    });
}
