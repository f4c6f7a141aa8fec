// The tabs, what is in the address of the page for each, and the files that are dropped on it.

// Of each tab: what is in the address for it, or null if that is too much, what takes it from there, and what shows it.
const TABS = {
    pair: { state: pairState, take: takePair, show: showPair },
    frames: { state: framesState, take: takeFrames, show },
    node: { state: nodeState, take: takeScript, show: runScript },
    capture: { state: captureState, take: takeCapture, show: showCapture },
};
const FRAMES_SHOWN_FIRST = { role: EXAMPLES[0].role, text: EXAMPLES[0].digits.join('\n') };
const BEHIND_ANOTHER = ', to put behind the address of another copy of this page';
const taken = new Set();
let remembering = 0;

const shownTab = () => document.querySelector('[role=tab][aria-selected=true]').id.slice(4);

// Shows a tab, with values from an address or from another tab if there are some.
async function showTab(name, values = null) {
    for (const tab of document.querySelectorAll('[role=tab]')) {
        tab.setAttribute('aria-selected', tab.id === `tab-${name}`);
        find(tab.getAttribute('aria-controls')).hidden = tab.id !== `tab-${name}`;
    }
    const first = name === 'frames' ? FRAMES_SHOWN_FIRST : {};
    if (values || !taken.has(name)) await TABS[name].take(values ?? first);
    else await TABS[name].show();
    if (values?.open !== undefined) openRows(name, values.open);
    taken.add(name);
}

// The numbers of the rows of a tab that are opened, as its address has them.
const rowsOf = (name) => [...find(name).querySelectorAll('details')];
const openedRows = (name) => rowsOf(name).flatMap((it, number) => (it.open ? [number] : [])).join('.');

function openRows(name, text) {
    const numbers = new Set(text.split('.'));
    for (const [number, row] of rowsOf(name).entries()) row.open = numbers.has(String(number));
}

// What is long in the values of an address, and may be cut.
const longOf = (values) => values.frames ?? values.text ?? values.script;
const framesIn = ({ frames, text }) => (frames?.split('_') ?? text?.split('\n') ?? []).filter((it) => it.trim() !== '').length;

// Returns the address of a tab, behind `#`: before what is long how many characters and frames that has. What is too long for a link is left out.
function fragmentOf(name) {
    const state = TABS[name].state() ?? {}, long = longOf(state), open = openedRows(name), count = framesIn(state);
    const values = { ...(open && { open }), ...(long && { size: long.length }), ...(long && count && { count }), ...state };
    const whole = `#${name}?${new URLSearchParams(values)}`;
    return !TABS[name].state() || whole.length > LONGEST_LINK ? `#${name}` : whole;
}

// Returns what is wrong with the values of an address, or an empty text.
function faultOfAddress(values) {
    const length = (longOf(values) ?? '').length, size = Number(values.size ?? 0);
    const unread = packetsOfLink(values.frames ?? '').filter(({ frame }) => typeof frame === 'string');
    if (length < size) {
        const count = values.count ? ` and ${framesIn(values)} of ${values.count} frames, of which the last may be cut` : '';
        return `The address is incomplete: it has ${length} of ${size} characters${count}. Ask for the whole of it.`;
    }
    return unread.length > 0 ? `The address is incomplete or changed: ${unread[0].frame}.` : '';
}

function showAddressFault(text) {
    find('address-fault').textContent = text;
    find('address-fault').hidden = text === '';
}

// A row was opened or closed. An address that is incomplete stays, so that it isn't taken for a whole one.
function rowChanged() {
    say('');
    if (find('address-fault').hidden) remember();
}

// What is shown has changed: what was said of it before is no longer so, and it is put into the address.
function changed() {
    say('');
    showAddressFault('');
    remember();
}

// Puts what is shown into the address, once nothing more is typed.
function remember() {
    clearTimeout(remembering);
    remembering = setTimeout(() => history.replaceState(null, '', fragmentOf(shownTab())), 200);
}

// Shows what the address names, or else the two hosts. Frames behind `#`, parted by commas and with a role before them, are of links of earlier pages.
function takeAddress() {
    say('');
    showAddressFault('');
    const [, role = 'either', digits] = /^#(?:(host|router):)?([0-9a-f]+(?:,[0-9a-f]*)*)$/i.exec(location.hash) ?? [];
    if (digits) return showTab('frames', { role: role.toLowerCase(), text: digits.replaceAll(',', '\n') });
    const [, reason] = /^#reason-(\d+)$/.exec(location.hash) ?? [];
    if (reason) return showTab('frames').then(() => showReason(reason));
    const [, name, values] = /^#(\w+)(?:\?(.*))?$/.exec(location.hash) ?? [];
    if (!Object.hasOwn(TABS, name ?? '')) {
        if (location.hash.length > 1) showAddressFault('What the address has behind # names nothing on this page.');
        return showTab('pair');
    }
    const given = values === undefined ? null : Object.fromEntries(new URLSearchParams(values));
    showAddressFault(faultOfAddress(given ?? {}));
    return showTab(name, given);
}

function say(text) {
    find('said').textContent = text;
}

// Returns true if the page is a file of this machine, whose address no other machine can open.
const isFile = () => location.protocol === 'file:';

async function copyLink() {
    const fragment = fragmentOf(shownTab());
    history.replaceState(null, '', fragment);
    if (!fragment.includes('?')) return say('What is shown is too much for a link.');
    const file = 'This page is a file of this machine, so others open their own copy of it, and put this behind the end of its address.';
    const behind = `It begins with #. ${file}`;
    try {
        await navigator.clipboard.writeText(isFile() ? fragment : location.href);
        return say(isFile() ? `Copied. ${behind}` : 'Copied.');
    } catch {
        return say(isFile() ? `Copy the end of what the address bar has. ${behind}` : 'The link is in the address bar.');
    }
}

// Takes a file: on the tab of a capture it is replayed, on another one its frames are shown.
async function takeFile(file, isReplayed = shownTab() === 'capture') {
    const read = packetsOfFile(await file.arrayBuffer()), fault = faultOf(read);
    showAddressFault('');
    say(`${file.name}: ${fault ?? counted(read.length, 'frame')}`);
    taken.add(isReplayed ? 'capture' : 'frames');
    if (isReplayed) await hearPackets(read);
    else await showTab('frames').then(() => takePackets(read));
    bring(find(isReplayed ? 'capture-sum' : 'results'));
    remember();
}

function startFiles() {
    find('file').addEventListener('change', () => takeFile(find('file').files[0], false));
    find('capture-file').addEventListener('change', () => takeFile(find('capture-file').files[0], true));
    find('replay-these').addEventListener('click', async () => {
        const read = packets;
        taken.add('capture');
        await showTab('capture');
        await hearPackets(read);
        changed();
    });
    addEventListener('dragover', (event) => {
        event.preventDefault();
        document.body.classList.add('dropping');
    });
    addEventListener('dragleave', () => document.body.classList.remove('dropping'));
    addEventListener('drop', (event) => {
        event.preventDefault();
        document.body.classList.remove('dropping');
        if (event.dataTransfer.files.length > 0) takeFile(event.dataTransfer.files[0]);
    });
}

// Shows what a word means at the foot of the window once it is pressed, for those who can't point at it.
function showMeaning({ target }) {
    const word = target.closest('abbr[title], text[data-room]');
    find('meaning').hidden = !word;
    const [what, meaning] = word?.title ? [word.textContent, word.title] : [word?.firstChild.data, word?.lastChild.textContent];
    if (word) find('meaning').textContent = `${what}: ${meaning}`;
}

async function start() {
    const tabs = [...document.querySelectorAll('[role=tab]')];
    for (const [at, tab] of tabs.entries()) {
        tab.addEventListener('click', () => showTab(tab.id.slice(4)).then(changed));
        tab.addEventListener('keydown', ({ key }) => tabs[at + ({ ArrowLeft: -1, ArrowRight: 1 }[key] ?? tabs.length)]?.focus());
    }
    for (const begin of [startPair, startFrames, startRun, startCapture, startFiles]) begin();
    find('link').addEventListener('click', copyLink);
    if (isFile()) find('link').replaceChildren('Copy what is shown', made('span', 'wide', BEHIND_ANOTHER));
    addEventListener('input', changed);
    addEventListener('click', showMeaning);
    addEventListener('click', ({ target }) => target.closest('summary') && rowChanged());
    addEventListener('hashchange', takeAddress);
    addEventListener('resize', () => ['pair', 'capture'].includes(shownTab()) && TABS[shownTab()].show());
    await takeAddress();
    document.body.dataset.ready = 'yes';
}

start();
