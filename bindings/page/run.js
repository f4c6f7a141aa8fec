// The tab of a node: a script on one side, and on the other what the node says to each line, with its tables.

const SCRIPTS = @SCRIPTS@;
const SHOWN_DIGITS = 40;
const MOST_LINES = 400;
const SHOWN_TABLES = ['addresses', 'neighbours', 'routers', 'prefixes', 'dns', 'redirects', 'advertise', 'routes', 'params'];
let runs = 0;

// Digits, cut if they are many.
const cut = (digits) => (digits.length > SHOWN_DIGITS ? `${digits.slice(0, SHOWN_DIGITS)}..` : digits);

const bytesOf = (digits) => Uint8Array.from(digits.match(/../g) ?? [], (it) => parseInt(it, 16));

// What a frame says, as a quiet line. What isn't whole bytes says nothing.
function meaning(digits) {
    return made('span', 'quiet', ...(digits.length % 2 ? [] : explainedWords('frame', lineOf(bytesOf(digits), 'either') ?? 'too long for this page')));
}

// The element of a line of output: its moment, its text with few digits, of a frame what it says, and of a frame that is dropped why. `heard` is the frame
// that the line is about, if it is about one, and `role` that of the node.
function outputLine(line, heard, role = 'host') {
    const [moment, word, ...rest] = line.split(' '), isAside = isNotForUs(line.slice(moment.length + 1));
    const element = made('div', `said ${isAside ? 'aside' : word}`), at = made('abbr', 'moment', moment);
    const short = word === 'tx' || word === 'up' ? cut(rest[0]) : rest.join(' ');
    at.title = SINCE_START;
    element.dataset.line = line;
    const [first, ...others] = explainedWords('output', `${word} ${short}`);
    element.append(at, made('span', 'line', made('b', '', first), ...others));
    if (word === 'tx') element.append(meaning(rest[0]));
    const meant = word === 'drop' && dropMeaning(line.slice(moment.length + 1), heard, role);
    if (meant) element.append(made('span', 'quiet', meant, ...dropSections(rest[0], heard, role)));
    return element;
}

// Links to the sections of a reason.
function dropSections(reason, frame, role) {
    if (!frame) return [];
    const sections = reason === '19' ? notForNode(frame, role)[1] : [sectionOf(reason, frame)];
    return sections.length > 0 ? [': ', ...sectionElements(sections)] : [];
}

// The tables of a node at a moment, as they are now. Those without rows are left out.
function tablesNow(node, now) {
    return SHOWN_TABLES.map((name) => [name, TABLES[name](node, now)]).filter(([, rows]) => rows.length > 0);
}

function tablesElement(tables) {
    return made('div', 'frame', ...tables.map(([name, rows]) => made('div', '', made('b', '', name), 
        ...rows.map((it) => made('div', 'line', ...explainedWords('output', it))))));
}

// The element of a line of the script.
function commandLine(line) {
    const frame = /^(\d+ rx )([0-9a-f]+)$/i.exec(line);
    if (frame) return made('div', 'command', made('span', 'line', ...explainedWords('script', `${frame[1]}${cut(frame[2])}`)), ' ', meaning(frame[2]));
    return made('div', 'line command', ...explainedWords('script', line));
}

function step(line, lines, tables) {
    const details = made('details', 'tables', made('summary', '', 'tables after this line'), tablesElement(tables));
    const [, heard] = /^\d+ rx ([0-9a-f]+)$/i.exec(line) ?? [];
    return made('div', 'step', commandLine(line), 
        ...lines.map((it) => outputLine(it, heard && bytesOf(heard), find('node-role').value)), details);
}

// The element of what is wrong in a line, which is marked in the script if that is asked for.
function faultElement(fault) {
    const button = made('button', '', 'Show the line'), before = find('script').value.split('\n').slice(0, fault.number - 1);
    button.addEventListener('click', () => {
        const begin = before.join('\n').length + Math.sign(before.length);
        find('script').focus();
        find('script').setSelectionRange(begin, begin + find('script').value.slice(begin).split('\n')[0].length);
    });
    return made('div', 'fault', made('b', '', `Line ${fault.number}`), `, “${cut(fault.line)}”: ${fault.message} `, button);
}

// Shows under the script what is wrong with a line of it, or how much the node says.
function showNear(fault) {
    const said = counted(document.querySelectorAll('#said-lines .said').length, 'line');
    const near = fault?.number ? [faultElement(fault)] : [`The node says ${said}. `, belowButton('said-lines')];
    find('node-near').replaceChildren(...(fault && !fault.number ? [] : near));
    find('node-near').classList.toggle('near', !fault);
}

// Runs the script from its beginning, up to the first line that is malformed.
async function runScript() {
    const mine = ++runs, steps = [], module = await compiled(), lines = find('script').value.split('\n');
    let fault = null;
    try {
        const node = await opened(module, { role: find('node-role').value, mac: macIn('node-mac'), draws: find('node-draws').value.trim() });
        for (const { line, now, lines: said } of answers(node, lines.slice(0, MOST_LINES).join('\n'))) {
            steps.push(step(line, said, tablesNow(node, node.lastMoment() > now ? node.lastMoment() : now)));
        }
        if (lines.length > MOST_LINES) steps.push(made('div', 'fault', `The lines behind line ${MOST_LINES} are not run.`));
    } catch (it) {
        fault = it;
        if (it.number) steps.push(faultElement(it));
    }
    // A later run may have ended before this one.
    if (mine !== runs) return;
    showFieldFault('node', fault?.number ? null : fault);
    find('said-lines').replaceChildren(...steps);
    showNear(fault);
    const last = [...document.querySelectorAll('#said-lines .tables')].at(-1);
    if (last) last.open = true;
}

function takeScript({ role = 'host', mac: own = PAIR_MAC, draws = 'word:0', script }) {
    find('node-role').value = role === 'router' ? role : 'host';
    find('node-mac').value = own;
    find('node-draws').value = draws;
    find('script').value = script ?? SCRIPTS[0].lines.join('\n');
    return runScript();
}

const nodeState = () => ({ role: find('node-role').value, mac: find('node-mac').value, draws: find('node-draws').value, script: find('script').value });

function startRun() {
    exampleButtons(find('scripts'), SCRIPTS, async ({ lines, ...options }) => {
        await takeScript({ ...options, script: lines.join('\n') });
        bring(find('said-lines'));
        changed();
    });
    for (const id of ['script', 'node-role', 'node-mac', 'node-draws']) find(id).addEventListener('input', runScript);
}
