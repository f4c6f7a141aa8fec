// The tab of two hosts that have the same Ethernet address, and so try for the same address: what each does, and their frames as arrows between them.

const PAIR_MAC = '34:56:78:9a:bc:de', PAIR_END = 9000, LONGEST_TRIAL = 2500;
const PAIR_WIDE = { width: 800, lines: [250, 610] };
const SHORT_NOTES = { assigned: 'uses the address', duplicate: 'finds a duplicate' };
let pairRuns = 0;

// Lets two hosts run on a link whose frames take `delay` milliseconds or are lost. Returns what happened, in its order, and the frames.
async function simulated(starts, delay, areLost) {
    const module = await compiled(), hosts = [null, null], happened = [], carried = [];
    // By then the second host has an answer to its solicitation, or uses the address.
    const end = Math.max(PAIR_END, starts[1] + LONGEST_TRIAL + 2 * delay);
    const gather = (which, heard = null) => {
        for (const record of hosts[which].records()) {
            const at = Number(record.moment);
            happened.push({ at, which, kind: KINDS[record.kind], text: recordText(record), heard });
            if (record.kind === TX) carried.push({ from: which, sent: at, arrives: at + delay, frame: record.bytes, isCarried: false, isLost: areLost });
        }
    };
    for (;;) {
        const due = [...starts.filter((_, which) => !hosts[which]), ...hosts.filter(Boolean).map((host) => Number(host.nextDue())),
            ...carried.filter((it) => !it.isLost && !it.isCarried).map((it) => it.arrives)];
        const now = Math.min(...due);
        if (now > end) return { happened, carried };
        for (const frame of carried.filter((it) => !it.isLost && !it.isCarried && it.arrives <= now)) {
            frame.isCarried = true;
            // A frame that arrives before a host starts passes it by.
            frame.isLost = !hosts[1 - frame.from];
            hosts[1 - frame.from]?.receive(now, frame.frame);
            if (!frame.isLost) gather(1 - frame.from, frame.frame);
        }
        for (const which of [0, 1]) {
            if (!hosts[which] && starts[which] <= now) {
                hosts[which] = await opened(module, { role: 'host', mac: PAIR_MAC, draws: `seed:${which + 1}`, start: starts[which] });
                happened.push({ at: starts[which], which, kind: 'starts', text: 'starts' });
            } else if (hosts[which]) hosts[which].call('nd_pass', now);
            if (hosts[which]) gather(which);
        }
    }
}

// What a frame says, in a few words.
function plain(frame) {
    const line = lineOf(frame, 'either'), [word] = line.split(' ');
    return { ns: 'ns: is the address taken?', na: 'na: I have the address', rs: 'rs: are there routers?' }[word] ?? line;
}

// What a host says besides its frames. A frame that is not for it is no fault of the frame.
function pairNote({ which, kind, text, heard }) {
    const meaning = dropMeaning(text, heard) ?? text;
    if (isNotForUs(text)) return { which, kind: 'aside', text: 'not for this host', meaning: `${text}: ${meaning}` };
    return { which, kind, text: SHORT_NOTES[kind] ?? text, meaning };
}

// Shows the picture of a run: a row for each moment, its notes what a host says besides its frames.
function pairDiagram({ happened, carried }) {
    const arrived = carried.filter((it) => !it.isLost), isSaid = (it) => !['tx', 'heard'].includes(it.kind);
    const moments = [...new Set([...happened.map((it) => it.at), ...arrived.map((it) => it.arrives)])].sort((a, b) => a - b);
    const rows = moments.map((at) => ({ at, notes: happened.filter((it) => it.at === at && isSaid(it)).map(pairNote) }));
    const arrows = carried.map((it) => ({ from: it.from, row: moments.indexOf(it.sent), to: moments.indexOf(it.isLost ? it.sent : it.arrives),
        kind: it.isLost ? 'lost' : 'sent', isAnswer: arrived.some((other) => other.from !== it.from && other.arrives === it.sent),
        text: plain(it.frame), meaning: lineOf(it.frame, 'either') }));
    return diagram({ name: 'pair', box: find('diagram'), heads: ['host 1', 'host 2'], rows, arrows, wide: PAIR_WIDE,
        label: 'the frames of two hosts as arrows; the same is below as text' });
}

// What came of it, in one sentence.
function outcome({ happened }) {
    const has = (which, kind) => happened.some((it) => it.which === which && it.kind === kind);
    const used = [0, 1].filter((which) => has(which, 'assigned') && !has(which, 'duplicate'));
    if (used.length === 2) return 'Both hosts use the address: no frame arrived in time to tell them. What is proved holds for frames that arrive in time.';
    if (used.length === 1) return `Host ${used[0] + 1} uses the address. The other one found that it is a duplicate, and doesn't use it.`;
    return 'Neither host uses the address: each found that it is a duplicate.';
}

// Runs the two hosts, and draws what happens: at once, or with time running.
async function showPair(isRunning = false) {
    const mine = ++pairRuns;
    let run = { happened: [], carried: [] }, fault = null;
    try {
        run = await simulated([0, numberIn('pair-start')], numberIn('pair-delay'), find('pair-lost').checked);
    } catch (it) {
        fault = it;
    }
    if (mine !== pairRuns) return;
    showFieldFault('pair', fault);
    find('outcome').textContent = fault ? '' : outcome(run);
    if (fault) find('diagram').replaceChildren();
    else pairDiagram(run).classList.toggle('running', isRunning);
    const line = (it) => made('div', 'of-host', made('b', '', `host ${it.which + 1}`), outputLine(`${it.at} ${it.text}`, it.heard));
    find('pair-lines').replaceChildren(...run.happened.map(line));
}

function takePair({ start = '2000', delay = '100', lost }) {
    find('pair-start').value = start;
    find('pair-delay').value = delay;
    find('pair-lost').checked = lost === 'yes';
    return showPair(true);
}

const pairState = () => ({ start: find('pair-start').value, delay: find('pair-delay').value, ...(find('pair-lost').checked && { lost: 'yes' }) });

function startPair() {
    for (const id of ['pair-start', 'pair-delay', 'pair-lost']) find(id).addEventListener('input', () => showPair());
    find('pair-again').addEventListener('click', () => showPair(true));
}
