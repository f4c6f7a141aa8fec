// Frames as arrows between the lines of two hosts, with what is said at each line. Time runs downwards.

const SVG = 'http://www.w3.org/2000/svg';
const ROW = 40, NOTE = 20;
// Notes of what comes before the frames of its row.
const EARLY = ['starts', 'assigned'];

const markers = (name) => `<defs>
<marker id="tip-${name}-sent" class="sent" viewBox="0 0 8 8" refX="7" refY="4" markerWidth="8" markerHeight="8" orient="auto">
<path d="M0 0 8 4 0 8z"/></marker>
<marker id="tip-${name}-lost" viewBox="0 0 8 8" refX="4" refY="4" markerWidth="10" markerHeight="10">
<path d="M1 1 7 7M7 1 1 7" fill="none" stroke="currentColor"/></marker>
</defs>`;

function drawn(tag, attributes, text) {
    const element = document.createElementNS(SVG, tag);
    for (const [name, value] of Object.entries(attributes)) element.setAttribute(name, value);
    if (text) element.textContent = text;
    return element;
}

// A text that is shortened to so many pixels once it is shown. The whole text, or what it means, is shown where it is pointed at.
function drawnText(attributes, text, room, meaning = text) {
    const element = drawn('text', { ...attributes, 'data-room': room }, text);
    element.append(drawn('title', {}, meaning));
    return element;
}

function shorten(text) {
    const length = text.getComputedTextLength(), { firstChild, dataset } = text;
    if (length > dataset.room) firstChild.data = `${firstChild.data.slice(0, Math.floor((firstChild.length * dataset.room) / length) - 1)}…`;
}

const momentText = (at) => (at < 100000 ? `${at.toLocaleString('en')} ms` : `${(at / 1000).toFixed(3)} s`);

// Returns where the arrows of each row are, and its texts above and below these. Where there is no room outside the lines, the texts are between
// them: each has a line of its own, labels and the notes of what precedes the frames above the arrows, and the other notes below.
function placed(rows, arrows, isNarrow) {
    const most = (notes) => Math.max(...[0, 1].map((which) => notes.filter((it) => it.which === which).length));
    const ends = new Set(arrows.flatMap((it) => [it.row, it.to])), isEarly = (it) => EARLY.includes(it.kind);
    let y = 60;
    return rows.map(({ notes }, index) => {
        if (!isNarrow || !ends.has(index)) {
            const place = { y, above: [], below: notes, down: 4 };
            y += ROW + NOTE * Math.max(0, (isNarrow ? notes.length : most(notes)) - 1);
            return place;
        }
        const labels = arrows.filter((it) => it.row === index).map((it) => ({ which: it.from, kind: 'label', text: it.text, meaning: it.meaning }));
        const above = [...notes.filter(isEarly), ...labels], below = notes.filter((it) => !isEarly(it));
        y += NOTE * above.length;
        const place = { y, above, below, down: NOTE };
        y += 28 + NOTE * below.length;
        return place;
    });
}

// An arrow with its label: in the middle, or if it slopes nearer to the sender, as the arrow does. The label is over it, or below that of an answer, over
// which is the arrow of the question. In a narrow picture the label is among the texts of the row.
function arrow(it, name, lines, places, isNarrow) {
    const [from, to] = [lines[it.from], lines[1 - it.from]], side = Math.sign(to - from), room = Math.abs(to - from);
    const end = it.kind === 'lost' ? (from + to) / 2 : to - 3 * side, y1 = places[it.row].y, y2 = places[it.to].y;
    const part = y1 === y2 && it.kind !== 'lost' ? 0.5 : 0.31, x = from + part * (to - from), on = y1 + part * (y2 - y1);
    const angle = (side * Math.atan2(y2 - y1, Math.abs(end - from)) * 180) / Math.PI;
    const label = { class: 'label', x, y: it.isAnswer ? on + 17 : on - 7, 'text-anchor': 'middle', transform: `rotate(${angle} ${x} ${on})` };
    const line = drawn('line', { x1: from, y1, x2: end, y2, class: `arrow ${it.kind}`, 'marker-end': `url(#tip-${name}-${it.kind})` });
    return isNarrow ? [line] : [line, drawnText(label, it.text, room - 8, it.meaning)];
}

// The texts of a row: its notes, and in a narrow picture the labels of its arrows.
function noteTexts({ y, above, below, down }, lines, width, isNarrow) {
    const counts = [0, 0];
    const text = (it, at) => {
        const isRight = (it.which === 1) !== isNarrow, x = lines[it.which] + (isRight ? 14 : -14);
        const room = isNarrow ? lines[1] - lines[0] - 28 : it.which ? width - x : x - 80;
        const name = it.kind === 'label' ? 'label' : `note ${it.kind}`;
        return drawnText({ class: name, x, y: at, 'text-anchor': isRight ? 'start' : 'end' }, it.text, room, it.meaning);
    };
    const after = (it) => y + down + NOTE * counts[isNarrow ? 0 : it.which]++;
    return [...above.map((it, index) => text(it, y - 7 - NOTE * (above.length - 1 - index))), ...below.map((it) => text(it, after(it)))];
}

// Shows a picture in `box`, and returns it. `rows` have a moment and notes; `arrows` have the rows of their ends. `wide` has the width and the lines of a
// picture with room for notes outside; the picture is as wide as `box`, if that is less.
function diagram({ name, box, heads, rows, arrows, label, wide }) {
    const room = box.clientWidth || wide.width, isNarrow = room < wide.width, width = isNarrow ? room : wide.width;
    const lines = isNarrow ? [84, width - 14] : wide.lines, places = placed(rows, arrows, isNarrow), last = places.at(-1);
    const height = (last?.y ?? 60) + ROW + (isNarrow && last ? NOTE * last.below.length : 0);
    const svg = drawn('svg', { viewBox: `0 0 ${width} ${height}`, width, height, class: isNarrow ? 'narrow' : 'broad', role: 'img',
        'aria-label': label });
    const timed = (at, elements) => {
        for (const element of elements) element.style.setProperty('--at', at);
        return elements;
    };
    svg.innerHTML = markers(name);
    for (const which of [0, 1]) {
        const isLast = isNarrow && which === 1, x = isLast ? width - 2 : lines[which];
        svg.append(drawn('line', { x1: lines[which], y1: 30, x2: lines[which], y2: height - 10, class: 'lifeline' }));
        svg.append(drawn('text', { x, y: 20, class: 'host', 'text-anchor': isLast ? 'end' : 'middle' }, heads[which]));
    }
    const texts = [];
    for (const it of arrows) {
        const [line, ...labels] = timed(rows[it.row].at, arrow(it, name, lines, places, isNarrow));
        svg.append(line);
        texts.push(...labels);
    }
    for (const [index, { at }] of rows.entries()) {
        const place = { x: 2, y: places[index].y + 4, class: 'moment' }, notes = noteTexts(places[index], lines, width, isNarrow);
        if (at !== rows[index - 1]?.at) notes.unshift(drawnText(place, momentText(at), 80, SINCE_FIRST));
        texts.push(...timed(at, notes));
    }
    // The texts are over all arrows.
    svg.append(...texts);
    box.replaceChildren(svg);
    for (const text of svg.querySelectorAll('[data-room]')) shorten(text);
    return svg;
}

const SINCE_FIRST = 'milliseconds since the first node started';
