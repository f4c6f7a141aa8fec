// Frames as arrows between the lines of stations, one for each Ethernet address, with what is said next to them. Time runs downwards.

const WIDE_STATIONS = 1000, LANES_AT = 110, NARROW_LANES_AT = 84, LANES_WIDTH = 420, WIDEST_LANE = 120, NAMED_LANE = 76, MOST_STATIONS = 12;
const HEADS = 24, NAMED_HEADS = 54, HEAD = 8;
const LETTERS = 'ABCDEFGHIJKLMNOPQRSTUVWXYZ';

// Returns the Ethernet addresses of the ends of rows, `own` first, in the order in which they are seen.
function stationsOf(rows, own) {
    return [...new Set([own, ...rows.flatMap(({ from, to }) => [from, to]).filter(Boolean)])];
}

// Returns the names of the lines: letters, and one for all stations that have no line of their own.
function laneNames(stations) {
    return stations.length > MOST_STATIONS ? [...LETTERS.slice(0, MOST_STATIONS - 1), 'others'] : [...LETTERS.slice(0, stations.length)];
}

// Where the lines are, and the texts.
function laneLayout(box, stations) {
    const room = box.clientWidth || WIDE_STATIONS, isNarrow = room < WIDE_STATIONS, names = laneNames(stations), gaps = Math.max(names.length - 1, 1);
    const width = isNarrow ? room : WIDE_STATIONS, left = isNarrow ? NARROW_LANES_AT : LANES_AT;
    const right = isNarrow ? width - 14 : left + Math.min(LANES_WIDTH, gaps * WIDEST_LANE);
    const lanes = names.map((_, index) => left + (index * (right - left)) / gaps), texts = isNarrow ? left + 4 : lanes.at(-1) + 24;
    const isNamed = !isNarrow && (right - left) / gaps >= NAMED_LANE;
    return { isNarrow, width, names, lanes, isNamed, top: isNamed ? NAMED_HEADS : HEADS, texts, room: width - texts - 4 };
}

// The heads of the lines: a letter, and the Ethernet address if there is room for it. The first line is that of the host here.
function laneHeads({ isNarrow, names, lanes, isNamed }, stations) {
    const text = (x, y, name, said, anchor = 'middle') => drawn('text', { x, y, class: name, 'text-anchor': anchor }, said);
    const own = isNarrow ? [2, 16, 'host', 'A: this host', 'start'] : [lanes[0], 16, 'host', 'A: this host'];
    return names.flatMap((name, index) => {
        const parts = isNamed && name.length === 1 ? [stations[index].slice(0, 8), stations[index].slice(8)] : [];
        const letter = index > 0 ? [lanes[index], 16, 'host', name] : own;
        return [text(...letter), ...parts.map((part, line) => text(lanes[index], 33 + 15 * line, 'moment', part))];
    });
}

// The head of an arrow at a line.
const arrowHead = (x, y, side, kind) => drawn('path', { d: `M${x} ${y}l${-HEAD * side} -4v8z`, class: `head ${kind}` });

// The dot at which a frame begins, or at which the host says something.
const dot = (x, y, kind) => drawn('circle', { cx: x, cy: y, r: 3, class: `head ${kind}` });

// The arrow of a frame from a line to another one, or of one to a group to all others, with a head at each.
function laneArrow({ kind, to }, begin, reached, y) {
    const ends = reached.filter((it) => it !== begin), line = { x1: Math.min(begin, ...ends), y1: y, x2: Math.max(begin, ...ends), y2: y };
    const dash = to ? {} : { 'stroke-dasharray': '5 3' };
    const heads = ends.map((end) => arrowHead(end, y, Math.sign(end - begin), kind));
    return [drawn('line', { ...line, class: `arrow ${kind}`, ...dash }), dot(begin, y, kind), ...heads];
}

// Where the texts of a row are, and its arrow, from a height on. In a narrow picture the first text is above the arrow, else they are next to it.
function rowPlace({ texts, from }, y, isNarrow) {
    const isOver = isNarrow && from, middle = isOver ? y + 12 : y;
    const heights = texts.map((_, line) => (isOver ? y + 4 + NOTE * line + (line > 0 ? 8 : 0) : y + 4 + NOTE * line));
    return { middle, heights, next: Math.max(middle + 26, heights.at(-1) + 24) };
}

// Shows a picture in `box`, and returns the stations in the order of their lines, of which `own` is the first. A row has a moment, texts, and, if it
// is a frame, its `kind`, `from` and `to`, which is null for a group.
function stationDiagram({ box, own, rows, label }) {
    const stations = stationsOf(rows, own), layout = laneLayout(box, stations), { isNarrow, width, lanes } = layout;
    const laneOf = (station) => lanes[Math.min(stations.indexOf(station), lanes.length - 1)];
    const svg = drawn('svg', { class: isNarrow ? 'narrow' : 'broad', role: 'img', 'aria-label': label }), arrows = [], said = [];
    let y = layout.top + 20;
    for (const [index, row] of rows.entries()) {
        const { middle, heights, next } = rowPlace(row, y, isNarrow);
        const reached = row.to ? [laneOf(row.to)] : lanes.filter((it) => it !== laneOf(row.from ?? own));
        arrows.push(...(row.from ? laneArrow(row, laneOf(row.from), reached, middle) : [dot(lanes[0], middle, 'given')]));
        if (row.at !== rows[index - 1]?.at) said.push(drawnText({ x: 2, y: middle + 4, class: 'moment' }, momentText(row.at), 80, SINCE_FIRST));
        said.push(...row.texts.map((it, line) => drawnText({ x: layout.texts, y: heights[line], class: it.kind }, it.text, layout.room, it.meaning)));
        y = next;
    }
    const lines = lanes.map((x) => drawn('line', { x1: x, y1: layout.top, x2: x, y2: y, class: 'lifeline' }));
    svg.append(...lines, ...laneHeads(layout, stations), ...arrows, ...said);
    for (const [name, value] of Object.entries({ viewBox: `0 0 ${width} ${y + 10}`, width, height: y + 10 })) svg.setAttribute(name, value);
    box.replaceChildren(svg);
    for (const text of svg.querySelectorAll('[data-room]')) shorten(text);
    return stations;
}
