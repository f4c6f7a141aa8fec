"""Draws a picture as SVG. Time goes down. Each Ethernet address is a vertical line, each frame an arrow between two of them, or to all for a group;
the states of neighbours are bars at the right."""
from __future__ import annotations

import math
from bisect import bisect_right
from ipaddress import IPv6Address
from typing import Dict, List, Tuple
from xml.sax.saxutils import escape

import nd

from .picture import Arrow, Picture
from .replay import MILLISECOND
from .states import Bar
from .texts import address_text, seconds_text

# Lengths are in pixels.
LEFT, TOP, LANE, ROW, BAR, BAR_GAP, LABEL = 100, 84, 150, 26, 14, 62, 560
LONGEST_GAP = 3 * ROW          # between two rows, however long the time between them is
MILLISECONDS_A_PIXEL = 20      # between these bounds
LABEL_CHARACTERS = 80
CHARACTER = 6.7                # the width of one of 11px monospace, 0.6 em in common fonts, rounded up
SLANT = 30                     # degrees, of the names of neighbours
COLOURS = {nd.Reachability.INCOMPLETE: "#d0d0d0", nd.Reachability.REACHABLE: "#4c9f70", nd.Reachability.STALE: "#e3b23c",
           nd.Reachability.DELAY: "#e07b39", nd.Reachability.PROBE: "#b13e53"}
INK, SENT, OWN, DROPPED, GRID = "#222222", "#2459a8", "#8a8a8a", "#b13e53", "#cccccc"
STYLE = "text { font: 12px sans-serif; fill: #222222 } .small { font-size: 11px } .mono { font: 11px monospace }"


def _lanes(arrows: List[Arrow]) -> List[nd.Mac]:
    """Returns the Ethernet addresses that send, or are one interface's, in the order in which they are seen."""
    seen: Dict[nd.Mac, None] = {}
    for arrow in arrows:
        seen[arrow.source] = None
        if not arrow.destination.is_group:
            seen[arrow.destination] = None
    return list(seen)


def _rows(arrows: List[Arrow], top: float) -> List[float]:
    """Returns the heights of arrows: in proportion to time, but at least ROW and at most LONGEST_GAP apart."""
    heights, y = [], top + ROW
    for index, arrow in enumerate(arrows):
        passed = (arrow.time - arrows[index - 1].time) / MILLISECOND / MILLISECONDS_A_PIXEL if index > 0 else 0.0
        y += min(max(passed, ROW), LONGEST_GAP) if index > 0 else 0.0
        heights.append(y)
    return heights


class Drawing:
    """An SVG that is put together, of a picture."""

    def __init__(self, picture: Picture) -> None:
        self.picture = picture
        self.lanes = {mac: LEFT + LANE * (number + 0.5) for number, mac in enumerate(_lanes(picture.arrows))}
        self.neighbours = sorted({bar.neighbour for bar in picture.bars})
        self.name_length = CHARACTER * max((len(address_text(neighbour)) for neighbour in self.neighbours), default=0)
        self.top = max(TOP, 20 + self.name_length * math.sin(math.radians(SLANT)))
        self.rows = _rows(picture.arrows, self.top)
        self.times = [arrow.time for arrow in picture.arrows]
        self.elements: List[str] = []

    def text(self) -> str:
        """Returns the SVG."""
        last = self.rows[-1] if self.rows else self.top + ROW
        labels = LEFT + LANE * max(len(self.lanes), 1)
        bars = labels + LABEL
        names = BAR_GAP * (len(self.neighbours) - 1) + 20 + self.name_length * math.cos(math.radians(SLANT)) if self.neighbours else 0
        width, height = bars + names, last + 2 * ROW
        self.draw_lanes(last + ROW)
        for arrow, y in zip(self.picture.arrows, self.rows):
            self.draw_arrow(arrow, y, labels)
        self.draw_bars(bars)
        self.add_text(LEFT, last + 1.6 * ROW, self.picture.left_out())
        head = f'<svg xmlns="http://www.w3.org/2000/svg" width="{width:.0f}" height="{height:.0f}" viewBox="0 0 {width:.0f} {height:.0f}">'
        return "\n".join([head, f"<style>{STYLE}</style>", '<rect width="100%" height="100%" fill="white"/>', *self.elements, "</svg>", ""])

    def add_text(self, x: float, y: float, text: str, kind: str = "small", anchor: str = "start") -> None:
        """Adds a text, if it is not empty."""
        if text:
            self.elements.append(f'<text class="{kind}" x="{x:.1f}" y="{y:.1f}" text-anchor="{anchor}">{escape(text)}</text>')

    def add_line(self, begin: Tuple[float, float], end: Tuple[float, float], colour: str, more: str = "") -> None:
        """Adds a line."""
        self.elements.append(f'<line x1="{begin[0]:.1f}" y1="{begin[1]:.1f}" x2="{end[0]:.1f}" y2="{end[1]:.1f}" stroke="{colour}"{more}/>')

    def x_of(self, mac: nd.Mac) -> float:
        """Returns where the line of an Ethernet address is."""
        return self.lanes[mac]

    def draw_lanes(self, bottom: float) -> None:
        """Draws the line of each Ethernet address, with its name above."""
        sent = {arrow.source for arrow in self.picture.arrows if arrow.number == 0}
        for mac in self.lanes:
            self.add_text(self.x_of(mac), self.top - 34, "the node" if mac in sent else "", "small", "middle")
            self.add_text(self.x_of(mac), self.top - 18, str(mac), "mono", "middle")
            self.add_line((self.x_of(mac), self.top - 8), (self.x_of(mac), bottom), GRID)
        self.add_text(LEFT - 14, self.top - 18, "seconds", "small", "end")

    def draw_arrow(self, arrow: Arrow, y: float, labels: float) -> None:
        """Draws a frame: an arrow to its destination, or a line to the last ones at both sides with a head at each; its time, and its line."""
        colour = DROPPED if arrow.line.startswith("drop ") else SENT if arrow.number == 0 else OWN if arrow.is_own else INK
        begin = self.x_of(arrow.source)
        reached = [mac for mac in self.lanes if mac != arrow.source] if arrow.destination.is_group else [arrow.destination]
        dash = ' stroke-dasharray="5 3"' if arrow.destination.is_group else ""
        ends = [self.x_of(mac) for mac in reached]
        for end in sorted({min(ends + [begin]), max(ends + [begin])} - {begin}):
            self.add_line((begin, y), (end, y), colour, dash)
        for end in ends:
            way = 1 if end > begin else -1
            self.elements.append(f'<path d="M {end:.1f} {y:.1f} l {-8 * way} -4 v 8 z" fill="{colour}"/>')
        self.elements.append(f'<circle cx="{begin:.1f}" cy="{y:.1f}" r="3" fill="{colour}"/>')
        self.add_text(LEFT - 14, y + 4, seconds_text(arrow.time - (self.picture.begin or 0), 3), "mono", "end")
        said = arrow.label if len(arrow.label) <= LABEL_CHARACTERS else f"{arrow.label[:LABEL_CHARACTERS - 3]} .."
        self.elements.append(f'<text class="mono" x="{labels:.1f}" y="{y + 4:.1f}" style="fill:{colour}">{escape(said)}'
                             f"<title>{escape(arrow.label)}</title></text>")

    def height_of(self, time: int) -> float:
        """Returns where a time is: that of the last arrow up to it, and between two arrows in proportion."""
        arrows, heights = self.picture.arrows, self.rows
        after = bisect_right(self.times, time)
        if after == 0:
            return self.top
        if after == len(arrows):
            return heights[-1] + (ROW if time > arrows[-1].time else 0)
        part = (time - arrows[after - 1].time) / (arrows[after].time - arrows[after - 1].time)
        return heights[after - 1] + part * (heights[after] - heights[after - 1])

    def draw_bars(self, left: float) -> None:
        """Draws the states of each neighbour, and what the colours are."""
        bars: Dict[IPv6Address, List[Bar]] = {neighbour: [] for neighbour in self.neighbours}
        for bar in self.picture.bars:
            bars[bar.neighbour].append(bar)
        for index, neighbour in enumerate(self.neighbours):
            x = left + BAR_GAP * index
            place = f"translate({x + 4:.1f} {self.top - 4:.1f}) rotate({-SLANT})"
            self.elements.append(f'<text class="mono" transform="{place}">{escape(address_text(neighbour))}</text>')
            for bar in bars[neighbour]:
                begin, end = self.height_of(bar.begin), self.height_of(bar.end)
                size = f'width="{BAR}" height="{max(end - begin, 1):.1f}"'
                self.elements.append(f'<rect x="{x:.1f}" y="{begin:.1f}" {size} fill="{COLOURS[bar.state]}"><title>{bar.state.name}</title></rect>')
        for index, (state, colour) in enumerate(COLOURS.items() if self.neighbours else ()):
            x = LEFT + 120 * index
            self.elements.append(f'<rect x="{x}" y="14" width="{BAR}" height="{BAR}" fill="{colour}"/>')
            self.add_text(x + BAR + 6, 25, state.name)
