"""What a picture shows: an arrow for each frame of a capture; and with a node that hears the capture, an arrow for each frame that it sends, and
bars for the states of its neighbours. Frames of the capture from the node's own address are there too. drawing.py draws it."""
from __future__ import annotations

from dataclasses import dataclass
from typing import Iterable, Iterator, List, Optional, Set

import nd

from .capture import CaptureError, Packet
from .replay import Own, Passed, Replay, line_of
from .setup import Setup
from .states import Bar, States
from .texts import counted

MOST_ROWS = 2000
MOST_LANES = 128


@dataclass(frozen=True)
class Arrow:
    """A frame: its time in nanoseconds, its Ethernet addresses, its line, and its number in the capture (0: the node sends it). `is_own`: it is of
    the capture, and from the address of a node that hears the capture."""
    time: int
    source: nd.Mac
    destination: nd.Mac
    line: str
    number: int
    is_own: bool = False

    @property
    def label(self) -> str:
        """The number, if there is one, and the line."""
        return f"{self.number} {self.line}" if self.number else self.line


class Picture:
    """What is drawn: arrows, and bars. Times are shown since `begin`, that of the first packet. Of the first MOST_ROWS frames those are drawn whose
    Ethernet addresses are among the first MOST_LANES, of which `own`, that of a node, is one; the others are counted. `is_drawn`: the newest frame is
    drawn. `error` is that of the first packet that cannot be read: what came before it is drawn."""

    def __init__(self, own: Optional[nd.Mac] = None) -> None:
        self.arrows: List[Arrow] = []
        self.bars: List[Bar] = []
        self.begin: Optional[int] = None
        self.lanes: Set[bytes] = set() if own is None else {bytes(own)}
        self.strangers: Set[bytes] = set()
        self.of_strangers = self.later = 0
        self.is_drawn = True
        self.error: Optional[CaptureError] = None

    def add_packet(self, packet: Packet, is_own: bool = False) -> None:
        """Adds a packet, unless it is skipped, or too short for Ethernet addresses."""
        self.begin = packet.time if self.begin is None else self.begin
        if not packet.skipped and len(packet.frame) >= 12:
            self.add_frame(packet.time, packet.frame, packet.number, is_own)

    def add_frame(self, time: int, frame: bytes, number: int = 0, is_own: bool = False) -> None:
        """Adds the arrow of a frame of at least 12 bytes, or counts it if it is not drawn."""
        ends = {frame[6:12]} if frame[0] & 1 else {frame[6:12], frame[:6]}
        is_later, is_strange = len(self.arrows) + self.of_strangers == MOST_ROWS, len(self.lanes | ends) > MOST_LANES
        self.is_drawn = not is_later and not is_strange
        if self.is_drawn:
            self.lanes |= ends
            self.arrows.append(arrow_of(time, frame, number, is_own))
        elif is_later:
            self.later += 1
        else:
            self.of_strangers += 1
            self.strangers |= ends

    def left_out(self) -> str:
        """Returns how many frames are left out, and why, or an empty text."""
        strangers = counted(len(self.strangers - self.lanes), "more station")
        notes = ((self.of_strangers, f"{counted(self.of_strangers, 'frame')} of {strangers}"), (self.later, counted(self.later, "later frame")))
        return "; ".join(f"{what} {'is' if count == 1 else 'are'} left out" for count, what in notes if count > 0)


def arrow_of(time: int, frame: bytes, number: int = 0, is_own: bool = False) -> Arrow:
    """Returns the arrow of a frame of at least 12 bytes."""
    return Arrow(time, nd.Mac(frame[6:12]), nd.Mac(frame[:6]), line_of(frame), number, is_own)


def picture_of(packets: Iterable[Packet]) -> Picture:
    """Returns the picture of a capture alone."""
    made = Picture()
    try:
        for packet in packets:
            made.add_packet(packet)
    except CaptureError as error:
        made.error = error
    return made


def picture_with_node(packets: Iterable[Packet], setup: Setup, before: int = 0, after: int = 0) -> Picture:
    """Returns the picture of a capture with a node that hears it: all packets, what the node sends, and its neighbours after each event,
    unless the frame of the event is not drawn."""
    made, replay, states = Picture(setup.mac), Replay(setup, before, after, step=0), States()
    try:
        for event in replay.events(_drawn(packets, setup, made)):
            if isinstance(event, nd.Frame):
                made.add_frame(replay.time_of(event.moment), event.frame)
            if made.is_drawn and not isinstance(event, (Passed, Own)):
                states.look(replay)
    except CaptureError as error:
        made.error = error
    made.bars = states.bars(replay.time_of(replay.node.last_moment()))
    made.arrows.sort(key=lambda arrow: arrow.time)
    return made


def _drawn(packets: Iterable[Packet], setup: Setup, made: Picture) -> Iterator[Packet]:
    for packet in packets:
        made.add_packet(packet, setup.is_own(packet.frame))
        yield packet
