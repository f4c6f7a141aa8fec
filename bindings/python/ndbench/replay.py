"""`replay`: a node hears a capture at the capture's own times. What it sends and reports is printed as text, as JSON, or as another capture.

The node's moments are in milliseconds since its start. A packet whose time is before that of an earlier one is heard at the moment of the earlier
one. Packets from the node's own Ethernet address are those of the host that it replaces: they are printed, and not heard."""
from __future__ import annotations

import json
from dataclasses import dataclass, field
from ipaddress import IPv6Address
from typing import Iterable, Iterator, List, Optional, Union

import nd

from .capture import CaptureError, Packet
from .pcapng import Written
from .plain import fields_of
from .sections import BY_SELF, section_by_policies, section_not_for, section_of_drop
from .setup import Setup
from .tables import TABLES
from .texts import frame_text, heard_by_its_role, record_text, seconds_text

MILLISECOND = 10 ** 6    # nanoseconds
LONGEST_GAP = 1 << 40    # milliseconds: 34 years, from a packet to the next one, and from the first to the last
STEP = 86_400_000        # milliseconds: a day: so many records are kept until they are taken


@dataclass(frozen=True)
class Passed:
    """A packet of the capture that the node hears, and the moment at which it does."""
    moment: int
    packet: Packet


@dataclass(frozen=True)
class Own:
    """A packet of the capture from the node's own Ethernet address, which the node does not hear, and its moment."""
    moment: int
    packet: Packet


Event = Union[Passed, Own, nd.Record]
NOT_YET = "our choice: its link-local address is not yet assigned"  # docs/DECISIONS.md
DISABLED = "RFC 4862, 5.4.5"


def moment_of(packet: Packet, first: int, begin: int, last: int) -> int:
    """Returns the moment of a packet, in milliseconds since `begin`, but not before `last`. `begin`, and `first`, that of the first packet, are times
    in nanoseconds. Raises CaptureError if it is more than LONGEST_GAP after `last`, as times that are damaged are, or after the first packet, so that
    the gaps of a capture are no longer than that together."""
    moment, since_first = max((packet.time - begin) // MILLISECOND, last), (packet.time - first) // MILLISECOND
    if moment - last > LONGEST_GAP:
        raise CaptureError(f"packet {packet.number}: its time is {moment - last} ms after that of the packet before")
    if since_first > LONGEST_GAP:
        raise CaptureError(f"packet {packet.number}: its time is {since_first} ms after that of the first packet")
    return moment


class Replay:
    """A node that hears a capture. `before`: how long before the first packet the node starts; `after`: how long it goes on after the last one,
    both in milliseconds. `step`: how long time passes on after a due moment before its records are returned, in milliseconds; with 0 a caller may
    look at the tables between due moments. `first` is the time of the first packet and `begin` that of the start, in nanoseconds since 1970, once a
    packet was read. `polls`: how often the node was polled; between two polls its tables stay as they are."""

    def __init__(self, setup: Setup, before: int = 0, after: int = 0, step: int = STEP) -> None:
        self.setup, self.before, self.after, self.step = setup, before, after, step
        self.node = setup.opened()
        self.first = self.begin = self.polls = 0
        self.is_given = not setup.addresses  # those by hand; before, time passes from one due moment to the next
        self.heard: Optional[Passed] = None

    def events(self, packets: Iterable[Packet]) -> Iterator[Event]:
        """Returns what the node hears, sends and reports, in order."""
        is_first = True
        for packet in packets:
            if is_first:
                self.first, self.begin, is_first = packet.time, packet.time - self.before * MILLISECOND, False
            yield from self.hear(packet)
        yield from self.pass_time(self.node.last_moment() + self.after)

    def hear(self, packet: Packet) -> Iterator[Event]:
        """Lets time pass up to a packet, and passes it to the node if the interface does."""
        moment = moment_of(packet, self.first, self.begin, self.node.last_moment())
        yield from self.pass_time(moment)
        if not packet.skipped and self.setup.is_own(packet.frame):
            yield Own(moment, packet)
        if packet.skipped or not self.setup.hears(packet.frame):
            return
        self.heard = Passed(moment, packet)
        yield self.heard
        self.node.receive(moment, packet.frame)
        yield from self.records()

    def pass_time(self, moment: int) -> Iterator[Event]:
        """Lets time pass: to what is due, and on by `step`, until `moment`."""
        while self.node.next_due() < moment:
            self.node.pass_time(min(self.node.next_due() + (self.step if self.is_given else 0), moment))
            yield from self.records()
        self.node.pass_time(moment)
        yield from self.records()

    def records(self) -> Iterator[nd.Record]:
        """Takes the node's records, and gives it its addresses by hand once that may be."""
        self.polls += 1
        for record in self.node.poll():
            yield record
            self.is_given |= self.setup.give_addresses(self.node, record)

    def rows(self) -> Iterator[str]:
        """Returns the rows of all tables at the last moment."""
        now = self.node.last_moment()
        for show in TABLES[self.setup.options.role].values():
            yield from (f"{now} {row}" for row in show(self.node, now))

    def time_of(self, moment: int) -> int:
        """Returns a moment as a time of the capture, in nanoseconds since 1970. It is not before the packet that was heard last at that moment."""
        time = self.begin + moment * MILLISECOND
        return max(time, self.heard.packet.time) if self.heard is not None and self.heard.moment == moment else time

    def seconds_of(self, time: int) -> str:
        """Returns a time as `judge` prints it: in seconds since the first packet."""
        return seconds_text(time - self.first, 6)

    def section_of(self, dropped: nd.Dropped) -> str:
        """Returns the section that asks to drop the packet that is heard now."""
        if self.heard is None:
            return ""
        frame = self.heard.packet.frame
        return self._section_not_for(frame) if dropped.why is nd.Why.NOT_FOR_US else section_of_drop(dropped.why, frame)

    def _section_not_for(self, frame: bytes) -> str:
        own = {row.address.packed: row.state for row in self.node.addresses(self.node.last_moment())}
        states = {state for address, state in own.items() if IPv6Address(address).is_link_local}
        if nd.State.TENTATIVE in states:
            return NOT_YET
        if nd.State.DUPLICATE in states:
            return DISABLED
        policies, role = self.setup.options.policies, self.setup.options.role
        if nd.Policy.SELF in policies and own.get(frame[22:38]) in (nd.State.PREFERRED, nd.State.DEPRECATED):
            return BY_SELF
        return section_by_policies(policies, role, self.setup.mac, heard_by_its_role(frame)) or section_not_for(role, frame, own)


def line_of(frame: bytes) -> str:
    """Returns the line of `ndpctl check` for a frame."""
    return frame_text(heard_by_its_role(frame))


def text_of(replay: Replay, event: Event) -> str:
    """Returns the line of `ndpctl run` for a record that was just reported. What is behind `#` explains: a packet, a frame that is sent, and the
    section that asks for a drop. Its times are in seconds since the first packet."""
    if isinstance(event, (Passed, Own)):
        whose = ", from its own address, not heard" if isinstance(event, Own) else ""
        return f"# packet {event.packet.number} at {replay.seconds_of(event.packet.time)} s{whose}: {line_of(event.packet.frame)}"
    said = f"{event.moment} {record_text(event)}"
    if isinstance(event, nd.Frame):
        return f"{said}\n# sends at {replay.seconds_of(replay.time_of(event.moment))} s: {line_of(event.frame)}"
    return f"{said}\n# [{replay.section_of(event)}]" if isinstance(event, nd.Dropped) else said


def json_of(replay: Replay, event: Event) -> str:
    """Returns an event that was just reported as a line of JSON: its kind, its moment, its fields, its text, and the section of a drop."""
    if isinstance(event, (Passed, Own)):
        kind = "Own" if isinstance(event, Own) else "Packet"
        return json.dumps({"kind": kind, "moment": event.moment, "number": event.packet.number, "line": line_of(event.packet.frame)})
    said = fields_of(event)
    if isinstance(event, nd.Dropped):
        said["section"] = replay.section_of(event)
    return json.dumps({**said, "line": line_of(event.frame)} if isinstance(event, nd.Frame) else {**said, "text": record_text(event)})


@dataclass
class _Commented:
    """A frame of the capture that is written, with the comments so far."""
    time: int
    frame: bytes
    is_sent: bool
    comments: List[str] = field(default_factory=list)

    def written(self) -> Written:
        """Returns the frame with its comments as lines of one."""
        return Written(self.time, self.frame, self.is_sent, "\n".join(self.comments))


def capture_of(replay: Replay, events: Iterable[Event]) -> Iterator[Written]:
    """Returns the frames that the node hears and sends, with comments: what it reports after a frame, up to the next one. If the capture cannot be
    read to its end, all that came before is returned first."""
    current: Optional[_Commented] = None
    early: List[str] = []
    try:
        for event in events:
            if isinstance(event, (Passed, nd.Frame)):
                if current is not None:
                    yield current.written()
                current = _frame_of(replay, event)
                current.comments += early
                early = []
            elif not isinstance(event, Own):
                (early if current is None else current.comments).append(_comment_of(replay, event))
    except CaptureError:
        if current is not None:
            yield current.written()
        raise
    if current is not None:
        yield current.written()


def _frame_of(replay: Replay, event: Union[Passed, nd.Frame]) -> _Commented:
    if isinstance(event, Passed):
        return _Commented(event.packet.time, event.packet.frame, False)
    return _Commented(replay.time_of(event.moment), event.frame, True, [f"at {event.moment} ms the node sends {line_of(event.frame)}"])


def _comment_of(replay: Replay, record: nd.Record) -> str:
    section = f" [{replay.section_of(record)}]" if isinstance(record, nd.Dropped) else ""
    return f"at {record.moment} ms: {record_text(record)}{section}"
