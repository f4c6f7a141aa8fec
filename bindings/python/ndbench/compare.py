"""`compare`: what another stack, a host, sent in a capture, against what a node of the same Ethernet address sends when it hears the same frames.

The delay of a host's first detection is random (RFC 4862, 5.4.2), so the node starts at such a time that the first detection of both falls together;
if the capture begins behind the stack's detection, the first Router Solicitation of both. `--before` sets another start. If the stack's first message
is none of these, the capture does not have its start: the node starts SETTLED ms before the first packet, and what it sends before that packet is not
compared. Such a node does not know what the stack heard before the capture.

The node cannot know what the stack's upper layers do, so the capture has to have all packets of the stack. The node is asked for a path
(`Node.resolve`) where the stack had a packet: when it solicits a neighbour, and when it sends another packet. If the node probes a neighbour and the
stack does not, the stack's upper layers have confirmed it (RFC 4861, 7.3.1): then the node's neighbour is confirmed too, and its probe is not
compared. The messages of both are sorted by what they are for, and the nth of the stack is compared with the nth of the node. Options that a receiver
passes over are not compared (RFC 4861, 4.6).

An address that the stack was given by hand is given to the node too (`--address`), once the node's link-local address is assigned. So the node tries
it later than a stack that tries both at a time: when it does is not compared, and the stack may have tried it before the capture."""
from __future__ import annotations

import json
from collections import defaultdict
from dataclasses import dataclass
from enum import Enum
from ipaddress import IPv6Address
from itertools import zip_longest
from typing import Dict, Iterable, Iterator, List, Optional, Tuple

import nd

from .capture import Packet
from .replay import MILLISECOND, moment_of
from .sections import section_of_drop
from .setup import Setup
from .texts import frame_text, heard_by_its_role, is_passed_over, message_text, seconds_text


# Milliseconds that may lie between a message of the stack and that of the node.
TOLERANCE = 1500
# Milliseconds after which a host that hears nothing has its link-local address, and solicits routers no longer: a delay of at most 1 s, at most 8
# detections a second apart (RFC 4862, 5.4.2 and 5.1), and three solicitations 4 s apart (RFC 4861, 10).
SETTLED = 20_000


class NothingSent(ValueError):
    """The stack sends no message of Neighbor Discovery in the capture."""


class Purpose(Enum):
    """What a message is for, and the section that asks to send it."""
    DETECTION = "RFC 4862, 5.4.2"
    RESOLUTION = "RFC 4861, 7.2.2"
    PROBE = "RFC 4861, 7.3.3"
    ANSWER = "RFC 4861, 7.2.4"
    ANNOUNCEMENT = "RFC 4861, 7.2.4 and 7.2.6"
    ROUTER_SOLICITATION = "RFC 4861, 6.3.7"
    ROUTER_ADVERTISEMENT = "RFC 4861, 6.2"
    REDIRECT = "RFC 4861, 8.2"
    DROPPED = ""  # a message that each receiver drops: the section is that of the drop


@dataclass(frozen=True)
class Message:
    """A message that one of both sends: its moment in milliseconds, its line without unknown options, and the packet's number in the capture (0:
    the node sends it). `about` is the address that it asks for or answers."""
    moment: int
    line: str
    purpose: Purpose
    about: Tuple[IPv6Address, ...]
    section: str
    packet: int


@dataclass(frozen=True)
class Difference:
    """A message that only one of both sends, or that they send with other contents, or at moments too far apart."""
    what: str
    stack: Optional[Message]
    node: Optional[Message]

    @property
    def moment(self) -> int:
        """The moment of the earlier message, in milliseconds."""
        return min(message.moment for message in (self.stack, self.node) if message is not None)

    @property
    def section(self) -> str:
        """The section that asks to send the message."""
        return next(message.section for message in (self.stack, self.node) if message is not None)


def message_of(moment: int, frame: bytes, packet: int) -> Optional[Message]:
    """Returns the message of a frame, or None if it is another packet."""
    heard = heard_by_its_role(frame)
    if heard.hearing is nd.Hearing.OTHER:
        return None
    if heard.why is not None:
        return Message(moment, frame_text(heard), Purpose.DROPPED, (), section_of_drop(heard.why, frame), packet)
    purpose, about = purpose_of(heard)
    known = [option for option in nd.options_of(heard.options) if not is_passed_over(option)]
    return Message(moment, message_text(heard, known), purpose, about, purpose.value, packet)


def purpose_of(heard: nd.HeardFrame) -> Tuple[Purpose, Tuple[IPv6Address, ...]]:
    """Returns what a valid message is for, and whom it is about."""
    if heard.message_type == 135:
        if heard.source.is_unspecified:
            return Purpose.DETECTION, (heard.target,)
        return (Purpose.RESOLUTION if heard.destination.is_multicast else Purpose.PROBE), (heard.target,)
    if heard.message_type == 136:
        is_for_all = heard.destination.is_multicast
        return (Purpose.ANNOUNCEMENT, (heard.target,)) if is_for_all else (Purpose.ANSWER, (heard.target, heard.destination))
    if heard.message_type == 137:
        return Purpose.REDIRECT, (heard.redirected,)
    return (Purpose.ROUTER_SOLICITATION, ()) if heard.message_type == 133 else (Purpose.ROUTER_ADVERTISEMENT, ())


class Survey:
    """What a first reading of a capture finds of the stack. Times are in nanoseconds since 1970. `begin`: that of the first packet; `first`: that of
    the stack's first message, or None if it sends none; `probes`: those at which it probes each neighbour. `start`: the purpose of the message with
    which the stack starts, at `start_time`, or None if the capture does not have its start."""

    def __init__(self, setup: Setup) -> None:
        self.setup = setup
        self.begin: Optional[int] = None
        self.first: Optional[int] = None
        self.start: Optional[Purpose] = None
        self.start_time: Optional[int] = None
        self.probes: Dict[IPv6Address, List[int]] = defaultdict(list)

    def take(self, packet: Packet) -> None:
        """Takes a packet."""
        self.begin = packet.time if self.begin is None else self.begin
        is_stack = not packet.skipped and self.setup.is_own(packet.frame)
        message = message_of(0, packet.frame, packet.number) if is_stack else None
        if message is None:
            return
        self.first = packet.time if self.first is None else self.first
        if message.purpose is Purpose.PROBE:
            self.probes[message.about[0]].append(packet.time)
        # A host may solicit routers before it has an address (RFC 4861, 4.1), and try one that it was given by hand: what is behind is looked at.
        if self.start_time is None and not message.line.startswith("rs :: ") and not is_of_given(self.setup, message):
            self.start, self.start_time = start_of(message), packet.time

    def node_begin(self, before: Optional[int]) -> int:
        """Returns when the node starts: `before` ms before the stack's first message, or if that is None as the head of this file has it."""
        first = self.first or 0
        if before is not None:
            return first - before * MILLISECOND
        if self.start is None or self.start_time is None:
            return (self.begin or 0) - SETTLED * MILLISECOND
        return min(first, self.start_time - first_moment(self.setup, self.start) * MILLISECOND)


def start_of(message: Message) -> Optional[Purpose]:
    """Returns the purpose of a message with which a host starts, or None for any other message."""
    is_detection = message.purpose is Purpose.DETECTION and message.about[0].is_link_local
    return message.purpose if is_detection or message.purpose is Purpose.ROUTER_SOLICITATION else None


def is_of_given(setup: Setup, message: Message) -> bool:
    """Returns true for a detection of an address that the node is given by hand."""
    return message.purpose is Purpose.DETECTION and message.about[0] in setup.addresses


def first_moment(setup: Setup, purpose: Purpose) -> int:
    """Returns when a node that hears nothing sends its first message for this purpose, in milliseconds since its start."""
    with setup.opened() as node:
        while node.next_due() < SETTLED:
            node.pass_time(node.next_due())
            for record in node.poll():
                message = message_of(record.moment, record.frame, 0) if isinstance(record, nd.Frame) else None
                if message is not None and message.purpose is purpose:
                    return message.moment
    return 0


class Comparison:
    """Passes a capture to a node, and compares. `survey`: of the whole capture. `tolerance`: milliseconds that may lie between both. `before`: how
    long before the stack's first message the node starts, in milliseconds; None: so that both start together. `begin` is the time of its start."""

    def __init__(self, setup: Setup, survey: Survey, tolerance: int, before: Optional[int] = None) -> None:
        self.setup, self.survey, self.tolerance = setup, survey, tolerance
        self.begin = survey.node_begin(before)
        self.node = setup.opened()
        self.is_begun = False
        self.end = 0  # the moment of the last packet
        self.stack_messages: List[Message] = []
        self.node_messages: List[Message] = []

    def take(self, packet: Packet) -> None:
        """Takes a packet of the capture: the node hears it, or the stack sent it. Those before the node's start are passed over."""
        self.is_begun |= packet.time >= self.begin
        if packet.skipped or not self.is_begun:
            return
        now = moment_of(packet, self.survey.begin or 0, self.begin, self.node.last_moment())
        self.pass_time(now)
        if self.setup.is_own(packet.frame):
            self.take_stack(now, packet)
        elif self.setup.hears(packet.frame):
            self.node.receive(now, packet.frame)
        self.take_sent()

    def pass_time(self, now: int) -> None:
        """Lets time pass, one due moment after another, so that a neighbour is confirmed before it fails."""
        while self.node.next_due() < now:
            self.node.pass_time(self.node.next_due())
            self.take_sent()
        self.node.pass_time(now)
        self.take_sent()

    def finish(self) -> None:
        """Lets time pass after the last packet, in which the node may send what the stack has sent a little earlier."""
        self.end = self.node.last_moment()
        self.pass_time(self.end + min(self.tolerance, SETTLED))

    def take_stack(self, now: int, packet: Packet) -> None:
        """Takes a frame that the stack sent, and asks the node for a path if the stack had a packet to send."""
        message, heard = message_of(now, packet.frame, packet.number), heard_by_its_role(packet.frame)
        if message is None:
            if not heard.destination.is_multicast:
                self.node.resolve(now, heard.destination)
            return
        self.stack_messages.append(message)
        if message.purpose is Purpose.RESOLUTION:
            self.node.resolve(now, heard.target)

    def take_sent(self) -> None:
        """Takes the messages that the node sends, without those before the first packet if the capture begins behind the stack's detection."""
        for record in self.node.poll():
            self.setup.give_addresses(self.node, record)
            message = message_of(record.moment, record.frame, 0) if isinstance(record, nd.Frame) else None
            if message is None:
                continue
            if self.survey.start is Purpose.DETECTION or self.time_of(message.moment) >= (self.survey.begin or 0):
                self.node_messages.append(message)
            if message.purpose is Purpose.PROBE and not self.is_probed(message):
                self.node.confirm(self.node.last_moment(), message.about[0])

    def is_probed(self, probe: Message) -> bool:
        """Returns true if the stack probes the neighbour too, as long before or after as is tolerated."""
        time, others = self.time_of(probe.moment), self.survey.probes.get(probe.about[0], ())
        return any(abs(time - other) <= self.tolerance * MILLISECOND for other in others)

    def time_of(self, moment: int) -> int:
        """Returns a moment of the node as a time of the capture, in nanoseconds since 1970."""
        return self.begin + moment * MILLISECOND

    @property
    def has_start(self) -> bool:
        """True if the capture has the stack's start. If not, the node does not know what the stack heard before."""
        return self.survey.start is not None

    def differences(self) -> List[Difference]:
        """Returns the differences, the earliest first. `finish` was called."""
        pairs = _sorted(self.stack_messages), _sorted(self.node_messages)
        found: List[Difference] = []
        for key in {**pairs[0], **pairs[1]}:
            for stack, node in zip_longest(pairs[0].get(key, []), pairs[1].get(key, [])):
                what = self.difference_of(stack, node)
                if what:
                    found.append(Difference(what, stack, node))
        return sorted(found, key=lambda difference: difference.moment)

    def difference_of(self, stack: Optional[Message], node: Optional[Message]) -> str:
        """Returns what is different between two messages, or an empty text."""
        if node is None:
            return "only the other stack sends it" if stack is not None and stack.purpose is not Purpose.DROPPED else "each receiver drops it"
        is_given = is_of_given(self.setup, node)
        if stack is None:
            is_open = node.moment + self.tolerance > self.end
            return "" if is_open or is_given or node.purpose is Purpose.PROBE else "only the node sends it"
        if stack.line != node.line:
            return "the contents are different"
        apart = abs(stack.moment - node.moment)
        return f"{apart} ms lie between both" if apart > self.tolerance and not is_given else ""


def compared(packets: Iterable[Packet], setup: Setup, tolerance: int = TOLERANCE, before: Optional[int] = None) -> Comparison:
    """Returns the comparison of a whole capture, in the order of its packets: `differences()` are what differs, and `stack_messages` what the stack
    sent. The Ethernet address of `setup` is that of the stack. Raises NothingSent if the stack sent no message, and CaptureError for times that are
    too far apart."""
    captured = list(packets)
    survey = Survey(setup)
    for packet in captured:
        survey.take(packet)
    if survey.first is None:
        raise NothingSent(f"{setup.mac} sends no message of Neighbor Discovery")
    made = Comparison(setup, survey, tolerance, before)
    for packet in captured:
        made.take(packet)
    made.finish()
    return made


def _sorted(messages: Iterable[Message]) -> Dict[Tuple[Purpose, Tuple[IPv6Address, ...]], List[Message]]:
    """Returns messages by what they are for and whom they are about."""
    found = defaultdict(list)
    for message in messages:
        found[message.purpose, message.about].append(message)
    return dict(found)


def text_of(made: Comparison, difference: Difference) -> Iterator[str]:
    """Returns the lines of a difference. Milliseconds are since the node's start, and seconds since the first packet."""
    seconds = seconds_text(made.time_of(difference.moment) - (made.survey.begin or 0), 3)
    yield f"at {difference.moment} ms ({seconds} s): {difference.what} [{difference.section}]"
    for who, message in (("other stack", difference.stack), ("node", difference.node)):
        at = f"packet {message.packet}, at" if message is not None and message.packet else "at"
        yield f"    {who}: " + (f"{at} {message.moment} ms: {message.line}" if message is not None else "nothing")


def json_of(made: Comparison, difference: Difference) -> str:
    """Returns a difference as a line of JSON. Its moment is in milliseconds since the node's start, and its time in seconds since 1970."""
    said = {who: {"moment": message.moment, "line": message.line, **({"packet": message.packet} if message.packet else {})}
            for who, message in (("stack", difference.stack), ("node", difference.node)) if message is not None}
    time = seconds_text(made.time_of(difference.moment), 9)
    return json.dumps({"moment": difference.moment, "time": time, "what": difference.what, "section": difference.section, **said})
