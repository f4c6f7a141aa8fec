"""`judge`: what each frame of a capture is, by itself, to the role that takes its message."""
from __future__ import annotations

import json
from dataclasses import dataclass, field
from typing import Any, Dict, Iterable, Iterator, List, Optional

import nd

from .capture import Packet
from .plain import plain
from .remarks import Remark, remarks_of
from .sections import section_of_drop
from .texts import counted, frame_text, heard_by_its_role, reason_text, seconds_text


@dataclass(frozen=True)
class Judgement:
    """What a packet is. `line` is that of `ndpctl check`, or empty if the packet is skipped; `section` is that of a drop; `message` that of a valid
    frame."""
    packet: Packet
    line: str
    why: Optional[nd.Why] = None
    section: str = ""
    remarks: List[Remark] = field(default_factory=list)
    message: Optional[nd.Message] = None


@dataclass
class Counts:
    """How many packets were judged, by what they are."""
    valid: int = 0
    other: int = 0
    dropped: int = 0
    skipped: int = 0
    odd: int = 0

    def add(self, judgement: Judgement) -> None:
        """Counts a packet."""
        self.skipped += judgement.line == ""
        self.dropped += judgement.why is not None
        self.other += judgement.line.startswith("other ")
        self.odd += judgement.remarks != []
        self.valid += judgement.line != "" and judgement.why is None and not judgement.line.startswith("other ")

    def text(self) -> str:
        """Returns the counts as a line."""
        messages, others = counted(self.valid, "message"), counted(self.other, "other packet")
        return f"{messages} ({self.odd} with remarks), {others}, {self.dropped} dropped, {self.skipped} skipped"


def judge(packets: Iterable[Packet]) -> Iterator[Judgement]:
    """Returns what each packet is."""
    return map(judgement_of, packets)


def judgement_of(packet: Packet) -> Judgement:
    """Returns what a packet is."""
    if packet.skipped:
        return Judgement(packet, "")
    heard = heard_by_its_role(packet.frame)
    section = section_of_drop(heard.why, packet.frame) if heard.why is not None else ""
    return Judgement(packet, frame_text(heard), heard.why, section, remarks_of(packet.frame, heard), heard.message)


def text_of(judgement: Judgement, begin: int) -> str:
    """Returns the lines of a packet: its number, its time in seconds since `begin`, its line, the section of a drop, and a line for each remark."""
    packet = judgement.packet
    said = f"{judgement.line} [{judgement.section}]" if judgement.section else judgement.line or f"skipped: {packet.skipped}"
    lines = [f"{packet.number} {seconds_text(packet.time - begin, 6)} {said}"]
    lines += [f"    odd: {remark.text} [{remark.section}]" for remark in judgement.remarks]
    return "\n".join(lines)


def json_of(judgement: Judgement) -> str:
    """Returns a packet as a line of JSON: its time is in seconds since 1970. The message of a valid frame has its fields and its options, each with
    its class in `nd` as `kind`."""
    packet = judgement.packet
    said: Dict[str, Any] = {"number": packet.number, "time": seconds_text(packet.time, 9)}
    if packet.skipped:
        return json.dumps({**said, "skipped": packet.skipped})
    if packet.vlans:
        said["vlans"] = list(packet.vlans)
    said["line"] = judgement.line
    if judgement.message is not None:
        said["message"] = plain(judgement.message)
    if judgement.why is not None:
        said.update(why=int(judgement.why), reason=reason_text(judgement.why), section=judgement.section)
    if judgement.remarks:
        said["remarks"] = [{"text": remark.text, "section": remark.section} for remark in judgement.remarks]
    return json.dumps(said)
