"""What a node reports: records, each of one of these classes with the moment at which it was due or its event arrived, in milliseconds."""
from __future__ import annotations

from dataclasses import dataclass
from ipaddress import IPv6Address
from typing import Callable, Dict, Optional, Union

from . import raw
from .raw import Kind, Limit, Loss, Refusal, Why
from .values import Mac, address_of


@dataclass(frozen=True)
class Frame:
    """Send this frame."""
    moment: int
    frame: bytes


@dataclass(frozen=True)
class Heard:
    """A valid message of this ICMPv6 type, 133 to 137, was received."""
    moment: int
    source: IPv6Address
    message_type: int


@dataclass(frozen=True)
class Dropped:
    """A frame was dropped."""
    moment: int
    why: Why


@dataclass(frozen=True)
class Up:
    """A packet for the upper layer, from its IPv6 header on."""
    moment: int
    packet: bytes


@dataclass(frozen=True)
class Duplicate:
    """The node's address is another node's too, and is not used (RFC 4862, 5.4.5)."""
    moment: int
    address: IPv6Address


@dataclass(frozen=True)
class Assigned:
    """The node's address may be used (RFC 4862, 5.4)."""
    moment: int
    address: IPv6Address


@dataclass(frozen=True)
class EndedAddress:
    """The node's address is gone: its valid lifetime has ended (RFC 4862, 5.5.4), or it was removed."""
    moment: int
    address: IPv6Address


@dataclass(frozen=True)
class EndedRouter:
    """The router left the default router list (RFC 4861, 6.3.5), or by `Policy.STRICT` is a router no longer (7.3.3)."""
    moment: int
    router: IPv6Address


@dataclass(frozen=True)
class Failed:
    """The neighbour was not resolved or not reached, and is removed (RFC 4861, 7.2.2 and 7.3.3)."""
    moment: int
    neighbour: IPv6Address


@dataclass(frozen=True)
class Lost:
    """A packet is not sent. Its bytes begin with its IPv6 header."""
    moment: int
    loss: Loss
    packet: bytes


@dataclass(frozen=True)
class Refused:
    """An event was refused: time has passed up to it, and nothing else has changed."""
    moment: int
    refusal: Refusal
    source: Optional[IPv6Address] = None  # of Refusal.NOT_OURS
    limit: Optional[Limit] = None         # of Refusal.FULL


@dataclass(frozen=True)
class Resolved:
    """The link-layer address of a neighbour is known, for which `Node.resolve` had none (RFC 4861, 7.2.2)."""
    moment: int
    neighbour: IPv6Address
    mac: Mac


@dataclass(frozen=True)
class Ignored:
    """Parts of a message were passed over, for which a table has no room."""
    moment: int
    limit: Limit


@dataclass(frozen=True)
class Other:
    """A kind of a later version."""
    moment: int
    kind: int
    code: int


Record = Union[Frame, Heard, Dropped, Up, Duplicate, Assigned, EndedAddress, EndedRouter, Failed, Lost, Refused, Resolved, Ignored, Other]

_WITH_BYTES: Dict[int, Callable[[int, bytes], Record]] = {Kind.FRAME: Frame, Kind.UP: Up}
_WITH_ADDRESS: Dict[int, Callable[[int, IPv6Address], Record]] = {
    Kind.DUPLICATE: Duplicate, Kind.ASSIGNED: Assigned, Kind.ENDED_ADDRESS: EndedAddress, Kind.ENDED_ROUTER: EndedRouter, Kind.FAILED: Failed}


def record_of(out: raw.nd_out, content: bytes) -> Record:
    """Returns the record of a structure with its bytes."""
    kind, moment, address = out.kind, out.moment, address_of(out.address)
    if kind in _WITH_BYTES:
        return _WITH_BYTES[kind](moment, content)
    if kind in _WITH_ADDRESS:
        return _WITH_ADDRESS[kind](moment, address)
    if kind == Kind.HEARD:
        return Heard(moment, address, out.code)
    if kind == Kind.DROPPED:
        return Dropped(moment, Why(out.code))
    if kind == Kind.LOST:
        return Lost(moment, Loss(out.code), content)
    if kind == Kind.REFUSED:
        return _refused(out, address)
    if kind == Kind.RESOLVED:
        return Resolved(moment, address, Mac(content))
    if kind == Kind.IGNORED:
        return Ignored(moment, Limit(out.limit))
    return Other(moment, kind, out.code)


def _refused(out: raw.nd_out, address: IPv6Address) -> Refused:
    source = address if out.code == Refusal.NOT_OURS else None
    limit = Limit(out.limit) if out.code == Refusal.FULL else None
    return Refused(out.moment, Refusal(out.code), source, limit)
