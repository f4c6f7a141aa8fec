"""The options of a message (RFC 4861, 4.6; RFC 8106, 5; RFC 4191, 2.3), each of one of these classes. An option that is not well formed, or that a
receiver has to ignore, reads as an UnknownOption. Lifetimes are in seconds; LIFETIME_INFINITE has no end."""
from __future__ import annotations

import re
import struct
from dataclasses import dataclass, field
from ipaddress import IPv6Address, IPv6Network
from typing import Callable, ClassVar, Dict, List, Optional, Tuple, Union

from .raw import Preference
from .values import Mac

UNIT = 8
NAME_BYTES, LABEL_BYTES = 255, 63
ADDRESS_BITS = 128
# The flags of a Prefix Information option: L and A (RFC 4861, 4.6.2), and R (RFC 6275, 7.2).
ON_LINK, AUTONOMOUS, ROUTER_ADDRESS, RESERVED_FLAGS = 0x80, 0x40, 0x20, 0x1F
# The preferences of a route (RFC 4191, 2.1). A route with the reserved value is ignored (RFC 4191, 2.3).
PREFERENCES = {0b01: Preference.HIGH, 0b00: Preference.MEDIUM, 0b11: Preference.LOW}


@dataclass(frozen=True)
class LinkLayerAddress:
    """Source or Target Link-Layer Address (RFC 4861, 4.6.1): one of the two classes below."""
    mac: Mac
    number: ClassVar[int]


@dataclass(frozen=True)
class SourceLinkLayerAddress(LinkLayerAddress):
    """Source Link-Layer Address (RFC 4861, 4.6.1)."""
    number: ClassVar[int] = 1


@dataclass(frozen=True)
class TargetLinkLayerAddress(LinkLayerAddress):
    """Target Link-Layer Address (RFC 4861, 4.6.1)."""
    number: ClassVar[int] = 2


@dataclass(frozen=True)
class PrefixInformation:
    """Prefix Information (RFC 4861, 4.6.2). Of the Prefix field `prefix` has the bits up to its length, and `beyond` the others, as a number."""
    prefix: IPv6Network
    valid_lifetime: int
    preferred_lifetime: int
    on_link: bool = False         # L
    autonomous: bool = False      # A
    router_address: bool = False  # R (RFC 6275, 7.2)
    beyond: int = 0
    reserved: int = 0             # the 5 reserved bits of the flags, and the 32 of Reserved2 behind them
    number: ClassVar[int] = 3

    @property
    def as_sent(self) -> IPv6Address:
        """The Prefix field, as it was sent."""
        return IPv6Address(int(self.prefix.network_address) | self.beyond)


@dataclass(frozen=True)
class RedirectedHeader:
    """Redirected Header (RFC 4861, 4.6.3): the beginning of the packet, with what pads it."""
    packet: bytes
    number: ClassVar[int] = 4


@dataclass(frozen=True)
class Mtu:
    """MTU (RFC 4861, 4.6.4), in bytes."""
    mtu: int
    reserved: int = 0
    number: ClassVar[int] = 5


@dataclass(frozen=True)
class RouteInformation:
    """Route Information (RFC 4191, 2.3). A node of this library passes it over. `data` is what is behind the length, as it was sent; two options are
    equal whatever it is."""
    prefix: IPv6Network
    lifetime: int
    preference: Preference = Preference.MEDIUM
    data: bytes = field(default=b"", repr=False, compare=False)
    number: ClassVar[int] = 24


@dataclass(frozen=True)
class RecursiveDnsServers:
    """Recursive DNS Server (RFC 8106, 5.1)."""
    addresses: Tuple[IPv6Address, ...]
    lifetime: int
    number: ClassVar[int] = 25


@dataclass(frozen=True)
class DnsSearchList:
    """DNS Search List (RFC 8106, 5.2): names of labels of small letters, digits, hyphens and underscores, joined by dots."""
    names: Tuple[str, ...]
    lifetime: int
    number: ClassVar[int] = 31


@dataclass(frozen=True)
class UnknownOption:
    """Any other option: its type, and what is behind its length."""
    number: int
    data: bytes


Option = Union[SourceLinkLayerAddress, TargetLinkLayerAddress, PrefixInformation, RedirectedHeader, Mtu, RouteInformation, RecursiveDnsServers,
               DnsSearchList, UnknownOption]


def options_of(content: bytes) -> List[Option]:
    """Returns the options of a valid message, such as `HeardFrame.options`: all are whole, and none has length 0."""
    found = []
    while content:
        size = UNIT * content[1]
        found.append(option_of(content[0], content[2:size]))
        content = content[size:]
    return found


def option_of(number: int, data: bytes) -> Option:
    """Returns an option with this type and with these bytes behind its length."""
    reader = _READERS.get(number)
    return (reader(data) if reader else None) or UnknownOption(number, data)


def _source(data: bytes) -> Optional[Option]:
    return SourceLinkLayerAddress(Mac(data)) if len(data) == 6 else None


def _target(data: bytes) -> Optional[Option]:
    return TargetLinkLayerAddress(Mac(data)) if len(data) == 6 else None


def _prefix(data: bytes) -> Optional[Option]:
    if len(data) != 30 or data[0] > ADDRESS_BITS:
        return None
    bits, flags, valid, preferred, reserved, prefix = struct.unpack(">BBIII16s", data)
    beyond = int.from_bytes(prefix, "big") & ((1 << (ADDRESS_BITS - bits)) - 1)
    return PrefixInformation(IPv6Network((prefix, bits), strict=False), valid, preferred, bool(flags & ON_LINK), bool(flags & AUTONOMOUS),
                             bool(flags & ROUTER_ADDRESS), beyond, (flags & RESERVED_FLAGS) << 32 | reserved)


def _redirected(data: bytes) -> Optional[Option]:
    return RedirectedHeader(data[6:])


def _mtu(data: bytes) -> Optional[Option]:
    if len(data) != 6:
        return None
    reserved, mtu = struct.unpack(">HI", data)
    return Mtu(mtu, reserved)


def _route(data: bytes) -> Optional[Option]:
    """The Prefix field has 0, 8 or 16 bytes, and at least those of the prefix length."""
    bits, flags, lifetime, rest = data[0], data[1], int.from_bytes(data[2:6], "big"), data[6:]
    preference = PREFERENCES.get(flags >> 3 & 3)
    if bits > ADDRESS_BITS or len(rest) not in (0, 8, 16) or 8 * len(rest) < bits or preference is None:
        return None
    return RouteInformation(IPv6Network((rest + bytes(16 - len(rest)), bits), strict=False), lifetime, preference, data)


def _servers(data: bytes) -> Optional[Option]:
    (lifetime,), rest = struct.unpack(">I", data[2:6]), data[6:]
    addresses = tuple(IPv6Address(rest[at:at + 16]) for at in range(0, len(rest) - 15, 16))
    is_good = len(rest) >= 16 and len(rest) % 16 == 0
    if not is_good or any(address.is_multicast or address.is_unspecified or address.is_loopback for address in addresses):
        return None
    return RecursiveDnsServers(addresses, lifetime)


def _names(data: bytes) -> Optional[Option]:
    (lifetime,), rest = struct.unpack(">I", data[2:6]), data[6:]
    names: List[str] = []
    while rest and rest[0] != 0:
        read = _name(rest)
        if read is None:
            return None
        names.append(read[0])
        rest = rest[read[1]:]
    return DnsSearchList(tuple(names), lifetime) if names and not any(rest) else None


def _name(content: bytes) -> Optional[Tuple[str, int]]:
    """Returns a name and how many bytes it takes (RFC 1035, 2.3 and 3.1), or None if there is none."""
    labels, at = [], 0
    while at < len(content) and content[at] != 0:
        end = at + 1 + content[at]
        label = content[at + 1:end]
        if content[at] > LABEL_BYTES or end > len(content) or not re.fullmatch(rb"[A-Za-z0-9_-]+", label):
            return None
        labels.append(label.decode("ascii").lower())
        at = end
    return (".".join(labels), at + 1) if at < len(content) and at + 1 <= NAME_BYTES else None


_READERS: Dict[int, Callable[[bytes], Optional[Option]]] = {
    SourceLinkLayerAddress.number: _source, TargetLinkLayerAddress.number: _target, PrefixInformation.number: _prefix,
    RedirectedHeader.number: _redirected, Mtu.number: _mtu, RouteInformation.number: _route, RecursiveDnsServers.number: _servers,
    DnsSearchList.number: _names}
