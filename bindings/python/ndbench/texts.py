"""The texts of docs/FORMATS.md: the line of a frame, as `ndpctl check` prints it, and that of a record, as `ndpctl run` does."""
from __future__ import annotations

from enum import IntEnum
from ipaddress import IPv6Address, IPv6Network
from typing import List, Optional

import nd

from .capture import NANOSECONDS

MESSAGES = {133: "rs", 134: "ra", 135: "ns", 136: "na", 137: "redirect"}
ROUTER_SOLICITATION = 133
ICMPV6 = 58
LINK_LAYER_WORDS = {nd.SourceLinkLayerAddress.number: "slla", nd.TargetLinkLayerAddress.number: "tlla"}


def address_text(address: IPv6Address) -> str:
    """Returns an address by RFC 5952, all of it in hexadecimal groups: `str` of some versions of Python prints a part of ::ffff:0:0/96 with dots."""
    groups = [int.from_bytes(address.packed[at:at + 2], "big") for at in range(0, 16, 2)]
    best, length = 0, 1
    for at in range(8):
        zeros = next((count for count in range(8 - at) if groups[at + count] != 0), 8 - at)
        if zeros > length:
            best, length = at, zeros
    words = [f"{group:x}" for group in groups]
    if length == 1:
        return ":".join(words)
    return f"{':'.join(words[:best])}::{':'.join(words[best + length:])}"


def network_text(network: IPv6Network) -> str:
    """Returns a prefix and its length."""
    return f"{address_text(network.network_address)}/{network.prefixlen}"


def word_of(number: IntEnum) -> str:
    """Returns the word of a number: small letters, with hyphens."""
    return "routes" if number is nd.Limit.STATIC_ROUTES else number.name.lower().replace("_", "-")


def reason_text(why: nd.Why) -> str:
    """Returns the name of a reason to drop a frame."""
    return "".join(word.capitalize() for word in why.name.split("_"))


def flags_text(**flags: bool) -> str:
    """Returns the letters of the flags that are set, or a hyphen."""
    return "".join(letter for letter, is_set in flags.items() if is_set) or "-"


def counted(count: int, word: str) -> str:
    """Returns a count and its word, with an s unless there is one."""
    return f"{count} {word}{'' if count == 1 else 's'}"


def seconds_text(nanoseconds: int, digits: int) -> str:
    """Returns a time in seconds, with this many decimals, the others cut."""
    sign, rest = ("-", -nanoseconds) if nanoseconds < 0 else ("", nanoseconds)
    return f"{sign}{rest // NANOSECONDS}.{rest % NANOSECONDS // 10 ** (9 - digits):0{digits}}"


# ---- frames


def message_type(frame: bytes) -> Optional[int]:
    """Returns the type of the message of Neighbor Discovery that a frame has, valid or not, or None if it has none."""
    if len(frame) <= 54 or frame[12:14] != b"\x86\xdd" or frame[20] != ICMPV6:
        return None
    return frame[54] if frame[54] in MESSAGES else None


def heard_by_its_role(frame: bytes) -> nd.HeardFrame:
    """Returns what a frame is to the role that takes its message: a router takes a Router Solicitation, a host all others."""
    return nd.hear(frame, nd.Role.ROUTER if message_type(frame) == ROUTER_SOLICITATION else nd.Role.HOST)


def frame_text(heard: nd.HeardFrame) -> str:
    """Returns the line of `ndpctl check`."""
    if heard.hearing is nd.Hearing.DROP and heard.why is not None:
        return f"drop {int(heard.why)} {reason_text(heard.why)}"
    if heard.hearing is not nd.Hearing.VALID:
        return f"other {heard.next_header}"
    return message_text(heard, nd.options_of(heard.options))


def message_text(heard: nd.HeardFrame, options: List[nd.Option]) -> str:
    """Returns the line of a valid message with these options."""
    said = f"{MESSAGES[heard.message_type]} {address_text(heard.source)} {address_text(heard.destination)}{fields_text(heard)}"
    return " ".join([said, *map(option_text, options)])


def fields_text(heard: nd.HeardFrame) -> str:
    """Returns the fields of a message, with a space before each."""
    if heard.message_type == 134:
        flags = flags_text(m=heard.managed, o=heard.other, h=heard.preference is nd.Preference.HIGH, l=heard.preference is nd.Preference.LOW)
        return (f" hop {heard.hop_limit} flags {flags} lifetime {heard.router_lifetime} reachable {heard.reachable_time} "
                f"retrans {heard.retrans_timer}")
    flags = f" flags {flags_text(r=heard.router, s=heard.solicited, o=heard.override)}" if heard.message_type == 136 else ""
    target = f" target {address_text(heard.target)}" if heard.message_type > 134 else ""
    destination = f" destination {address_text(heard.redirected)}" if heard.message_type == 137 else ""
    return f"{flags}{target}{destination}"


def is_passed_over(option: nd.Option) -> bool:
    """Returns true for an option that the nodes of this library pass over (RFC 4861, 4.6)."""
    return isinstance(option, (nd.UnknownOption, nd.RouteInformation))


def option_text(option: nd.Option) -> str:
    """Returns the text of an option."""
    if isinstance(option, (nd.UnknownOption, nd.RouteInformation)):
        return f"opt {option.number} {option.data.hex()}"
    if isinstance(option, nd.PrefixInformation):
        flags = flags_text(l=option.on_link, a=option.autonomous)
        return f"prefix {network_text(option.prefix)} {flags} {option.valid_lifetime} {option.preferred_lifetime}"
    if isinstance(option, nd.RedirectedHeader):
        return f"redirected {len(option.packet)}"
    if isinstance(option, nd.Mtu):
        return f"mtu {option.mtu}"
    if isinstance(option, nd.RecursiveDnsServers):
        return " ".join([f"rdnss {option.lifetime} {len(option.addresses)}", *map(address_text, option.addresses)])
    if isinstance(option, nd.DnsSearchList):
        return " ".join([f"dnssl {option.lifetime} {len(option.names)}", *option.names])
    return f"{LINK_LAYER_WORDS[option.number]} {option.mac}"


# ---- records


def record_text(record: nd.Record) -> str:
    """Returns what a line of `ndpctl run` says of a record, behind its moment."""
    if isinstance(record, nd.Frame):
        return f"tx {record.frame.hex()}"
    if isinstance(record, nd.Up):
        return f"up {record.packet.hex()}"
    if isinstance(record, nd.Heard):
        return f"heard {MESSAGES[record.message_type]}"
    if isinstance(record, nd.Dropped):
        return f"drop {int(record.why)} {reason_text(record.why)}"
    if isinstance(record, nd.Lost):
        source, destination = IPv6Address(record.packet[8:24]), IPv6Address(record.packet[24:40])
        return f"lost {word_of(record.loss)} {address_text(source)} {address_text(destination)}"
    if isinstance(record, nd.Refused):
        return refusal_text(record)
    if isinstance(record, nd.Ignored):
        return f"ignored {word_of(record.limit)}"
    return state_text(record)


def refusal_text(record: nd.Refused) -> str:
    """Returns what a line says of a refusal."""
    words = [f"refused {word_of(record.refusal)}"]
    words += [address_text(record.source)] if record.source is not None else []
    words += [word_of(record.limit)] if record.limit is not None else []
    return " ".join(words)


def state_text(record: nd.Record) -> str:
    """Returns what a line says of a change of a neighbour, a router or an address."""
    if isinstance(record, nd.Resolved):
        return f"resolved {address_text(record.neighbour)} {record.mac}"
    if isinstance(record, nd.Failed):
        return f"failed {address_text(record.neighbour)}"
    if isinstance(record, nd.EndedRouter):
        return f"ended router {address_text(record.router)}"
    if isinstance(record, nd.EndedAddress):
        return f"ended address {address_text(record.address)}"
    if isinstance(record, (nd.Assigned, nd.Duplicate)):
        return f"{'assigned' if isinstance(record, nd.Assigned) else 'duplicate'} {address_text(record.address)}"
    return "a record of a later version"
