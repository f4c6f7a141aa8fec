"""What is odd in a valid message: values that a receiver takes or passes over, but that a sender should not send. Each has the section that says
so."""
from __future__ import annotations

from dataclasses import dataclass
from typing import Iterator, List

import nd

from .texts import MESSAGES, address_text, is_passed_over, network_text

ROUTER_ADVERTISEMENT, NEIGHBOR_SOLICITATION = 134, 135
NONCE = 14
MOST_LIFETIME = 9000                # s, AdvDefaultLifetime (RFC 4861, 6.2.1)
MOST_REACHABLE = 3_600_000          # ms, AdvReachableTime (RFC 4861, 6.2.1)
LEAST_REACHABLE = 1_000             # ms, of the policy `timers`
LEAST_RETRANS, MOST_RETRANS = 100, 30_000  # ms, of the policy `timers`
LEAST_HOP_LIMIT = 32                # of the policy `timers`
LEAST_MTU, ETHERNET_MTU = 1280, 1500
INTERFACE_BITS = 64                 # RFC 2464, 4
TIMERS = "our choice: the policy timers"
# The options that RFC 4861 and RFC 8106 define, and the messages that have them.
PLACES = {nd.SourceLinkLayerAddress.number: (133, 134, 135), nd.TargetLinkLayerAddress.number: (136, 137), nd.PrefixInformation.number: (134,),
          nd.RedirectedHeader.number: (137,), nd.Mtu.number: (134,), nd.RecursiveDnsServers.number: (134,), nd.DnsSearchList.number: (134,)}
# Options of other RFCs.
ELSEWHERE = {7: "Advertisement Interval (RFC 6275, 7.3)", 8: "Home Agent Information (RFC 6275, 7.4)", NONCE: "Nonce (RFC 3971, 5.3.2)",
             24: "Route Information (RFC 4191, 2.3)", 26: "RA Flags Extension (RFC 5175, 4)", 37: "Captive-Portal (RFC 8910, 2.3)",
             38: "PREF64 (RFC 8781, 4)"}
# The first byte of the reserved bits in the message, how many, and which of them are reserved.
RESERVED = {133: (4, 4, 0xFFFFFFFF, "RFC 4861, 4.1"), 134: (5, 1, 0x03, "RFC 4861, 4.2"), 135: (4, 4, 0xFFFFFFFF, "RFC 4861, 4.3"),
            136: (4, 4, 0x1FFFFFFF, "RFC 4861, 4.4"), 137: (4, 4, 0xFFFFFFFF, "RFC 4861, 4.5")}
# The sections that list the options of a message.
OPTIONS = {133: "RFC 4861, 4.1", 134: "RFC 4861, 4.2", 135: "RFC 4861, 4.3", 136: "RFC 4861, 4.4", 137: "RFC 4861, 4.5"}
MESSAGE_AT = 54
RESERVED_PREFERENCE = 0b10


@dataclass(frozen=True)
class Remark:
    """What is odd, and the section that says so."""
    text: str
    section: str


def remarks_of(frame: bytes, heard: nd.HeardFrame) -> List[Remark]:
    """Returns what is odd in a frame that is a valid message; nothing of any other frame."""
    if heard.hearing is not nd.Hearing.VALID:
        return []
    found = [*_of_reserved_bits(frame, heard.message_type)]
    if heard.message_type == ROUTER_ADVERTISEMENT:
        found += _of_router(frame, heard)
    for option in nd.options_of(heard.options):
        if not _is_nonce_of_detection(heard, option):
            found += _of_option(heard.message_type, option)
    return found


def _is_nonce_of_detection(heard: nd.HeardFrame, option: nd.Option) -> bool:
    """Returns true for the nonce of a detection, by which a host knows its own solicitation if the link sends it back (RFC 7527)."""
    return option.number == NONCE and heard.message_type == NEIGHBOR_SOLICITATION and heard.source.is_unspecified


def _of_reserved_bits(frame: bytes, kind: int) -> Iterator[Remark]:
    at, count, mask, section = RESERVED[kind]
    bits = int.from_bytes(frame[MESSAGE_AT + at:MESSAGE_AT + at + count], "big") & mask
    if bits:
        yield Remark(f"reserved bits 0x{bits:0{2 * count}x} are not zero", section)


def _of_router(frame: bytes, heard: nd.HeardFrame) -> Iterator[Remark]:
    preference = frame[MESSAGE_AT + 5] >> 3 & 3
    if heard.router_lifetime > MOST_LIFETIME:
        yield Remark(f"router lifetime {heard.router_lifetime} s is above {MOST_LIFETIME}", "RFC 4861, 6.2.1")
    if heard.router_lifetime == 0 and preference != 0:
        yield Remark("a preference, and a router lifetime of 0", "RFC 4191, 2.2")
    if preference == RESERVED_PREFERENCE:
        yield Remark("the reserved preference 10 reads as Medium", "RFC 4191, 2.1")
    yield from _of_timers(heard)


def _of_timers(heard: nd.HeardFrame) -> Iterator[Remark]:
    if heard.reachable_time > MOST_REACHABLE:
        yield Remark(f"Reachable Time {heard.reachable_time} ms is above {MOST_REACHABLE}", "RFC 4861, 6.2.1")
    if 0 < heard.reachable_time < LEAST_REACHABLE:
        yield Remark(f"Reachable Time {heard.reachable_time} ms is below {LEAST_REACHABLE}", TIMERS)
    if heard.retrans_timer != 0 and not LEAST_RETRANS <= heard.retrans_timer <= MOST_RETRANS:
        yield Remark(f"Retrans Timer {heard.retrans_timer} ms is not from {LEAST_RETRANS} to {MOST_RETRANS}", TIMERS)
    if 0 < heard.hop_limit < LEAST_HOP_LIMIT:
        yield Remark(f"Cur Hop Limit {heard.hop_limit} is below {LEAST_HOP_LIMIT}", TIMERS)


def _of_option(message: int, option: nd.Option) -> Iterator[Remark]:
    if is_passed_over(option):
        what = "not well formed" if option.number in PLACES else ELSEWHERE.get(option.number, "unknown")
        yield Remark(f"option {option.number} is {what}, and passed over", "RFC 4861, 4.6")
        return
    if message not in PLACES[option.number]:
        yield Remark(f"option {option.number} is not one of a message {MESSAGES[message]}, and passed over", OPTIONS[message])
    if isinstance(option, nd.PrefixInformation):
        yield from _of_prefix(option)
    if isinstance(option, nd.Mtu) and not LEAST_MTU <= option.mtu <= ETHERNET_MTU:
        yield Remark(f"MTU {option.mtu} is not from {LEAST_MTU} to {ETHERNET_MTU}, and passed over", "RFC 2464, 2")
    if isinstance(option, nd.Mtu) and option.reserved:
        yield Remark(f"reserved bits 0x{option.reserved:04x} of an MTU are not zero", "RFC 4861, 4.6.4")
    if isinstance(option, nd.LinkLayerAddress) and (option.mac.is_group or not any(option.mac)):
        yield Remark(f"link-layer address {option.mac} is a group's or zero", "our choice: the policy self")


def _of_prefix(option: nd.PrefixInformation) -> Iterator[Remark]:
    prefix, valid, preferred = network_text(option.prefix), option.valid_lifetime, option.preferred_lifetime
    if preferred > valid:
        yield Remark(f"preferred lifetime {preferred} s of {prefix} is above the valid one, {valid} s", "RFC 4862, 5.5.3 c")
    if option.autonomous and option.prefix.prefixlen != INTERFACE_BITS:
        yield Remark(f"{prefix} is autonomous, and no address of an interface identifier of {INTERFACE_BITS} bits fits it", "RFC 4862, 5.5.3 d")
    if option.as_sent.is_link_local:
        yield Remark(f"{prefix} is link-local", "RFC 4861, 4.6.2")
    if option.as_sent.is_multicast:
        yield Remark(f"{prefix} is multicast", "RFC 4291, 2.7")
    if option.beyond:
        yield Remark(f"bits of {address_text(option.as_sent)} past its length {option.prefix.prefixlen} are not zero", "RFC 4861, 4.6.2")
    if option.reserved:
        yield Remark(f"reserved bits of {prefix} are not zero", "RFC 4861, 4.6.2")
