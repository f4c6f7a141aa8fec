"""rules: when a frame is dropped, and why, written anew from RFC 4861, RFC 4443, RFC 2464 and RFC 8200 in the order of docs/FORMATS.md. It shares no
code with the library. `heard` is what a frame is to a role alone; a `Node` says what a host or a router with known tables reports of it."""
import struct
import zlib
from dataclasses import dataclass, field

REASONS = {1: "FrameShort", 2: "NotIpv6", 3: "HeaderShort", 4: "Version", 5: "PayloadShort", 6: "Code", 7: "Length", 8: "OptionZero", 9: "OptionOver",
           10: "HopLimit", 11: "Sum", 12: "Source", 13: "Target", 14: "UnspecifiedSlla", 15: "NotSolicitedNode", 16: "SolicitedMulticast",
           17: "RedirectTarget", 18: "RedirectDestination", 19: "NotForUs", 20: "NotFirstHop"}
OTHER, IN_TRANSIT = 0xF0, 0xF1
RS, RA, NS, NA, REDIRECT = 133, 134, 135, 136, 137
LEAST = {RS: 8, RA: 16, NS: 24, NA: 24, REDIRECT: 40}
HOST, ROUTER = 0, 1
UNSPECIFIED, LOOPBACK = bytes(16), bytes(15) + b"\1"
SOLICITED_NODE = bytes.fromhex("ff0200000000000000000001ff")
ALL_NODES, ALL_ROUTERS = bytes.fromhex("ff02" + "00" * 13 + "01"), bytes.fromhex("ff02" + "00" * 13 + "02")


def is_multicast(address):
    return address[0] == 0xFF


def is_link_local(address):
    return address[0] == 0xFE and address[1] & 0xC0 == 0x80


def in_prefix(address, prefix, bits):
    """Returns true if the first bits of two addresses are the same (RFC 4291, 2.3)."""
    return int.from_bytes(address, "big") >> (128 - bits) == int.from_bytes(prefix, "big") >> (128 - bits)


def sum_is_good(packet, message):
    """RFC 4443, 2.3. The 16-bit words add up to a multiple of 65535 exactly if the number that they spell is one, since 65536 is 1 more than that.
    The sum is positive, since the pseudo-header has 58."""
    text = packet[8:40] + len(message).to_bytes(4, "big") + b"\0\0\0\x3a" + message + bytes(len(message) % 2)
    return int.from_bytes(text, "big") % 65535 == 0


def options_of(data):
    """Returns the options as pairs of a type and a whole option, or 8 or 9 for the first bad one (RFC 4861, 4.6)."""
    options = []
    while data:
        if len(data) == 1:
            return 9
        if data[1] == 0:
            return 8
        if len(data) < 8 * data[1]:
            return 9
        options.append((data[0], data[: 8 * data[1]]))
        data = data[8 * data[1]:]
    return options


def fault_of(packet, message):
    """Returns the reason of a message of Neighbor Discovery whose role is not asked for, or 0."""
    kind, source, destination = message[0], packet[8:24], packet[24:40]
    if packet[7] != 255:
        return 10
    if not sum_is_good(packet, message):
        return 11
    if len(message) > 1 and message[1] != 0:
        return 6
    if len(message) < LEAST[kind]:
        return 7
    options = options_of(message[LEAST[kind]:])
    if isinstance(options, int):
        return options
    if is_multicast(source) or (kind in (RA, REDIRECT) and not is_link_local(source)):
        return 12
    target = message[8:24]
    if kind in (NS, NA) and is_multicast(target):
        return 13
    if kind in (RS, NS) and source == UNSPECIFIED and any(number == 1 and len(option) == 8 for number, option in options):
        return 14
    if kind == NS and source == UNSPECIFIED and destination[:13] != SOLICITED_NODE:
        return 15
    if kind == NA and message[4] & 0x40 and is_multicast(destination):
        return 16
    if kind == REDIRECT and not is_link_local(target) and target != message[24:40]:
        return 17
    if kind == REDIRECT and is_multicast(message[24:40]):
        return 18
    return 0


def packet_of(frame):
    """Returns the packet of a frame without padding, or the reason why there is none."""
    if len(frame) < 14:
        return 1
    if frame[12:14] != b"\x86\xdd":
        return 2
    packet = frame[14:]
    if len(packet) < 40:
        return 3
    if packet[0] >> 4 != 6:
        return 4
    length = int.from_bytes(packet[4:6], "big")
    return 5 if len(packet) < 40 + length else packet[: 40 + length]


def heard_by_both(frame):
    """Returns what a frame is to a host and to a router that know nothing else: a reason, the type of a message, or OTHER."""
    packet = packet_of(frame)
    if isinstance(packet, int):
        return packet, packet
    message = packet[40:]
    if packet[6] != 58 or not message or message[0] not in LEAST:
        return OTHER, OTHER
    fault, kind = fault_of(packet, message), message[0]
    return fault or (19 if kind == RS else kind), fault or (19 if kind in (RA, REDIRECT) else kind)


# struct nd_heard: the addresses, the numbers, and the bytes.
HEARD = struct.Struct("<16s16s16s16s9I8B")
VALID_HEARING, OTHER_HEARING, DROP_HEARING = 1, 2, 3
DROPPED_CRC = [zlib.crc32(HEARD.pack(*[bytes(16)] * 4, DROP_HEARING, why, *[0] * 15)) for why in range(21)]
PREFERENCES = (0, 1, 0, 2)


def crc_of(frame, hearing):
    """Returns the CRC-32 of all fields of a `struct nd_heard` for a frame, `hearing` being what it is to the role (include/nd_hear.h)."""
    if hearing < RS:
        return DROPPED_CRC[hearing]
    packet = packet_of(frame)
    source, destination, message = packet[8:24], packet[24:40], packet[40:]
    target, redirected, numbers, flags = bytes(16), bytes(16), [0] * 3, [0] * 8
    if hearing == OTHER:
        return zlib.crc32(HEARD.pack(source, destination, target, redirected, OTHER_HEARING, 0, 0, packet[6], 0, 0, *numbers, *flags))
    if hearing in (NS, NA, REDIRECT):
        target = message[8:24]
    if hearing == REDIRECT:
        redirected = message[24:40]
    if hearing == RA:
        lifetime, reachable, retrans = struct.unpack(">HII", message[6:16])
        numbers = [reachable, retrans, lifetime]
        flags[:4] = message[4], message[5] >> 7, message[5] >> 6 & 1, PREFERENCES[message[5] >> 3 & 3]
    if hearing == NA:
        flags[4:7] = message[4] >> 7, message[4] >> 6 & 1, message[4] >> 5 & 1
    least = LEAST[hearing]
    return zlib.crc32(HEARD.pack(source, destination, target, redirected, VALID_HEARING, 0, hearing, 58, 54 + least, len(message) - least, *numbers,
                                 *flags))


@dataclass
class Node:
    """A node with known tables, whose link-local address is assigned. `assigned` and `tentative` are its own addresses. A host has prefixes on the
    link, redirects and its default routers in their order, all of which are resolved. `in_transit` is what becomes of a packet for another node."""
    role: int
    assigned: list
    tentative: list = field(default_factory=list)
    prefixes: list = field(default_factory=list)
    redirects: dict = field(default_factory=dict)
    routers: list = field(default_factory=list)

    def is_ours(self, destination, own):
        """RFC 4861, 7.2.3 and 7.2.5; RFC 4862, 5.4.2."""
        return (destination == ALL_NODES or (self.role == ROUTER and destination == ALL_ROUTERS) or destination in own or
                any(destination == SOLICITED_NODE + address[13:] for address in own))

    def first_hop(self, destination):
        """Returns the router for a destination, or None if it is on the link or there is no router (RFC 4861, 5.2 and 8.3)."""
        if destination in (UNSPECIFIED, LOOPBACK) or destination in self.assigned + self.tentative:
            return None
        if destination in self.redirects:
            target = self.redirects[destination]
            return None if target == destination else target
        if any(in_prefix(destination, *prefix) for prefix in self.prefixes):
            return None
        return self.routers[0] if self.routers else None

    def reports(self, frame, hearing):
        """Returns what the node reports of a frame, `hearing` being what it is to the role alone."""
        if hearing < RS:
            return hearing
        packet = packet_of(frame)
        source, destination, message = packet[8:24], packet[24:40], packet[40:]
        if hearing == OTHER:
            if self.is_ours(destination, self.assigned):
                return OTHER
            is_forwarded = self.role == ROUTER and not any(is_multicast(one) or is_link_local(one) or one in (UNSPECIFIED, LOOPBACK)
                                                           for one in (source, destination))
            return IN_TRANSIT if is_forwarded else 19
        own, target = self.assigned + self.tentative, message[8:24]
        if not self.is_ours(destination, own):
            return 19
        if hearing == NS and target not in self.assigned and not (target in self.tentative and source == UNSPECIFIED):
            return 19
        if hearing == REDIRECT and self.first_hop(message[24:40]) != source:
            return 20
        return hearing
