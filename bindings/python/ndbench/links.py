"""Packets of the link types that are read, as Ethernet frames without tags: Ethernet (1), and the cooked captures of Linux (LINKTYPE_LINUX_SLL, 113,
and LINKTYPE_LINUX_SLL2, 276), which `tcpdump -i any` writes. Tags of IEEE 802.1Q are taken off.

A cooked capture has no Ethernet destination. That of a multicast packet follows from its IPv6 destination (RFC 2464, 7). That of another packet is
the Ethernet source of the newest packet from that IPv6 address, or zeros if the capture had none."""
from __future__ import annotations

import struct
from dataclasses import dataclass
from typing import Dict, Tuple

ETHERNET, COOKED, COOKED_2 = 1, 113, 276
LONGEST_FRAME = 65536  # no Ethernet is that long; a longer one is a fault of the capture, or was put together by offload
IPV6 = b"\x86\xdd"
HEADER_BYTES = 40
# 802.1Q, 802.1ad, and an older number of the latter.
VLAN_TYPES = {b"\x81\x00", b"\x88\xa8", b"\x91\x00"}
VLAN_BITS = 0x0FFF
ETHERNET_HARDWARE = 1  # ARPHRD_ETHER
# The layouts of a cooked header: packet type, hardware type, length of the address, address, protocol; and of the newer one protocol, reserved,
# interface, hardware type, packet type, length of the address, address.
COOKED_LAYOUT, COOKED_2_LAYOUT = struct.Struct(">HHH8s2s"), struct.Struct(">2sHIHBB8s")
UNKNOWN_MAC = bytes(6)


@dataclass(frozen=True)
class Unwrapped:
    """An Ethernet frame without tags, and the numbers of the VLANs of its tags, the outermost first; or why a packet is none."""
    frame: bytes
    vlans: Tuple[int, ...] = ()
    skipped: str = ""


class Links:
    """Makes Ethernet frames of the packets of a capture, and remembers the Ethernet address of each IPv6 source of a cooked one."""

    def __init__(self) -> None:
        self.sources: Dict[bytes, bytes] = {}

    def unwrapped(self, link: int, content: bytes, length: int) -> Unwrapped:
        """Returns the frame of a packet of a link type, of which `length` bytes were on the link."""
        if link not in (ETHERNET, COOKED, COOKED_2):
            return Unwrapped(content, skipped=f"link type {link}, and not Ethernet")
        if len(content) < length:
            return Unwrapped(content, skipped=f"cut by the capture: {len(content)} of {length} bytes")
        made = untagged(content) if link == ETHERNET else self.of_cooked(link, content)
        if not made.skipped and len(made.frame) > LONGEST_FRAME:
            return Unwrapped(content, skipped=f"longer than {LONGEST_FRAME} bytes")
        return made

    def of_cooked(self, link: int, content: bytes) -> Unwrapped:
        """Returns the frame of a packet of a cooked capture."""
        layout = COOKED_LAYOUT if link == COOKED else COOKED_2_LAYOUT
        if len(content) < layout.size:
            return Unwrapped(content, skipped="shorter than its cooked header")
        if link == COOKED:
            _kind, hardware, size, address, protocol = layout.unpack_from(content)
        else:
            protocol, _reserved, _interface, hardware, _kind, size, address = layout.unpack_from(content)
        if hardware != ETHERNET_HARDWARE or size != len(UNKNOWN_MAC):
            return Unwrapped(content, skipped=f"hardware type {hardware}, and not Ethernet")
        source = address[:size]
        made = untagged(UNKNOWN_MAC + source + protocol + content[layout.size:])
        return Unwrapped(self.destination_of(made.frame, source) + made.frame[6:], made.vlans)

    def destination_of(self, frame: bytes, source: bytes) -> bytes:
        """Returns the Ethernet destination of a frame that has none, and remembers its source."""
        if frame[12:14] != IPV6 or len(frame) < 14 + HEADER_BYTES:
            return UNKNOWN_MAC
        sender, destination = frame[22:38], frame[38:54]
        if any(sender):
            self.sources[sender] = source
        return b"\x33\x33" + destination[12:] if destination[0] == 0xFF else self.sources.get(destination, UNKNOWN_MAC)


def untagged(frame: bytes) -> Unwrapped:
    """Returns an Ethernet frame without its tags."""
    vlans = []
    while frame[12:14] in VLAN_TYPES and len(frame) >= 18:
        vlans.append(int.from_bytes(frame[14:16], "big") & VLAN_BITS)
        frame = frame[:12] + frame[16:]
    return Unwrapped(frame, tuple(vlans))
