"""Files of captures, and frames, put together by their layouts: pcap and pcapng by their drafts, messages by RFC 4861, section 4."""
from __future__ import annotations

import struct
from ipaddress import IPv6Address
from typing import List, Sequence, Tuple, Union

BEGIN = 1_700_000_000  # seconds since 1970 of the first packet
Timed = Tuple[int, bytes]  # nanoseconds since BEGIN, and a frame


def pcap(packets: Sequence[Timed], order: str = "<", units: int = 10 ** 6, link: int = 1, lost: int = 0) -> bytes:
    """Returns a file of pcap. Of each packet `lost` bytes were not kept."""
    magic = {10 ** 6: 0xA1B2C3D4, 10 ** 9: 0xA1B23C4D}[units]
    made = [struct.pack(f"{order}IHHiIII", magic, 2, 4, 0, 0, 262144, link)]
    for time, frame in packets:
        seconds, rest = divmod(time, 10 ** 9)
        made.append(struct.pack(f"{order}IIII", BEGIN + seconds, rest * units // 10 ** 9, len(frame), len(frame) + lost) + frame)
    return b"".join(made)


def padded(content: bytes) -> bytes:
    return content + bytes(-len(content) % 4)


def block(order: str, kind: int, content: bytes) -> bytes:
    """Returns a block of pcapng."""
    length = len(padded(content)) + 12
    return struct.pack(f"{order}II", kind, length) + padded(content) + struct.pack(f"{order}I", length)


def section(order: str) -> bytes:
    return block(order, 0x0A0D0D0A, struct.pack(f"{order}IHHq", 0x1A2B3C4D, 1, 0, -1))


def interface(order: str, link: int = 1, resolution: Union[int, None] = None, offset: int = 0, most: int = 0) -> bytes:
    """Returns the block of an interface. `resolution` is the byte of if_tsresol."""
    options = b"" if resolution is None else struct.pack(f"{order}HHB3x", 9, 1, resolution)
    options += struct.pack(f"{order}HHq", 14, 8, offset) if offset else b""
    return block(order, 1, struct.pack(f"{order}HHI", link, 0, most) + options + (struct.pack(f"{order}HH", 0, 0) if options else b""))


def enhanced(order: str, units: int, time: int, frame: bytes, index: int = 0, since: int = BEGIN) -> bytes:
    """Returns the block of a packet, with a comment behind it."""
    ticks = since * units + time * units // 10 ** 9
    head = struct.pack(f"{order}IIIII", index, ticks >> 32, ticks & 0xFFFFFFFF, len(frame), len(frame))
    return block(order, 6, head + padded(frame) + struct.pack(f"{order}HH4sHH", 1, 4, b"note", 0, 0))


def pcapng(packets: Sequence[Timed], order: str = "<", units: int = 10 ** 6, resolution: Union[int, None] = None) -> bytes:
    """Returns a file of pcapng with one section and one interface."""
    return section(order) + interface(order, resolution=resolution) + b"".join(enhanced(order, units, *packet) for packet in packets)


def events_pcap(events: Sequence[Tuple[int, Union[bytes, None]]]) -> bytes:
    """Returns a file of the frames of an example, whose moments are in ms; where time passes there is no packet."""
    return pcap([(moment * 10 ** 6, frame) for moment, frame in events if frame is not None])


def checksum(source: bytes, destination: bytes, message: bytes) -> int:
    """Returns the checksum of a message whose field is 0 (RFC 4443, 2.3; RFC 8200, 8.1)."""
    text = source + destination + struct.pack(">II", len(message), 58) + message + bytes(len(message) % 2)
    total = sum(struct.unpack(f">{len(text) // 2}H", text))
    while total >> 16:
        total = (total & 0xFFFF) + (total >> 16)
    return total ^ 0xFFFF


def message_frame(message: bytes, source: str = "fe80::1", destination: str = "ff02::1", macs: str = "333300000001020000000001",
                  hop_limit: int = 255) -> bytes:
    """Returns a frame of an ICMPv6 message whose checksum field is 0, with the checksum filled in."""
    ends = IPv6Address(source).packed, IPv6Address(destination).packed
    summed = message[:2] + struct.pack(">H", checksum(*ends, message)) + message[4:]
    return bytes.fromhex(macs) + b"\x86\xdd" + struct.pack(">IHBB", 6 << 28, len(summed), 58, hop_limit) + ends[0] + ends[1] + summed


def advertisement(hop_limit: int = 64, flags: int = 0, lifetime: int = 1800, reachable: int = 0, retrans: int = 0, options: bytes = b"") -> bytes:
    """Returns a frame of a Router Advertisement (RFC 4861, 4.2)."""
    return message_frame(struct.pack(">BBHBBHII", 134, 0, 0, hop_limit, flags, lifetime, reachable, retrans) + options)


def prefix_option(bits: int = 64, flags: int = 0xC0, valid: int = 3600, preferred: int = 1800, reserved: int = 0,
                  prefix: str = "2001:db8::") -> bytes:
    """Returns a Prefix Information option (RFC 4861, 4.6.2)."""
    return struct.pack(">BBBBIII", 3, 4, bits, flags, valid, preferred, reserved) + IPv6Address(prefix).packed


def cooked(frame: bytes, link: int, kind: int = 0, hardware: int = 1) -> bytes:
    """Returns an Ethernet frame as a packet of a cooked capture, LINKTYPE_LINUX_SLL (113) or LINKTYPE_LINUX_SLL2 (276)."""
    source, protocol, packet = frame[6:12], frame[12:14], frame[14:]
    if link == 113:
        return struct.pack(">HHH6s2x2s", kind, hardware, 6, source, protocol) + packet
    return struct.pack(">2s2xIHBB6s2x", protocol, 2, hardware, kind, 6, source) + packet


def tagged(frame: bytes, *tags: int, kind: int = 0x8100) -> bytes:
    """Returns an Ethernet frame with tags (IEEE 802.1Q, 9.6): a priority of 5 and the number of a VLAN."""
    return frame[:12] + b"".join(struct.pack(">HH", kind, 5 << 13 | tag) for tag in tags) + frame[12:]


def spaced(frames: List[bytes]) -> List[Timed]:
    """Returns frames with times, half a second apart."""
    return [(number * 500_000_000, frame) for number, frame in enumerate(frames)]
