"""Reads captures: pcap (draft-ietf-opsawg-pcap) and pcapng (draft-ietf-opsawg-pcapng), in both byte orders, with times of any resolution; and frames
as lines of hexadecimal digits, which have no times."""
from __future__ import annotations

import struct
from dataclasses import dataclass
from typing import BinaryIO, Callable, Dict, Iterator, List, Optional, Tuple

from .hexadecimal import frames_of
from .links import Links

NANOSECONDS = 10 ** 9
LONGEST_BLOCK = 1 << 26
# The magic numbers of pcap: the byte order, and the units of a second.
PCAP_MAGICS = {b"\xd4\xc3\xb2\xa1": ("<", 10 ** 6), b"\xa1\xb2\xc3\xd4": (">", 10 ** 6), b"\x4d\x3c\xb2\xa1": ("<", 10 ** 9),
               b"\xa1\xb2\x3c\x4d": (">", 10 ** 9)}
SECTION, INTERFACE, OLD_PACKET, SIMPLE_PACKET, ENHANCED_PACKET = 0x0A0D0D0A, 1, 2, 3, 6
# What lines of hexadecimal digits begin with.
DIGITS_AND_ENDS = frozenset(b"0123456789ABCDEFabcdef\n")
BYTE_ORDER_MAGIC = b"\x1a\x2b\x3c\x4d"
RESOLUTION_OPTION, OFFSET_OPTION = 9, 14


class CaptureError(Exception):
    """A capture that cannot be read. The text names the packet."""


@dataclass(frozen=True)
class Packet:
    """A packet of a capture. `number` counts from 1; `time` is in nanoseconds since 1970, and 0 if there are no times; `position` is the number of
    bytes of the file up to its end. `skipped` says why its bytes are no whole Ethernet frame; it is empty if they are. `frame` has no tags: `vlans`
    are the numbers that they had, the outermost first."""
    number: int
    time: int
    frame: bytes
    skipped: str = ""
    position: int = 0
    vlans: Tuple[int, ...] = ()


@dataclass(frozen=True)
class Interface:
    """An interface of a section of pcapng: its link type, the units of a second, seconds to add, and the most bytes of a packet that are kept (0:
    all)."""
    link: int
    units: int
    offset: int
    most: int


def read_capture(file: BinaryIO) -> Iterator[Packet]:
    """Returns the packets of a capture, in the order of the file. Raises CaptureError at the first one that cannot be read."""
    magic = file.read(4)
    if not magic:
        raise CaptureError("the file is empty")
    if magic in PCAP_MAGICS:
        return _Pcap(file, *PCAP_MAGICS[magic]).packets()
    if magic == b"\x0a\x0d\x0d\x0a":
        return _Pcapng(file).packets()
    if DIGITS_AND_ENDS.issuperset(magic):
        return _lines(file, magic)
    raise CaptureError("it is neither pcap, nor pcapng, nor lines of hexadecimal digits")


def _lines(file: BinaryIO, begun: bytes) -> Iterator[Packet]:
    """Returns the packets of lines of hexadecimal digits, of which some bytes were read."""
    for number, frame in enumerate(frames_of(file, begun), 1):
        if frame is None:
            raise CaptureError(f"packet {number}: its line is malformed")
        yield Packet(number, 0, frame)


class _File:
    """A file that is read from its beginning to its end. The first four bytes are read already. `in_header`: its header is read now."""

    def __init__(self, file: BinaryIO) -> None:
        self.file, self.position, self.number, self.in_header = file, 4, 0, True
        self.links = Links()

    def error(self, what: str) -> CaptureError:
        """Returns the error of the file's header, or of the packet that is read now."""
        return CaptureError(f"{'the file header' if self.in_header else f'packet {self.number + 1}'}: {what}")

    def read(self, count: int, may_end: bool = False) -> bytes:
        """Returns this many bytes; none at the end of the file, if it `may_end` here."""
        content = self.file.read(count)
        if len(content) < count and (content or not may_end):
            raise self.error("the file ends within it")
        self.position += len(content)
        return content

    def packet(self, link: int, time: int, content: bytes, length: int) -> Packet:
        """Returns the packet that was read, and counts it."""
        self.number += 1
        made = self.links.unwrapped(link, content, length)
        return Packet(self.number, time, made.frame, made.skipped, self.position, made.vlans)


class _Pcap(_File):
    """A file of pcap: a header of 24 bytes, and each packet behind a header of 16."""

    def __init__(self, file: BinaryIO, order: str, units: int) -> None:
        super().__init__(file)
        self.units, self.header = units, struct.Struct(f"{order}IIII")
        (link,) = struct.unpack(f"{order}I", self.read(20)[16:])
        self.in_header = False
        self.link = link & 0xFFFF  # the bits above say whether a frame check sequence follows, which reads as padding

    def packets(self) -> Iterator[Packet]:
        """Returns the packets."""
        head = self.read(16, may_end=True)
        while head:
            seconds, parts, kept, length = self.header.unpack(head)
            if kept > LONGEST_BLOCK or kept > length:
                raise self.error(f"{kept} of {length} bytes are kept")
            if parts >= self.units:
                raise self.error(f"{parts} of {self.units} parts of a second")
            frame = self.read(kept)
            yield self.packet(self.link, seconds * NANOSECONDS + parts * (NANOSECONDS // self.units), frame, length)
            head = self.read(16, may_end=True)


class _Pcapng(_File):
    """A file of pcapng: blocks, each with its type and its length at its beginning, in sections."""

    def __init__(self, file: BinaryIO) -> None:
        super().__init__(file)
        self.order, self.time = "<", 0
        self.interfaces: List[Interface] = []
        self.readers: Dict[int, Callable[[bytes], Optional[Packet]]] = {
            INTERFACE: self.take_interface, OLD_PACKET: self.old_packet, SIMPLE_PACKET: self.simple_packet, ENHANCED_PACKET: self.enhanced_packet}

    def unpack(self, layout: str, content: bytes) -> Tuple[int, ...]:
        """Returns the numbers at the beginning of a content."""
        size = struct.calcsize(f"={layout}")
        if len(content) < size:
            raise self.error("its block is too short")
        return struct.unpack(self.order + layout, content[:size])

    def packets(self) -> Iterator[Packet]:
        """Returns the packets."""
        self.begin_section()
        self.in_header = False
        head = self.read(4, may_end=True)
        while head:
            kind = self.unpack("I", head)[0]
            if kind == SECTION:
                self.begin_section()
            else:
                packet = self.readers.get(kind, lambda _content: None)(self.block())
                if packet:
                    yield packet
            head = self.read(4, may_end=True)

    def block(self) -> bytes:
        """Returns the content of a block whose type is read."""
        (length,) = self.unpack("I", self.read(4))
        if length < 12 or length % 4 != 0 or length > LONGEST_BLOCK:
            raise self.error(f"its block has a length of {length}")
        content = self.read(length - 12)
        if self.unpack("I", self.read(4)) != (length,):
            raise self.error("its block ends with another length than it begins with")
        return content

    def begin_section(self) -> None:
        """Reads the rest of a section header: its length is in the byte order that its magic number shows."""
        length = self.read(4)
        magic = self.read(4)
        if magic not in (BYTE_ORDER_MAGIC, BYTE_ORDER_MAGIC[::-1]):
            raise self.error(f"{self.section_name()} has no byte order")
        self.order, self.interfaces = (">" if magic == BYTE_ORDER_MAGIC else "<"), []
        (count,) = self.unpack("I", length)
        if count < 28 or count % 4 != 0 or count > LONGEST_BLOCK:
            raise self.error(f"{self.section_name()} has a header of {count} bytes")
        self.read(count - 12)

    def section_name(self) -> str:
        """Returns what an error names the section whose header is read now."""
        return "its section" if self.in_header else "the section before it"

    def take_interface(self, content: bytes) -> None:
        """Takes the description of an interface. Without options its units are microseconds."""
        link, _reserved, most = self.unpack("HHI", content)
        options = self.options(content[8:])
        (resolution,) = self.unpack("B", options.get(RESOLUTION_OPTION, b"\6"))
        units = 2 ** (resolution & 0x7F) if resolution & 0x80 else 10 ** resolution
        (offset,) = self.unpack("q", options.get(OFFSET_OPTION, bytes(8)))
        self.interfaces.append(Interface(link, units, offset, most))

    def options(self, content: bytes) -> Dict[int, bytes]:
        """Returns the options of a block that have a content, by their codes."""
        found, head, at = {}, struct.Struct(f"{self.order}HH"), 0
        while at + 4 <= len(content):
            code, length = head.unpack_from(content, at)
            if code == 0 or length == 0:
                break
            found[code] = content[at + 4:at + 4 + length]
            at += 4 + (length + 3) // 4 * 4
        return found

    def interface(self, index: int) -> Interface:
        """Returns an interface of the section."""
        if index >= len(self.interfaces):
            raise self.error(f"there is no interface {index}")
        return self.interfaces[index]

    def timed(self, index: int, high: int, low: int, kept: int, length: int, content: bytes) -> Packet:
        """Returns a packet with a time, in units of its interface."""
        interface = self.interface(index)
        if kept > len(content) or kept > length:
            raise self.error(f"{kept} of {length} bytes are kept, and its block has room for {len(content)}")
        self.time = (high << 32 | low) * NANOSECONDS // interface.units + interface.offset * NANOSECONDS
        return self.packet(interface.link, self.time, content[:kept], length)

    def enhanced_packet(self, content: bytes) -> Packet:
        """Returns the packet of a block of today's writers."""
        index, high, low, kept, length = self.unpack("IIIII", content)
        return self.timed(index, high, low, kept, length, content[20:])

    def old_packet(self, content: bytes) -> Packet:
        """Returns the packet of a block of older writers."""
        index, _drops, high, low, kept, length = self.unpack("HHIIII", content)
        return self.timed(index, high, low, kept, length, content[20:])

    def simple_packet(self, content: bytes) -> Packet:
        """Returns the packet of a block without a time: it gets that of the packet before."""
        interface, (length,) = self.interface(0), self.unpack("I", content)
        kept = min(length, interface.most or length)
        if kept > len(content) - 4:
            raise self.error(f"{length} bytes, and its block has room for {len(content) - 4}")
        return self.packet(interface.link, self.time, content[4:4 + kept], length)
