"""Writes captures with comments, as pcapng (draft-ietf-opsawg-pcapng): one section and one Ethernet interface, with times in nanoseconds."""
from __future__ import annotations

import struct
from dataclasses import dataclass
from typing import BinaryIO, Iterable

from .capture import BYTE_ORDER_MAGIC, ENHANCED_PACKET, INTERFACE, RESOLUTION_OPTION, SECTION
from .links import ETHERNET

COMMENT_OPTION, FLAGS_OPTION = 1, 2
INBOUND, OUTBOUND = 1, 2
NANOSECONDS_RESOLUTION = 9  # 10^-9 seconds
LONGEST_COMMENT = 65535


@dataclass(frozen=True)
class Written:
    """A frame, its time in nanoseconds since 1970, and a comment, which may be empty. `is_sent`: the node sends it."""
    time: int
    frame: bytes
    is_sent: bool
    comment: str


def write_capture(file: BinaryIO, frames: Iterable[Written]) -> None:
    """Writes a capture of these frames."""
    magic = int.from_bytes(BYTE_ORDER_MAGIC, "big")
    file.write(_block(SECTION, struct.pack("<IHHq", magic, 1, 0, -1)))
    file.write(_block(INTERFACE, struct.pack("<HHI", ETHERNET, 0, 0) + _option(RESOLUTION_OPTION, bytes([NANOSECONDS_RESOLUTION])) + _option(0, b"")))
    for frame in frames:
        file.write(_packet(frame))


def _packet(written: Written) -> bytes:
    length = len(written.frame)
    head = struct.pack("<IIIII", 0, written.time >> 32 & 0xFFFFFFFF, written.time & 0xFFFFFFFF, length, length)
    options = _option(FLAGS_OPTION, struct.pack("<I", OUTBOUND if written.is_sent else INBOUND))
    if written.comment:
        options += _option(COMMENT_OPTION, written.comment.encode()[:LONGEST_COMMENT])
    return _block(ENHANCED_PACKET, head + _padded(written.frame) + options + _option(0, b""))


def _option(code: int, content: bytes) -> bytes:
    return struct.pack("<HH", code, len(content)) + _padded(content)


def _block(kind: int, content: bytes) -> bytes:
    length = len(content) + 12
    return struct.pack("<II", kind, length) + content + struct.pack("<I", length)


def _padded(content: bytes) -> bytes:
    return content + bytes(-len(content) % 4)
