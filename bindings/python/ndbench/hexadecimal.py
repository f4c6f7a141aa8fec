"""Frames as lines of hexadecimal digits, the input of `ndpctl check` (docs/FORMATS.md)."""
from __future__ import annotations

import re
from typing import BinaryIO, Iterator, Optional

LINE_BYTES = 16384
DIGITS = re.compile(rb"(?:[0-9A-Fa-f]{2})*")


def frame_of_line(line: bytes) -> Optional[bytes]:
    """Returns the frame of a line, which may end in a line feed, or None if the line is malformed."""
    digits = line[:-1] if line.endswith(b"\n") else line
    return bytes.fromhex(digits.decode("ascii")) if len(digits) <= LINE_BYTES and DIGITS.fullmatch(digits) else None


def frames_of(file: BinaryIO, begun: bytes = b"") -> Iterator[Optional[bytes]]:
    """Returns the frame of each line of a file, and None at the first malformed one, which is the last. `begun`: the first bytes of the file, which
    were read already."""
    while True:
        head, feed, begun = begun.partition(b"\n")
        line = head + (feed or file.readline(LINE_BYTES + 2))
        if not line:
            return
        frame = frame_of_line(line)
        yield frame
        if frame is None:
            return
