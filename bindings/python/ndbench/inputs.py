"""The captures of a command line: files, and standard input. Shows how much of a file is read, and says which of its packets were skipped."""
from __future__ import annotations

import io
import os
import sys
from collections import Counter
from contextlib import contextmanager, nullcontext
from typing import BinaryIO, ContextManager, Iterator, Optional

from .capture import CaptureError, Packet, read_capture
from .progress import Progress
from .texts import counted

STANDARD_INPUT = "-"


class BadInput(Exception):
    """An input that cannot be read. The text is for the user."""


class Input:
    """A capture: a file, or standard input, whose path is `-`. `is_kept`: it is read more than once, so standard input is read to its end first."""

    def __init__(self, path: str, is_quiet: bool = False, is_kept: bool = False) -> None:
        self.path, self.is_quiet = path, is_quiet
        self.is_standard = path == STANDARD_INPUT
        self.name = "standard input" if self.is_standard else path
        self.content: Optional[bytes] = sys.stdin.buffer.read() if self.is_standard and is_kept else None

    def stream(self) -> ContextManager[BinaryIO]:
        """Returns its bytes, from their beginning."""
        if not self.is_standard:
            return open(self.path, "rb")
        return nullcontext(sys.stdin.buffer) if self.content is None else nullcontext(io.BytesIO(self.content))

    @contextmanager
    def opened(self, says_skipped: bool = True) -> Iterator[Iterator[Packet]]:
        """Opens it, shows how much of it is read, and says at the end which of its packets were skipped."""
        skipped: Counter[str] = Counter()
        try:
            with self.stream() as file:
                progress = Progress(0 if self.is_standard else os.fstat(file.fileno()).st_size, self.is_quiet)
                try:
                    yield _watched(read_capture(file), progress, skipped)
                finally:
                    progress.end()
                    if skipped and says_skipped and not self.is_quiet:
                        print(skipped_text(skipped), file=sys.stderr)
        except CaptureError as error:
            raise BadInput(f"{self.name}: {error}") from error
        except BrokenPipeError:
            raise
        except OSError as error:
            raise BadInput(f"{error.filename or self.name}: {error.strerror}") from error


def _watched(packets: Iterator[Packet], progress: Progress, skipped: Counter[str]) -> Iterator[Packet]:
    for packet in packets:
        progress.show(packet.position)
        if packet.skipped:
            skipped[packet.skipped.partition(":")[0]] += 1  # what follows is of this packet alone
        yield packet


def skipped_text(skipped: Counter[str]) -> str:
    """Returns how many packets are skipped, and why, the most frequent reason first."""
    count = sum(skipped.values())
    reasons = "; ".join(f"{reason} ({number})" for reason, number in skipped.most_common())
    return f"ndbench: {counted(count, 'packet')} {'is' if count == 1 else 'are'} skipped: {reasons}"
