"""A progress bar on standard error, for captures that take a while."""
from __future__ import annotations

import sys
import time
from typing import TextIO

WIDTH = 40
FIRST_AFTER, AGAIN_AFTER = 1.0, 0.2  # seconds


class Progress:
    """Shows which part of a file is read, from one second after the beginning on. It shows nothing if `is_quiet`, or if no terminal is there."""

    def __init__(self, total: int, is_quiet: bool, stream: TextIO = sys.stderr) -> None:
        self.total, self.stream = total, stream
        self.is_shown = not is_quiet and total > 0 and stream.isatty()
        self.next = time.monotonic() + FIRST_AFTER
        self.is_begun = False

    def show(self, position: int) -> None:
        """Shows that the file is read up to `position`, in bytes."""
        if not self.is_shown or time.monotonic() < self.next:
            return
        self.next, self.is_begun = time.monotonic() + AGAIN_AFTER, True
        filled = WIDTH * position // self.total
        self.stream.write(f"\r[{'#' * filled}{'.' * (WIDTH - filled)}] {100 * position // self.total:3} %")
        self.stream.flush()

    def end(self) -> None:
        """Removes the bar."""
        if self.is_begun:
            self.stream.write(f"\r{' ' * (WIDTH + 8)}\r")
            self.stream.flush()
