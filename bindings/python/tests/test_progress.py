"""The progress bar: on a terminal alone, and not at once."""
from __future__ import annotations

import io
import unittest
from unittest import mock

from ndbench import progress


class Terminal(io.StringIO):
    """A stream that says that it is a terminal."""

    def isatty(self) -> bool:
        return True


class Bar(unittest.TestCase):
    def shown(self, stream: io.StringIO, is_quiet: bool, seconds: float) -> str:
        """Returns what is shown of a file of 200 bytes, of which 150 are read some seconds after the beginning."""
        with mock.patch("time.monotonic", side_effect=[0.0, seconds, seconds]):
            bar = progress.Progress(200, is_quiet, stream)
            bar.show(150)
        return stream.getvalue()

    def test_a_long_capture(self) -> None:
        self.assertEqual(self.shown(Terminal(), False, 1.5), f"\r[{'#' * 30}{'.' * 10}]  75 %")

    def test_when_nothing_is_shown(self) -> None:
        self.assertEqual(self.shown(Terminal(), False, 0.5), "", "a short capture")
        self.assertEqual(self.shown(Terminal(), True, 1.5), "", "--quiet")
        self.assertEqual(self.shown(io.StringIO(), False, 1.5), "", "no terminal")

    def test_it_is_removed(self) -> None:
        stream = Terminal()
        with mock.patch.object(progress, "FIRST_AFTER", 0.0):
            bar = progress.Progress(200, False, stream)
            bar.show(200)
            bar.end()
        self.assertTrue(stream.getvalue().endswith("\r" + " " * 48 + "\r"))
