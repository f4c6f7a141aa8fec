"""`nd-hear`: lines of hexadecimal digits, by docs/FORMATS.md, with the lines of examples/link.txt and of the corpus, which were written apart from
this program."""
from __future__ import annotations

import contextlib
import io
import tempfile
import unittest
from pathlib import Path
from typing import List, Tuple
from unittest import mock

from ndbench.hear import main

from .paths import EXAMPLES, corpus, example


def heard(content: bytes, *words: str) -> Tuple[int, List[str], str]:
    """Runs the command over what standard input has, and returns the status, the lines, and what is on standard error."""
    out, err = io.StringIO(), io.StringIO()
    with mock.patch("sys.stdin", io.TextIOWrapper(io.BytesIO(content))), contextlib.redirect_stdout(out), contextlib.redirect_stderr(err):
        status = main(list(words))
    return status, out.getvalue().splitlines(), err.getvalue()


class Lines(unittest.TestCase):
    def test_files_and_standard_input(self) -> None:
        path, wanted = str(EXAMPLES / "link.hex"), example("link.txt").splitlines()
        content = example("link.hex").encode()
        self.assertEqual(heard(content), (0, wanted, ""))
        self.assertEqual(heard(content, "-"), (0, wanted, ""))
        self.assertEqual(heard(content[:content.index(b"\n")], path, "-"), (0, [*wanted, wanted[0]], ""))

    def test_frames_of_the_corpus(self) -> None:
        checks = corpus().checks()
        content = "".join(f"{digits}\n" for digits, _ in checks).encode()
        self.assertEqual(heard(content), (0, [line for _, line in checks], ""))

    def test_ends_of_lines(self) -> None:
        """A last line without a line feed counts, an empty line is the empty frame, and an empty input has no line."""
        self.assertEqual(heard(b""), (0, [], ""))
        self.assertEqual(heard(b"\n"), (0, ["drop 1 FrameShort"], ""))
        self.assertEqual(heard(b"aB\n\n3333"), (0, ["drop 1 FrameShort"] * 3, ""))

    def test_malformed_lines(self) -> None:
        """A line holds an even number of hexadecimal digits, at most 16,384."""
        for line in (b"333", b"3g", b"33 33", b"33\r", b"-", b"0x33", "\u0663\u0663".encode(), b"41" * 8193):
            self.assertEqual(heard(b"33\n" + line + b"\n33\n"), (2, ["drop 1 FrameShort"], "nd-hear: line 2: malformed\n"), line[:20])
        self.assertEqual(heard(b"41" * 8192)[:2], (0, ["drop 2 NotIpv6"]))

    def test_a_file_is_named(self) -> None:
        with tempfile.TemporaryDirectory() as room:
            path = Path(room) / "frames"
            path.write_bytes(b"zz\n")
            self.assertEqual(heard(b"", str(path)), (2, [], f"nd-hear: {path}: line 1: malformed\n"))
        self.assertEqual(heard(b"", "/no/such/file"), (2, [], "nd-hear: /no/such/file: No such file or directory\n"))
