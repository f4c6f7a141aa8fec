"""The link of examples/python/link.py, its capture, and the lines of README.md that read it."""
from __future__ import annotations

import contextlib
import io
import os
import shlex
import subprocess
import sys
import tempfile
import unittest
from pathlib import Path
from typing import List, Tuple

from ndbench.__main__ import main

from .paths import EXAMPLES, PYTHON

CAPTURE = "../../examples/captures/link.pcapng"
COMMAND = "python3 -m ndbench "


def lines_of_readme() -> List[List[str]]:
    """Returns the words of the commands of README.md over the capture."""
    text = (PYTHON / "README.md").read_text(encoding="utf-8")
    return [shlex.split(line[len(COMMAND):]) for line in text.splitlines() if line.startswith(COMMAND)]


def run(words: List[str], room: str) -> Tuple[int, str, str]:
    """Runs a command, whose capture is where it is, and which writes into a folder."""
    paths = {CAPTURE: str(EXAMPLES / "captures" / "link.pcapng"), "link.svg": f"{room}/link.svg"}
    out, err = io.StringIO(), io.StringIO()
    with contextlib.redirect_stdout(out), contextlib.redirect_stderr(err):
        status = main([paths.get(word, word) for word in words])
    return status, out.getvalue(), err.getvalue()


class Link(unittest.TestCase):
    def test_the_capture_is_what_the_link_writes(self) -> None:
        with tempfile.TemporaryDirectory() as room:
            path = Path(room) / "link.pcapng"
            words = [sys.executable, str(EXAMPLES / "python" / "link.py"), str(path)]
            subprocess.run(words, env={**os.environ, "PYTHONPATH": str(PYTHON)}, check=True)
            self.assertEqual(path.read_bytes(), (EXAMPLES / "captures" / "link.pcapng").read_bytes())

    def test_the_lines_of_the_readme(self) -> None:
        with tempfile.TemporaryDirectory() as room:
            done = {words[0]: run(words, room) for words in lines_of_readme()}
            self.assertEqual({command: status for command, (status, _, _) in done.items()}, {"judge": 0, "replay": 0, "picture": 0, "compare": 0})
            self.assertIn("</svg>", (Path(room) / "link.svg").read_text(encoding="utf-8"))
        self.judged(*done["judge"][1:])
        self.replayed(done["replay"][1])
        self.assertEqual(done["compare"][1], "")

    def test_the_hosts_compared(self) -> None:
        """A and B send what a node sends that has other draws. C has left the link, and does not answer A's three probes, packets 20 to 22."""
        for last, status, moments in (("a", 0, []), ("b", 0, []), ("c", 1, ["14.812", "15.812", "16.812"])):
            for draws in ("seed:0", "seed:1", "word:4294967295"):
                done = run(["compare", CAPTURE, "--mac", f"02:00:00:00:00:0{last}", "--draws", draws, "--all"], "")
                self.assertEqual(done[0], status)
                heads = [line.partition(" (")[2] for line in done[1].splitlines() if line[0] != " "]
                self.assertEqual(heads, [f"{moment} s): only the node sends it [RFC 4861, 7.2.4]" for moment in moments])

    def judged(self, out: str, err: str) -> None:
        """Three packets are sent, and one advertisement is forged."""
        self.assertTrue(err.endswith(", 3 other packets, 1 dropped, 0 skipped\n"), err)
        self.assertIn(" drop 10 HopLimit [RFC 4861, 6.1.2]\n", out)

    def replayed(self, out: str) -> None:
        """C asks for A's address and leaves. A probes it DELAY_FIRST_PROBE_TIME, 5 s, after its answer, three times, a second apart (RFC 4861,
        10)."""
        lines = out.splitlines()
        asked = next(number for number, line in enumerate(lines) if "ns fe80::ff:fe00:c ff02::1:ff00:a target 2001:db8::ff:fe00:a" in line)
        moment = int(lines[asked + 1].split(" ")[0])
        self.assertEqual(lines[asked + 1], f"{moment} heard ns")
        self.assertIn(f"{moment + 8000} failed fe80::ff:fe00:c", lines)
