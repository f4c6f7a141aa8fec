"""The lines of frames, compared with examples/link.txt and with the corpus, which were written apart from this program; and whole runs of the
corpus over the module, whose records have the texts of `ndpctl run`."""
from __future__ import annotations

import unittest
from ipaddress import IPv6Address
from typing import List

from ndbench.texts import address_text, frame_text, heard_by_its_role

from .paths import TOP, corpus, example, example_frames
from .scripts import Runner


class Lines(unittest.TestCase):
    def test_frames_of_a_link(self) -> None:
        lines = [frame_text(heard_by_its_role(frame)) for frame in example_frames("link.hex")]
        self.assertEqual(lines, example("link.txt").splitlines())

    def test_frames_of_the_corpus(self) -> None:
        checks = corpus().checks()
        self.assertTrue(checks)
        for digits, line in checks:
            with self.subTest(digits[:160]):
                self.assertEqual(frame_text(heard_by_its_role(bytes.fromhex(digits))), line)

    def test_addresses(self) -> None:
        """RFC 5952, 4.2: the longest run of zeros is shortened, the first at a tie, and never a single group."""
        for text in ("::", "::1", "1::", "2001:db8::1:0:0:1", "2001:0:0:1::1", "2001:db8:0:1:1:1:1:1", "::ffff:102:304", "ff02::1:ff00:1",
                     "1:2:3:4:5:6:7:8"):
            self.assertEqual(address_text(IPv6Address(text)), text)


class Runs(unittest.TestCase):
    def test_runs_of_the_corpus(self) -> None:
        """Each run of `ndpctl run` in the corpus that is well formed, over the module."""
        rows = corpus().runs()
        self.assertGreater(len(rows), 100)
        for row in rows:
            with self.subTest(row.name):
                self.skip_if_older(row.words)
                self.assertEqual(Runner(row.words[1:]).run(row.script), row.text)

    def test_runs_of_the_examples(self) -> None:
        """The runs of `ndpctl run` in examples/table.txt: each line is a name, the input, the output, and the arguments."""
        rows = [line.split() for line in example("table.txt").splitlines() if " run " in line]
        self.assertGreater(len(rows), 3)
        for name, script, output, *words in rows:
            with self.subTest(name):
                self.assertEqual(Runner(words[1:]).run(example(script)), example(output))

    def skip_if_older(self, words: List[str]) -> None:
        """Skips a run with a policy that dist/nd.h does not have: then nd.c is older than the sources, which bindings/check reports."""
        header = (TOP / "dist" / "nd.h").read_text(encoding="utf-8")
        for policy in words[words.index("--policy") + 1].split(",") if "--policy" in words else []:
            if f"ND_POLICY_{policy.upper()}" not in header:
                self.skipTest(f"dist/nd.c has no policy {policy}")
