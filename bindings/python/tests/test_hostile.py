"""Captures that are damaged: each command ends with a status of its own, and an error names the packet. The bytes that are changed follow from a
number, so each run changes the same."""
from __future__ import annotations

import random
import struct
import subprocess
import sys
import tempfile
import time
import unittest
from pathlib import Path

from .captures import BEGIN, advertisement, block, cooked, enhanced, interface, pcap, pcapng, section, spaced
from .paths import PYTHON, corpus, example_frames
from .test_judge import run

HOST = ["--mac", "34:56:78:9a:bc:de", "--before", "1500"]
COMMANDS = (["judge"], ["judge", "--json"], ["replay", *HOST], ["compare", "--mac", "02:00:00:00:00:99"], ["picture", *HOST])
ROUNDS = 150
ERROR = (r"(?m)^ndbench: capture: (packet \d+: |the file header: |the file is empty|it is neither pcap, nor pcapng, nor lines|"
         r"[0-9a-f:]{17} sends no message)")


def damaged(content: bytes, chance: random.Random) -> bytes:
    """Returns a file with some bytes changed, and perhaps an end cut off."""
    changed = bytearray(content)
    for _ in range(chance.randrange(1, 8)):
        changed[chance.randrange(len(changed))] = chance.choice((0, 1, 0x7F, 0x80, 0xFF, chance.randrange(256)))
    return bytes(changed[:chance.randrange(len(changed))] if chance.randrange(4) == 0 else changed)


class Damaged(unittest.TestCase):
    def test_files(self) -> None:
        frames = example_frames("link.hex") + [bytes.fromhex(digits) for digits, _ in corpus().checks()]
        cooked_frames = spaced([cooked(frame, 276) for frame in frames if len(frame) >= 14])
        files = [pcap(spaced(frames)), pcapng(spaced(frames)), pcapng(spaced(frames), ">", 10 ** 9, 9), pcap(cooked_frames, link=276)]
        chance, statuses = random.Random(1), set()
        for number in range(ROUNDS):
            content, words = damaged(files[number % 4], chance), COMMANDS[number % 5]
            with self.subTest(number):
                status, _, err = run(content, words[0], *words[1:])
                statuses.add(status)
                self.assertIn(status, (0, 1, 2))
                if status == 2:
                    self.assertRegex(err, ERROR)
        self.assertEqual(statuses, {0, 1, 2})

    def test_messages(self) -> None:
        """Frames whose messages are changed, with good checksums or not, are judged all the same."""
        chance = random.Random(2)
        for _ in range(ROUNDS):
            frames = [damaged(frame, chance) for frame in example_frames("link.hex")]
            out = run(pcap(spaced(frames)), "judge", "--quiet")[1]
            self.assertEqual(len([line for line in out.splitlines() if line[0] != " "]), len(frames))


class Times(unittest.TestCase):
    def test_a_time_that_is_too_far_away(self) -> None:
        """A resolution of seconds makes 2^61 seconds of a packet's time."""
        late = section("<") + interface("<", resolution=0)
        late += enhanced("<", 1, 0, advertisement()) + enhanced("<", 1, 0, advertisement(), since=1 << 61)
        self.assertEqual(run(late, "judge")[0], 0)
        for command in (["replay", *HOST], ["picture", *HOST]):
            status, _, err = run(late, *command)
            self.assertEqual(status, 2)
            self.assertRegex(err, r"capture: packet 2: its time is \d+ ms after that of the packet before")

    def test_a_gap_of_years(self) -> None:
        """30 years are passed, 40 are too many."""
        for years, wanted in ((30, 0), (40, 2)):
            content = pcap([(0, advertisement())]) + struct.pack("<IIII", BEGIN + years * 31_536_000, 0, 0, 0)
            self.assertEqual(run(content, "replay", *HOST)[0], wanted)

    def test_gaps_that_are_too_long_together(self) -> None:
        """A gap of one year, and one of 34: each is shorter than 2^40 ms, and both together are longer."""
        year = 31_536_000
        late = section("<") + interface("<", resolution=0)
        late += b"".join(enhanced("<", 1, 0, advertisement(), since=BEGIN + years * year) for years in (0, 1, 35))
        for command in (["replay", *HOST], ["picture", *HOST], ["compare", "--mac", "02:00:00:00:00:01"]):
            status, _, err = run(late, *command, "--quiet")
            wanted = f"ndbench: capture: packet 3: its time is {35 * year * 1000} ms after that of the first packet\n"
            self.assertEqual((status, err), (2, wanted))


class Costs(unittest.TestCase):
    def test_a_block_of_options(self) -> None:
        """Two million bytes of options are read in less than a second. If each one copied those behind it, that would take half a minute."""
        options = struct.pack("<HHB3x", 1, 1, 0) * 250_000
        content = section("<") + block("<", 1, struct.pack("<HHI", 1, 0, 0) + options) + enhanced("<", 10 ** 6, 0, advertisement())
        begin = time.process_time()
        self.assertEqual(run(content, "judge")[0], 0)
        self.assertLess(time.process_time() - begin, 5)


class Pipes(unittest.TestCase):
    def test_a_reader_that_ends(self) -> None:
        with tempfile.TemporaryDirectory() as room:
            path = Path(room) / "capture"
            path.write_bytes(pcap(spaced(example_frames("link.hex") * 500)))
            words = [sys.executable, "-m", "ndbench", "judge", str(path)]
            with subprocess.Popen(words, cwd=PYTHON, stdout=subprocess.PIPE, stderr=subprocess.PIPE) as made:
                assert made.stdout is not None and made.stderr is not None
                made.stdout.readline()
                made.stdout.close()
                self.assertEqual((made.stderr.read(), made.wait()), (b"", 0))
