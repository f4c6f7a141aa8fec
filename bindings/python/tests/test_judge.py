"""`judge`: the lines of examples/link.txt, the sections of the RFCs, and what is odd."""
from __future__ import annotations

import contextlib
import io
import json
import subprocess
import sys
import tempfile
import unittest
from ipaddress import IPv6Address
from pathlib import Path
from typing import List, Tuple

import nd
from ndbench.__main__ import main

from .captures import advertisement, message_frame, pcap, pcapng, prefix_option, spaced, tagged
from .paths import EXAMPLES, PYTHON, corpus, example, example_frames


def run(content: bytes, *words: str) -> Tuple[int, str, str]:
    """Runs a command over a capture, and returns the status and what it prints. The file has a name of its own."""
    with tempfile.TemporaryDirectory() as room:
        path = Path(room) / "capture"
        path.write_bytes(content)
        out, err = io.StringIO(), io.StringIO()
        with contextlib.redirect_stdout(out), contextlib.redirect_stderr(err):
            status = main([words[0], str(path), *words[1:]])
        return status, out.getvalue(), err.getvalue().replace(str(path), "capture")


def judged(*frames: bytes) -> List[str]:
    return run(pcap(spaced(list(frames))), "judge")[1].splitlines()


class Lines(unittest.TestCase):
    def test_frames_of_a_link(self) -> None:
        """By examples/README.md frame 4 has a Retrans Timer of 4,294,967 ms, and 5, 7 and 8 have options of other RFCs: these are odd. The nonce of
        a detection, as in frame 10, is not (RFC 7527)."""
        for make in (pcap, pcapng):
            status, out, err = run(make(spaced(example_frames("link.hex"))), "judge")
            lines = [line.split(" ", 2) for line in out.splitlines() if line[0] != " "]
            self.assertEqual([line[2] for line in lines], example("link.txt").splitlines())
            self.assertEqual([line[:2] for line in lines[:3]], [["1", "0.000000"], ["2", "0.500000"], ["3", "1.000000"]])
            self.assertEqual(sorted({line.split(" ")[0] for line, after in zip(out.splitlines(), out.splitlines()[1:])
                                     if line[0] != " " and after.startswith("    odd: ")}, key=int), ["4", "5", "7", "8"])
            self.assertEqual((status, err), (0, "13 messages (4 with remarks), 1 other packet, 0 dropped, 0 skipped\n"))

    def test_frames_of_the_corpus_as_json(self) -> None:
        checks = corpus().checks()
        frames = [bytes.fromhex(digits) for digits, _ in checks]
        status, out, err = run(pcap(spaced(frames)), "judge", "--json", "--quiet")
        said = [json.loads(line) for line in out.splitlines()]
        self.assertEqual([row["line"] for row in said], [line for _, line in checks])
        self.assertEqual((status, err, said[1]["time"]), (0, "", "1700000000.500000000"))
        for row in said:
            if row["line"].startswith("drop "):
                self.assertEqual(row["line"], f"drop {row['why']} {row['reason']}")

    def test_messages_as_json(self) -> None:
        """The fields of three frames, as tshark 4.0 reads them."""
        frames = example_frames("link.hex")
        said = [json.loads(line) for line in run(pcap(spaced([frames[number] for number in (6, 10, 9, 13)])), "judge", "--json")[1].splitlines()]
        advertisement_said, options = said[0]["message"], said[0]["message"].pop("options")
        self.assertEqual(advertisement_said, {
            "kind": "RouterAdvertisement", "source": "fe80::ff:fe00:2", "destination": "ff02::1", "hop_limit": 64, "managed": False, "other": False,
            "preference": "HIGH", "router_lifetime": 30, "reachable_time": 0, "retrans_timer": 0})
        self.assertEqual([option["kind"] for option in options], ["PrefixInformation", "RouteInformation", "RouteInformation", "Mtu",
                                                                  "SourceLinkLayerAddress"])
        self.assertEqual((options[0]["prefix"], options[0]["valid_lifetime"], options[0]["on_link"]), ("2001:db8::/64", 86400, True))
        self.assertEqual((options[1]["number"], options[1]["prefix"], options[1]["preference"]), (24, "2001:db8:7::/64", "HIGH"))
        self.assertEqual((options[3]["mtu"], options[4]["mac"]), (1500, "02:00:00:00:00:02"))
        self.assertEqual(said[1]["message"], {
            "kind": "NeighborAdvertisement", "source": "fe80::ff:fe00:99", "destination": "fe80::ff:fe00:2", "router": False, "solicited": True,
            "override": False, "target": "fe80::ff:fe00:99", "options": []})
        self.assertEqual(said[2]["message"]["options"], [{"kind": "UnknownOption", "number": 14, "data": "ccdd89fd7fab"}])
        self.assertNotIn("message", said[3])

    def test_what_is_skipped_is_said(self) -> None:
        self.assertEqual(run(pcap([(0, bytes(60))], link=105), "judge")[1], "1 0.000000 skipped: link type 105, and not Ethernet\n")
        out = run(pcap([(0, bytes(60))], link=105), "judge", "--json")[1]
        self.assertEqual(json.loads(out)["skipped"], "link type 105, and not Ethernet")

    def test_tags(self) -> None:
        frame = example_frames("link.hex")[0]
        said = [json.loads(line) for line in run(pcap(spaced([tagged(frame, 5), frame])), "judge", "--json")[1].splitlines()]
        self.assertEqual([(row["line"], row.get("vlans")) for row in said], [(example("link.txt").splitlines()[0], [5]),
                                                                              (example("link.txt").splitlines()[0], None)])

    def test_standard_input(self) -> None:
        """A capture, or lines of digits, as `tcpdump -U -w - | ndbench judge -` passes them: each packet is judged once it is there."""
        for content, wanted in (((EXAMPLES / "captures" / "linux-sll2.pcap").read_bytes(), 24), (example("link.hex").encode(), 14)):
            said = subprocess.run([sys.executable, "-m", "ndbench", "judge", "-"], cwd=PYTHON, input=content, capture_output=True, check=False)
            self.assertEqual((said.returncode, len([line for line in said.stdout.splitlines() if line[:1] != b" "])), (0, wanted), said.stderr)
        with subprocess.Popen([sys.executable, "-m", "ndbench", "judge", "-"], cwd=PYTHON, stdin=subprocess.PIPE, stdout=subprocess.PIPE,
                              stderr=subprocess.DEVNULL, bufsize=0) as made:
            assert made.stdin is not None and made.stdout is not None
            made.stdin.write(pcap(spaced(example_frames("link.hex")[:1])))
            self.assertEqual(made.stdout.readline().decode(), f"1 0.000000 {example('link.txt').splitlines()[0]}\n")
            made.stdin.close()
        said = subprocess.run([sys.executable, "-m", "ndbench", "judge", "-"], cwd=PYTHON, input=b"GIF8", capture_output=True, check=False)
        self.assertEqual((said.returncode, said.stderr.splitlines()[-1]),
                         (2, b"ndbench: standard input: it is neither pcap, nor pcapng, nor lines of hexadecimal digits"))

    def test_each_command_says_how_many_are_skipped_and_why(self) -> None:
        """Two that are too long, of three; a capture of another link type; and three frames, two without their ends."""
        long, good = bytes(65537), example_frames("link.hex")[0]
        host = ["--mac", f"{nd.Mac(good[6:12])}"]
        cut = pcap([(0, good)]) + pcap([(0, bytes(110)), (0, bytes(100))], lost=10)[24:]
        for content, text in ((pcap(spaced([long, good, long])), "2 packets are skipped: longer than 65536 bytes (2)"),
                              (pcap([(0, good)], link=105), "1 packet is skipped: link type 105, and not Ethernet (1)"),
                              (cut, "2 packets are skipped: cut by the capture (2)")):
            for words in (["judge"], ["replay", *host], ["compare", *host], ["picture"], ["picture", *host]):
                with self.subTest(text, words=words):
                    lines = run(content, *words)[2].splitlines()
                    self.assertEqual([line for line in lines if "packet" in line and "other packets" not in line], [f"ndbench: {text}"])
                    self.assertNotIn("skipped", run(content, *words, "--quiet")[2])

    def test_bad_input(self) -> None:
        status, out, err = run(pcap(spaced(example_frames("link.hex")[:2]))[:-1], "judge")
        self.assertEqual((status, err), (2, "ndbench: capture: packet 2: the file ends within it\n"))
        self.assertEqual(out, f"1 0.000000 {example('link.txt').splitlines()[0]}\n")
        with contextlib.redirect_stderr(io.StringIO()) as err_text:
            self.assertEqual(main(["judge", "/no/such/file"]), 2)
        self.assertEqual(err_text.getvalue(), "ndbench: /no/such/file: No such file or directory\n")


class Sections(unittest.TestCase):
    def test_each_drop_has_its_section(self) -> None:
        """The sections are those in which the RFCs ask to discard the frame."""
        solicit = b"\x87\0\0\0" + bytes(4) + bytes.fromhex("20010db8000000000000000000000001")
        wanted = [
            (b"\2" * 13, "drop 1 FrameShort [RFC 2464, 3]"),
            (bytes(60), "drop 2 NotIpv6 [RFC 2464, 3]"),
            (advertisement()[:50], "drop 3 HeaderShort [RFC 8200, 3]"),
            (advertisement()[:60], "drop 5 PayloadShort [RFC 8200, 3]"),
            (advertisement()[:-1] + b"\1", "drop 11 Sum [RFC 4443, 2.3]"),
            (message_frame(b"\x86\1\0\0" + bytes(12)), "drop 6 Code [RFC 4861, 6.1.2]"),
            (message_frame(b"\x85\0\0\0" + bytes(4), hop_limit=64), "drop 10 HopLimit [RFC 4861, 6.1.1]"),
            (message_frame(b"\x88\0\0\0" + bytes(12)), "drop 7 Length [RFC 4861, 7.1.2]"),
            (message_frame(b"\x89\0\0\0" + bytes(12)), "drop 7 Length [RFC 4861, 8.1]"),
            (advertisement(options=bytes([5, 0]) + bytes(6)), "drop 8 OptionZero [RFC 4861, 4.6]"),
            (advertisement(options=bytes([5, 2]) + bytes(6)), "drop 9 OptionOver [RFC 4861, 4.6]"),
            (message_frame(b"\x86\0\0\0" + bytes(12), source="2001:db8::1"), "drop 12 Source [RFC 4861, 6.1.2]"),
            (message_frame(solicit, source="ff02::1"), "drop 12 Source [RFC 4291, 2.7]"),
            (message_frame(solicit[:8] + b"\xff" * 16), "drop 13 Target [RFC 4861, 7.1.1]"),
            (message_frame(solicit, source="::"), "drop 15 NotSolicitedNode [RFC 4861, 7.1.1]"),
            (message_frame(b"\x88\0\0\0\x40" + solicit[5:]), "drop 16 SolicitedMulticast [RFC 4861, 7.1.2]"),
            (message_frame(b"\x89\0\0\0" + bytes(3) + solicit[7:] + bytes(16)), "drop 17 RedirectTarget [RFC 4861, 8.1]"),
        ]
        lines = judged(*[frame for frame, _ in wanted])
        self.assertEqual([line.split(" ", 2)[2] for line in lines], [line for _, line in wanted])


class Remarks(unittest.TestCase):
    def odd(self, frame: bytes) -> List[str]:
        lines = judged(frame)
        self.assertNotIn("drop", lines[0])
        return [line.strip() for line in lines[1:]]

    def test_nothing_is_odd(self) -> None:
        self.assertEqual(self.odd(advertisement(reachable=3_600_000, retrans=1000, lifetime=9000, options=prefix_option())), [])

    def test_a_router(self) -> None:
        self.assertEqual(self.odd(advertisement(lifetime=9001)), ["odd: router lifetime 9001 s is above 9000 [RFC 4861, 6.2.1]"])
        self.assertEqual(self.odd(advertisement(lifetime=0, flags=0x08)), ["odd: a preference, and a router lifetime of 0 [RFC 4191, 2.2]"])
        self.assertEqual(self.odd(advertisement(flags=0x10)), ["odd: the reserved preference 10 reads as Medium [RFC 4191, 2.1]"])
        self.assertEqual(self.odd(advertisement(reachable=3_600_001)), ["odd: Reachable Time 3600001 ms is above 3600000 [RFC 4861, 6.2.1]"])
        self.assertEqual(self.odd(advertisement(reachable=999)), ["odd: Reachable Time 999 ms is below 1000 [our choice: the policy timers]"])
        self.assertEqual(self.odd(advertisement(retrans=4294967295)),
                         ["odd: Retrans Timer 4294967295 ms is not from 100 to 30000 [our choice: the policy timers]"])
        self.assertEqual(self.odd(advertisement(hop_limit=1)), ["odd: Cur Hop Limit 1 is below 32 [our choice: the policy timers]"])

    def test_a_prefix(self) -> None:
        for option, wanted in (
                (prefix_option(valid=50, preferred=100),
                 "preferred lifetime 100 s of 2001:db8::/64 is above the valid one, 50 s [RFC 4862, 5.5.3 c]"),
                (prefix_option(bits=60),
                 "2001:db8::/60 is autonomous, and no address of an interface identifier of 64 bits fits it [RFC 4862, 5.5.3 d]"),
                (prefix_option(flags=0x80, prefix="fe80::"), "fe80::/64 is link-local [RFC 4861, 4.6.2]"),
                (prefix_option(prefix="2001:db8::1"), "bits of 2001:db8::1 past its length 64 are not zero [RFC 4861, 4.6.2]"),
                (prefix_option(flags=0xC1), "reserved bits of 2001:db8::/64 are not zero [RFC 4861, 4.6.2]"),
                (prefix_option(reserved=1), "reserved bits of 2001:db8::/64 are not zero [RFC 4861, 4.6.2]")):
            self.assertEqual(self.odd(advertisement(options=option)), [f"odd: {wanted}"])

    def test_options(self) -> None:
        for option, wanted in (
                ("0501000000000400", "MTU 1024 is not from 1280 to 1500, and passed over [RFC 2464, 2]"),
                ("05010001000005dc", "reserved bits 0x0001 of an MTU are not zero [RFC 4861, 4.6.4]"),
                ("6301000000000fa0", "option 99 is unknown, and passed over [RFC 4861, 4.6]"),
                ("0e01ccdd89fd7fab", "option 14 is Nonce (RFC 3971, 5.3.2), and passed over [RFC 4861, 4.6]"),
                ("0502000000000400" + "00" * 8, "option 5 is not well formed, and passed over [RFC 4861, 4.6]"),
                ("0201020000000001", "option 2 is not one of a message ra, and passed over [RFC 4861, 4.2]"),
                ("0101333300000001", "link-layer address 33:33:00:00:00:01 is a group's or zero [our choice: the policy self]")):
            self.assertEqual(self.odd(advertisement(options=bytes.fromhex(option))), [f"odd: {wanted}"])

    def test_the_nonce_of_a_detection(self) -> None:
        """Linux sends it in each detection (RFC 7527). In a solicitation from an address it is passed over."""
        solicitation = b"\x87" + bytes(7) + IPv6Address("fe80::1:2:3").packed + bytes.fromhex("0e01ccdd89fd7fab")
        self.assertEqual(self.odd(message_frame(solicitation, "::", "ff02::1:ff02:3")), [])
        self.assertEqual(self.odd(message_frame(solicitation, "fe80::1", "ff02::1:ff02:3")),
                         ["odd: option 14 is Nonce (RFC 3971, 5.3.2), and passed over [RFC 4861, 4.6]"])

    def test_reserved_bits(self) -> None:
        self.assertEqual(self.odd(advertisement(flags=0x01)), ["odd: reserved bits 0x01 are not zero [RFC 4861, 4.2]"])
        answer = b"\x88\0\0\0\xe0\0\0\1" + bytes.fromhex("fe800000000000000000000000000001")
        self.assertEqual(self.odd(message_frame(answer, destination="fe80::2")), ["odd: reserved bits 0x00000001 are not zero [RFC 4861, 4.4]"])
