"""The reader of captures: files put together by the layouts of pcap and pcapng."""
from __future__ import annotations

import io
import struct
import unittest
from typing import List

from ndbench.capture import CaptureError, Packet, read_capture

from . import captures
from .captures import BEGIN, block, cooked, enhanced, interface, pcap, pcapng, section, spaced, tagged
from .paths import EXAMPLES, example_frames

FRAMES = [(0, b"\2" * 60), (1_234_567_000, b"\3" * 61), (3_000_000_999, bytes(14) + b"\4" * 3)]


def read(content: bytes) -> List[Packet]:
    return list(read_capture(io.BytesIO(content)))


def times(packets: List[Packet]) -> List[int]:
    return [packet.time - BEGIN * 10 ** 9 for packet in packets]


class Formats(unittest.TestCase):
    def compare(self, content: bytes, tick: int) -> None:
        """Compares what is read with FRAMES, at times cut to a multiple of `tick` nanoseconds."""
        packets = read(content)
        self.assertEqual([packet.number for packet in packets], [1, 2, 3])
        self.assertEqual([packet.frame for packet in packets], [frame for _, frame in FRAMES])
        self.assertEqual(times(packets), [time // tick * tick for time, _ in FRAMES])
        self.assertEqual({packet.skipped for packet in packets}, {""})

    def test_pcap(self) -> None:
        for order in "<>":
            for units in (10 ** 6, 10 ** 9):
                with self.subTest(order=order, units=units):
                    content = pcap(FRAMES, order, units)
                    self.compare(content, 10 ** 9 // units)
                    self.assertEqual(read(content)[-1].position, len(content))

    def test_pcapng(self) -> None:
        for order in "<>":
            for units, resolution in ((10 ** 6, None), (10 ** 6, 6), (10 ** 9, 9), (10 ** 3, 3)):
                with self.subTest(order=order, resolution=resolution):
                    self.compare(pcapng(FRAMES, order, units, resolution), 10 ** 9 // units)

    def test_a_resolution_of_a_power_of_two(self) -> None:
        packets = read(pcapng([(1_500_000_000, b"\2" * 60)], units=1 << 10, resolution=0x80 | 10))
        self.assertEqual(times(packets), [1_500_000_000])

    def test_an_offset_is_added(self) -> None:
        content = section("<") + interface("<", offset=BEGIN) + enhanced("<", 10 ** 6, 7000, b"\2" * 60, since=0)
        self.assertEqual(times(read(content)), [7000])

    def test_sections_in_both_orders_have_their_own_interfaces(self) -> None:
        other = block("<", 0x0BAD, b"what other blocks have")
        content = pcapng(FRAMES[:1]) + other + section(">") + interface(">", link=105) + interface(">", resolution=9)
        content += enhanced(">", 10 ** 9, *FRAMES[1], index=1) + enhanced(">", 10 ** 6, *FRAMES[2], index=0)
        packets = read(content)
        self.assertEqual([packet.skipped for packet in packets], ["", "", "link type 105, and not Ethernet"])
        self.assertEqual(times(packets), [0, 1_234_567_000, 3_000_000_000])

    def test_blocks_of_older_writers(self) -> None:
        simple = block("<", 3, struct.pack("<I", 60) + b"\3" * 60)
        ticks = BEGIN * 10 ** 6 + 5
        old = block("<", 2, struct.pack("<HHIIII", 0, 0, ticks >> 32, ticks & 0xFFFFFFFF, 61, 61) + captures.padded(b"\2" * 61))
        packets = read(section("<") + interface("<") + old + simple)
        self.assertEqual([packet.frame for packet in packets], [b"\2" * 61, b"\3" * 60])
        self.assertEqual(times(packets), [5000, 5000])


class Skipped(unittest.TestCase):
    def test_what_is_no_whole_frame_is_said(self) -> None:
        self.assertEqual(read(pcap(FRAMES[:1], link=105))[0].skipped, "link type 105, and not Ethernet")
        self.assertEqual(read(pcap(FRAMES[:1], lost=36))[0].skipped, "cut by the capture: 60 of 96 bytes")
        self.assertEqual(read(pcap([(0, bytes(65537))]))[0].skipped, "longer than 65536 bytes")
        cut = block("<", 3, struct.pack("<I", 100) + b"\3" * 60)
        self.assertEqual(read(section("<") + interface("<", most=60) + cut)[0].skipped, "cut by the capture: 60 of 100 bytes")

    def test_a_frame_check_sequence_is_padding(self) -> None:
        """The bits above the link type say that one of 4 bytes follows each frame."""
        self.assertEqual(read(pcap(FRAMES[:1], link=0x24000001))[0].skipped, "")


class Cooked(unittest.TestCase):
    """Captures of `tcpdump -i any`. examples/captures has a link of two Linux hosts as it was captured at the same time in three ways."""

    def test_a_link_of_linux_hosts(self) -> None:
        """The frames are those that were captured on the Ethernet interface, their destinations too."""
        ethernet, *others = [read((EXAMPLES / "captures" / f"linux{name}.pcap").read_bytes()) for name in ("", "-sll", "-sll2")]
        self.assertEqual(len(ethernet), 24)
        for packets in others:
            self.assertEqual([packet.frame for packet in packets], [packet.frame for packet in ethernet])
            self.assertEqual([packet.time for packet in packets], [packet.time for packet in ethernet])

    def test_the_destination(self) -> None:
        """A group's follows from the IPv6 destination (RFC 2464, 7); that of an address is known once it has sent something."""
        to_a, from_a = example_frames("link.hex")[8], example_frames("link.hex")[1]  # a probe of fe80::ff:fe00:99, and its solicitation of routers
        for link in (113, 276):
            packets = read(pcap(spaced([cooked(frame, link) for frame in (to_a, from_a, to_a)]), link=link))
            self.assertEqual([packet.frame for packet in packets], [bytes(6) + to_a[6:], from_a, to_a])

    def test_a_tag_in_it(self) -> None:
        frame = example_frames("link.hex")[0]
        (packet,) = read(pcap([(0, cooked(tagged(frame, 7), 276))], link=276))
        self.assertEqual((packet.frame, packet.vlans, packet.skipped), (frame, (7,), ""))

    def test_what_is_skipped(self) -> None:
        """A packet of an interface that is not Ethernet, such as the loopback one (ARPHRD_LOOPBACK, 772), and one without a whole header."""
        frame = example_frames("link.hex")[0]
        for link, size in ((113, 16), (276, 20)):
            packets = read(pcap(spaced([cooked(frame, link, hardware=772), cooked(frame, link)[:size - 1], cooked(frame, link)[:size]]), link=link))
            self.assertEqual([packet.skipped for packet in packets], ["hardware type 772, and not Ethernet", "shorter than its cooked header", ""])


class Tags(unittest.TestCase):
    def test_tags_are_taken_off(self) -> None:
        frame = example_frames("link.hex")[0]
        packets = read(pcap(spaced([tagged(frame, 5), tagged(tagged(frame, 5), 4094, kind=0x88A8), frame, tagged(frame, 5)[:16]])))
        self.assertEqual([packet.frame for packet in packets], [frame, frame, frame, tagged(frame, 5)[:16]])
        self.assertEqual([packet.vlans for packet in packets], [(5,), (4094, 5), (), ()])


class Digits(unittest.TestCase):
    def test_lines(self) -> None:
        frames = [packet.frame for packet in read((EXAMPLES / "link.hex").read_bytes())]
        self.assertEqual(frames, example_frames("link.hex"))
        for content, wanted in ((b"\n", [b""]), (b"33", [b"\x33"]), (b"33\n44", [b"\x33", b"\x44"]), (b"\n\n\n\n\nAb", [b""] * 5 + [b"\xab"]),
                                (b"414243\n\n", [b"ABC", b""])):
            self.assertEqual([(packet.frame, packet.time) for packet in read(content)], [(frame, 0) for frame in wanted])

    def test_a_malformed_line(self) -> None:
        for content, number in ((b"333\n", 1), (b"33\n3 3\n", 2), (b"3333\r\n", 1), (b"33\n" + b"41" * 8193, 2)):
            with self.assertRaisesRegex(CaptureError, f"packet {number}: its line is malformed"):
                read(content)


class BadInput(unittest.TestCase):
    def fails(self, content: bytes, text: str) -> None:
        with self.assertRaisesRegex(CaptureError, text):
            read(content)

    def test_other_files(self) -> None:
        for content in (b"GIF8", b"333 3"):
            self.fails(content, "it is neither pcap, nor pcapng, nor lines of hexadecimal digits")
        self.fails(b"", r"\Athe file is empty\Z")

    def test_the_file_header(self) -> None:
        """A header of pcap has 24 bytes. A section header of pcapng has 28 without options: its type, its length, and the byte order are first."""
        for content in (pcap(FRAMES)[:20], pcapng(FRAMES)[:7], pcapng(FRAMES)[:27]):
            self.fails(content, r"\Athe file header: the file ends within it\Z")
        self.fails(pcapng(FRAMES)[:8] + bytes(20), r"\Athe file header: its section has no byte order\Z")

    def test_the_packet_is_named(self) -> None:
        good = pcap(FRAMES)
        self.fails(good[:-1], "packet 3: the file ends within it")
        self.fails(good + b"\0" * 5, "packet 4: the file ends within it")
        self.fails(good[:30], "packet 1: the file ends within it")
        self.fails(good + struct.pack("<IIII", 1, 0, 0xFFFFFFFF, 0xFFFFFFFF), "packet 4: 4294967295 of 4294967295 bytes are kept")
        self.fails(good + struct.pack("<IIII", 1, 1_000_000, 0, 0), "packet 4: 1000000 of 1000000 parts of a second")

    def test_the_packet_of_a_bad_block_is_named(self) -> None:
        good = pcapng(FRAMES)
        self.fails(good[:-1], "packet 3: the file ends within it")
        self.fails(good[:-4] + bytes(4), "packet 3: its block ends with another length")
        self.fails(good + struct.pack("<II", 6, 13), "packet 4: its block has a length of 13")
        self.fails(good + block("<", 6, bytes(16)), "packet 4: its block is too short")
        for code, length in ((9, 1), (14, 8)):  # an option of an interface without its content
            cut = block("<", 1, struct.pack("<HHIHH", 1, 0, 0, code, length))
            self.fails(good + cut, "packet 4: its block is too short")
        self.fails(good + enhanced("<", 10 ** 6, 0, b"\2" * 60, index=3), "packet 4: there is no interface 3")
        self.fails(good + block("<", 6, struct.pack("<IIIII", 0, 0, 0, 61, 61) + bytes(60)), "packet 4: 61 of 61 bytes are kept")
        self.fails(good + b"\x0a\x0d\x0d\x0a" + bytes(8), "packet 4: the section before it has no byte order")

    def test_packets_before_it_are_read(self) -> None:
        packets, read_so_far = read_capture(io.BytesIO(pcap(FRAMES)[:-1])), []
        with self.assertRaises(CaptureError):
            for packet in packets:
                read_so_far.append(packet.number)
        self.assertEqual(read_so_far, [1, 2])
