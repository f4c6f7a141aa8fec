"""`picture`: where the arrows and bars of an SVG are."""
from __future__ import annotations

import math
import re
import unittest
import xml.etree.ElementTree as ElementTree
from typing import Dict, List, Tuple

from ndbench import drawing, picture

from .captures import advertisement, message_frame, pcap
from .paths import example_events
from .test_compare import captured
from .test_judge import run

SVG = "{http://www.w3.org/2000/svg}"
HOST = ["--mac", "34:56:78:9a:bc:de", "--draws", "word:0"]
LINK_LOCAL = "fe80::3656:78ff:fe9a:bcde"


def drawn(content: bytes, *words: str) -> ElementTree.Element:
    status, out, err = run(content, "picture", *words)
    assert (status, err) == (0, ""), (status, err)
    return ElementTree.fromstring(out)


def texts(root: ElementTree.Element) -> List[str]:
    return [element.text or "" for element in root.iter(f"{SVG}text")]


def lines(root: ElementTree.Element) -> List[Tuple[float, float, float, str]]:
    """Returns the arrows: where they begin and end from the left, how far down, and the colour."""
    found = [element.attrib for element in root.iter(f"{SVG}line")]
    return [(float(line["x1"]), float(line["x2"]), float(line["y1"]), line["stroke"]) for line in found if line["y1"] == line["y2"]]


def heads(root: ElementTree.Element) -> List[Tuple[float, float]]:
    """Returns where the points of the arrows are: from the left, and how far down."""
    points = [re.match(r"M (\S+) (\S+) l", element.attrib["d"]) for element in root.iter(f"{SVG}path")]
    return [(float(point[1]), float(point[2])) for point in points if point is not None]


def bars(root: ElementTree.Element) -> List[Tuple[str, float, float]]:
    """Returns the states of neighbours, with where they begin and end."""
    found = []
    for element in root.iter(f"{SVG}rect"):
        title = element.find(f"{SVG}title")
        if title is not None:
            top = float(element.attrib["y"])
            found.append((title.text or "", top, top + float(element.attrib["height"])))
    return found


def height_of(root: ElementTree.Element, label: str) -> float:
    """Returns how far down the arrow with this label is."""
    return next(float(element.attrib["y"]) - 4 for element in root.iter(f"{SVG}text") if element.text == label)


def sent_by(number: int) -> bytes:
    """Returns a Router Advertisement to all from a station with this number in its Ethernet address."""
    frame = advertisement()
    return frame[:6] + bytes.fromhex("02000000") + number.to_bytes(2, "big") + frame[12:]


class Arrows(unittest.TestCase):
    def test_lanes_and_labels(self) -> None:
        root = drawn(captured("failover"))
        said = texts(root)
        for text in ("34:56:78:9a:bc:de", "02:00:00:00:00:01", "02:00:00:00:00:02", "0.000", "11.000",
                     "1 ns :: ff02::1:ff9a:bcde target fe80::3656:78ff:fe9a:bcde", "6 other 17"):
            self.assertIn(text, said)
        self.assertNotIn("the node", said)
        heights = [line[2] for line in lines(root)]
        self.assertEqual(heights, sorted(heights))

    def test_a_group_is_reached_at_all_lanes(self) -> None:
        """Of ten frames five go to a group, to the two other addresses each, and five to one address. Of the five, the first router, which is between
        the others, sends one: it has a line to each side."""
        root = drawn(captured("failover"))
        self.assertEqual((len(heads(root)), len(lines(root))), (5 * 2 + 5, 10 + 1))
        x = {element.text: float(element.attrib["x"]) for element in root.iter(f"{SVG}text")}
        host, first, second = (x[mac] for mac in ("34:56:78:9a:bc:de", "02:00:00:00:00:01", "02:00:00:00:00:02"))
        for label, drawn_lines, reached in (("6 other 17", [(host, first)], [first]),
                                            ("1 ns :: ff02::1:ff9a:bcde target fe80::3656:78ff:fe9a:bcde", [(host, second)], [first, second])):
            height = height_of(root, label)
            self.assertEqual([line[:2] for line in lines(root) if line[2] == height], drawn_lines)
            self.assertEqual(sorted(point[0] for point in heads(root) if point[1] == height), reached)

    def test_rows_are_as_far_apart_as_their_times_within_bounds(self) -> None:
        frame = advertisement()
        root = drawn(pcap([(0, frame), (0, frame), (1_000_000_000, frame), (3_600_000_000_000, frame)]))
        heights = [height_of(root, text) for text in (f"{number} {texts(root)[-1][2:]}" for number in (1, 2, 3, 4))]
        self.assertEqual([later - earlier for earlier, later in zip(heights, heights[1:])], [drawing.ROW, 50, drawing.LONGEST_GAP])

    def test_a_frame_that_is_dropped_is_marked(self) -> None:
        root = drawn(pcap([(0, advertisement()[:-1] + b"\1"), (0, message_frame(b"\x85" + bytes(7), macs="020000000001020000000002"))]))
        self.assertEqual([line[3] for line in lines(root)], [drawing.DROPPED, drawing.INK])

    def test_texts_are_cut_and_whole_in_their_titles(self) -> None:
        heard = [(moment * 10 ** 6, frame) for moment, frame in example_events("host.hex") if frame]
        root = drawn(pcap(heard))
        label = next(element for element in root.iter(f"{SVG}text") if (element.text or "").startswith("2 ra"))
        self.assertEqual(len(label.text or ""), drawing.LABEL_CHARACTERS)
        self.assertTrue((label.find(f"{SVG}title").text or "").endswith("prefix 2001:db8::/64 la 2592000 604800"))  # type: ignore[union-attr]

    def test_a_group_that_sends(self) -> None:
        """Its frame is not a good one, and has a line of its own all the same."""
        root = drawn(pcap([(0, bytes.fromhex("020000000001333300000001") + bytes(48))]))
        self.assertIn("33:33:00:00:00:01", texts(root))
        self.assertEqual(len(lines(root)), 1)

    def test_what_is_above_the_most_is_counted(self) -> None:
        root = drawn(pcap([(0, advertisement())] * (picture.MOST_ROWS + 3)))
        self.assertIn("3 later frames are left out", texts(root))

    def test_stations_above_the_most_are_counted(self) -> None:
        """Each of these frames is from another station to all; then the first station and the last one send to one another."""
        flood = [sent_by(number) for number in range(picture.MOST_LANES + 3)]
        to_last, to_first = (flood[end][6:12] + flood[start][6:] for start, end in ((0, -1), (-1, 0)))
        content = pcap([(0, frame) for frame in [*flood, to_last, to_first]])
        root = drawn(content)
        names = [text for text in texts(root) if text.startswith("02:00:00:0")]
        self.assertEqual(names, [flood[number][6:12].hex(":") for number in range(picture.MOST_LANES)])
        self.assertIn("5 frames of 3 more stations are left out", texts(root))
        # Each frame that is drawn has a head at each other station.
        self.assertEqual(len(heads(root)), picture.MOST_LANES * (picture.MOST_LANES - 1))

    def test_a_thousand_stations(self) -> None:
        root = drawn(pcap([(0, sent_by(number)) for number in range(1000)]))
        self.assertIn(f"{1000 - picture.MOST_LANES} frames of {1000 - picture.MOST_LANES} more stations are left out", texts(root))

    def test_a_node_has_a_lane_and_its_frames_count(self) -> None:
        """With these draws a node that starts with the capture detects at 0 and solicits at 1 s: two frames more than those of the capture."""
        flood = drawn(pcap([(0, sent_by(number)) for number in range(picture.MOST_LANES)]), *HOST, "--after", "2000")
        self.assertIn("34:56:78:9a:bc:de", texts(flood))
        self.assertIn("1 frame of 1 more station is left out", texts(flood))
        many = drawn(pcap([(0, advertisement())] * picture.MOST_ROWS), *HOST, "--after", "2000")
        self.assertEqual(len(list(many.iter(f"{SVG}circle"))), picture.MOST_ROWS)
        self.assertIn("2 later frames are left out", texts(many))

    def test_a_capture_that_is_cut(self) -> None:
        """Its first packet is drawn: alone, and with the detection of a node that starts 500 ms before. Without a packet there is no picture."""
        content = pcap([(0, advertisement()), (9_000_000_000, advertisement())])[:-1]
        for words, count in (([], 1), ([*HOST, "--before", "500"], 2)):
            status, out, err = run(content, "picture", *words)
            self.assertEqual((status, err), (2, "ndbench: capture: packet 2: the file ends within it\n"))
            self.assertEqual(len(list(ElementTree.fromstring(out).iter(f"{SVG}circle"))), count)
        self.assertEqual(run(content[:24 + 20], "picture")[:2], (2, ""))

    def test_an_empty_capture(self) -> None:
        self.assertEqual(texts(drawn(pcap([]))), ["seconds"])


class Bars(unittest.TestCase):
    """The states of RFC 4861, 7.3.3, with the constants of section 10."""

    def solicitation(self, source: str = "fe80::ff:fe00:1") -> bytes:
        """A neighbour's solicitation for the node's link-local address, with the neighbour's link-layer address."""
        target = bytes.fromhex("fe80000000000000365678fffe9abcde")
        return message_frame(b"\x87" + bytes(7) + target + bytes.fromhex("0101020000000001"), source, "ff02::1:ff9a:bcde",
                             "3333ff9abcde020000000001")

    def test_the_longest_name_is_within_the_picture(self) -> None:
        """A character of a font of 11 pixels, in which all have one width, is 0.6 of these wide."""
        address = "2001:db8:1234:5678:9abc:deff:fe12:3402"
        root = drawn(pcap([(0, self.solicitation(address))]), *HOST, "--before", "2000")
        name = next(element.attrib["transform"] for element in root.iter(f"{SVG}text") if element.text == address)
        place = re.fullmatch(r"translate\((\S+) (\S+)\) rotate\(-(\d+)\)", name)
        assert place is not None, name
        x, y, slant = float(place[1]), float(place[2]), math.radians(float(place[3]))
        length = len(address) * 0.6 * 11
        self.assertGreater(y - length * math.sin(slant) - 11 * math.cos(slant), 0)
        self.assertLess(x + length * math.cos(slant), float(root.attrib["width"]))

    def test_times_are_since_the_first_packet_also_if_it_is_the_node_s(self) -> None:
        own = message_frame(b"\x85" + bytes(7), "::", "ff02::2", "3333000000023456789abcde")
        root = drawn(pcap([(0, own), (5_000_000_000, advertisement())]), *HOST, "--before", "2000")
        shown = {element.get("y"): element.text for element in root.iter(f"{SVG}text") if element.get("text-anchor") == "end"}
        label = next(element for element in root.iter(f"{SVG}text") if (element.text or "").startswith("2 ra"))
        self.assertEqual(shown[label.attrib["y"]], "5.000")

    def test_packets_of_the_node_s_own_address_are_grey(self) -> None:
        """With these draws a node that starts with the capture detects at 0 and solicits at 1 s, 0.2 s before the host of the capture does."""
        own = message_frame(b"\x85" + bytes(7), LINK_LOCAL, "ff02::2", "3333000000023456789abcde")
        root = drawn(pcap([(0, advertisement()), (1_200_000_000, own)]), *HOST)
        self.assertEqual([line[3] for line in lines(root)], [drawing.INK, drawing.SENT, drawing.SENT, drawing.OWN])
        self.assertEqual(drawn(pcap([(0, own)])).find(f".//{SVG}circle").get("fill"), drawing.INK)  # type: ignore[union-attr]

    def test_a_neighbour_that_does_not_answer(self) -> None:
        """The node's answer uses the neighbour: DELAY for 5 s, then three probes, a second apart, and no entry."""
        root = drawn(pcap([(0, self.solicitation()), (12_000_000_000, advertisement())]), *HOST, "--before", "2000")
        probes = [element for element in root.iter(f"{SVG}text") if (element.text or "").startswith(f"ns {LINK_LOCAL} fe80::ff:fe00:1")]
        heights = [float(probe.attrib["y"]) - 4 for probe in probes]
        seconds = [element.text for probe in probes for element in root.iter(f"{SVG}text")
                   if element.get("y") == probe.attrib["y"] and element.get("text-anchor") == "end"]
        self.assertEqual((len(probes), seconds), (3, ["5.000", "6.000", "7.000"]))
        answered = next(float(element.attrib["y"]) - 4 for element in root.iter(f"{SVG}text") if (element.text or "").startswith("na "))
        self.assertEqual([bar[0] for bar in bars(root)], ["DELAY", "PROBE"])
        self.assertEqual(bars(root)[0][1:], (answered, heights[0]))
        self.assertEqual(bars(root)[1][1], heights[0])
        # It ends at 8 s, and the next arrow is at 12 s. The last probe and a Router Solicitation are both at 7 s, in two rows.
        last = max(line[2] for line in lines(root))
        seventh = max(line[2] for line in lines(root) if line[2] < last)
        self.assertAlmostEqual(bars(root)[1][2], seventh + (last - seventh) / 5, places=1)
        self.assertIn("the node", texts(root))

    def test_a_neighbour_that_answers(self) -> None:
        """Its answer to the second probe makes it REACHABLE for ReachableTime, 15 s with these draws, and then it is STALE."""
        answer = message_frame(b"\x88\0\0\0\x60\0\0\0" + bytes.fromhex("fe80000000000000000000fffe000001"), "fe80::ff:fe00:1", LINK_LOCAL,
                               "3456789abcde020000000001")
        later = advertisement()
        packets = [(0, self.solicitation()), (6_500_000_000, answer), (11_500_000_000, later), (31_500_000_000, later)]
        root = drawn(pcap(packets), *HOST, "--before", "2000")
        shown: Dict[str, Tuple[float, float]] = {name: (begin, end) for name, begin, end in bars(root)}
        self.assertEqual([bar[0] for bar in bars(root)], ["DELAY", "PROBE", "REACHABLE", "STALE"])
        labels = {text.split(" ")[0]: text for text in texts(root)}
        heights = [height_of(root, labels[number]) for number in ("2", "3", "4")]
        self.assertEqual(shown["REACHABLE"][0], heights[0])
        # It ends 10 of 20 seconds after the third packet.
        self.assertAlmostEqual(shown["REACHABLE"][1], (heights[1] + heights[2]) / 2, places=1)
        self.assertEqual(shown["STALE"], (shown["REACHABLE"][1], heights[2]))
