"""`replay`: the frames of examples/host.hex at their moments, and examples/host.txt; other forms of the output have the same events."""
from __future__ import annotations

import io
import json
import struct
import tempfile
import unittest
from ipaddress import IPv6Address, IPv6Network
from pathlib import Path
from typing import Dict, List

import nd
from ndbench.capture import read_capture
from ndbench.pcapng import Written, write_capture
from ndbench.replay import line_of
from ndbench.setup import Setup

from .captures import BEGIN, advertisement, events_pcap, message_frame, pcap, prefix_option
from .paths import example, example_events, example_frames
from .test_judge import run

HOST = ["--role", "host", "--mac", "34:56:78:9a:bc:de", "--draws", "word:0"]
# host.txt has numbers of nd.h where `ndpctl run` has words.
TYPES = {"rs": "133", "ra": "134", "ns": "135", "na": "136", "redirect": "137"}
STATES = {"tentative": "1", "preferred": "2", "deprecated": "3", "duplicate": "4"}
PREFERENCES = {"medium": "0", "high": "1", "low": "2"}


def replayed(*words: str) -> str:
    """Returns what is printed of the example of a host, which starts 1,200 ms before its first frame."""
    status, out, err = run(events_pcap(list(example_events("host.hex"))), "replay", *HOST, "--before", "1200", *words)
    assert (status, err) == (0, ""), (status, err)
    return out


def numbered(line: str) -> str:
    """Returns a line of `ndpctl run` as host.txt has it."""
    words = line.split(" ")
    if words[1] == "heard":
        return f"{words[0]} heard {TYPES[words[2]]}"
    return " ".join(words[:3]) if words[1] == "drop" else line


def row_of(line: str) -> str:
    """Returns a row of a table as host.txt has it."""
    _, table, address, *rest = line.split(" ")
    if table == "address":
        return f"address {address} {STATES[rest[0]]} {' '.join(rest[1:]).replace('inf', str(nd.FOREVER))}"
    return f"router {address} {rest[0]} {PREFERENCES[rest[1]]}"


class Text(unittest.TestCase):
    def test_the_example_of_a_host(self) -> None:
        lines = [line for line in replayed("--tables").splitlines() if line[0] != "#"]
        records = [numbered(line) for line in lines if line.split(" ")[1] in ("tx", "heard", "drop", "up", "assigned", "duplicate", "ended")]
        rows = sorted(row_of(line) for line in lines if line.split(" ")[1] in ("address", "router") and len(line.split(" ")) > 3)
        wanted = example("host.txt").splitlines()
        self.assertEqual(records, wanted[:8])
        self.assertEqual(rows, sorted(wanted[8:]))

    def test_packets_and_frames_are_explained(self) -> None:
        """Their times are since the first packet, and the node starts 1,200 ms before it."""
        lines = replayed().splitlines()
        dropped = lines.index("1200 drop 8 OptionZero")
        self.assertEqual(lines[dropped - 1:dropped + 2:2], ["# packet 1 at 0.000000 s: drop 8 OptionZero", "# [RFC 4861, 4.6]"])
        self.assertEqual(lines[1], "# sends at -1.200000 s: ns :: ff02::1:ff9a:bcde target fe80::3656:78ff:fe9a:bcde")

    def test_a_packet_from_the_node_s_own_address(self) -> None:
        """It is that of the host that the node replaces: it is shown, and not heard. The advertisement behind it is heard."""
        own = message_frame(b"\x85" + bytes(7), "::", "ff02::2", "3333000000023456789abcde")
        content = pcap([(0, own), (250_000_000, advertisement())])
        lines = run(content, "replay", *HOST, "--before", "1500")[1].splitlines()
        self.assertEqual([line for line in lines if line.startswith("# packet 1 ")],
                         ["# packet 1 at 0.000000 s, from its own address, not heard: rs :: ff02::2"])
        self.assertEqual([line for line in lines if "heard" in line and line[0] != "#"], ["1750 heard ra"])
        rows = [json.loads(line) for line in run(content, "replay", *HOST, "--before", "1500", "--json")[1].splitlines()]
        self.assertEqual([(row["number"], row["moment"]) for row in rows if row["kind"] == "Own"], [(1, 1500)])

    def test_why_a_good_message_is_not_for_the_node(self) -> None:
        """With these draws its address is assigned 1,000 ms after its start (RFC 4862, 5.1), and until then it hears no advertisement. Then it drops
        a Router Solicitation, as hosts do (RFC 4861, 6.1.1). A node whose address is another's hears nothing (RFC 4862, 5.4.5)."""
        solicitation = message_frame(b"\x85" + bytes(7), "::", "ff02::2", "333300000002020000000001")
        defence = message_frame(b"\x88\0\0\0\x20\0\0\0" + IPv6Address("fe80::3656:78ff:fe9a:bcde").packed, "fe80::3656:78ff:fe9a:bcde")
        for first, section in ((advertisement(), "RFC 4861, 6.1.1"), (defence, "RFC 4862, 5.4.5")):
            content = pcap([(999_000_000, first), (1_001_000_000, solicitation)])
            lines = run(content, "replay", *HOST, "--before", "999")[1].splitlines()
            dropped = lines.index("1001 drop 19 NotForUs")
            self.assertEqual(lines[dropped + 1], f"# [{section}]")
            early = [lines[number + 1] for number, line in enumerate(lines) if line == "999 drop 19 NotForUs"]
            self.assertEqual(early, ["# [our choice: its link-local address is not yet assigned]"] if first != defence else [])

    def test_why_a_message_or_a_packet_is_not_for_the_node(self) -> None:
        """RFC 4291, 2.8, lists what a host recognizes as its own; RFC 4861, 6.2.7, 7.2.3 and 8.2, and RFC 4862, 5.4, ask for the others. The address
        of the prefix is tried within a second, for a second."""
        another, own = IPv6Address("2001:db8::9").packed, IPv6Address("fe80::3656:78ff:fe9a:bcde").packed
        asked = message_frame(b"\x87" + bytes(7) + another)
        redirect = message_frame(b"\x89" + bytes(7) + another * 2)
        misdirected = message_frame(b"\x88" + bytes(7) + another, destination="fe80::9")
        claimed = message_frame(b"\x87" + bytes(7) + own, "fe80::3656:78ff:fe9a:bcde")
        tried = IPv6Address("2001:db8::3656:78ff:fe9a:bcde").packed
        packet, to_tried = (asked[:20] + b"\x11" + asked[21:38] + destination + asked[54:] for destination in (another, tried))
        for role, frame, section, *words in (
                ("host", asked, "RFC 4861, 7.2.3"), ("host", message_frame(b"\x87" + bytes(7) + tried), "RFC 4862, 5.4.3"),
                ("host", message_frame(b"\x87" + bytes(7) + own, destination="fe80::9"), "RFC 4291, 2.8"),
                ("host", misdirected, "RFC 4291, 2.8"), ("host", packet, "RFC 4291, 2.8"), ("host", to_tried, "RFC 4862, 5.4"),
                ("host", claimed, "our choice: the policy self", "--policy", "self"),
                ("router", advertisement(), "RFC 4861, 6.2.7"), ("router", redirect, "RFC 4861, 8.2"),
                ("router", packet[:22] + own + packet[38:], "RFC 4291, 2.5.6 and 2.8")):
            with self.subTest(section):
                to_node = frame if role == "host" else bytes.fromhex("3456789abcde") + frame[6:]
                sent = [(0, advertisement(options=prefix_option())), (1, to_node)] if role == "host" else [(0, to_node)]
                lines = run(pcap(sent), "replay", *HOST[2:], "--role", role, "--before", "2000", *words)[1].splitlines()
                self.assertEqual(lines[lines.index("2000 drop 19 NotForUs") + 1], f"# [{section}]")

    def test_why_a_policy_drops_a_message_or_a_packet(self) -> None:
        """By `unredirected` each Redirect is dropped, by `strict` what RFC 4861, 4.3, 6.1.1 and 7.1.1, and RFC 4291, 2.5.3 and 2.7, forbid to send."""
        host, router = (IPv6Address(text).packed for text in ("fe80::3656:78ff:fe9a:bcde", "fe80::ff:fe00:1"))
        to_host, to_router = (bytes([135]) + bytes(7) + target for target in (host, router))
        group, odd, of_group = "ff02::1:ff9a:bcde", bytes.fromhex("0102") + bytes(14), bytes.fromhex("0101330000000001")
        other = message_frame(b"\x80" + bytes(3), destination="fe80::3656:78ff:fe9a:bcde")
        for role, frame, section, *words in (
                ("host", message_frame(b"\x89" + bytes(7) + router * 2), "our choice: the policy unredirected", "unredirected"),
                ("router", message_frame(b"\x89" + bytes(7) + router * 2), "RFC 4861, 8.2", "unredirected"),
                ("host", message_frame(to_host + odd, "::", group), "RFC 4861, 7.1.1: the policy strict", "strict"),
                ("router", message_frame(bytes([133]) + bytes(7) + odd, "::", "ff02::2"), "RFC 4861, 6.1.1: the policy strict", "strict"),
                ("host", message_frame(bytes([133]) + bytes(7) + odd, "::"), "RFC 4861, 6.1.1", "strict"),
                ("host", message_frame(to_host, destination=group), "RFC 4861, 4.3: the policy strict", "strict"),
                ("host", message_frame(to_host + odd, destination=group), "RFC 4861, 4.3: the policy strict", "strict"),
                ("host", message_frame(to_host + of_group, destination=group), "RFC 4861, 4.3: the policy strict", "strict,self"),
                ("router", message_frame(to_router, destination="ff02::1:ff00:1"), "RFC 4861, 4.3: the policy strict", "strict"),
                ("host", message_frame(to_host, "::1", group), "RFC 4291, 2.5.3: the policy strict", "strict"),
                ("host", other[:22] + IPv6Address("::1").packed + other[38:], "RFC 4291, 2.5.3: the policy strict", "strict"),
                ("host", other[:22] + IPv6Address("ff02::9").packed + other[38:], "RFC 4291, 2.7: the policy strict", "strict")):
            with self.subTest(f"{section} at a {role} with {words[0]}"):
                mac = ["--mac", "34:56:78:9a:bc:de" if role == "host" else "02:00:00:00:00:01", "--draws", "word:0"]
                sent = pcap([(0, b"\x33" * 6 + b"\2" * 6 + frame[12:])])
                lines = run(sent, "replay", "--role", role, *mac, "--before", "2000", "--policy", *words)[1].splitlines()
                self.assertEqual(lines[lines.index("2000 drop 19 NotForUs") + 1], f"# [{section}]")

    def test_an_address_by_hand(self) -> None:
        """It is tried once the link-local address is assigned, without a delay by these draws, and assigned RetransTimer, 1 s, later (RFC 4862,
        5.4). That the packets are an hour apart changes nothing. It is answered for (RFC 4861, 7.2.4), and without it the packet is dropped."""
        target = IPv6Address("2001:db8::5").packed
        question = message_frame(b"\x87" + bytes(7) + target + bytes.fromhex("0101020000000001"), "fe80::ff:fe00:1", "ff02::1:ff00:5",
                                 "3333ff000005020000000001")
        content = pcap([(0, advertisement()), (3_600_000_000_000, question)])
        for role in ("host", "router"):
            words = ["replay", *HOST[2:], "--role", role]
            lines = run(content, *words, "--address", "2001:db8::5", "--address", "2001:db8::6")[1].splitlines()
            detection = lines.index("# sends at 1.000000 s: ns :: ff02::1:ff00:5 target 2001:db8::5")
            self.assertLess(lines.index("1000 assigned fe80::3656:78ff:fe9a:bcde"), detection)
            self.assertIn("2000 assigned 2001:db8::5", lines)
            self.assertIn("2000 assigned 2001:db8::6", lines)
            self.assertEqual(lines[-1], "# sends at 3600.000000 s: na 2001:db8::5 fe80::ff:fe00:1 "
                                        f"flags {'rso' if role == 'router' else 'so'} target 2001:db8::5 tlla 34:56:78:9a:bc:de")
            self.assertIn("3600000 drop 19 NotForUs", run(content, *words)[1].splitlines())

    def test_link_local_addresses_by_hand(self) -> None:
        """The node's own link-local address stays as it is, and another one is tried as each address is."""
        words = [word for text in ("fe80::3656:78ff:fe9a:bcde", "fe80::5", "2001:db8::5") for word in ("--address", text)]
        lines = run(pcap([(5_000_000_000, advertisement())]), "replay", *HOST, "--before", "5000", *words)[1].splitlines()
        assigned = [line for line in lines if " assigned " in line]
        self.assertEqual(assigned, ["1000 assigned fe80::3656:78ff:fe9a:bcde", "2000 assigned 2001:db8::5", "2000 assigned fe80::5"])
        self.assertEqual([line for line in lines if "refused" in line or "failed" in line], [])

    def test_time_goes_on_after_the_last_packet(self) -> None:
        """The last packet is at 2300 ms, when fe80::2 has 1,800 s left; the other router has its 1,800 s from 1200 ms on."""
        lines = [line for line in replayed("--after", "1800000").splitlines() if "ended" in line]
        self.assertEqual(lines, ["1801200 ended router fe80::ff:fe00:1", "1802300 ended router fe80::2"])

    def test_a_packet_of_the_past_is_heard_at_the_last_moment(self) -> None:
        frames = [(2_000_000_000, advertisement()), (1_000_000_000, advertisement(lifetime=0))]
        out = run(pcap(frames), "replay", *HOST, "--before", "1500")[1]
        self.assertEqual([line for line in out.splitlines() if "heard" in line], ["1500 heard ra", "1500 heard ra"])
        self.assertIn("1500 ended router fe80::1", out)

    def test_bad_input(self) -> None:
        content = events_pcap(list(example_events("host.hex")))
        status, out, err = run(content[:-1], "replay", *HOST, "--before", "1200")
        self.assertEqual((status, err), (2, "ndbench: capture: packet 3: the file ends within it\n"))
        self.assertIn("1200 drop 8 OptionZero\n", out)
        self.assertEqual(run(content, "replay", *HOST, "--write", "/no/such/folder/file")[0], 2)


class Json(unittest.TestCase):
    def test_it_has_the_same_events(self) -> None:
        rows: List[Dict[str, object]] = [json.loads(line) for line in replayed("--json").splitlines()]
        texts = [f"{row['moment']} {row['text'] if 'text' in row else 'tx ' + str(row['frame'])}" for row in rows if row["kind"] != "Packet"]
        self.assertEqual([numbered(text) for text in texts], example("host.txt").splitlines()[:8])
        self.assertEqual([row["number"] for row in rows if row["kind"] == "Packet"], [1, 2, 3])
        dropped = next(row for row in rows if row["kind"] == "Dropped")
        self.assertEqual((dropped["moment"], dropped["why"]), (1200, "OPTION_ZERO"))
        assigned = next(row for row in rows if row["kind"] == "Assigned")
        self.assertEqual(assigned["address"], "fe80::3656:78ff:fe9a:bcde")


class Capture(unittest.TestCase):
    def test_it_has_the_frames_of_both_sides(self) -> None:
        with tempfile.TemporaryDirectory() as room:
            path = Path(room) / "written"
            self.assertEqual(replayed("--write", str(path)), "")
            content = path.read_bytes()
        packets = list(read_capture(io.BytesIO(content)))
        sent = [(int(words[0]), bytes.fromhex(words[2])) for words in map(str.split, example("host.txt").splitlines()) if words[1] == "tx"]
        heard = [(moment, frame) for moment, frame in example_events("host.hex") if frame is not None]
        found = [((packet.time // 10 ** 6) - BEGIN * 1000, packet.frame) for packet in packets]
        self.assertEqual(sorted(found), sorted(sent + heard))
        self.assertEqual([moment for moment, _ in found], sorted(moment for moment, _ in found))
        for comment in (b"at 1000 ms: assigned fe80::3656:78ff:fe9a:bcde", b"at 1200 ms: drop 8 OptionZero [RFC 4861, 4.6]",
                        b"at 0 ms the node sends ns :: ff02::1:ff9a:bcde target fe80::3656:78ff:fe9a:bcde", b"at 2300 ms: heard ra"):
            self.assertIn(comment, content)

    def test_a_capture_that_is_cut(self) -> None:
        """The solicitation is heard at 2,000 ms and answered then, and the file ends within the next packet: both are written."""
        question = message_frame(b"\x87" + bytes(7) + IPv6Address("fe80::3656:78ff:fe9a:bcde").packed + bytes.fromhex("0101020000000001"),
                                 "fe80::ff:fe00:1", "ff02::1:ff9a:bcde", "3333ff9abcde020000000001")
        content = pcap([(0, question), (1_000_000_000, advertisement())])[:-1]
        with tempfile.TemporaryDirectory() as room:
            path = Path(room) / "written"
            status, _, err = run(content, "replay", *HOST, "--before", "2000", "--write", str(path))
            packets = list(read_capture(io.BytesIO(path.read_bytes())))
        self.assertEqual((status, err), (2, "ndbench: capture: packet 2: the file ends within it\n"))
        self.assertEqual(packets[-2].frame, question)
        self.assertEqual(line_of(packets[-1].frame), "na fe80::3656:78ff:fe9a:bcde fe80::ff:fe00:1 flags so target fe80::3656:78ff:fe9a:bcde "
                                                     "tlla 34:56:78:9a:bc:de")

    def test_an_answer_is_not_before_its_question(self) -> None:
        """A packet half a millisecond after a moment, and what the node sends at that moment, have the times in this order."""
        dropped, question, _ = [frame for _, frame in example_events("host.hex") if frame is not None]
        with tempfile.TemporaryDirectory() as room:
            path = Path(room) / "written"
            run(pcap([(0, dropped), (500_500_000, question)], units=10 ** 9), "replay", *HOST, "--before", "1200", "--write", str(path))
            packets = list(read_capture(io.BytesIO(path.read_bytes())))
        times = [packet.time for packet in packets]
        self.assertEqual(times, sorted(times))
        self.assertEqual([packet.time % 10 ** 9 for packet in packets[-2:]], [500_500_000] * 2)
        self.assertEqual(packets[-2].frame, question)

    def test_what_is_reported_before_the_first_frame(self) -> None:
        """A router offers at most 16 prefixes: the 17th is refused before it sends anything."""
        offers = [word for number in range(17) for word in ("--offer", f"2001:db8:{number}::/64")]
        with tempfile.TemporaryDirectory() as room:
            path = Path(room) / "written"
            run(pcap([(0, advertisement())]), "replay", "--role", "router", "--mac", "02:00:00:00:00:07", *offers, "--write", str(path))
            self.assertIn(b"at 0 ms: refused full offers", path.read_bytes())

    def test_the_layout(self) -> None:
        """A block of a packet by the draft: its options are flags (2) and a comment (1), each padded to 4 bytes."""
        file = io.BytesIO()
        write_capture(file, [Written(5, b"\2" * 62, True, "a note")])
        block = file.getvalue()[28 + 32:]
        head = struct.pack("<IIIIIII", 6, 120, 0, 0, 5, 62, 62)
        options = struct.pack("<HHI", 2, 4, 2) + struct.pack("<HH8s", 1, 6, b"a note") + bytes(4)
        self.assertEqual(block, head + b"\2" * 62 + bytes(2) + options + struct.pack("<I", 120))


class Interfaces(unittest.TestCase):
    """Which frames an interface passes to its node (nd.h, FRAMES IN)."""

    def test_frames_of_a_host_and_of_a_router(self) -> None:
        host, router = (Setup(nd.Options(role, "02:00:00:00:00:99")) for role in (nd.Role.HOST, nd.Role.ROUTER))
        solicitation, listener_report = example_frames("link.hex")[8], example_frames("link.hex")[13]
        self.assertEqual((host.hears(solicitation), router.hears(solicitation)), (True, True))
        self.assertEqual((host.hears(listener_report), router.hears(listener_report)), (True, False))
        self.assertFalse(host.hears(example_frames("link.hex")[0]), "it is from the interface itself")
        self.assertFalse(host.hears(example_frames("link.hex")[10]), "it is for another interface")
        self.assertFalse(host.hears(b""))

    def test_a_router_advertises_its_offers(self) -> None:
        """The router of examples/router.hex, but for its second route: its first advertisement is due when its address is assigned."""
        setup = Setup(nd.Options(nd.Role.ROUTER, "02:00:00:00:00:01", draws=nd.Word(0)), (IPv6Network("2001:db8::/64"),))
        with setup.opened() as node:
            node.pass_time(1000)
            sent = [record.frame.hex() for record in node.poll() if isinstance(record, nd.Frame)]
        self.assertEqual(sent, [line.split(" ")[2] for line in example("router.txt").splitlines()[:2]])
