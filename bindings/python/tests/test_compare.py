"""`compare`: the frames of examples/scripts/host.output, which were worked out by hand, as those of another stack; and mistakes in them."""
from __future__ import annotations

import io
import json
import unittest
from ipaddress import IPv6Address
from typing import List, Tuple

import nd
import ndbench
from ndbench.capture import read_capture
from ndbench.setup import Setup

from .captures import BEGIN, advertisement, message_frame, pcap, prefix_option
from .paths import EXAMPLES, example
from .test_judge import run

HOST = ["--mac", "34:56:78:9a:bc:de", "--draws", "word:0"]
OWN = bytes.fromhex("3456789abcde")
LINK_LOCAL = "fe80::3656:78ff:fe9a:bcde"
Sent = List[Tuple[int, bytes]]  # milliseconds, and a frame


def frames_of(name: str, verb: str) -> Sent:
    """Returns the frames of the lines with this verb."""
    found = []
    for line in example(name).splitlines():
        moment, word, *rest = line.split(" ")
        if word == verb:
            found.append((int(moment), bytes.fromhex(rest[0])))
    return found


def captured(script: str, change: object = None) -> bytes:
    """Returns the capture of a run of an example: what the host heard and what it sent, which `change` may change."""
    sent = frames_of(f"scripts/{script}.output", "tx")
    sent = change(sent) if callable(change) else sent
    heard = frames_of(f"scripts/{script}.script", "rx")
    return pcap([(moment * 10 ** 6, frame) for moment, frame in sorted(sent + heard, key=lambda timed: timed[0])])


def compared(content: bytes, *words: str) -> Tuple[int, List[str], str]:
    status, out, err = run(content, "compare", *HOST, *words)
    return status, out.splitlines(), err


class Same(unittest.TestCase):
    def test_the_examples_of_hosts(self) -> None:
        for script, count in (("host", 3), ("failover", 6), ("stack", 7)):
            with self.subTest(script):
                messages = [frame for _, frame in frames_of(f"scripts/{script}.output", "tx") if frame[20] == 58]
                status, out, err = compared(captured(script))
                self.assertEqual((status, out), (0, []))
                self.assertEqual(err, f"{len(messages)} messages of the other stack, 0 differences\n")
                self.assertGreaterEqual(len(messages), count)

    def test_options_that_are_passed_over_are_not_compared(self) -> None:
        """A nonce in a detection (RFC 7527) is no difference."""
        def with_nonce(sent: Sent) -> Sent:
            message = sent[0][1][54:] + bytes.fromhex("0e01ccdd89fd7fab")
            frame = message_frame(message[:2] + bytes(2) + message[4:], "::", "ff02::1:ff9a:bcde", sent[0][1][:12].hex())
            return [(sent[0][0], frame), *sent[1:]]
        self.assertEqual(compared(captured("host", with_nonce))[:2], (0, []))


class Starts(unittest.TestCase):
    """When the node starts. Its own delay before the first detection is random, at most 1 s (RFC 4862, 5.4.2): these draws have different ones."""

    DRAWS = ("word:0", "word:2147483648", "word:4294967295", *(f"seed:{number}" for number in range(8)))

    def detection(self, text: str) -> bytes:
        return message_frame(b"\x87" + bytes(7) + IPv6Address(text).packed, "::", "ff02::1:ff9a:bcde", "3333ff9abcde3456789abcde")

    def without_difference(self, content: bytes, count: int, *words: str) -> None:
        for draws in self.DRAWS:
            with self.subTest(words, draws=draws):
                status, out, err = run(content, "compare", *HOST[:2], "--draws", draws, *words)
                said = f"{count} message{'s' if count > 1 else ''} of the other stack, 0 differences"
                self.assertEqual((status, out, err.splitlines()[-1:]), (0, "", [said]))

    def test_an_advertisement_soon_after_the_address_is_assigned(self) -> None:
        """The host's address is assigned RetransTimer, 1 s, after its detection, and 0.1 s before the advertisement. It detects the address of the
        prefix within the delay of 1 s. The capture ends then, or goes on for a minute, in which it does not solicit, since it has a router."""
        solicitation = message_frame(b"\x85" + bytes(7) + bytes.fromhex("01013456789abcde"), LINK_LOCAL, "ff02::2", "3333000000023456789abcde")
        sent = [(0, self.detection(LINK_LOCAL)), (1000, solicitation), (1100, advertisement(options=prefix_option())),
                (1600, self.detection("2001:db8::3656:78ff:fe9a:bcde")), (60_000, advertisement(options=prefix_option()))]
        self.without_difference(pcap([(moment * 10 ** 6, frame) for moment, frame in sent]), 3)
        self.without_difference(pcap([(moment * 10 ** 6, frame) for moment, frame in sent[:4]]), 3)

    def test_a_capture_that_begins_with_a_solicitation_of_routers(self) -> None:
        """The detection of the host was before the capture, and so is the node's."""
        content = captured("host", lambda sent: sent[1:])
        self.assertEqual(compared(content)[:2], (0, []))

    def asked(self) -> bytes:
        """Returns a capture that begins after the host's start: at 3 s it is asked for its address, and a millisecond later it answers."""
        target = IPv6Address(LINK_LOCAL).packed
        question = message_frame(b"\x87" + bytes(7) + target + bytes.fromhex("0101020000000001"), "fe80::ff:fe00:1", "ff02::1:ff9a:bcde",
                                 "3333ff9abcde020000000001")
        answer = message_frame(b"\x88\0\0\0\x60\0\0\0" + target + bytes.fromhex("02013456789abcde"), LINK_LOCAL, "fe80::ff:fe00:1",
                               "0200000000013456789abcde")
        return pcap([(3_000_000_000, question), (3_001_000_000, answer), (33_000_000_000, advertisement())])

    def test_a_capture_without_the_host_s_start(self) -> None:
        """The node has its address before the capture begins, and has ended its solicitations, of which the capture has none."""
        self.without_difference(self.asked(), 1)
        err = compared(self.asked())[2]
        self.assertIn("ndbench: the capture begins after the start of 34:56:78:9a:bc:de: the node does not know what it heard before\n", err)
        self.assertNotIn("after the start", compared(captured("host"))[2])

    def test_what_is_before_the_first_message_is_heard(self) -> None:
        """With these draws the node has its address 1,000 ms after its start: 1,500 ms before the answer are enough to hear the question, and 500 ms
        are not. It solicits routers at 1,000, 5,000 and 9,000 ms, the second time in the capture."""
        first = compared(self.asked(), "--before", "1500")[1]
        self.assertEqual(first[0], "at 5000 ms (3.501 s): only the node sends it [RFC 4861, 6.3.7]")
        self.assertEqual(compared(self.asked(), "--before", "500")[1][0], "at 500 ms (0.001 s): only the other stack sends it [RFC 4861, 7.2.4]")


class ByHand(unittest.TestCase):
    """The link of two Linux hosts, each with an address by hand (examples/README.md)."""

    def compared(self, *words: str) -> Tuple[int, List[str], str]:
        status, out, err = run((EXAMPLES / "captures" / "linux.pcap").read_bytes(), "compare", "--all", *words)
        return status, out.splitlines(), err.splitlines()[-1]

    def test_the_second_host(self) -> None:
        """It tries its address 0.8 s after the link-local one, and probes the address of the first host, which has solicited it."""
        for draws in ("seed:0", "seed:1", "word:0", "word:4294967295"):
            done = self.compared("--mac", "02:00:00:00:00:0b", "--address", "2001:db8::b", "--draws", draws)
            self.assertEqual(done, (0, [], "6 messages of the other stack, 0 differences"))

    def test_the_first_host(self) -> None:
        """Its address was given with a prefix on the link, and the node's without one (RFC 5942, 4): so it solicits the second host. It answers a
        probe without its link-layer address, as it may (RFC 4861, 7.2.4). It tries the address by hand before the link-local one."""
        status, lines, said = self.compared("--mac", "02:00:00:00:00:0a", "--address", "2001:db8::a")
        self.assertEqual([line.partition("): ")[2] for line in lines if line[0] != " "],
                         ["only the other stack sends it [RFC 4861, 7.2.2]", "the contents are different [RFC 4861, 7.2.4]"])
        self.assertEqual((status, said), (1, "6 messages of the other stack, 2 differences"))

    def test_without_its_address(self) -> None:
        """Its detection, its probe, or its answer are differences too."""
        for last in "ab":
            lines = self.compared("--mac", f"02:00:00:00:00:0{last}")[1]
            self.assertIn(f"target 2001:db8::{last}", "".join(line for line in lines if "other stack: packet" in line))

    def test_it_was_tried_before_the_capture(self) -> None:
        """The capture begins after the detections: what the node sends then is no difference."""
        content = (EXAMPLES / "captures" / "linux.pcap").read_bytes()
        packets = list(read_capture(io.BytesIO(content)))
        later = pcap([(packet.time - packets[0].time, packet.frame) for packet in packets[9:]])
        status, out, err = run(later, "compare", "--mac", "02:00:00:00:00:0b", "--address", "2001:db8::b", "--all")
        self.assertEqual((status, out, err.splitlines()[-1]), (0, "", "4 messages of the other stack, 0 differences"))


class Programs(unittest.TestCase):
    """`compared`, as a program calls it."""

    def test_packets_of_a_capture(self) -> None:
        setup = Setup(nd.Options.host("02:00:00:00:00:0b"), addresses=(IPv6Address("2001:db8::b"),))
        with open(EXAMPLES / "captures" / "linux.pcap", "rb") as file:
            made = ndbench.compared(ndbench.read_capture(file), setup)
        self.assertEqual((made.differences(), len(made.stack_messages), made.has_start), ([], 6, True))

    def test_packets_of_a_program(self) -> None:
        """The frames of the example without its solicitation of routers, by the times of their moments."""
        sent = frames_of("scripts/failover.output", "tx")
        timed = sorted([*sent[:1], *sent[2:], *frames_of("scripts/failover.script", "rx")], key=lambda pair: pair[0])
        packets = [ndbench.Packet(number, moment * 10 ** 6, frame) for number, (moment, frame) in enumerate(timed, 1)]
        made = ndbench.compared(packets, Setup(nd.Options(nd.Role.HOST, OWN, draws=nd.Word(0))))
        (difference,) = made.differences()
        self.assertEqual((difference.what, difference.moment, difference.section, difference.stack), ("only the node sends it", 1000,
                                                                                                      "RFC 4861, 6.3.7", None))
        assert difference.node is not None
        self.assertEqual(difference.node.purpose, ndbench.Purpose.ROUTER_SOLICITATION)

    def test_a_stack_that_sends_nothing(self) -> None:
        with self.assertRaisesRegex(ndbench.NothingSent, "02:00:00:00:00:77 sends no message"):
            ndbench.compared([ndbench.Packet(1, 0, advertisement())], Setup(nd.Options.host("02:00:00:00:00:77")))


class Differences(unittest.TestCase):
    def first(self, change: object, *words: str) -> List[str]:
        status, out, _ = compared(captured("failover", change), *words)
        self.assertEqual(status, 1)
        return out

    def test_a_message_is_missing(self) -> None:
        """The second frame is the Router Solicitation at 1000 ms."""
        out = self.first(lambda sent: [sent[0], *sent[2:]])
        self.assertEqual(out, ["at 1000 ms (1.000 s): only the node sends it [RFC 4861, 6.3.7]", "    other stack: nothing",
                               "    node: at 1000 ms: rs fe80::3656:78ff:fe9a:bcde ff02::2 slla 34:56:78:9a:bc:de"])

    def test_a_message_too_many(self) -> None:
        """A second detection of the link-local address: DupAddrDetectTransmits is 1."""
        out = self.first(lambda sent: [sent[0], (900, sent[0][1]), *sent[1:]])
        self.assertEqual(out, ["at 900 ms (0.900 s): only the other stack sends it [RFC 4862, 5.4.2]",
                               "    other stack: packet 2, at 900 ms: ns :: ff02::1:ff9a:bcde target fe80::3656:78ff:fe9a:bcde", "    node: nothing"])

    def test_other_contents(self) -> None:
        """A Router Solicitation without the link-layer address of its sender."""
        def changed(sent: Sent) -> Sent:
            bare = message_frame(b"\x85" + bytes(7), "fe80::3656:78ff:fe9a:bcde", "ff02::2", "333300000002" + OWN.hex())
            return [sent[0], (sent[1][0], bare), *sent[2:]]
        out = self.first(changed)
        self.assertEqual(out[0], "at 1000 ms (1.000 s): the contents are different [RFC 4861, 6.3.7]")
        self.assertEqual(out[1], "    other stack: packet 2, at 1000 ms: rs fe80::3656:78ff:fe9a:bcde ff02::2")

    def test_probes_that_the_stack_does_not_send(self) -> None:
        """Its upper layers may have confirmed the router (RFC 4861, 7.3.1)."""
        self.assertEqual(compared(captured("failover", lambda sent: sent[:4]))[:2], (0, []))

    def test_a_neighbour_that_upper_layers_confirm(self) -> None:
        """The stack goes on to send by its only router, and sends no probe: the node takes it as confirmed, and does not resolve the router again."""
        def changed(sent: Sent) -> Sent:
            return [*sent, (20000, sent[3][1]), (30000, sent[3][1])]
        self.assertEqual(compared(captured("host", changed))[:2], (0, []))

    def test_too_late(self) -> None:
        out = self.first(lambda sent: [sent[0], (1101, sent[1][1]), *sent[2:]], "--tolerance", "100")
        self.assertEqual(out[0], "at 1000 ms (1.000 s): 101 ms lie between both [RFC 4861, 6.3.7]")

    def test_what_each_receiver_drops(self) -> None:
        def changed(sent: Sent) -> Sent:
            return [sent[0], (sent[1][0], sent[1][1][:-1] + b"\xff"), *sent[2:]]
        out = self.first(changed, "--all")
        self.assertEqual(out[0], "at 1000 ms (1.000 s): each receiver drops it [RFC 4443, 2.3]")
        self.assertEqual(out[1], "    other stack: packet 2, at 1000 ms: drop 11 Sum")
        self.assertIn("at 1000 ms (1.000 s): only the node sends it [RFC 4861, 6.3.7]", out)

    def test_a_capture_that_is_cut(self) -> None:
        """What is different before the end is shown, and the error too."""
        content = captured("failover", lambda sent: [sent[0], (900, sent[0][1]), *sent[1:]])
        count = len(list(read_capture(io.BytesIO(content))))
        status, out, err = compared(content[:-1])
        self.assertEqual((status, out[0]), (2, "at 900 ms (0.900 s): only the other stack sends it [RFC 4862, 5.4.2]"))
        self.assertEqual(err.splitlines()[-1], f"ndbench: capture: packet {count}: the file ends within it")

    def test_json(self) -> None:
        said = json.loads(self.first(lambda sent: [sent[0], *sent[2:]], "--json")[0])
        self.assertEqual((said["moment"], said["what"], said["section"], "stack" in said), (1000, "only the node sends it", "RFC 4861, 6.3.7", False))
        self.assertEqual(said["time"], f"{BEGIN + 1}.000000000")

    def test_a_stack_that_is_not_there(self) -> None:
        status, out, err = run(captured("host"), "compare", "--mac", "02:00:00:00:00:77")
        self.assertEqual((status, out, err), (2, "", "ndbench: capture: 02:00:00:00:00:77 sends no message of Neighbor Discovery\n"))
