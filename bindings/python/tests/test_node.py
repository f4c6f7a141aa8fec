"""A node: the examples of nd.h, and what its calls return for mistakes."""
from __future__ import annotations

import copy
import os
import pickle
import subprocess
import sys
import threading
import time
import unittest
from ipaddress import IPv6Address, IPv6Network
from typing import Any, Iterator, List
from unittest import mock

import nd
from nd import library
from nd.raw import FOREVER

from .paths import PYTHON, example, example_events, example_frames

HOST_MAC, ROUTER_MAC = "34:56:78:9a:bc:de", "02:00:00:00:00:01"
LINK_LOCAL = IPv6Address("fe80::3656:78ff:fe9a:bcde")


class Packet:
    """What `bytes()` takes, as a packet of Scapy is."""

    def __init__(self, content: bytes) -> None:
        self.content = content

    def __bytes__(self) -> bytes:
        return self.content


def opened(role: nd.Role, mac: str, **options: object) -> nd.Node:
    return nd.Node(nd.Options(role, mac, draws=nd.Word(0), **options))  # type: ignore[arg-type]


def host_line(record: nd.Record) -> str:
    """Returns the line that examples/c/host.c prints of a record: the words of `ndpctl run`, but numbers of nd.h for words that follow."""
    kinds = {nd.Assigned: "assigned", nd.Duplicate: "duplicate", nd.EndedAddress: "ended address"}
    if isinstance(record, nd.Frame):
        said = f"tx {record.frame.hex()}"
    elif isinstance(record, nd.Heard):
        said = f"heard {record.message_type}"
    elif isinstance(record, nd.Dropped):
        said = f"drop {int(record.why)}"
    elif isinstance(record, nd.Up):
        said = f"up {record.packet.hex()}"
    else:
        said = f"{kinds[type(record)]} {record.address}"  # type: ignore[index,union-attr]
    return f"{record.moment} {said}"


def host_lines(node: nd.Node, name: str) -> Iterator[str]:
    """Passes the events of an example to a node, and returns the lines of its records."""
    for moment, frame in example_events(name):
        node.pass_time(moment) if frame is None else node.receive(moment, frame)
        yield from map(host_line, node.poll())


def left_text(left: object) -> str:
    return str(FOREVER if left is None else left)


def address_line(row: nd.Address) -> str:
    return f"address {row.address} {int(row.state)} {left_text(row.preferred_left)} {left_text(row.valid_left)}"


class Examples(unittest.TestCase):
    def test_a_host(self) -> None:
        with opened(nd.Role.HOST, HOST_MAC) as node:
            lines = list(host_lines(node, "host.hex"))
            now = node.last_moment()
            lines += map(address_line, node.addresses(now))
            lines += [f"router {row.address} {row.left} {int(row.preference)}" for row in node.routers(now)]
        self.assertEqual(lines, example("host.txt").splitlines())

    def test_a_router(self) -> None:
        """The events before the frames are those of examples/c/router.c."""
        with opened(nd.Role.ROUTER, ROUTER_MAC) as node:
            node.advertise_prefix(0, nd.Offer(IPv6Network("2001:db8::/64")))
            node.add_route(0, nd.Route(IPv6Network("2001:db8::/64")))
            node.add_route(0, nd.Route(IPv6Network("2001:db8:1::/64"), IPv6Address("fe80::2")))
            node.advertise(0, nd.Advertising(200, 600, 1800, hop_limit=64))
            records: List[nd.Record] = list(node.poll())
            for moment, frame in example_events("router.hex"):
                node.pass_time(moment) if frame is None else node.receive(moment, frame)
                records += node.poll()
            node.stop_advertising(node.last_moment())
            records += node.poll()
        self.assertEqual([host_line(record) for record in records if isinstance(record, nd.Frame)], example("router.txt").splitlines())


class Changes(unittest.TestCase):
    def test_they_are_those_of_the_records_since_they_were_asked_for(self) -> None:
        """A Router Advertisement may change all tables but the redirects, and an address that is assigned those of addresses."""
        by_advertisement = nd.Change.ROUTERS | nd.Change.PREFIXES | nd.Change.ADDRESSES | nd.Change.SERVERS | nd.Change.NAMES | nd.Change.PARAMETERS
        with opened(nd.Role.HOST, HOST_MAC) as node:
            self.assertEqual(node.changes(), nd.Change(0))
            node.pass_time(1000)
            records = list(node.poll())
            self.assertTrue(any(isinstance(record, nd.Assigned) for record in records))
            self.assertEqual((node.changes(), node.changes()), (nd.Change.ADDRESSES, nd.Change(0)))
            for moment, frame in example_events("host.hex"):
                if moment >= 1000 and frame is not None:
                    node.receive(moment, frame)
                    types = {record.message_type for record in node.poll() if isinstance(record, nd.Heard)}
                    if types == {134}:
                        self.assertEqual(node.changes(), by_advertisement)
                        return
        self.fail("no Router Advertisement is heard")


class Frames(unittest.TestCase):
    def test_what_bytes_takes_is_a_frame(self) -> None:
        frame = example_frames("link.hex")[0]
        for taken in (frame, bytearray(frame), memoryview(frame), Packet(frame)):
            self.assertEqual(nd.hear(taken, nd.Role.ROUTER), nd.hear(frame, nd.Role.ROUTER))
            with opened(nd.Role.ROUTER, ROUTER_MAC) as node:
                node.receive(1000, taken)
                self.assertIn(nd.Heard(1000, IPv6Address("fe80::ff:fe00:99"), 133), list(node.poll()))

    def test_numbers_and_texts_are_no_frames(self) -> None:
        for wrong in (60, "3333"):
            with self.assertRaises(TypeError):
                nd.hear(wrong, nd.Role.HOST)  # type: ignore[arg-type]

    def test_a_frame_longer_than_the_usual_buffer_is_reported_whole(self) -> None:
        packet = bytes.fromhex("6000000000001140") + IPv6Address("fe80::9").packed + IPv6Address("ff02::1").packed + bytes(4000)
        packet = packet[:4] + (4000).to_bytes(2, "big") + packet[6:]
        with opened(nd.Role.HOST, HOST_MAC) as node:
            node.pass_time(1000)
            list(node.poll())
            node.receive(1000, bytes.fromhex("333300000001" "020000000009" "86dd") + packet)
            self.assertEqual(list(node.poll()), [nd.Up(1000, packet)])

    def test_what_a_frame_is(self) -> None:
        """Fields that the RFCs' layouts give for frames of examples/link.hex, whose lines are in examples/link.txt."""
        frames = example_frames("link.hex")
        advertised = nd.hear(frames[7], nd.Role.HOST)
        self.assertEqual((advertised.hearing, advertised.message_type, advertised.source), (nd.Hearing.VALID, 134, IPv6Address("fe80::1")))
        self.assertEqual((advertised.hop_limit, advertised.managed, advertised.other, advertised.preference), (64, True, True, nd.Preference.HIGH))
        self.assertEqual((advertised.router_lifetime, advertised.reachable_time, advertised.retrans_timer), (1800, 30000, 1000))
        self.assertEqual(advertised.options, frames[7][70:])
        answered = nd.hear(frames[11], nd.Role.HOST)
        self.assertEqual((answered.router, answered.solicited, answered.override), (False, True, True))
        self.assertEqual(answered.target, IPv6Address("2001:db8::ff:fe00:99"))
        redirected = nd.hear(frames[12], nd.Role.HOST)
        self.assertEqual((redirected.target, redirected.redirected), (IPv6Address("fe80::ff:fe00:2"), IPv6Address("2001:db8:77::1")))
        dropped = nd.hear(frames[7], nd.Role.ROUTER)
        self.assertEqual((dropped.hearing, dropped.why), (nd.Hearing.DROP, nd.Why.NOT_FOR_US))


class Threads(unittest.TestCase):
    def test_two_threads_poll_one_node(self) -> None:
        """Each record has its own bytes, also where the other thread runs as soon as a call has ended. Of a packet each byte of the payload says how
        long the payload is, in units of 8."""
        lengths = [unit * 8 for unit in (*range(1, 200), 255) for _ in range(5)]
        group, packets, call = bytes.fromhex("333300000001" "020000000009" "86dd"), [], library.call

        def slow_call(name: str, *arguments: Any) -> Any:
            result = call(name, *arguments)
            time.sleep(0)
            return result

        with opened(nd.Role.HOST, HOST_MAC) as node:
            node.pass_time(1000)
            list(node.poll())
            for length in lengths:
                head = bytes.fromhex("60000000") + length.to_bytes(2, "big") + bytes((17, 64))
                addresses = IPv6Address("fe80::9").packed + IPv6Address("ff02::1").packed
                node.receive(1000, group + head + addresses + bytes([length // 8]) * length)
            threads = [threading.Thread(target=lambda: packets.extend(record.packet for record in node.poll())) for _ in range(2)]
            with mock.patch.object(library, "call", slow_call):
                for thread in threads:
                    thread.start()
                for thread in threads:
                    thread.join()
        self.assertEqual(sorted(map(len, packets)), [40 + length for length in lengths])
        mixed = [packet for packet in packets if set(packet[40:]) != {(len(packet) - 40) // 8}]
        self.assertEqual(len(mixed), 0)


    def test_a_node_in_each_of_four_threads(self) -> None:
        """Each does what one does alone."""
        frames, told = example_frames("link.hex"), []

        def tell() -> List[nd.Record]:
            with opened(nd.Role.HOST, HOST_MAC) as node:
                for number, frame in enumerate(frames):
                    node.receive(2000 + 1000 * number, frame)
                return list(node.poll())

        alone = tell()
        self.assertGreater(len(alone), len(frames))
        threads = [threading.Thread(target=lambda: told.extend(tell() for _ in range(20))) for _ in range(4)]
        for thread in threads:
            thread.start()
        for thread in threads:
            thread.join()
        self.assertEqual((len(told), [records for records in told if records != alone]), (80, []))


# Opens nodes in 64 MiB more than the process has at the start. One has more than 300,000 bytes for its tables, so 1,000 fit only one after another.
# Prints how many were open at the same time when there was no memory for another one.
SCARCE = """
import resource, sys, nd
options = nd.Options(nd.Role.HOST, "34:56:78:9a:bc:de", draws=nd.Seed(1), limits=nd.Limits(neighbours=2048))
node = nd.Node(options)
assert 1000 * nd.node_bytes(nd.Limits(neighbours=2048)) > 300_000_000
with open("/proc/self/statm") as file:
    limit = int(file.read().split()[0]) * resource.getpagesize() + (64 << 20)
resource.setrlimit(resource.RLIMIT_AS, (limit, limit))
for _ in range(1000):
    nd.Node(options)
for _ in range(1000):
    node.__init__(options)
nodes = []
try:
    while len(nodes) < 1000:
        nodes.append(nd.Node(options))
except nd.NoMemory:
    print(len(nodes))
nodes.clear()
nodes.append(nd.Node(options))
"""


@unittest.skipUnless(sys.platform == "linux", "the memory of a process is bounded as on Linux")
class Memory(unittest.TestCase):
    def test_it_is_given_back_and_may_be_refused(self) -> None:
        """By `close`, where a node is collected, and where it is opened again."""
        said = subprocess.run([sys.executable, "-c", SCARCE], env={**os.environ, "PYTHONPATH": str(PYTHON)}, capture_output=True, text=True, check=False)
        self.assertRegex(said.stdout, r"^\d+\n$", said.stderr)
        self.assertTrue(100 < int(said.stdout) < 1000, said.stdout)


    def test_it_grows_with_the_nodes(self) -> None:
        """2,000 hosts with the usual limits are open at a time, which takes more than 128 MiB; each has its link-local address."""
        with open("/proc/self/statm", encoding="ascii") as file:
            before = int(file.read().split()[1])
        nodes = [nd.Node(nd.Options.host("34:56:78:9a:bc:de", seed=seed)) for seed in range(2000)]
        for node in nodes:
            node.pass_time(3000)
        with open("/proc/self/statm", encoding="ascii") as file:
            grown = (int(file.read().split()[1]) - before) * os.sysconf("SC_PAGESIZE")
        self.assertGreater(grown, 128 << 20)
        self.assertTrue(all([row.state for row in node.addresses(3000)] == [nd.State.PREFERRED] for node in nodes))
        small = nd.Limits(neighbours=8, routers=2, prefixes=4, addresses=4, servers=2, names=2, redirects=4, destinations=8, offers=1, routes=1)
        self.assertEqual((nd.node_bytes(), nd.node_bytes(small)), (151_008, 12_667))


class Objects(unittest.TestCase):
    def test_a_second_init_closes_the_node(self) -> None:
        """Wrong options leave the node as it is."""
        node, options = opened(nd.Role.HOST, HOST_MAC), nd.Options.host(HOST_MAC)
        node.__init__(options)  # type: ignore[misc]
        node.pass_time(1000)
        with self.assertRaises(nd.Invalid):
            node.__init__(nd.Options(nd.Role.HOST, HOST_MAC, transmits=256))  # type: ignore[misc]
        self.assertEqual(node.last_moment(), 1000)

    def test_an_object_without_a_node_is_closed(self) -> None:
        with mock.patch.object(sys, "unraisablehook") as printed:
            with self.assertRaises(TypeError):
                nd.Node()  # type: ignore[call-arg]
            with self.assertRaises(nd.Invalid):
                nd.Node(nd.Options.host("no address"))
            with self.assertRaises(nd.Closed):
                nd.Node.__new__(nd.Node).pass_time(0)
        printed.assert_not_called()

    def test_a_node_is_not_copied(self) -> None:
        with opened(nd.Role.HOST, HOST_MAC) as node:
            for copied in (copy.copy, copy.deepcopy, pickle.dumps):
                with self.assertRaisesRegex(TypeError, "a node cannot be copied or pickled"):
                    copied(node)
            self.assertEqual(node.last_moment(), 0)


class Errors(unittest.TestCase):
    def test_a_moment_before_the_last_one(self) -> None:
        with opened(nd.Role.HOST, HOST_MAC, start=500) as node:
            self.assertEqual(node.last_moment(), 500)
            for call in (node.pass_time, node.parameters):
                with self.assertRaises(nd.Past):
                    call(499)

    def test_numbers_out_of_range_are_not_cut(self) -> None:
        with opened(nd.Role.HOST, HOST_MAC) as node:
            wrong = [lambda: node.pass_time(-1), lambda: node.pass_time(1 << 62), lambda: node.pass_time((1 << 64) + 5), lambda: node.clear(0, (1 << 32) + 1),
                     lambda: node.send(0, "::1", "::2", 256), lambda: node.confirm_to(0, "::1", 1 << 64), lambda: node.add_address(0, "::5", 1 << 32),
                     lambda: nd.hear(b"", 1 << 32), lambda: node.resolve(0, "1.2.3.4"), lambda: nd.Mac("02:00:00:00:00"),
                     lambda: nd.Mac(b"12345"), lambda: nd.Node(nd.Options(nd.Role.HOST, HOST_MAC, transmits=256)),
                     lambda: nd.Node(nd.Options(nd.Role.HOST, HOST_MAC, transmits=9)),
                     lambda: nd.Node(nd.Options(nd.Role.HOST, HOST_MAC, start=1 << 62)),
                     lambda: nd.Node(nd.Options(nd.Role.HOST, HOST_MAC, limits=nd.Limits(neighbours=2049))), lambda: nd.pool_bytes(longest=-1)]
            for number, call in enumerate(wrong):
                with self.subTest(number), self.assertRaises(nd.Invalid):
                    call()

    def test_an_address_with_a_zone(self) -> None:
        zone, prefix = "fe80::1%eth0", IPv6Network("2001:db8::/64")
        with opened(nd.Role.ROUTER, ROUTER_MAC) as node:
            wrong = [lambda: node.send(0, zone, "::", 17), lambda: node.send(0, "::", IPv6Address(zone), 17), lambda: node.resolve(0, zone),
                     lambda: node.add_address(0, zone), lambda: node.confirm(0, zone), lambda: node.neighbour(0, zone),
                     lambda: node.add_route(0, nd.Route(prefix, IPv6Address(zone))),
                     lambda: node.advertise_prefix(0, nd.Offer(IPv6Network("2001:db8::%eth0/64")))]
            for number, call in enumerate(wrong):
                with self.subTest(number), self.assertRaisesRegex(nd.Invalid, "has a zone"):
                    call()

    def test_a_closed_node(self) -> None:
        node = opened(nd.Role.HOST, HOST_MAC)
        node.close()
        node.close()
        with self.assertRaises(nd.Closed):
            node.pass_time(0)
        with self.assertRaises(nd.Closed):
            list(node.poll())
        self.assertEqual(node.last_moment(), FOREVER)

    def test_a_host_refuses_what_a_router_does(self) -> None:
        with opened(nd.Role.HOST, HOST_MAC) as node:
            self.assertIs(node.stop_advertising(5), nd.Outcome.REFUSED)
            self.assertEqual(list(node.poll())[-1], nd.Refused(5, nd.Refusal.WRONG_ROLE))
            self.assertIs(node.send(5, "2001:db8::1", "fe80::9", 17), nd.Outcome.REFUSED)
            self.assertEqual(list(node.poll()), [nd.Refused(5, nd.Refusal.NOT_OURS, source=IPv6Address("2001:db8::1"))])
            self.assertEqual(node.resolve(5, "fe80::9"), nd.NotResolved(nd.Refusal.TENTATIVE))

    def test_a_full_table_is_named(self) -> None:
        with opened(nd.Role.HOST, HOST_MAC, limits=nd.Limits(addresses=1)) as node:
            node.pass_time(1000)
            self.assertIs(node.add_address(1000, "2001:db8::5"), nd.Outcome.REFUSED)
            self.assertEqual(list(node.poll())[-1], nd.Refused(1000, nd.Refusal.FULL, limit=nd.Limit.ADDRESSES))
            self.assertEqual(node.counts(1000).limits.addresses, 1)


class Paths(unittest.TestCase):
    """A stack that keeps its packets: it asks, waits, and sends in the lease (RFC 4861, 7.2.2)."""

    def test_a_neighbour_is_resolved(self) -> None:
        neighbour, mac = IPv6Address("fe80::ff:fe00:1"), nd.Mac("02:00:00:00:00:01")
        answer = bytes.fromhex("3456789abcde02000000000186dd6000000000203afffe80000000000000000000fffe000001fe80000000000000365678fffe9abcde"
                               "88002f4ee0000000fe80000000000000000000fffe0000010201020000000001")
        with opened(nd.Role.HOST, HOST_MAC) as node:
            node.pass_time(1000)
            list(node.poll())
            waiting = node.resolve(1000, neighbour)
            self.assertIsInstance(waiting, nd.Path)
            self.assertEqual((waiting.mac, waiting.state), (None, nd.Reachability.INCOMPLETE))  # type: ignore[union-attr]
            list(node.poll())
            node.receive(1500, answer)
            self.assertIn(nd.Resolved(1500, neighbour, mac), list(node.poll()))
            path = node.resolve(1500, neighbour)
            self.assertEqual((path.next_hop, path.hop, path.mac), (neighbour, nd.Hop.DIRECT, mac))  # type: ignore[union-attr]
            self.assertEqual((path.state, path.version), (nd.Reachability.REACHABLE, node.lease_version()))  # type: ignore[union-attr]
            self.assertEqual(node.next_hop(1500, neighbour), nd.NextHop(neighbour, nd.Hop.DIRECT))
            self.assertEqual(node.neighbour(1500, neighbour), next(node.neighbours(1500)))
            self.assertIsNone(node.neighbour(1500, LINK_LOCAL))
            self.assertIsNone(node.next_hop(1500, "2001:db8::1"))
            self.assertEqual(node.resolve(1500, "2001:db8::1"), nd.NotResolved())
