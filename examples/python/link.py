"""link.py FILE: a router and three hosts on a link, for a minute. Writes all frames as a capture, pcapng. In the top folder of the repository:

    PYTHONPATH=bindings/python python3 examples/python/link.py examples/captures/link.pcapng

B and C send a packet to A, which answers their solicitations, and probes them 5 seconds later. B answers; C has left the link. A sends a packet out
by the router. An advertisement from behind a router is forged. Equal seeds give the same bytes."""
from __future__ import annotations

import heapq
import sys
from functools import partial
from ipaddress import IPv6Address, IPv6Network
from typing import Callable, Dict, List, Tuple

import nd
from ndbench.pcapng import Written, write_capture

MILLISECOND = 10 ** 6               # nanoseconds
BEGIN = 1_767_225_600_000           # 2026-01-01 in ms since 1970, when the capture begins
LATENCY, END = 1, 60_000            # ms
NO_NEXT_HEADER = 59                 # RFC 8200, 4.7
PREFIX = IPv6Network("2001:db8::/64")
ROUTER, A, B, C, FORGER = (nd.Mac(f"02:00:00:00:00:{last}") for last in ("01", "0a", "0b", "0c", "66"))


def address_of(mac: nd.Mac) -> IPv6Address:
    """Returns the address that a host forms in the prefix (RFC 4291, appendix A)."""
    return PREFIX.network_address + int.from_bytes(bytes([mac[0] ^ 2]) + mac[1:3] + b"\xff\xfe" + mac[3:], "big")


class Link:
    """Nodes by their Ethernet addresses, and what will happen, the earliest first."""

    def __init__(self) -> None:
        self.nodes: Dict[nd.Mac, nd.Node] = {}
        self.plans: List[Tuple[int, int, Callable[[int], None]]] = []
        self.planned = 0
        self.frames: List[Written] = []

    def plan(self, moment: int, act: Callable[[int], None]) -> None:
        """Adds what will happen. Of equal moments the first one that was added is the first."""
        heapq.heappush(self.plans, (moment, self.planned, act))
        self.planned += 1

    def run(self) -> None:
        """Lets all happen up to the end."""
        while self.plans and self.plans[0][0] <= END:
            moment, _, act = heapq.heappop(self.plans)
            act(moment)

    def add(self, mac: nd.Mac, role: nd.Role = nd.Role.HOST) -> nd.Node:
        """Adds a node, which starts at 0."""
        node = self.nodes[mac] = nd.Node(nd.Options(role, mac, draws=nd.Seed(mac[5])))
        self.plan(node.next_due(), partial(self.turn, mac))
        return node

    def turn(self, mac: nd.Mac, now: int) -> None:
        """Does what is due at a node, if it is still there and nothing else has done it."""
        node = self.nodes.get(mac)
        if node is not None and node.next_due() <= now:
            node.pass_time(now)
            self.settle(mac, now)

    def settle(self, mac: nd.Mac, now: int) -> None:
        """Transmits what a node sends after an event, and plans its next turn."""
        node = self.nodes[mac]
        for record in node.poll():
            if isinstance(record, nd.Frame):
                self.transmit(record.frame, now)
        self.plan(node.next_due(), partial(self.turn, mac))

    def transmit(self, frame: bytes, now: int) -> None:
        """Adds a frame to the capture. It arrives a millisecond later."""
        self.frames.append(Written((BEGIN + now) * MILLISECOND, frame, True, ""))
        self.plan(now + LATENCY, partial(self.deliver, frame))

    def deliver(self, frame: bytes, now: int) -> None:
        """Passes a frame to the other nodes that it is for."""
        for mac, node in self.nodes.items():
            if frame[6:12] != mac and (frame[0] & 1 or frame[:6] == mac):
                node.receive(now, frame)
                self.settle(mac, now)

    def send(self, mac: nd.Mac, destination: IPv6Address, now: int) -> None:
        """Sends a packet without a payload from a host."""
        self.nodes[mac].send(now, address_of(mac), destination, NO_NEXT_HEADER)
        self.settle(mac, now)

    def leave(self, mac: nd.Mac, _now: int) -> None:
        """Takes a node off the link."""
        self.nodes.pop(mac).close()

    def forge(self, now: int) -> None:
        """Sends the first advertisement again, with the hop limit of one that a router has forwarded (RFC 4861, 6.1.2)."""
        first = next(written.frame for written in self.frames if written.frame[54:55] == b"\x86")
        self.transmit(first[:6] + bytes(FORGER) + first[12:21] + b"\xfe" + first[22:], now)


def main(path: str) -> None:
    """Runs the link, and writes the capture."""
    link = Link()
    router = link.add(ROUTER, nd.Role.ROUTER)
    router.advertise_prefix(0, nd.Offer(PREFIX))
    router.add_route(0, nd.Route(PREFIX))
    router.advertise(0, nd.Advertising(min_interval=200, max_interval=600, lifetime=1800, hop_limit=64))
    for mac in (A, B, C):
        link.add(mac)
    link.plan(8_000, partial(link.send, B, address_of(A)))
    link.plan(10_000, partial(link.send, C, address_of(A)))
    link.plan(12_000, partial(link.leave, C))
    link.plan(20_000, link.forge)
    link.plan(25_000, partial(link.send, A, IPv6Address("2001:db8:1::5")))
    link.run()
    with open(path, "wb") as file:
        write_capture(file, link.frames)


if __name__ == "__main__":
    if len(sys.argv) != 2:
        sys.exit("usage: link.py FILE")
    main(sys.argv[1])
