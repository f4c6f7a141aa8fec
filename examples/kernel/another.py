"""another: another stack in place of the kernel: a node again, with other random words, on a packet socket in a thread of its own. It shows what a
stack has to have, and that the bench makes no differences of its own: `./run --stack another:Node`."""
import secrets
import select
import socket
import threading

import clock
import frames
from link import ETHERNET_IPV6, PACKET_OUTGOING
from model import Model, nd
from space import Space

# Milliseconds for which the thread sleeps at most.
LONGEST_SLEEP = 10


class Node:
    """A node on a link, as a stack that has no deviations."""
    DEVIATIONS = ()

    def __init__(self, bench, end, is_plain, transmits):
        self.space, self.transmits, self.model = Space(), transmits, None
        self.space.ip("link", "add", "e0", "address", frames.MAC, "type", "veth", "peer", "name", end, "netns", bench.name)
        self.space.set({"ipv6/conf/e0/disable_ipv6": 1})
        self.space.ip("link", "set", "e0", "up", "promisc", "on")
        with self.space.inside():
            self.wire = socket.socket(socket.AF_PACKET, socket.SOCK_RAW, socket.htons(ETHERNET_IPV6))
            self.wire.bind(("e0", 0))
        self.lock, self.is_closed = threading.Lock(), False
        self.thread = threading.Thread(target=self.go_on, daemon=True)

    def start(self):
        self.model = Model(clock.now(), self.transmits, nd.Seed(secrets.randbits(64)))
        self.thread.start()

    def close(self):
        self.is_closed = True
        self.thread.join()
        self.model.close()
        self.wire.close()
        self.space.close()

    def go_on(self):
        """Hears frames, and lets time pass."""
        while not self.is_closed:
            if select.select([self.wire], [], [], LONGEST_SLEEP / 1000)[0]:
                frame, where = self.wire.recvfrom(65536)
                if where[2] != PACKET_OUTGOING:
                    self.do(self.model.receive, frame)
            self.do(self.model.at)

    def do(self, function, *arguments):
        """Calls the node at this moment, and sends what it has to send."""
        with self.lock:
            result = function(clock.now(), *arguments)
            for _, frame in self.model.sent:
                self.wire.send(frame)
            self.model.sent.clear(), self.model.records.clear()
        return result

    def send(self, destination, content):
        return self.do(self.model.send, destination, content)

    def forget(self, neighbour):
        self.do(self.model.forget, neighbour)

    def neighbours(self):
        return self.do(self.model.neighbours)

    def neighbour(self, address):
        return self.do(self.model.neighbour, address)

    def addresses(self):
        return self.do(self.model.addresses)

    def routers(self):
        return self.do(self.model.routers)

    def prefixes(self):
        return self.do(self.model.prefixes)

    def parameters(self):
        return self.do(self.model.parameters)

    def next_hop(self, destination):
        return self.do(self.model.next_hop, destination)
