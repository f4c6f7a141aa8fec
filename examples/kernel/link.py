"""link: links, each with the stack that is tried, the model in its place, and the bench at the other end. The bench hears all of them at once."""
import itertools
import select
import socket
import struct
import sys

import clock
import frames
import rfc
from model import Model
from space import Space

SO_TIMESTAMPNS = 35
PACKET_OUTGOING = 4
# Seconds and nanoseconds, and room for them with their header.
STAMP, STAMP_ROOM = struct.Struct("@qq"), 64
LONGEST_FRAME = 65536
ETHERNET_IPV6 = 0x86DD
# Milliseconds. A link-local address is assigned after a delay and a RetransTimer (RFC 4862, 5.4.2). Linux looks at a new interface within a second.
LONGEST_START = rfc.MAX_RTR_SOLICITATION_DELAY + rfc.RETRANS_TIMER + 4000
# Milliseconds after the first message of a stack: in its detection, and between its first Router Solicitation and the second one.
AMIDST = 300
BETWEEN = rfc.RETRANS_TIMER + rfc.RTR_SOLICITATION_INTERVAL // 2
# Milliseconds in which a stack hears a frame, and answers it.
HEARING = 10
# Milliseconds. So long the two may differ: what is due at one of them is due at the other.
SETTLING = 400
names = itertools.count()


class Lab:
    """The bench: a namespace in which each link has its other end."""

    def __init__(self, make_stack):
        self.space, self.links, self.make_stack = Space(), [], make_stack

    def close(self):
        for link in list(self.links):
            link.close()
        self.space.close()

    def link(self, **options):
        """Makes a link, and brings its interface up."""
        link = Link(self, **options)
        link.stack.start()
        return link

    def settled(self, count):
        """Makes as many links, and returns them once both have their link-local address on each."""
        links = [self.link() for _ in range(count)]
        assert self.wait(LONGEST_START, lambda: all(link.is_settled() for link in links)), "there is no link-local address"
        for link in links:
            link.clear()
        return links

    def wait(self, milliseconds, until=None):
        """Lets time pass on all links, and hears what was sent, also if no time is left. Returns true once `until` does, and false when the time is
        over."""
        end, is_over = clock.now() + milliseconds, False
        while not is_over:
            now = clock.now()
            is_over = now >= end
            due = min([end] + [link.next_due() for link in self.links])
            readable, _, _ = select.select([link.wire for link in self.links], [], [], max(0, due - now) / 1000)
            for link in self.links:
                link.go_on(link.wire in readable)
            if until and until():
                return True
        return False

    def run(self, scenarios):
        """Runs scenarios side by side: generators, each of which yields how many milliseconds it waits. Returns the errors by name."""
        wakes, errors = dict.fromkeys(scenarios, clock.now()), {}
        while wakes:
            name = min(wakes, key=wakes.get)
            self.wait(wakes[name] - clock.now())
            try:
                wakes[name] = clock.now() + next(scenarios[name])
            except StopIteration:
                del wakes[name]
            except Exception as error:
                errors[name] = error
                del wakes[name]
        return errors


class Link:
    """A link with one stack. The model starts at the first message that the stack sends, since the delay before it is random."""

    def __init__(self, lab, is_plain=True, transmits=rfc.DUP_ADDR_DETECT_TRANSMITS):
        self.lab, self.model, self.transmits, self.heard_at = lab, None, transmits, 0
        self.sent = []     # frames of the stack, with their moments
        self.planned = []  # what is put on the link later: delays, and then moments, with functions
        end = f"e{next(names)}"
        self.stack = lab.make_stack(lab.space, end, is_plain, transmits)
        with lab.space.inside():
            self.wire = wire_of(lab.space, end)
        lab.links.append(self)

    def close(self):
        self.lab.links.remove(self)
        self.wire.close()
        self.stack.close()
        if self.model:
            self.model.close()

    def plan(self, delay, packet_of):
        """Puts a frame on the link so many milliseconds after the first message of the stack, of which `packet_of` makes it."""
        self.planned.append((delay, packet_of))

    def is_settled(self):
        """Returns true if both have tried their link-local address."""
        if not self.model or self.model.addresses(clock.now())[frames.OWN].state == "TENTATIVE":
            return False
        own = self.stack.addresses().get(frames.OWN)
        return own is not None and own.state != "TENTATIVE"

    def next_due(self):
        """Returns the moment at which the model has something to do, or something is planned."""
        return min([self.model.node.next_due()] + [moment for moment, _ in self.planned]) if self.model else sys.maxsize

    def go_on(self, is_readable):
        """Takes the frames of the stack if there are any, and does what is due."""
        if is_readable:
            self.hear()
        if not self.model:
            return
        self.model.at(clock.now())
        for moment, packet_of in [plan for plan in self.planned if plan[0] <= clock.now()]:
            self.planned.remove((moment, packet_of))
            self.send(packet_of(self.sent[0][1]))

    def hear(self):
        """Takes the frames of the stack. The first message starts the model."""
        while frame := frame_of(self.wire):
            if not self.model and frames.kind(frame[1]):
                self.model = Model(frame[0], self.transmits)
                self.planned = [(frame[0] + delay, packet_of) for delay, packet_of in self.planned]
            if self.model:  # else it is a listener report
                self.sent.append(frame)

    def send(self, packet):
        """Puts a frame on the link: both hear it."""
        frame, self.heard_at = bytes(packet), clock.now()
        self.wire.send(frame)
        self.model.receive(self.heard_at, frame)

    def passed(self):
        """Returns how many seconds have passed since a frame was put on the link."""
        return (clock.now() - self.heard_at) / 1000

    def packet(self, destination, content=b"x"):
        """Has the upper layer of both send a packet. Returns whether each had a next hop."""
        return self.stack.send(destination, content), self.model.send(clock.now(), destination, content)

    def forget(self, neighbour):
        self.stack.forget(neighbour)
        self.model.forget(clock.now(), neighbour)

    def clear(self):
        """Forgets what both sent up to now."""
        self.lab.wait(1)
        self.sent.clear(), self.model.sent.clear(), self.model.records.clear()

    def wait(self, milliseconds, until=None):
        return self.lab.wait(milliseconds, until)

    def both(self, question, *arguments, only=None, settling=SETTLING, until=None):
        """Asks the stack and the model a question, such as `neighbours`. Returns both answers once they are equal, or `until` says so, or as they
        are after `settling` milliseconds. Of a table the rows alone whose keys are in `only` count."""
        def ask():
            answers = getattr(self.stack, question)(*arguments), getattr(self.model, question)(clock.now(), *arguments)
            return answers if only is None else tuple({key: rows[key] for key in only if key in rows} for rows in answers)

        answers = ask()
        end = clock.now() + settling
        while answers[0] != answers[1] and not (until and until(answers)) and clock.now() < end:
            self.lab.wait(20)
            answers = ask()
        return answers

    def messages(self, *kinds):
        """Returns the messages of these types that the stack and the model sent, each with its moment."""
        return tuple([(moment, frame) for moment, frame in sent if frames.kind(frame) in kinds] for sent in (self.sent, self.model.sent))

    def packets(self, destination):
        """Returns the packets to a destination that the upper layer of both sent."""
        return tuple([frame for _, frame in sent if frames.is_packet(frame, destination)] for sent in (self.sent, self.model.sent))


def wire_of(space, end):
    """Returns a socket of the bench on its end of a link, in whose namespace this thread is."""
    space.set({f"ipv6/conf/{end}/disable_ipv6": 1})
    space.ip("link", "set", end, "up")
    wire = socket.socket(socket.AF_PACKET, socket.SOCK_RAW, socket.htons(ETHERNET_IPV6))
    wire.setsockopt(socket.SOL_SOCKET, SO_TIMESTAMPNS, 1)
    wire.bind((end, 0))
    wire.setblocking(False)
    return wire


def frame_of(wire):
    """Returns a frame of the stack with its moment, or None if there is none left. The frames of the bench itself are passed over."""
    while True:
        try:
            frame, extras, _, where = wire.recvmsg(LONGEST_FRAME, STAMP_ROOM)
        except BlockingIOError:
            return None
        if where[2] != PACKET_OUTGOING:
            [stamp] = [content for _, kind, content in extras if kind == SO_TIMESTAMPNS]
            seconds, nanoseconds = STAMP.unpack(stamp)
            return clock.moment_of(seconds * 1_000_000_000 + nanoseconds), frame
