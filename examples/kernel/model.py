"""model: Jondasik's node in place of the stack that is tried: it has its MAC, hears what it hears, and sends what it sends."""
import sys
from pathlib import Path

sys.path.insert(0, str(Path(__file__).resolve().parents[2] / "bindings/python"))
import nd  # noqa: E402

import frames  # noqa: E402
import rfc  # noqa: E402
from views import Address, Left, Neighbour, Parameters, Router  # noqa: E402

PREFERENCES = {nd.Preference.HIGH: "high", nd.Preference.MEDIUM: "medium", nd.Preference.LOW: "low"}


class Model:
    """A host that starts at `start`, and sends `transmits` solicitations in a detection. Its random words are all 0, so that it draws the least of
    each range, unless `draws` gives others."""

    def __init__(self, start, transmits=rfc.DUP_ADDR_DETECT_TRANSMITS, draws=nd.Word(0)):
        self.node = nd.Node(nd.Options(nd.Role.HOST, frames.MAC, start=start, draws=draws, transmits=transmits))
        self.sent = []     # frames, with their moments
        self.records = []  # all else that it reports

    def close(self):
        self.node.close()

    def take(self):
        """Takes what the node reports."""
        for record in self.node.poll():
            if isinstance(record, nd.Frame):
                self.sent.append((record.moment, record.frame))
            else:
                self.records.append(record)

    def at(self, moment):
        """Lets time pass, and returns the moment, or the last one of the node if that is later."""
        moment = max(moment, self.node.last_moment())
        self.node.pass_time(moment)
        self.take()
        return moment

    def receive(self, moment, frame):
        self.node.receive(self.at(moment), frame)
        self.take()

    def send(self, moment, destination, content):
        """Sends the packet that the kernel sends. Returns false if there is no next hop."""
        done = self.node.send(self.at(moment), frames.OWN, destination, frames.EXPERIMENT, content)
        self.take()
        return done == nd.Outcome.DONE

    def forget(self, moment, neighbour):
        self.node.forget(self.at(moment), neighbour)
        self.take()

    def why(self):
        """Returns the reasons for which it has dropped frames."""
        return [record.why.name for record in self.records if isinstance(record, nd.Dropped)]

    def neighbours(self, moment):
        rows = self.node.neighbours(self.at(moment))
        return {str(row.address): Neighbour(row.state.name, str(row.mac) if row.mac else None, row.is_router) for row in rows}

    def neighbour(self, moment, address):
        return self.neighbours(moment).get(address)

    def addresses(self, moment):
        rows = [row for row in self.node.addresses(self.at(moment)) if row.valid_left != 0]
        return {str(row.address): Address(row.state.name, left(row.valid_left), left(row.preferred_left)) for row in rows}

    def routers(self, moment):
        return {str(row.address): Router(left(row.left), PREFERENCES[row.preference]) for row in self.node.routers(self.at(moment))}

    def prefixes(self, moment):
        return {str(row.prefix): left(row.left) for row in self.node.prefixes(self.at(moment))}

    def parameters(self, moment):
        row = self.node.parameters(self.at(moment))
        return Parameters(row.mtu, row.hop_limit, row.retrans_timer, row.base_reachable_time)

    def next_hop(self, moment, destination):
        hop = self.node.next_hop(self.at(moment), destination)
        return str(hop.address) if hop else None


def left(milliseconds):
    """Returns what is left of a lifetime in milliseconds, where None has no end."""
    return Left(None if milliseconds is None else milliseconds // 1000)
