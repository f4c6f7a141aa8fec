"""IPv6 Neighbor Discovery for one Ethernet interface, as a host or as a router (RFC 4861; RFC 4862, section 5; RFC 8106; RFC 4191 without its route
option), over the proved node of `dist/nd.c`. The C compiler makes a library of it on first use.

The program passes frames and moments in, and takes records out. A moment is a number of milliseconds from a beginning of the caller's choice:

    import nd

    with nd.Node(nd.Options.host("34:56:78:9a:bc:de", seed=secrets.randbits(64))) as node:
        node.receive(1200, frame)
        for record in node.poll():
            if isinstance(record, nd.Frame):
                transmit(record.frame)
        for address in node.addresses(1200):
            print(address.address, address.state.name)

`hear` says what one frame is, without a node, and `message_of` gives its message with fields and options:

    message = nd.message_of(frame)
    assert isinstance(message, nd.RouterAdvertisement)
    assert message.options[0].prefix == IPv6Network("2001:db8::/64")

Frames are bytes, or anything that `bytes()` takes. Threads may use the module: calls for different nodes run at the same time, and those for one
node wait for one another. Not in a signal handler, nor in a forked child of a process with threads."""
from .errors import Closed, Error, Invalid, LibraryError, NoMemory, NoRoom, Past
from .hearing import HeardFrame, hear, message_of
from .library import version
from .messages import Message, NeighborAdvertisement, NeighborSolicitation, RedirectMessage, RouterAdvertisement, RouterSolicitation
from .node import Node, Outcome
from .option_types import (DnsSearchList, LinkLayerAddress, Mtu, Option, PrefixInformation, RecursiveDnsServers, RedirectedHeader, RouteInformation,
                           SourceLinkLayerAddress, TargetLinkLayerAddress, UnknownOption, options_of)
from .options import Limits, Options, Seed, Word, node_bytes, pool_bytes
from .output import (Assigned, Dropped, Duplicate, EndedAddress, EndedRouter, Failed, Frame, Heard, Ignored, Lost, Other, Record, Refused, Resolved,
                     Up)
from .raw import (BUFFER_BYTES, FOREVER, LIFETIME_INFINITE, MOMENT_LIMIT, POLICIES_ROBUST, Change, Clearable, Hearing, Hop, Limit, Loss, Policy,
                  Preference, Reachability, Refusal, Role, State, Status, Why)
from .rows import (Address, Advertising, Counts, Name, Neighbour, NextHop, NotResolved, Offer, Parameters, Path, Prefix, Redirect, Route, Router,
                   Server)
from .values import Mac

__all__ = ["Address", "Advertising", "Assigned", "BUFFER_BYTES", "Change", "Clearable", "Closed", "Counts", "DnsSearchList", "Dropped", "Duplicate",
           "EndedAddress", "EndedRouter", "Error", "FOREVER", "Failed", "Frame", "Heard", "HeardFrame", "Hearing", "Hop", "Ignored", "Invalid",
           "LIFETIME_INFINITE", "LibraryError", "Limit", "Limits", "LinkLayerAddress", "Loss", "Lost", "MOMENT_LIMIT", "Mac", "Message", "Mtu",
           "Name", "NeighborAdvertisement", "NeighborSolicitation", "Neighbour", "NextHop", "NoMemory", "NoRoom", "Node", "NotResolved", "Offer",
           "Option", "Options", "Other", "Outcome", "POLICIES_ROBUST", "Parameters", "Past", "Path", "Policy", "Preference", "Prefix",
           "PrefixInformation", "Reachability", "Record", "RecursiveDnsServers", "Redirect", "RedirectMessage", "RedirectedHeader", "Refusal",
           "Refused", "Resolved", "Role", "Route", "RouteInformation", "Router", "RouterAdvertisement", "RouterSolicitation", "Seed", "Server",
           "SourceLinkLayerAddress", "State", "Status", "TargetLinkLayerAddress", "UnknownOption", "Up", "Why", "Word", "hear", "message_of",
           "node_bytes", "options_of", "pool_bytes", "version"]
