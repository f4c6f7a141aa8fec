"""The node of a command line: its options, and what a router is configured to advertise."""
from __future__ import annotations

import argparse
from dataclasses import dataclass
from ipaddress import IPv6Address, IPv6Network
from typing import Any, Optional, Tuple, Union

import nd

from .texts import message_type

# The words of the policies that a node can have.
POLICIES = ("parts", "speakers", "timers", "self", "unicast", "unformed", "asked", "lifetimes", "unredirected", "strict")
# What a router of the command line advertises (RFC 4861, 6.2.1): the usual values, and CurHopLimit of the assigned numbers.
USUAL = nd.Advertising(min_interval=200, max_interval=600, lifetime=1800, hop_limit=64)


@dataclass(frozen=True)
class Setup:
    """How a node is opened, the prefixes that it advertises if it is a router, and the addresses that it is given by hand."""
    options: nd.Options
    offers: Tuple[IPv6Network, ...] = ()
    addresses: Tuple[IPv6Address, ...] = ()

    @property
    def mac(self) -> nd.Mac:
        """The node's own Ethernet address."""
        return nd.Mac(self.options.mac)

    def opened(self) -> nd.Node:
        """Returns the node, open at its start. A router with offers advertises them, and has a route to each on the link."""
        node = nd.Node(self.options)
        for prefix in self.offers:
            node.advertise_prefix(self.options.start, nd.Offer(prefix))
            node.add_route(self.options.start, nd.Route(prefix))
        if self.offers:
            node.advertise(self.options.start, USUAL)
        return node

    def give_addresses(self, node: nd.Node, record: nd.Record) -> bool:
        """Gives the node its addresses by hand if `record`, which it has just reported, says that its link-local address is assigned: before, they
        would be refused. Returns true if it does."""
        is_now = isinstance(record, nd.Assigned) and record.address.is_link_local
        for address in self.addresses if is_now else ():
            node.add_address(node.last_moment(), address)
        return is_now

    def is_own(self, frame: bytes) -> bool:
        """Returns true if the interface itself sent the frame."""
        return frame[6:12] == self.mac

    def hears(self, frame: bytes) -> bool:
        """Returns true if the interface passes the frame to the node (nd.h, FRAMES IN): to its own address or to a group, and not from itself; to a
        router, of those to a group only messages of Neighbor Discovery."""
        destination = frame[:6]
        if len(destination) < 6 or self.is_own(frame):
            return False
        is_group = bool(destination[0] & 1)
        if is_group and self.options.role is nd.Role.ROUTER:
            return message_type(frame) is not None
        return is_group or destination == self.mac


class Once(argparse.Action):
    """Stores the value of an option that has no default, and refuses a second one."""

    def __call__(self, parser: argparse.ArgumentParser, namespace: argparse.Namespace, values: Any, option_string: Optional[str] = None) -> None:
        if getattr(namespace, self.dest) is not None:
            raise argparse.ArgumentError(self, "it is given twice, and a command has one node")
        setattr(namespace, self.dest, values)


def add_arguments(command: argparse.ArgumentParser, is_host: bool = False, needs_mac: bool = True) -> None:
    """Adds the arguments of a node to a command, or those of a host alone. They are those of `ndpctl run`, but for --offer."""
    if is_host:
        command.set_defaults(role="host", offer=[])
    else:
        command.add_argument("--role", choices=("host", "router"), default="host", help="what the node is (host)")
        command.add_argument("--offer", default=[], action="append", type=prefix_argument, metavar="PREFIX", help="a router advertises this prefix")
    command.add_argument("--mac", required=needs_mac, action=Once, type=mac_argument, help="its Ethernet address, at most once")
    command.add_argument("--draws", default="seed:0", type=draws_argument, metavar="SOURCE", help="its random words: seed:N or word:N (seed:0)")
    command.add_argument("--address", default=[], action="append", type=address_argument, metavar="ADDRESS",
                         help="an address that it is given by hand, once its link-local one is assigned; more than one may be given")
    command.add_argument("--transmits", default=1, type=int, choices=range(1, 9), metavar="N",
                         help="solicitations for each of its addresses, 1 to 8 (1)")
    command.add_argument("--policy", default=nd.Policy(0), type=policy_argument, metavar="WORDS",
                         help=f"words that are parted by commas: {', '.join(POLICIES)}")


def setup_of(arguments: argparse.Namespace) -> Setup:
    """Returns the node that the arguments ask for."""
    options = nd.Options(nd.Role[arguments.role.upper()], arguments.mac, 0, arguments.draws, arguments.transmits, policies=arguments.policy)
    return Setup(options, tuple(arguments.offer), tuple(arguments.address))


def mac_argument(text: str) -> nd.Mac:
    """Reads the Ethernet address of an interface: that of a group, whose first byte has its lowest bit set, is none."""
    try:
        mac = nd.Mac(text)
    except nd.Invalid as error:
        raise argparse.ArgumentTypeError(str(error)) from error
    if mac.is_group:
        raise argparse.ArgumentTypeError(f"{text} is the address of a group, and of no interface")
    return mac


def draws_argument(text: str) -> Union[nd.Seed, nd.Word]:
    """Reads the source of random words."""
    kind, _, number = text.partition(":")
    if kind == "seed" and number.isdecimal() and int(number) < 1 << 64:
        return nd.Seed(int(number))
    if kind == "word" and number.isdecimal() and int(number) < 1 << 32:
        return nd.Word(int(number))
    raise argparse.ArgumentTypeError(f"{text!r} is neither seed:N nor word:N")


def policy_argument(text: str) -> nd.Policy:
    """Reads the words of policies."""
    found = nd.Policy(0)
    for word in text.split(","):
        if word not in POLICIES:
            raise argparse.ArgumentTypeError(f"{word!r} is no policy: it is none of {', '.join(POLICIES)}")
        found |= nd.Policy[word.upper()]
    return found


def address_argument(text: str) -> IPv6Address:
    """Reads an address that an interface may have."""
    try:
        address = IPv6Address(text)
    except ValueError as error:
        raise argparse.ArgumentTypeError(f"{text!r} is no IPv6 address") from error
    if address.scope_id is not None:
        raise argparse.ArgumentTypeError(f"{text!r} has a zone, and a node has one link")
    if address.is_multicast or address.is_unspecified or address.is_loopback:
        raise argparse.ArgumentTypeError(f"{text} is the address of no interface")
    return address


def prefix_argument(text: str) -> IPv6Network:
    """Reads a prefix with its length."""
    try:
        prefix = IPv6Network(text, strict=False)
    except ValueError as error:
        raise argparse.ArgumentTypeError(f"{text!r} is no prefix") from error
    if prefix.network_address.scope_id is not None:
        raise argparse.ArgumentTypeError(f"{text!r} has a zone, and a prefix has none")
    return prefix
