"""The rows of a node's tables, as `ndpctl run` shows them (docs/FORMATS.md)."""
from __future__ import annotations

from typing import Callable, Dict, Iterator, Optional

import nd

from .texts import address_text, flags_text, network_text, word_of


def left_text(left: Optional[int]) -> str:
    """Returns the milliseconds that are left, or `inf`."""
    return "inf" if left is None else str(left)


def neighbours(node: nd.Node, now: int) -> Iterator[str]:
    """Returns the neighbours."""
    for row in node.neighbours(now):
        yield f"neighbour {address_text(row.address)} {row.mac or '-'} {word_of(row.state)} {'router' if row.is_router else 'host'}"


def routers(node: nd.Node, now: int) -> Iterator[str]:
    """Returns the default routers."""
    for row in node.routers(now):
        yield f"router {address_text(row.address)} {row.left} {word_of(row.preference)}"


def prefixes(node: nd.Node, now: int) -> Iterator[str]:
    """Returns the prefixes on the link."""
    for row in node.prefixes(now):
        yield f"prefix {network_text(row.prefix)} {left_text(row.left)}"


def addresses(node: nd.Node, now: int) -> Iterator[str]:
    """Returns the node's own addresses."""
    for row in node.addresses(now):
        yield f"address {address_text(row.address)} {word_of(row.state)} {left_text(row.preferred_left)} {left_text(row.valid_left)}"


def dns(node: nd.Node, now: int) -> Iterator[str]:
    """Returns the DNS servers, and the search names."""
    for server in node.servers(now):
        yield f"server {address_text(server.address)} {left_text(server.left)}"
    for name in node.names(now):
        yield f"search {name.text} {left_text(name.left)}"


def redirects(node: nd.Node, now: int) -> Iterator[str]:
    """Returns the Redirects in force."""
    for row in node.redirects(now):
        yield f"redirect {address_text(row.destination)} {address_text(row.target)}"


def parameters(node: nd.Node, now: int) -> Iterator[str]:
    """Returns the parameters of the link."""
    row = node.parameters(now)
    yield (f"params hop {row.hop_limit} mtu {row.mtu} reachable {row.base_reachable_time} {row.reachable_time} retrans {row.retrans_timer} "
           f"managed {int(row.managed)} other {int(row.other)}")


def advertising(node: nd.Node, now: int) -> Iterator[str]:
    """Returns whether a router advertises, and what it offers."""
    yield f"advertise {'on' if node.advertising(now) else 'off'}"
    for row in node.offers(now):
        flags = flags_text(l=row.on_link, a=row.autonomous)
        yield f"offer {network_text(row.prefix)} {row.valid_lifetime} {row.preferred_lifetime} {flags}"


def routes(node: nd.Node, now: int) -> Iterator[str]:
    """Returns the static routes of a router."""
    for row in node.routes(now):
        yield f"route {network_text(row.prefix)} {'direct' if row.router is None else address_text(row.router)}"


Show = Callable[[nd.Node, int], Iterator[str]]
# The tables of each role, by the words of `show`, in the order of nd.h.
HOST_TABLES: Dict[str, Show] = {"neighbours": neighbours, "routers": routers, "prefixes": prefixes, "addresses": addresses, "dns": dns,
                                "redirects": redirects, "params": parameters}
ROUTER_TABLES: Dict[str, Show] = {**HOST_TABLES, "advertise": advertising, "routes": routes}
TABLES = {nd.Role.HOST: HOST_TABLES, nd.Role.ROUTER: ROUTER_TABLES}
