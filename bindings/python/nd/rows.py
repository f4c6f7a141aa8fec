"""What a node knows: the rows of its tables. What is left is in milliseconds, and None has no end; a router's own lifetimes are in seconds."""
from __future__ import annotations

from dataclasses import dataclass, fields
from ipaddress import IPv6Address, IPv6Network
from typing import Optional

from . import raw
from .options import Limits
from .raw import Hop, Limit, Preference, Reachability, Refusal, State, nd_advertising, nd_offer_row, nd_route_row
from .values import Mac, address_of, finite, mac_of, network_of, raw_address, structure_of


@dataclass(frozen=True)
class Neighbour:
    """A neighbour (RFC 4861, 5.1)."""
    address: IPv6Address
    mac: Optional[Mac]             # None while it is INCOMPLETE
    is_router: bool
    state: Reachability
    reachable_left: Optional[int]  # of the time for which it is REACHABLE, ms; None in another state

    @classmethod
    def of(cls, row: raw.nd_neighbour_row) -> Neighbour:
        """Returns the row of a structure."""
        left = row.reachable_left if row.state == Reachability.REACHABLE else None
        return cls(address_of(row.address), mac_of(row.mac) if row.has_mac else None, bool(row.is_router), Reachability(row.state), left)


@dataclass(frozen=True)
class Router:
    """A default router (RFC 4861, 5.1)."""
    address: IPv6Address
    left: int  # of its lifetime, ms
    preference: Preference

    @classmethod
    def of(cls, row: raw.nd_router_row) -> Router:
        """Returns the row of a structure."""
        return cls(address_of(row.address), row.left, Preference(row.preference))


@dataclass(frozen=True)
class Prefix:
    """A prefix on the link (RFC 4861, 5.1)."""
    prefix: IPv6Network
    left: Optional[int]  # of its valid lifetime, ms

    @classmethod
    def of(cls, row: raw.nd_prefix_row) -> Prefix:
        """Returns the row of a structure."""
        return cls(network_of(row.prefix, row.bits), finite(row.left))


@dataclass(frozen=True)
class Address:
    """An address of the node (RFC 4862, 2)."""
    address: IPv6Address
    state: State
    preferred_left: Optional[int]  # ms; 0: ended
    valid_left: Optional[int]      # ms; 0: ended, and not yet removed
    by_hand: bool                  # `Node.add_address` set its lifetimes: no Router Advertisement renews it

    @classmethod
    def of(cls, row: raw.nd_address_row) -> Address:
        """Returns the row of a structure."""
        return cls(address_of(row.address), State(row.state), finite(row.preferred_left), finite(row.valid_left), bool(row.by_hand))


@dataclass(frozen=True)
class Server:
    """A DNS server (RFC 8106, 5.1)."""
    address: IPv6Address
    left: Optional[int]  # ms

    @classmethod
    def of(cls, row: raw.nd_server_row) -> Server:
        """Returns the row of a structure."""
        return cls(address_of(row.address), finite(row.left))


@dataclass(frozen=True)
class Name:
    """A DNS search name (RFC 8106, 5.2): labels of small letters, digits, hyphens and underscores, joined by dots."""
    text: str
    left: Optional[int]  # ms

    @classmethod
    def of(cls, row: raw.nd_name_row) -> Name:
        """Returns the row of a structure."""
        return cls(row.text.decode("ascii"), finite(row.left))


@dataclass(frozen=True)
class Redirect:
    """A Redirect in force (RFC 4861, 8.3). `target` is the destination itself where that is on the link."""
    destination: IPv6Address
    target: IPv6Address

    @classmethod
    def of(cls, row: raw.nd_redirect_row) -> Redirect:
        """Returns the row of a structure."""
        return cls(address_of(row.destination), address_of(row.target))


@dataclass(frozen=True)
class Parameters:
    """The parameters of the link (RFC 4861, 6.3.2). A router keeps the defaults."""
    reachable_time: int       # ReachableTime, ms, as last drawn
    base_reachable_time: int  # BaseReachableTime, ms
    retrans_timer: int        # RetransTimer, ms
    mtu: int                  # LinkMTU, bytes
    hop_limit: int            # CurHopLimit
    managed: bool             # M of the last Router Advertisement
    other: bool               # O of it

    @classmethod
    def of(cls, row: raw.nd_parameters_row) -> Parameters:
        """Returns the row of a structure."""
        return cls(row.reachable_time, row.base_reachable_time, row.retrans_timer, row.mtu, row.hop_limit, bool(row.managed), bool(row.other))


@dataclass(frozen=True)
class Advertising:
    """What a router advertises (RFC 4861, 6.2.1)."""
    min_interval: int        # MinRtrAdvInterval, s: 3 to 3/4 of max_interval
    max_interval: int        # MaxRtrAdvInterval, s: 4 to 1800
    lifetime: int            # AdvDefaultLifetime, s: max_interval to 9000, or 0 (not a default router)
    hop_limit: int = 0       # AdvCurHopLimit; 0: unspecified
    managed: bool = False    # AdvManagedFlag
    other: bool = False      # AdvOtherConfigFlag
    preference: Preference = Preference.MEDIUM  # MEDIUM where lifetime is 0 (RFC 4191, 2.2)
    reachable_time: int = 0  # AdvReachableTime, ms: 0 (unspecified) to 3600000
    retrans_timer: int = 0   # AdvRetransTimer, ms; 0: unspecified
    mtu: int = 0             # AdvLinkMTU, bytes: 0 (none), or 1280 to 1500

    def raw(self) -> raw.nd_advertising:
        """Returns the structure of nd.h. Raises Invalid if a number is out of the range of its field."""
        return structure_of(raw.nd_advertising, **{setting.name: getattr(self, setting.name) for setting in fields(self)})

    @classmethod
    def of(cls, row: nd_advertising) -> Advertising:
        """Returns the settings of a structure."""
        return cls(row.min_interval, row.max_interval, row.lifetime, row.hop_limit, bool(row.managed), bool(row.other),
                   Preference(row.preference), row.reachable_time, row.retrans_timer, row.mtu)


@dataclass(frozen=True)
class Offer:
    """A prefix that a router advertises (RFC 4861, 6.2.1, AdvPrefixList)."""
    prefix: IPv6Network               # not link-local or multicast
    valid_lifetime: int = 2592000     # AdvValidLifetime, s; LIFETIME_INFINITE has no end
    preferred_lifetime: int = 604800  # AdvPreferredLifetime, s, not above valid_lifetime
    on_link: bool = True              # AdvOnLinkFlag
    autonomous: bool = True           # AdvAutonomousFlag

    def raw(self) -> raw.nd_offer_row:
        """Returns the structure of nd.h. Raises Invalid if a number is out of the range of its field."""
        prefix = IPv6Network(self.prefix)
        return structure_of(raw.nd_offer_row, prefix=raw_address(prefix.network_address), bits=prefix.prefixlen, valid_lifetime=self.valid_lifetime,
                            preferred_lifetime=self.preferred_lifetime, on_link=self.on_link, autonomous=self.autonomous)

    @classmethod
    def of(cls, row: nd_offer_row) -> Offer:
        """Returns the row of a structure."""
        return cls(network_of(row.prefix, row.bits), row.valid_lifetime, row.preferred_lifetime, bool(row.on_link), bool(row.autonomous))


@dataclass(frozen=True)
class Route:
    """A static route of a router (RFC 4861, 5.2): over the router, or on the link where `router` is None."""
    prefix: IPv6Network
    router: Optional[IPv6Address] = None

    def raw(self) -> raw.nd_route_row:
        """Returns the structure of nd.h."""
        prefix, hop = IPv6Network(self.prefix), Hop.DIRECT if self.router is None else Hop.VIA
        return structure_of(raw.nd_route_row, prefix=raw_address(prefix.network_address), router=raw_address(self.router or "::"),
                            bits=prefix.prefixlen, hop=hop)

    @classmethod
    def of(cls, row: nd_route_row) -> Route:
        """Returns the row of a structure."""
        return cls(network_of(row.prefix, row.bits), address_of(row.router) if row.hop == Hop.VIA else None)


@dataclass(frozen=True)
class Counts:
    """How many entries the tables have, and the limits that the node was opened with, the usual numbers in place of 0. An entry whose lifetime has
    ended counts until it is removed."""
    neighbours: int
    routers: int
    prefixes: int
    addresses: int
    servers: int
    names: int
    redirects: int
    offers: int
    routes: int
    limits: Limits

    @classmethod
    def of(cls, row: raw.nd_counts_row) -> Counts:
        """Returns the row of a structure."""
        counts = {count.name: getattr(row, count.name) for count in fields(cls) if count.name != "limits"}
        return cls(limits=Limits.of(row.limits), **counts)


@dataclass(frozen=True)
class NextHop:
    """Where packets to a destination go (RFC 4861, 5.2)."""
    address: IPv6Address  # the destination, or the router
    hop: Hop

    @classmethod
    def of(cls, row: raw.nd_next_hop_row) -> NextHop:
        """Returns the row of a structure."""
        return cls(address_of(row.address), Hop(row.hop))


@dataclass(frozen=True)
class Path:
    """Where packets to a destination go (`Node.resolve`)."""
    next_hop: IPv6Address          # the destination, or the router
    hop: Hop
    mac: Optional[Mac]             # to send to; None: wait for `Resolved` or `Failed` of the next hop
    state: Optional[Reachability]  # None where the destination is multicast, or where something is due again
    until: int                     # before this moment, ms, packets may be sent to `mac` without a call,
    version: int                   # as long as `Node.lease_version` is this

    @classmethod
    def of(cls, row: raw.nd_path) -> Path:
        """Returns the path of a structure."""
        state = Reachability(row.state) if row.state else None
        return cls(address_of(row.next_hop), Hop(row.hop), mac_of(row.mac) if row.has_mac else None, state, row.until, row.version)


@dataclass(frozen=True)
class NotResolved:
    """Why `Node.resolve` has no path: no next hop, where `refusal` is None, or a refusal, which no record reports."""
    refusal: Optional[Refusal] = None
    limit: Optional[Limit] = None  # of Refusal.FULL
