"""The five messages of Neighbor Discovery with their fields and options (RFC 4861, 4): what `HeardFrame.message` is of a valid frame."""
from __future__ import annotations

from dataclasses import dataclass
from ipaddress import IPv6Address
from typing import ClassVar, Tuple, Union

from .option_types import Option
from .raw import Preference


@dataclass(frozen=True)
class RouterSolicitation:
    """Router Solicitation (RFC 4861, 4.1)."""
    source: IPv6Address
    destination: IPv6Address
    options: Tuple[Option, ...]
    message_type: ClassVar[int] = 133


@dataclass(frozen=True)
class RouterAdvertisement:
    """Router Advertisement (RFC 4861, 4.2)."""
    source: IPv6Address
    destination: IPv6Address
    hop_limit: int          # Cur Hop Limit; 0: unspecified
    managed: bool           # M
    other: bool             # O
    preference: Preference  # RFC 4191, 2.2
    router_lifetime: int    # s
    reachable_time: int     # ms; 0: unspecified
    retrans_timer: int      # ms; 0: unspecified
    options: Tuple[Option, ...]
    message_type: ClassVar[int] = 134


@dataclass(frozen=True)
class NeighborSolicitation:
    """Neighbor Solicitation (RFC 4861, 4.3)."""
    source: IPv6Address
    destination: IPv6Address
    target: IPv6Address
    options: Tuple[Option, ...]
    message_type: ClassVar[int] = 135


@dataclass(frozen=True)
class NeighborAdvertisement:
    """Neighbor Advertisement (RFC 4861, 4.4)."""
    source: IPv6Address
    destination: IPv6Address
    router: bool     # R
    solicited: bool  # S
    override: bool   # O
    target: IPv6Address
    options: Tuple[Option, ...]
    message_type: ClassVar[int] = 136


@dataclass(frozen=True)
class RedirectMessage:
    """Redirect (RFC 4861, 4.5). `redirected` is its Destination Address field."""
    source: IPv6Address
    destination: IPv6Address
    target: IPv6Address
    redirected: IPv6Address
    options: Tuple[Option, ...]
    message_type: ClassVar[int] = 137


Message = Union[RouterSolicitation, RouterAdvertisement, NeighborSolicitation, NeighborAdvertisement, RedirectMessage]
