"""How a node is opened, and how much memory it takes."""
from __future__ import annotations

import ctypes
from dataclasses import asdict, dataclass, field, fields
from typing import Optional, Union

from . import library, raw
from .raw import Policy, Role, nd_limits
from .values import BytesLike, Mac, raw_mac, structure_of, unsigned

SIZE_BITS = 8 * ctypes.sizeof(ctypes.c_size_t)


@dataclass(frozen=True)
class Seed:
    """Random words from PCG32 with this seed, below 2^64. Take it from the system's entropy (`secrets.randbits(64)`), so that machines that start
    together do not send together (RFC 4861, 6.3.7)."""
    number: int


@dataclass(frozen=True)
class Word:
    """Each random word is this one, below 2^32: for tests."""
    number: int


@dataclass(frozen=True)
class Limits:
    """How many rows each table of a node has at most, and how many packets wait for one neighbour. 0 is the usual number. A limit on a table that
    the role does not have is accepted."""
    neighbours: int = 0    # 1 to 2048; 0: 512
    routers: int = 0       # default routers (RFC 4861, 6.3.4), 1 to 64; 0: 16
    prefixes: int = 0      # on the link (RFC 4861, 5.1), 1 to 64; 0: 64
    addresses: int = 0     # the node's own, the link-local one included, 1 to 64; 0: 64
    servers: int = 0       # DNS servers (RFC 8106, 5.3.1), 1 to 32; 0: 32
    names: int = 0         # search names, 1 to 32; 0: 32
    redirects: int = 0     # destinations whose Redirects are kept, 1 to 64; 0: 64
    destinations: int = 0  # destinations whose next hops are remembered, 1 to 256; 0: 256
    offers: int = 0        # prefixes that a router advertises, 1 to 16; 0: 16
    routes: int = 0        # static routes of a router, 1 to 64; 0: 64
    waiting: int = 0       # packets that wait for a neighbour (RFC 4861, 7.2.2), 1 to 8; 0: 3

    def raw(self) -> raw.nd_limits:
        """Returns the structure of nd.h."""
        return structure_of(raw.nd_limits, **asdict(self))

    @classmethod
    def of(cls, limits: nd_limits) -> Limits:
        """Returns the limits of a structure of nd.h."""
        return cls(**{limit.name: getattr(limits, limit.name) for limit in fields(cls)})


@dataclass(frozen=True)
class Options:
    """How a node is opened. `mac` is the interface's own address, `start` the moment of the start in milliseconds."""
    role: Role
    mac: Union[Mac, str, BytesLike]
    start: int = 0
    draws: Union[Seed, Word] = Seed(0)
    transmits: int = 1  # DupAddrDetectTransmits (RFC 4862, 5.1), 1 to 8
    limits: Limits = field(default_factory=Limits)
    policies: Policy = Policy(0)
    lease_version: int = 0  # where Node.lease_version begins, 0: at 1; above that of an earlier node, none of its paths has this node's version

    @classmethod
    def host(cls, mac: Union[Mac, str, BytesLike], start: int = 0, seed: int = 0) -> Options:
        """Returns the options of a host with the usual limits and no policy."""
        return cls(Role.HOST, mac, start, Seed(seed))

    @classmethod
    def router(cls, mac: Union[Mac, str, BytesLike], start: int = 0, seed: int = 0) -> Options:
        """Returns the options of a router with the usual limits and no policy."""
        return cls(Role.ROUTER, mac, start, Seed(seed))

    def raw(self) -> raw.nd_options:
        """Returns the structure of nd.h. Raises Invalid if a number is out of the range of its field."""
        draws = raw.Draws.WORD if isinstance(self.draws, Word) else raw.Draws.SEED
        return structure_of(raw.nd_options, role=self.role, mac=raw_mac(Mac(self.mac)), transmits=self.transmits, draws=draws,
                            policies=int(self.policies), start=self.start, seed=self.draws.number, limits=self.limits.raw(),
                            lease_version=self.lease_version)


def node_bytes(limits: Limits = Limits()) -> Optional[int]:
    """Returns how many bytes the tables of a node take at most with these limits, or None if a limit is out of its range."""
    return library.call("nd_node_bytes", ctypes.byref(limits.raw())) or None


def pool_bytes(limits: Limits = Limits(), longest: int = raw.BUFFER_BYTES) -> Optional[int]:
    """Returns how many bytes a pool needs for one node with these limits, if no frame is longer than `longest` bytes, all records are polled after
    each call, and no call's moment passes what is due by more than a millisecond. None if a limit is out of its range."""
    return library.call("nd_pool_bytes", ctypes.byref(limits.raw()), unsigned(longest, SIZE_BITS)) or None
