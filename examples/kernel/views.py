"""views: what a stack knows, in the words in which the kernel and the model are compared. Each stack returns its tables as dictionaries of these."""
from dataclasses import dataclass
from typing import Optional

import rfc

# Seconds. The kernel counts lifetimes in whole seconds, and rounds each of its timers up.
TOLERANCE = 3


class Left:
    """What is left of a lifetime, in seconds; None has no end. Two are equal if they differ by TOLERANCE or less, or if neither has an end."""
    __hash__ = None

    def __init__(self, seconds):
        self.seconds = None if seconds == rfc.INFINITY else seconds

    def __eq__(self, other):
        if not isinstance(other, Left):
            return NotImplemented
        if self.seconds is None or other.seconds is None:
            return self.seconds is other.seconds
        return abs(self.seconds - other.seconds) <= TOLERANCE

    def later(self, seconds):
        """Returns what is left after so many seconds."""
        return Left(None if self.seconds is None else max(0, self.seconds - seconds))

    def __repr__(self):
        return "no end" if self.seconds is None else f"{self.seconds:.0f} s"


@dataclass(frozen=True)
class Neighbour:
    """An entry of the neighbour cache (RFC 4861, 5.1)."""
    state: str
    mac: Optional[str]
    is_router: bool


@dataclass
class Address:
    """One of the stack's own addresses (RFC 4862, 2)."""
    state: str
    valid: Left
    preferred: Left


@dataclass
class Router:
    """An entry of the default router list (RFC 4861, 5.1; RFC 4191, 2.1)."""
    left: Left
    preference: str


@dataclass(frozen=True)
class Parameters:
    """The parameters of the link (RFC 4861, 6.3.2)."""
    mtu: int
    hop_limit: int
    retrans_timer: int
    base_reachable_time: int
