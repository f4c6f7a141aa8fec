"""The states of a node's neighbour cache over time (RFC 4861, 7.3.2)."""
from __future__ import annotations

from dataclasses import dataclass
from ipaddress import IPv6Address
from typing import Dict, List, Optional

import nd

from .replay import MILLISECOND, Replay


@dataclass(frozen=True)
class Bar:
    """A state of a neighbour between two times, in nanoseconds."""
    neighbour: IPv6Address
    state: nd.Reachability
    begin: int
    end: int


@dataclass
class Current:
    """A state that has not ended. `until` is when a REACHABLE neighbour becomes STALE, which no record reports."""
    state: nd.Reachability
    begin: int
    until: Optional[int]


class States:
    """The states of a node's neighbours over time, in nanoseconds."""

    def __init__(self) -> None:
        self.current: Dict[IPv6Address, Current] = {}
        self.ended: List[Bar] = []
        self.polls = 0

    def look(self, replay: Replay) -> None:
        """Looks at the neighbours at the last moment, once for all records of a poll."""
        if self.polls == replay.polls:
            return
        self.polls, now = replay.polls, replay.node.last_moment()
        time, rows = replay.time_of(now), {row.address: row for row in replay.node.neighbours(now)}
        self.age(time)
        for address, current in list(self.current.items()):
            row = rows.get(address)
            if row is None or row.state != current.state:
                self.end(address, time)
        for address, row in rows.items():
            until = None if row.reachable_left is None else time + row.reachable_left * MILLISECOND
            self.current.setdefault(address, Current(row.state, time, until)).until = until

    def age(self, time: int) -> None:
        """Turns neighbours STALE whose time to be REACHABLE has ended."""
        for address, current in list(self.current.items()):
            if current.until is not None and current.until < time:
                self.end(address, current.until)
                self.current[address] = Current(nd.Reachability.STALE, current.until, None)

    def end(self, address: IPv6Address, time: int) -> None:
        """Ends the state of a neighbour."""
        current = self.current.pop(address)
        self.ended.append(Bar(address, current.state, current.begin, time))

    def bars(self, time: int) -> List[Bar]:
        """Returns all bars; what has not ended does so now."""
        self.age(time)
        for address in list(self.current):
            self.end(address, time)
        return self.ended
