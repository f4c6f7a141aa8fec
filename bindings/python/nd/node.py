"""A node: a host or a router on one Ethernet interface."""
from __future__ import annotations

import ctypes
import enum
import threading
from typing import Any, Callable, Iterator, NoReturn, Optional, Type, TypeVar, Union

from . import library, raw
from .errors import NoRoom, checked
from .options import Options
from .output import Record, record_of
from .raw import Change, Clearable, Limit, Refusal, Status
from .rows import (Address, Advertising, Counts, Name, Neighbour, NextHop, NotResolved, Offer, Parameters, Path, Prefix, Redirect, Route, Router,
                   Server)
from .values import AddressLike, BytesLike, bytes_of, moment_of, raw_address, structure_of, unsigned

Row = TypeVar("Row")


class Outcome(enum.Enum):
    """What an event did. `NO_ROUTE`: the packet of `send` has no next hop, and is lost. `REFUSED`: time has passed up to it, and nothing else has
    changed; the newest record, `Refused`, says why."""
    DONE = 0
    NO_ROUTE = 1
    REFUSED = 2


class Node:
    """A host or a router. Moments are in milliseconds, from a beginning of the caller's choice, and never decrease.

    An event, a method with `now` that returns an Outcome, first does all that is due up to `now`. Poll after each one. Each raises Invalid, Closed,
    Past or NoMemory if it does not take place. The caller passes only frames to the interface's own address and to multicast addresses, and none
    that the interface itself sent; and to a router, of the frames to multicast addresses only those with ICMPv6 of types 133 to 137.

    Several threads may use one node: a call waits for the one that runs. Calls for different nodes run at the same time. A node is closed by `close`,
    or at the end of a `with` block. It cannot be copied or pickled."""

    _lock: Any  # held while a call for this node runs
    _node: raw.nd_node

    def __new__(cls, *_arguments: object, **_options: object) -> Node:
        node = super().__new__(cls)
        node._lock, node._node = threading.RLock(), raw.nd_node()  # not open yet
        return node

    def __init__(self, options: Options) -> None:
        """Opens a node (RFC 4861, 6.3.2; RFC 4862, 5.3 and 5.4). Nothing is reported yet. Raises Invalid if an option is out of its range, and
        NoMemory if there is no room for the node. Where it is called again, it closes the node that is open, as `io.FileIO` does a file."""
        made = options.raw()
        with self._lock:
            if self._node.is_open:
                self.close()
            self._node = raw.nd_node()
            self._buffer = ctypes.create_string_buffer(raw.BUFFER_BYTES)
            self._changes = Change(0)
            checked(self._call("nd_open", made, ctypes.sizeof(made)))

    def close(self) -> None:
        """Closes the node. Nothing is sent, and records that were not polled are lost. A closed node may be closed again."""
        self._call("nd_close")

    def __enter__(self) -> Node:
        return self

    def __exit__(self, *_error: object) -> None:
        self.close()

    def __del__(self) -> None:
        if self._node.is_open:
            self.close()

    def __reduce__(self) -> NoReturn:
        raise TypeError("a node cannot be copied or pickled: its state is in the memory of the library")

    # ---- time

    def last_moment(self) -> int:
        """Returns the moment up to which time has passed, ms; 2^64 - 1 if the node is closed."""
        return int(self._call("nd_last_moment"))

    def next_due(self) -> int:
        """Returns the earliest moment at which something is due, ms: call `pass_time` then. 2^64 - 1 if the node is closed."""
        return int(self._call("nd_next_due"))

    def lease_version(self) -> int:
        """Returns the version of all leases: a lease holds while this is the version of its path. 0 if the node is closed."""
        return int(self._call("nd_lease_version"))

    def pass_time(self, now: int) -> Outcome:
        """Does all that is due up to `now` (RFC 4861, 6.2.4, 6.2.6, 6.3.5, 6.3.7, 7.2.2, 7.3.3; RFC 4862, 5.4 and 5.5.4)."""
        return self._event("nd_pass", now)

    # ---- events

    def receive(self, now: int, frame: BytesLike) -> Outcome:
        """Receives a frame, from its Ethernet destination on: bytes, or what `bytes()` takes (RFC 4861, 6.1, 7.1 and 8; RFC 4862, 5.4 and 5.5.3; RFC
        8106, 5)."""
        content = bytes_of(frame)
        return self._event("nd_receive", now, content, len(content))

    def send(self, now: int, source: AddressLike, destination: AddressLike, next_header: int, payload: BytesLike = b"") -> Outcome:
        """Sends a packet of an upper layer (RFC 4861, 5.2, 7.2.2 and 7.3.3). `source` is an assigned address of the node, and `payload` what follows
        the IPv6 header, with its own checksum."""
        content = bytes_of(payload)
        return self._event("nd_send", now, raw_address(source), raw_address(destination), unsigned(next_header, 8), content, len(content))

    def confirm(self, now: int, neighbour: AddressLike) -> Outcome:
        """Confirms that a neighbour, the next hop, is reached (RFC 4861, 7.3.1)."""
        return self._event("nd_confirm", now, raw_address(neighbour))

    def confirm_to(self, now: int, destination: AddressLike, least: int = 0) -> bool:
        """Confirms the next hop of a destination, since an upper layer knows that packets to it arrive (RFC 4861, 7.3.1), if that moves the end of
        its ReachableTime by `least` ms or more. Returns true if it does."""
        return self._question("nd_confirm_to", now, raw_address(destination), unsigned(least, 64))

    def forget(self, now: int, neighbour: AddressLike) -> Outcome:
        """Removes a neighbour. It does not count as a failure."""
        return self._event("nd_forget", now, raw_address(neighbour))

    def clear(self, now: int, table: Clearable) -> Outcome:
        """Removes all rows of a table."""
        return self._event("nd_clear", now, unsigned(table, 32))

    def add_address(self, now: int, address: AddressLike, valid_lifetime: int = raw.LIFETIME_INFINITE,
                    preferred_lifetime: int = raw.LIFETIME_INFINITE) -> Outcome:
        """Gives the node an address by hand, or sets the lifetimes of one that it has, in seconds. Duplicate detection is done for a new one (RFC
        4862, 5.4): `Assigned` or `Duplicate` is reported. Refused as TENTATIVE while the link-local address is not assigned."""
        own = structure_of(raw.nd_own_address, address=raw_address(address), valid_lifetime=valid_lifetime, preferred_lifetime=preferred_lifetime)
        return self._event("nd_add_address", now, own)

    def remove_address(self, now: int, address: AddressLike) -> Outcome:
        """Ends an address of the node, in whatever state it is. The link-local address stays."""
        return self._event("nd_remove_address", now, raw_address(address))

    def next_hop(self, now: int, destination: AddressLike) -> Optional[NextHop]:
        """Returns where `send` would send a packet for `destination` (RFC 4861, 5.2), or None if there is no next hop. Apart from what is due
        nothing changes."""
        row = raw.nd_next_hop_row()
        return NextHop.of(row) if self._question("nd_next_hop", now, raw_address(destination), row) else None

    def resolve(self, now: int, destination: AddressLike) -> Union[Path, NotResolved]:
        """Returns where packets to `destination` go, for a stack that keeps and sends them itself (RFC 4861, 5.2, 7.2.2 and 7.3.3). It counts as a
        use of the next hop, and one whose link-layer address is not known is solicited: `Resolved` or `Failed` is reported then."""
        path = raw.nd_path()
        status = self._call("nd_resolve", moment_of(now), raw_address(destination), path)
        refusal = library.call("nd_refusal_of", status)
        if refusal:
            limit = library.call("nd_limit_of", status)
            return NotResolved(Refusal(refusal), Limit(limit) if limit else None)
        return NotResolved() if checked(status) == Status.NOTHING else Path.of(path)

    # ---- events at a router; a host refuses them as WRONG_ROLE

    def advertise(self, now: int, settings: Advertising) -> Outcome:
        """Begins to advertise, or changes what is advertised (RFC 4861, 6.2.4)."""
        return self._event("nd_advertise", now, settings.raw())

    def advertise_prefix(self, now: int, offer: Offer) -> Outcome:
        """Advertises a prefix, from the next advertisement on (RFC 4861, 6.2.1)."""
        return self._event("nd_advertise_prefix", now, offer.raw())

    def add_route(self, now: int, route: Route) -> Outcome:
        """Puts a static route (RFC 4861, 5.2)."""
        return self._event("nd_add_route", now, route.raw())

    def stop_advertising(self, now: int) -> Outcome:
        """Ends advertising, with a last advertisement of lifetime 0 (RFC 4861, 6.2.5)."""
        return self._event("nd_stop_advertising", now)

    # ---- what it reports

    def poll(self) -> Iterator[Record]:
        """Takes the records, the oldest first, until there is none. Raises Closed if the node is not open."""
        record = self.poll_one()
        while record is not None:
            yield record
            record = self.poll_one()

    def poll_one(self) -> Optional[Record]:
        """Takes the oldest record, or returns None if there is none."""
        out = raw.nd_out()
        with self._lock:  # another thread may poll the same node, into the same buffer
            try:
                status = checked(self._call("nd_poll", out, self._buffer, len(self._buffer)))
            except NoRoom:
                self._buffer = ctypes.create_string_buffer(out.length)
                return self.poll_one()
            if status != Status.DONE:
                return None
            self._changes |= Change(out.changes)
            content = self._buffer.raw[:out.length]
        return record_of(out, content)

    def changes(self) -> Change:
        """Returns the tables that may have changed with the records that were taken since this was last asked. Besides, a table changes by a call
        for it, as `clear`, and by time: a row is gone, or an address DEPRECATED, when what is left of its lifetime has passed, and ReachableTime is
        drawn anew. The neighbours have no bit: with most frames one of them changes."""
        with self._lock:
            changes, self._changes = self._changes, Change(0)
        return changes

    # ---- what it knows: questions, which change nothing

    def neighbours(self, now: int) -> Iterator[Neighbour]:
        """Returns the neighbours, in the order of their addresses (RFC 4861, 5.1)."""
        return self._rows("nd_neighbours", now, raw.nd_neighbour_row, Neighbour.of)

    def neighbour(self, now: int, address: AddressLike) -> Optional[Neighbour]:
        """Returns the neighbour of an address, or None."""
        row = raw.nd_neighbour_row()
        return Neighbour.of(row) if self._question("nd_neighbour_of", now, raw_address(address), row) else None

    def routers(self, now: int) -> Iterator[Router]:
        """Returns the default routers, in the order in which they entered the list (RFC 4861, 5.1)."""
        return self._rows("nd_routers", now, raw.nd_router_row, Router.of)

    def prefixes(self, now: int) -> Iterator[Prefix]:
        """Returns the prefixes on the link, in the order in which they entered the table (RFC 4861, 5.1)."""
        return self._rows("nd_prefixes", now, raw.nd_prefix_row, Prefix.of)

    def addresses(self, now: int) -> Iterator[Address]:
        """Returns the node's own addresses, in the order of addresses (RFC 4862, 5.3, 5.4 and 5.5.3)."""
        return self._rows("nd_addresses", now, raw.nd_address_row, Address.of)

    def servers(self, now: int) -> Iterator[Server]:
        """Returns the DNS servers, in the order in which they entered the table (RFC 8106, 5.1 and 6.1)."""
        return self._rows("nd_servers", now, raw.nd_server_row, Server.of)

    def names(self, now: int) -> Iterator[Name]:
        """Returns the DNS search names, in the order in which they entered the table (RFC 8106, 5.2 and 6.1)."""
        return self._rows("nd_names", now, raw.nd_name_row, Name.of)

    def redirects(self, now: int) -> Iterator[Redirect]:
        """Returns the Redirects in force, the newest first (RFC 4861, 8.3)."""
        return self._rows("nd_redirects", now, raw.nd_redirect_row, Redirect.of)

    def offers(self, now: int) -> Iterator[Offer]:
        """Returns the offers of a router, in the order in which each was first put."""
        return self._rows("nd_offers", now, raw.nd_offer_row, Offer.of)

    def routes(self, now: int) -> Iterator[Route]:
        """Returns the static routes of a router, in the order in which each was first put."""
        return self._rows("nd_routes", now, raw.nd_route_row, Route.of)

    def parameters(self, now: int) -> Parameters:
        """Returns the parameters of the link (RFC 4861, 6.3.2)."""
        row = raw.nd_parameters_row()
        self._question("nd_parameters_of", now, row)
        return Parameters.of(row)

    def advertising(self, now: int) -> Optional[Advertising]:
        """Returns what a router advertises, or None if it does not."""
        row = raw.nd_advertising()
        return Advertising.of(row) if self._question("nd_advertising_of", now, row) else None

    def counts(self, now: int) -> Counts:
        """Returns how many entries the tables have, and how many they may have."""
        row = raw.nd_counts_row()
        self._question("nd_counts_of", now, row)
        return Counts.of(row)

    # ---- calls

    def _call(self, name: str, *arguments: Any) -> Any:
        """Calls a function of nd.h for this node. No other call for it runs meanwhile."""
        with self._lock:
            return library.call(name, self._node, *arguments)

    def _event(self, name: str, now: int, *arguments: Any) -> Outcome:
        status = self._call(name, moment_of(now), *arguments)
        if library.call("nd_refusal_of", status):
            return Outcome.REFUSED
        return Outcome.NO_ROUTE if checked(status) == Status.NOTHING else Outcome.DONE

    def _question(self, name: str, now: int, *arguments: Any) -> bool:
        """Returns true if the row was written."""
        return checked(self._call(name, moment_of(now), *arguments)) == Status.DONE

    def _rows(self, name: str, now: int, kind: Type[ctypes.Structure], row_of: Callable[[Any], Row]) -> Iterator[Row]:
        room, count = 64, ctypes.c_size_t()
        while True:
            rows = (kind * room)()
            try:
                checked(self._call(name, moment_of(now), rows, room, count))
            except NoRoom:
                room *= 8
                continue
            return iter([row_of(row) for row in rows[:count.value]])
