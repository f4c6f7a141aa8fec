"""Why a call did not take place: an exception for each status of nd.h below 0, and those of the library itself."""
from __future__ import annotations

from typing import Dict, Tuple, Type

from .raw import Status


class Error(Exception):
    """A call did not take place."""


class NoMemory(Error, MemoryError):
    """malloc has no room: the memory of nodes is the process's. Take all reports, and make the same call again: for `Node.pass_time` that ends.
    Another event may be refused for what it adds itself, and is then left out: a frame is as if the link had lost it."""


class Closed(Error):
    """The node is not open."""


class Invalid(Error, ValueError):
    """An argument that the call does not take."""


class Past(Error, ValueError):
    """The moment is before the last one."""


class NoRoom(Error):
    """The buffer is too short."""


class LibraryError(Error):
    """The library cannot be compiled or loaded, or is of another version."""


_BY_STATUS: Dict[Status, Tuple[Type[Error], str]] = {
    Status.NO_MEMORY: (NoMemory, "out of memory"),
    Status.CLOSED: (Closed, "the node is not open"),
    Status.INVALID: (Invalid, "an argument that the call does not take"),
    Status.PAST: (Past, "the moment is before the last one"),
    Status.NO_ROOM: (NoRoom, "the buffer is too short"),
}


def checked(status: int) -> Status:
    """Returns a status of a call that took place. Raises the exception of any other."""
    if status >= 0:
        return Status(status)
    kind, text = _BY_STATUS.get(Status(status), (Error, f"status {status}"))
    raise kind(text)
