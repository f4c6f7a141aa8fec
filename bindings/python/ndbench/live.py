"""Hears an Ethernet interface of Linux by a packet socket (`man 7 packet`), which takes root, or CAP_NET_RAW. It hears all frames on the link, those
that this machine itself sends there too."""
from __future__ import annotations

import socket
import struct
import time
from typing import Iterator, Optional

from .capture import Packet
from .links import LONGEST_FRAME, untagged

ALL_PROTOCOLS = 3             # ETH_P_ALL
SOL_PACKET, ADD_MEMBERSHIP, PROMISCUOUS = 263, 1, 1
MEMBERSHIP = struct.Struct("iHH8s")  # struct packet_mreq


class Interface:
    """An interface that is heard from now on. Raises OSError if there is no such interface, if this is no Linux, or without the right to do so."""

    def __init__(self, name: str) -> None:
        if not hasattr(socket, "AF_PACKET"):
            raise OSError(0, "an interface is heard on Linux alone", name)
        self.socket = socket.socket(socket.AF_PACKET, socket.SOCK_RAW, 0)
        try:
            self.socket.bind((name, ALL_PROTOCOLS))
            self.socket.setsockopt(SOL_PACKET, ADD_MEMBERSHIP, MEMBERSHIP.pack(socket.if_nametoindex(name), PROMISCUOUS, 0, b""))
        except OSError:
            self.close()
            raise

    def close(self) -> None:
        """Ends it."""
        self.socket.close()

    def __enter__(self) -> Interface:
        return self

    def __exit__(self, *_error: object) -> None:
        self.close()

    def packets(self, seconds: Optional[float] = None) -> Iterator[Packet]:
        """Returns the frames, each once it is there, for so many seconds from now, or for ever."""
        end, number = None if seconds is None else time.monotonic() + seconds, 0
        while True:
            left = None if end is None else end - time.monotonic()
            if left is not None and left <= 0:
                return
            self.socket.settimeout(left)
            try:
                content = self.socket.recv(LONGEST_FRAME)
            except socket.timeout:
                return
            number, made = number + 1, untagged(content)
            yield Packet(number, time.time_ns(), made.frame, vlans=made.vlans)
