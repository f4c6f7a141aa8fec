"""What a frame is to a host or to a router that knows nothing else (nd_hear.h)."""
from __future__ import annotations

import ctypes
from dataclasses import dataclass
from functools import cached_property
from ipaddress import IPv6Address
from typing import Optional

from . import library, raw
from .errors import checked
from .messages import Message, NeighborAdvertisement, NeighborSolicitation, RedirectMessage, RouterAdvertisement, RouterSolicitation
from .option_types import options_of
from .raw import Hearing, Preference, Role, Why
from .values import BytesLike, address_of, bytes_of, unsigned


@dataclass(frozen=True)
class HeardFrame:
    """What a frame is. A field is 0, False or `::` if the frame or its message has none such."""
    hearing: Hearing
    why: Optional[Why]        # DROP: the first reason
    source: IPv6Address       # of the packet: VALID and OTHER
    destination: IPv6Address  # of the packet: VALID and OTHER
    target: IPv6Address       # NS, NA and Redirect
    redirected: IPv6Address   # the Destination Address field of a Redirect
    message_type: int         # the ICMPv6 type, 133 to 137: VALID
    next_header: int          # VALID (58) and OTHER
    options: bytes            # VALID: from the first option to the end of the message. All are whole, and none has length 0
    hop_limit: int            # RA: Cur Hop Limit
    managed: bool             # RA: M
    other: bool               # RA: O
    preference: Preference    # RA (RFC 4191, 2.2)
    router_lifetime: int      # RA, s
    reachable_time: int       # RA, ms
    retrans_timer: int        # RA, ms
    router: bool              # NA: R
    solicited: bool           # NA: S
    override: bool            # NA: O

    @cached_property
    def message(self) -> Optional[Message]:
        """The message with its fields and options, or None if the frame is no valid one."""
        if self.hearing is not Hearing.VALID:
            return None
        ends, options = (self.source, self.destination), tuple(options_of(self.options))
        if self.message_type == RouterSolicitation.message_type:
            return RouterSolicitation(*ends, options)
        if self.message_type == RouterAdvertisement.message_type:
            return RouterAdvertisement(*ends, self.hop_limit, self.managed, self.other, self.preference, self.router_lifetime, self.reachable_time,
                                       self.retrans_timer, options)
        if self.message_type == NeighborSolicitation.message_type:
            return NeighborSolicitation(*ends, self.target, options)
        if self.message_type == NeighborAdvertisement.message_type:
            return NeighborAdvertisement(*ends, self.router, self.solicited, self.override, self.target, options)
        return RedirectMessage(*ends, self.target, self.redirected, options)


def hear(frame: BytesLike, role: Role) -> HeardFrame:
    """Returns what a frame, from its Ethernet destination on, is to a role: a valid message, another packet, or the first reason to drop it (RFC
    4861, 6.1, 7.1 and 8.1; RFC 4191, 2.2). Raises Invalid for a number that is no role."""
    content, heard = bytes_of(frame), raw.nd_heard()
    checked(library.call("nd_hear", content, len(content), unsigned(role, 32), ctypes.byref(heard)))
    why = Why(heard.why) if heard.hearing == Hearing.DROP else None
    options = content[heard.options:heard.options + heard.options_bytes]
    return HeardFrame(Hearing(heard.hearing), why, address_of(heard.source), address_of(heard.destination), address_of(heard.target),
                      address_of(heard.redirected), heard.message_type, heard.next_header, options, heard.hop_limit, bool(heard.managed),
                      bool(heard.other), Preference(heard.preference), heard.router_lifetime, heard.reachable_time, heard.retrans_timer,
                      bool(heard.router), bool(heard.solicited), bool(heard.override_flag))


def message_of(frame: BytesLike) -> Optional[Message]:
    """Returns the message of a frame, heard by the role that takes it: a Router Solicitation by a router, each other one by a host. None if it is no
    valid message."""
    heard = hear(frame, Role.HOST)
    if heard.why is Why.NOT_FOR_US:
        heard = hear(frame, Role.ROUTER)
    return heard.message
