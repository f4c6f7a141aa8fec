"""The declarations of nd_hear.h and nd.h, in their order and under their names: enumerations, structures, functions. tests/test_raw.py compares
them with the headers, and has a C compiler compare the structures. nd.h documents each field and function.

An enumeration takes a number that it does not know, as a member OTHER_n: nd.h asks a caller to ignore kinds and codes of later versions."""
from __future__ import annotations

from ctypes import POINTER, Structure, c_bool, c_char, c_char_p, c_int32, c_size_t, c_uint8, c_uint16, c_uint32, c_uint64, c_void_p
from enum import IntEnum, IntFlag
from typing import Optional

ADDRESS_BYTES = 16
MAC_BYTES = 6


class Numbers(IntEnum):
    """An enumeration of nd.h."""

    @classmethod
    def _missing_(cls, value: object) -> Optional[Numbers]:
        if not isinstance(value, int):
            return None
        member = int.__new__(cls, value)
        member._name_ = f"OTHER_{value}"
        member._value_ = value
        return member


# ---- nd_hear.h -----------------------------------------------------------------------------------


class Status(Numbers):
    """What a call returns, if it is not refused. Below 0 it did not take place, and is raised as an exception of errors.py."""
    DONE = 0
    NOTHING = 1
    WAITING = 2
    NO_MEMORY = -1
    CLOSED = -2
    INVALID = -3
    PAST = -4
    NO_ROOM = -5


class Role(Numbers):
    """What a node is (RFC 4861, 2.1)."""
    HOST = 0
    ROUTER = 1


class Preference(Numbers):
    """The preference of a default router (RFC 4191, 2.1)."""
    MEDIUM = 0
    HIGH = 1
    LOW = 2


class Why(Numbers):
    """Why a frame is dropped: the first reason that holds, in the order 1 to 5, 10, 11, 6 to 9, 12 to 20."""
    FRAME_SHORT = 1
    NOT_IPV6 = 2
    HEADER_SHORT = 3
    VERSION = 4
    PAYLOAD_SHORT = 5
    CODE = 6
    LENGTH = 7
    OPTION_ZERO = 8
    OPTION_OVER = 9
    HOP_LIMIT = 10
    SUM = 11
    SOURCE = 12
    TARGET = 13
    UNSPECIFIED_SLLA = 14
    NOT_SOLICITED_NODE = 15
    SOLICITED_MULTICAST = 16
    REDIRECT_TARGET = 17
    REDIRECT_DESTINATION = 18
    NOT_FOR_US = 19
    NOT_FIRST_HOP = 20


class Hearing(Numbers):
    """What a frame is: a valid message of Neighbor Discovery, another IPv6 packet, or a frame to drop."""
    VALID = 1
    OTHER = 2
    DROP = 3


class nd_addr(Structure):
    _fields_ = [("bytes", c_uint8 * ADDRESS_BYTES)]


class nd_heard(Structure):
    _fields_ = [("source", nd_addr), ("destination", nd_addr), ("target", nd_addr), ("redirected", nd_addr), ("hearing", c_uint32),
                ("why", c_uint32), ("message_type", c_uint32), ("next_header", c_uint32), ("options", c_uint32), ("options_bytes", c_uint32),
                ("reachable_time", c_uint32), ("retrans_timer", c_uint32), ("router_lifetime", c_uint32), ("hop_limit", c_uint8),
                ("managed", c_uint8), ("other", c_uint8), ("preference", c_uint8), ("router", c_uint8), ("solicited", c_uint8),
                ("override_flag", c_uint8), ("reserved", c_uint8)]


# ---- nd.h ----------------------------------------------------------------------------------------

VERSION = (0, 1, 0)
MOMENT_LIMIT = 1 << 62
FOREVER = (1 << 64) - 1
LIFETIME_INFINITE = (1 << 32) - 1
BUFFER_BYTES = 1514


class nd_mac(Structure):
    _fields_ = [("bytes", c_uint8 * MAC_BYTES)]


class nd_limits(Structure):
    _fields_ = [("neighbours", c_uint16), ("routers", c_uint16), ("prefixes", c_uint16), ("addresses", c_uint16), ("servers", c_uint16),
                ("names", c_uint16), ("redirects", c_uint16), ("destinations", c_uint16), ("offers", c_uint16), ("routes", c_uint16),
                ("waiting", c_uint16), ("reserved", c_uint16 * 5)]


class nd_node(Structure):
    _fields_ = [("is_open", c_bool), ("at", c_void_p)]


class Draws(Numbers):
    """Where a node's random words are from."""
    SEED = 0
    WORD = 1


class Policy(IntFlag):
    """What a node does on a link that is not trusted, each where it is asked for; `Policy(0)` is none.

    `PARTS`: no message is refused for a limit (RFC 8106, 5.3.1): what has room is taken, in order, what has none is passed over, and a
    solicitation whose asker gets no entry is answered to the link-layer address that it gives. `SPEAKERS`: where a message gives the link-layer
    address of a new neighbour and the cache is full without a STALE entry, the INCOMPLETE one that was asked for longest fails, and answers are
    no use of the asker's entry (RFC 6583, 7). `TIMERS`: of a Router Advertisement, a Cur Hop Limit below 32, a Reachable Time outside 1,000 to
    3,600,000 ms and a Retrans Timer outside 100 to 30,000 ms are read as 0, unspecified (RFC 4861, 4.2). `SELF`: a message from one of the node's
    assigned addresses is dropped, and a link-layer address that is a group's, zeros or the node's own is passed over. `UNICAST`: a router sends
    on only packets whose frame has its own address as the Ethernet destination.

    `UNFORMED`: the flag A of each prefix option is read as 0: an advertisement forms no address, and the caller gives the node its addresses (RFC
    4862, 5.5.3 a). `ASKED`: the flag S of a Neighbor Advertisement is read as 0 unless the entry of its target is INCOMPLETE or in PROBE (RFC 4861,
    7.2.5). `LIFETIMES`: a Router Lifetime above 9,000 s is read as 9,000 (RFC 4861, 6.2.1), and a lifetime of a prefix, of DNS servers or of search
    names above 604,800 s, or without an end, as 604,800. `UNREDIRECTED`: a host drops each Redirect. `STRICT`: what an RFC forbids to send, and a
    node takes by default, is dropped, and Redirects to a router that says that it is none end (RFC 4861, 4.3, 6.1.1, 7.1.1 and 7.3.3; RFC 4291,
    2.5.3 and 2.7). include/nd.h says of each all that it does.

    Not built yet, so that a node with one of them is refused (`Invalid`): `ANNOUNCE`, `SOLICIT`, `NONCE` and `LOOKUPS`.

    `POLICIES_ROBUST` are those that are recommended on a link that is not trusted: all that are built but `UNFORMED` and `UNREDIRECTED`."""
    PARTS = 1
    SPEAKERS = 2
    TIMERS = 4
    SELF = 8
    UNICAST = 16
    UNFORMED = 32
    ANNOUNCE = 64
    SOLICIT = 128
    NONCE = 256
    ASKED = 512
    LOOKUPS = 1024
    LIFETIMES = 2048
    UNREDIRECTED = 4096
    STRICT = 8192


# Those that are recommended on a link that is not trusted.
POLICIES_ROBUST = Policy.PARTS | Policy.SPEAKERS | Policy.TIMERS | Policy.SELF | Policy.UNICAST | Policy.ASKED | Policy.LIFETIMES | Policy.STRICT


class nd_options(Structure):
    _fields_ = [("role", c_uint32), ("mac", nd_mac), ("transmits", c_uint8), ("draws", c_uint8), ("policies", c_uint32), ("start", c_uint64),
                ("seed", c_uint64), ("limits", nd_limits), ("lease_version", c_uint64), ("identifier", c_uint8 * 8)]


class Clearable(Numbers):
    """A table that `Node.clear` empties."""
    NEIGHBOURS = 1
    ROUTERS = 2
    PREFIXES = 3
    REDIRECTS = 4
    DNS = 5


class nd_own_address(Structure):
    _fields_ = [("address", nd_addr), ("valid_lifetime", c_uint32), ("preferred_lifetime", c_uint32)]


class Hop(Numbers):
    """Where packets go: to the destination itself, or through a router (RFC 4861, 5.2)."""
    DIRECT = 1
    VIA = 2


class nd_next_hop_row(Structure):
    _fields_ = [("address", nd_addr), ("hop", c_uint32), ("reserved", c_uint32)]


class nd_message(Structure):
    _fields_ = [("source", nd_addr), ("destination", nd_addr), ("hop_limit", c_uint8), ("checksum_good", c_uint8), ("reserved", c_uint16)]


class nd_path(Structure):
    _fields_ = [("until", c_uint64), ("version", c_uint64), ("next_hop", nd_addr), ("mac", nd_mac), ("has_mac", c_uint8),
                ("reserved", c_uint8), ("hop", c_uint32), ("state", c_uint32)]


class nd_advertising(Structure):
    _fields_ = [("min_interval", c_uint32), ("max_interval", c_uint32), ("lifetime", c_uint32), ("reachable_time", c_uint32),
                ("retrans_timer", c_uint32), ("mtu", c_uint32), ("hop_limit", c_uint8), ("managed", c_uint8), ("other", c_uint8),
                ("preference", c_uint8), ("reserved", c_uint32)]


class nd_offer_row(Structure):
    _fields_ = [("prefix", nd_addr), ("bits", c_uint32), ("valid_lifetime", c_uint32), ("preferred_lifetime", c_uint32), ("on_link", c_uint8),
                ("autonomous", c_uint8), ("reserved", c_uint8 * 2)]


class nd_route_row(Structure):
    _fields_ = [("prefix", nd_addr), ("router", nd_addr), ("bits", c_uint32), ("hop", c_uint32)]


class Kind(Numbers):
    """What a record reports."""
    FRAME = 1
    HEARD = 2
    DROPPED = 3
    UP = 4
    DUPLICATE = 5
    ASSIGNED = 6
    ENDED_ADDRESS = 7
    ENDED_ROUTER = 8
    FAILED = 9
    LOST = 10
    REFUSED = 11
    RESOLVED = 13
    IGNORED = 14


class Loss(Numbers):
    """Why a packet was not sent."""
    UNREACHABLE = 1
    REPLACED = 2
    FORGOTTEN = 3
    NO_ROUTE = 4
    HOP_LIMIT = 5


class Refusal(Numbers):
    """Why an event was refused."""
    WRONG_ROLE = 1
    DISABLED = 2
    NOT_OURS = 3
    TOO_LONG = 4
    FULL = 5
    TENTATIVE = 8


class Limit(Numbers):
    """A table that has a limit."""
    NEIGHBOURS = 1
    ROUTERS = 2
    PREFIXES = 3
    ADDRESSES = 4
    SERVERS = 5
    NAMES = 6
    OFFERS = 7
    STATIC_ROUTES = 8


class Change(IntFlag):
    """Tables that may have changed with a record; `Change(0)` is none."""
    ROUTERS = 1
    PREFIXES = 2
    ADDRESSES = 4
    SERVERS = 8
    NAMES = 16
    REDIRECTS = 32
    PARAMETERS = 64


class nd_out(Structure):
    _fields_ = [("moment", c_uint64), ("length", c_size_t), ("kind", c_uint32), ("code", c_uint32), ("limit", c_uint32),
                ("changes", c_uint32), ("address", nd_addr)]


class Reachability(Numbers):
    """The state of a neighbour (RFC 4861, 7.3.2)."""
    INCOMPLETE = 1
    REACHABLE = 2
    STALE = 3
    DELAY = 4
    PROBE = 5


class nd_neighbour_row(Structure):
    _fields_ = [("reachable_left", c_uint64), ("address", nd_addr), ("mac", nd_mac), ("has_mac", c_uint8), ("is_router", c_uint8),
                ("state", c_uint32), ("reserved", c_uint32)]


class nd_router_row(Structure):
    _fields_ = [("left", c_uint64), ("address", nd_addr), ("preference", c_uint32), ("reserved", c_uint32)]


class nd_prefix_row(Structure):
    _fields_ = [("left", c_uint64), ("prefix", nd_addr), ("bits", c_uint32), ("reserved", c_uint32)]


class State(Numbers):
    """The state of an address of the node (RFC 4862, 2)."""
    TENTATIVE = 1
    PREFERRED = 2
    DEPRECATED = 3
    DUPLICATE = 4


class nd_address_row(Structure):
    _fields_ = [("preferred_left", c_uint64), ("valid_left", c_uint64), ("address", nd_addr), ("state", c_uint32), ("by_hand", c_uint8),
                ("reserved", c_uint8 * 3)]


class nd_server_row(Structure):
    _fields_ = [("left", c_uint64), ("address", nd_addr)]


class nd_name_row(Structure):
    _fields_ = [("left", c_uint64), ("length", c_uint32), ("reserved", c_uint32), ("text", c_char * 256)]


class nd_redirect_row(Structure):
    _fields_ = [("destination", nd_addr), ("target", nd_addr)]


class nd_parameters_row(Structure):
    _fields_ = [("reachable_time", c_uint64), ("base_reachable_time", c_uint32), ("retrans_timer", c_uint32), ("mtu", c_uint32),
                ("hop_limit", c_uint8), ("managed", c_uint8), ("other", c_uint8), ("reserved", c_uint8)]


class nd_counts_row(Structure):
    _fields_ = [("neighbours", c_uint32), ("routers", c_uint32), ("prefixes", c_uint32), ("addresses", c_uint32), ("servers", c_uint32),
                ("names", c_uint32), ("redirects", c_uint32), ("offers", c_uint32), ("routes", c_uint32), ("reserved", c_uint32),
                ("limits", nd_limits)]


# ---- the enumerations by their names in the headers ----------------------------------------------

ENUMERATIONS = {"nd_status": Status, "nd_role": Role, "nd_preference": Preference, "nd_why": Why, "nd_hearing": Hearing, "nd_draws": Draws,
                "nd_policy": Policy, "nd_clearable": Clearable, "nd_hop": Hop, "nd_kind": Kind, "nd_loss": Loss, "nd_refusal": Refusal,
                "nd_limit": Limit, "nd_change": Change, "nd_reachability": Reachability, "nd_state": State}

# ---- the functions -------------------------------------------------------------------------------

_NODE = POINTER(nd_node)
_ADDRESS = POINTER(nd_addr)
_EVENT = [_NODE, c_uint64]
_ROW = [_NODE, c_uint64, c_size_t]

# The type of the result and those of the arguments, by name. A `c_char_p` is a pointer to bytes, uint8_t in nd.h.
FUNCTIONS = {
    "nd_hear": (c_int32, [c_char_p, c_size_t, c_uint32, POINTER(nd_heard)]),
    "nd_version": (c_uint32, []),
    "nd_node_bytes": (c_size_t, [POINTER(nd_limits)]),
    "nd_pool_bytes": (c_size_t, [POINTER(nd_limits), c_size_t]),
    "nd_open": (c_int32, [_NODE, POINTER(nd_options), c_size_t]),
    "nd_close": (None, [_NODE]),
    "nd_last_moment": (c_uint64, [_NODE]),
    "nd_next_due": (c_uint64, [_NODE]),
    "nd_refusal_of": (c_uint32, [c_int32]),
    "nd_limit_of": (c_uint32, [c_int32]),
    "nd_pass": (c_int32, [*_EVENT]),
    "nd_receive": (c_int32, [*_EVENT, c_char_p, c_size_t]),
    "nd_receive_message": (c_int32, [*_EVENT, POINTER(nd_message), c_char_p, c_size_t]),
    "nd_send": (c_int32, [*_EVENT, _ADDRESS, _ADDRESS, c_uint8, c_char_p, c_size_t]),
    "nd_confirm": (c_int32, [*_EVENT, _ADDRESS]),
    "nd_confirm_to": (c_int32, [*_EVENT, _ADDRESS, c_uint64]),
    "nd_forget": (c_int32, [*_EVENT, _ADDRESS]),
    "nd_clear": (c_int32, [*_EVENT, c_uint32]),
    "nd_add_address": (c_int32, [*_EVENT, POINTER(nd_own_address)]),
    "nd_remove_address": (c_int32, [*_EVENT, _ADDRESS]),
    "nd_next_hop": (c_int32, [*_EVENT, _ADDRESS, POINTER(nd_next_hop_row)]),
    "nd_resolve": (c_int32, [*_EVENT, _ADDRESS, POINTER(nd_path)]),
    "nd_lease_version": (c_uint64, [_NODE]),
    "nd_advertise": (c_int32, [*_EVENT, POINTER(nd_advertising)]),
    "nd_advertise_prefix": (c_int32, [*_EVENT, POINTER(nd_offer_row)]),
    "nd_add_route": (c_int32, [*_EVENT, POINTER(nd_route_row)]),
    "nd_stop_advertising": (c_int32, [*_EVENT]),
    "nd_poll": (c_int32, [_NODE, POINTER(nd_out), c_char_p, c_size_t]),
    "nd_neighbours": (c_int32, [*_EVENT, POINTER(nd_neighbour_row), c_size_t, POINTER(c_size_t)]),
    "nd_routers": (c_int32, [*_EVENT, POINTER(nd_router_row), c_size_t, POINTER(c_size_t)]),
    "nd_prefixes": (c_int32, [*_EVENT, POINTER(nd_prefix_row), c_size_t, POINTER(c_size_t)]),
    "nd_addresses": (c_int32, [*_EVENT, POINTER(nd_address_row), c_size_t, POINTER(c_size_t)]),
    "nd_servers": (c_int32, [*_EVENT, POINTER(nd_server_row), c_size_t, POINTER(c_size_t)]),
    "nd_names": (c_int32, [*_EVENT, POINTER(nd_name_row), c_size_t, POINTER(c_size_t)]),
    "nd_redirects": (c_int32, [*_EVENT, POINTER(nd_redirect_row), c_size_t, POINTER(c_size_t)]),
    "nd_offers": (c_int32, [*_EVENT, POINTER(nd_offer_row), c_size_t, POINTER(c_size_t)]),
    "nd_routes": (c_int32, [*_EVENT, POINTER(nd_route_row), c_size_t, POINTER(c_size_t)]),
    "nd_neighbour_at": (c_int32, [*_ROW, POINTER(nd_neighbour_row)]),
    "nd_neighbour_of": (c_int32, [*_EVENT, _ADDRESS, POINTER(nd_neighbour_row)]),
    "nd_router_at": (c_int32, [*_ROW, POINTER(nd_router_row)]),
    "nd_prefix_at": (c_int32, [*_ROW, POINTER(nd_prefix_row)]),
    "nd_address_at": (c_int32, [*_ROW, POINTER(nd_address_row)]),
    "nd_server_at": (c_int32, [*_ROW, POINTER(nd_server_row)]),
    "nd_name_at": (c_int32, [*_ROW, POINTER(nd_name_row)]),
    "nd_redirect_at": (c_int32, [*_ROW, POINTER(nd_redirect_row)]),
    "nd_parameters_of": (c_int32, [*_EVENT, POINTER(nd_parameters_row)]),
    "nd_offer_at": (c_int32, [*_ROW, POINTER(nd_offer_row)]),
    "nd_route_at": (c_int32, [*_ROW, POINTER(nd_route_row)]),
    "nd_advertising_of": (c_int32, [*_EVENT, POINTER(nd_advertising)]),
    "nd_counts_of": (c_int32, [*_EVENT, POINTER(nd_counts_row)]),
}
