"""Values of Python as values of nd.h, and back: addresses, bytes, and structures whose fields are checked for their range."""
from __future__ import annotations

import ctypes
import operator
from ipaddress import IPv6Address, IPv6Network
from typing import Any, Optional, SupportsBytes, Type, TypeVar, Union

from .errors import Invalid
from .raw import ADDRESS_BYTES, FOREVER, MAC_BYTES, MOMENT_LIMIT, nd_addr, nd_mac

MOMENT_BITS = MOMENT_LIMIT.bit_length() - 1

# What is taken for bytes: all that `bytes()` takes, so a packet of Scapy too, but for numbers.
BytesLike = Union[bytes, bytearray, memoryview, SupportsBytes]
AddressLike = Union[IPv6Address, str, bytes]
RawStructure = TypeVar("RawStructure", bound=ctypes.Structure)


class Mac(bytes):
    """An Ethernet address: six bytes, printed as six pairs of digits with colons. It is made of such a text, or of anything that `bytes()` takes.
    Raises Invalid for any other text or length."""

    def __new__(cls, value: Union[str, BytesLike]) -> Mac:
        try:
            made = super().__new__(cls, _mac_bytes(value) if isinstance(value, str) else bytes_of(value))
        except ValueError as error:
            raise Invalid(f"{value!r} is no Ethernet address") from error
        if len(made) != MAC_BYTES:
            raise Invalid(f"an Ethernet address has {MAC_BYTES} bytes, not {len(made)}")
        return made

    def __str__(self) -> str:
        return self.hex(":")

    def __repr__(self) -> str:
        return f"Mac('{self}')"

    @property
    def is_group(self) -> bool:
        """True for a multicast address, and for the broadcast one."""
        return bool(self[0] & 1)


def _mac_bytes(text: str) -> bytes:
    parts = text.split(":")
    if len(parts) != MAC_BYTES or any(len(part) != 2 for part in parts):
        raise ValueError(text)
    return bytes.fromhex("".join(parts))


def bytes_of(value: BytesLike) -> bytes:
    """Returns the bytes of a frame, a payload or an address. Raises TypeError for a number, of which `bytes()` would make as many zeros."""
    if isinstance(value, (int, str)):
        raise TypeError(f"bytes are expected, not {type(value).__name__}")
    return bytes(value)


def unsigned(value: int, bits: int) -> int:
    """Returns a number. Raises Invalid if it is negative, or has more than `bits` bits, which ctypes would cut."""
    number = operator.index(value)
    if not 0 <= number < 1 << bits:
        raise Invalid(f"{number} is not from 0 to 2^{bits} - 1")
    return number


def moment_of(now: int) -> int:
    """Returns a moment, in milliseconds. Raises Invalid if it is negative, or MOMENT_LIMIT or above."""
    return unsigned(now, MOMENT_BITS)


def raw_address(address: AddressLike) -> nd_addr:
    """Returns an address as a structure. Raises Invalid if it is no IPv6 address, or has a zone: a node has one link, and no name for it."""
    try:
        taken = IPv6Address(address)
    except ValueError as error:
        raise Invalid(f"{address!r} is no IPv6 address") from error
    if taken.scope_id is not None:
        raise Invalid(f"{str(address)!r} has a zone: an address without one is expected")
    return nd_addr((ctypes.c_uint8 * ADDRESS_BYTES)(*taken.packed))


def raw_mac(mac: Mac) -> nd_mac:
    """Returns an Ethernet address as a structure."""
    return nd_mac((ctypes.c_uint8 * MAC_BYTES)(*mac))


def structure_of(kind: Type[RawStructure], **fields: Any) -> RawStructure:
    """Returns a structure with these fields; the others are 0. Raises Invalid if a number is out of the range of its field, which ctypes would
    cut."""
    made = kind()
    for name, value in fields.items():
        is_number = not isinstance(value, ctypes.Structure)
        setattr(made, name, operator.index(value) if is_number else value)
        if is_number and getattr(made, name) != value:
            raise Invalid(f"{name}: {value} is out of its range")
    return made


def address_of(raw: nd_addr) -> IPv6Address:
    """Returns the address of a structure."""
    return IPv6Address(bytes(raw.bytes))


def mac_of(raw: nd_mac) -> Mac:
    """Returns the Ethernet address of a structure."""
    return Mac(bytes(raw.bytes))


def network_of(prefix: nd_addr, bits: int) -> IPv6Network:
    """Returns a prefix and its length."""
    return IPv6Network((bytes(prefix.bytes), bits), strict=False)


def finite(left: int) -> Optional[int]:
    """Returns the milliseconds that are left, or None for what has no end."""
    return None if left == FOREVER else left
