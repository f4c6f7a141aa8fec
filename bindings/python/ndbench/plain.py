"""Values as JSON has them: numbers of an enumeration by their names, addresses and prefixes as texts, bytes in hexadecimal digits, and a dataclass
with its class as `kind`."""
from __future__ import annotations

import dataclasses
from enum import IntEnum
from ipaddress import IPv6Address, IPv6Network
from typing import Any, Dict

import nd

from .texts import address_text, network_text


def plain(value: Any) -> Any:
    """Returns a value for JSON."""
    if isinstance(value, nd.Mac):
        return str(value)
    if isinstance(value, bytes):
        return value.hex()
    if isinstance(value, IPv6Address):
        return address_text(value)
    if isinstance(value, IPv6Network):
        return network_text(value)
    if isinstance(value, tuple):
        return [plain(part) for part in value]
    if dataclasses.is_dataclass(value):
        return fields_of(value)
    return value.name if isinstance(value, IntEnum) else value


def fields_of(value: Any) -> Dict[str, Any]:
    """Returns a dataclass as its class and its fields."""
    number = {"number": value.number} if hasattr(value, "number") else {}
    return {"kind": type(value).__name__, **number, **{part.name: plain(getattr(value, part.name)) for part in dataclasses.fields(value)}}
