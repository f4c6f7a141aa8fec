"""Tests for pytest over a capture, captures/link.pcapng, by the fields of its messages: no text is parsed. In the top folder of the repository:

    PYTHONPATH=bindings/python python3 -m pytest examples/python/test_link.py

The values are those of link.py, whose router and hosts are in the capture, and of RFC 4861 and RFC 4862."""
from __future__ import annotations

from ipaddress import IPv6Address, IPv6Network
from pathlib import Path
from typing import Iterator, List, Tuple, Type, TypeVar

import nd
import pytest
from ndbench import Packet, Setup, compared, judgement_of, read_capture

CAPTURE = Path(__file__).resolve().parents[1] / "captures" / "link.pcapng"
PREFIX = IPv6Network("2001:db8::/64")
ROUTER, A, B, C = (nd.Mac(f"02:00:00:00:00:{last}") for last in ("01", "0a", "0b", "0c"))
ALL_NODES = IPv6Address("ff02::1")
Kind = TypeVar("Kind")


@pytest.fixture(scope="module")
def packets() -> List[Packet]:
    with open(CAPTURE, "rb") as file:
        return list(read_capture(file))


def messages(packets: List[Packet], kind: Type[Kind]) -> Iterator[Tuple[nd.Mac, Kind]]:
    """Returns the valid messages of a kind, each with the Ethernet address of its sender."""
    for packet in packets:
        message = judgement_of(packet).message
        if isinstance(message, kind):
            yield nd.Mac(packet.frame[6:12]), message


def test_the_router_advertises_its_prefix(packets: List[Packet]) -> None:
    found = list(messages(packets, nd.RouterAdvertisement))
    assert found
    for sender, message in found:
        assert sender == ROUTER
        assert message.destination == ALL_NODES
        assert message.router_lifetime > 0
        prefix = next(option for option in message.options if isinstance(option, nd.PrefixInformation))
        assert prefix.prefix == PREFIX
        assert prefix.on_link and prefix.autonomous
        assert prefix.preferred_lifetime <= prefix.valid_lifetime
        assert nd.SourceLinkLayerAddress(ROUTER) in message.options


@pytest.mark.parametrize("host", [A, B, C])
def test_each_host_tries_its_addresses(packets: List[Packet], host: nd.Mac) -> None:
    """A solicitation from `::` to the solicited-node address, without a link-layer address (RFC 4862, 5.4.2)."""
    identifier = int.from_bytes(bytes([host[0] ^ 2]) + host[1:3] + b"\xff\xfe" + host[3:], "big")
    detections = [message for sender, message in messages(packets, nd.NeighborSolicitation) if sender == host and message.source.is_unspecified]
    assert {message.target for message in detections} == {IPv6Address("fe80::") + identifier, PREFIX.network_address + identifier}
    for message in detections:
        assert message.destination == IPv6Address("ff02::1:ff00:0") + (int(message.target) & 0xFFFFFF)
        assert message.options == ()


def test_the_forged_advertisement_is_dropped(packets: List[Packet]) -> None:
    """A hop limit other than 255 shows that it was forwarded (RFC 4861, 6.1.2)."""
    (dropped,) = [judgement for judgement in map(judgement_of, packets) if judgement.why is not None]
    assert dropped.why is nd.Why.HOP_LIMIT
    assert dropped.section == "RFC 4861, 6.1.2"


def test_a_host_behaves_as_the_node(packets: List[Packet]) -> None:
    made = compared(packets, Setup(nd.Options.host(A)))
    assert made.stack_messages
    assert made.differences() == []


def test_a_host_that_has_left_does_not_answer(packets: List[Packet]) -> None:
    """C is probed three times, and does not answer (RFC 4861, 7.3.3 and 10)."""
    found = compared(packets, Setup(nd.Options.host(C))).differences()
    assert [difference.section for difference in found] == ["RFC 4861, 7.2.4"] * 3
    assert all(difference.stack is None for difference in found)
