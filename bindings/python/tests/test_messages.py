"""The fields of messages and of options: of the frames of examples/link.hex, as tshark 4.0 and Scapy 2.5 read them, and of options by the layouts of
the RFCs."""
from __future__ import annotations

import unittest
from ipaddress import IPv6Address, IPv6Network

import nd

from .captures import advertisement, message_frame, prefix_option
from .paths import example_frames

ALL_NODES = IPv6Address("ff02::1")
FRAMES = example_frames("link.hex")


def route(bits: int, flags: int, prefix: bytes, lifetime: int = 60) -> bytes:
    """Returns a Route Information option (RFC 4191, 2.3)."""
    return bytes([24, 1 + len(prefix) // 8, bits, flags]) + lifetime.to_bytes(4, "big") + prefix


class Messages(unittest.TestCase):
    def test_a_router_advertisement(self) -> None:
        router = nd.Mac("02:00:00:00:00:02")
        wanted = nd.RouterAdvertisement(
            IPv6Address("fe80::ff:fe00:2"), ALL_NODES, hop_limit=64, managed=False, other=False, preference=nd.Preference.HIGH, router_lifetime=30,
            reachable_time=0, retrans_timer=0, options=(
                nd.PrefixInformation(IPv6Network("2001:db8::/64"), 86400, 14400, on_link=True, autonomous=True),
                nd.RouteInformation(IPv6Network("2001:db8:7::/64"), 12, nd.Preference.HIGH),
                nd.RouteInformation(IPv6Network("2001:db8:8:1:2::/80"), nd.LIFETIME_INFINITE, nd.Preference.MEDIUM),
                nd.Mtu(1500), nd.SourceLinkLayerAddress(router)))
        self.assertEqual(nd.message_of(FRAMES[6]), wanted)
        self.assertEqual(nd.hear(FRAMES[6], nd.Role.HOST).message, wanted)

    def test_servers_and_names(self) -> None:
        message = nd.message_of(FRAMES[3])
        assert isinstance(message, nd.RouterAdvertisement)
        self.assertEqual((message.other, message.managed, message.preference), (True, False, nd.Preference.LOW))
        self.assertEqual((message.router_lifetime, message.reachable_time, message.retrans_timer), (9000, 3_600_000, 4_294_967))
        servers = tuple(IPv6Address(f"2001:db8::{last}") for last in (1, 2, 3))
        name = "a.very.long.domain.name.for.the.search.list.example"
        self.assertEqual(message.options, (nd.RecursiveDnsServers(servers, nd.LIFETIME_INFINITE), nd.DnsSearchList((name,), nd.LIFETIME_INFINITE),
                                           nd.Mtu(1280), nd.SourceLinkLayerAddress(nd.Mac("02:00:00:00:00:02"))))

    def test_the_other_messages(self) -> None:
        host, router = IPv6Address("fe80::ff:fe00:99"), IPv6Address("fe80::ff:fe00:2")
        solicitation = nd.message_of(FRAMES[1])
        self.assertEqual(solicitation, nd.RouterSolicitation(host, IPv6Address("ff02::2"), (nd.SourceLinkLayerAddress(nd.Mac("02:00:00:00:00:99")),)))
        detection = nd.message_of(FRAMES[9])
        tried = IPv6Address("2001:db8:b::ff:fe00:99")
        nonce = nd.UnknownOption(14, bytes.fromhex("ccdd89fd7fab"))
        self.assertEqual(detection, nd.NeighborSolicitation(IPv6Address("::"), IPv6Address("ff02::1:ff00:99"), tried, (nonce,)))
        self.assertEqual(nd.message_of(FRAMES[10]), nd.NeighborAdvertisement(host, router, False, True, False, host, ()))
        redirect = nd.message_of(FRAMES[12])
        assert isinstance(redirect, nd.RedirectMessage)
        self.assertEqual((redirect.target, redirect.redirected), (router, IPv6Address("2001:db8:77::1")))
        target, header = redirect.options
        self.assertEqual(target, nd.TargetLinkLayerAddress(nd.Mac("02:00:00:00:00:02")))
        assert isinstance(header, nd.RedirectedHeader)
        self.assertEqual((header.packet[0] >> 4, IPv6Address(header.packet[24:40])), (6, redirect.redirected))

    def test_what_is_no_message(self) -> None:
        listener_report, cut = FRAMES[13], FRAMES[0][:50]
        for frame in (listener_report, cut, b""):
            self.assertIsNone(nd.message_of(frame))
        self.assertIsNone(nd.hear(FRAMES[0], nd.Role.HOST).message, "a host takes no Router Solicitation")
        self.assertIsNotNone(nd.hear(FRAMES[0], nd.Role.ROUTER).message)


class Options(unittest.TestCase):
    def option(self, content: bytes) -> nd.Option:
        message = nd.message_of(advertisement(options=content))
        assert message is not None
        (found,) = message.options
        return found

    def test_a_prefix(self) -> None:
        """RFC 4861, 4.6.2: the flags, their reserved bits and Reserved2, and what is behind the length. R is of RFC 6275, 7.2."""
        found = self.option(prefix_option(bits=61, flags=0x20, reserved=7, prefix="2001:db8:0:8::1"))
        prefix = IPv6Network("2001:db8:0:8::/61")
        self.assertEqual(found, nd.PrefixInformation(prefix, 3600, 1800, router_address=True, beyond=1, reserved=7))
        assert isinstance(found, nd.PrefixInformation)
        self.assertEqual(found.as_sent, IPv6Address("2001:db8:0:8::1"))
        found = self.option(prefix_option(bits=128, flags=0x81, prefix="2001:db8::1"))
        self.assertEqual(found, nd.PrefixInformation(IPv6Network("2001:db8::1/128"), 3600, 1800, on_link=True, reserved=1 << 32))

    def test_the_lengths_of_a_route(self) -> None:
        """RFC 4191, 2.3: 1, 2 or 3 units, and above 64 bits 3, above 0 bits at least 2. The preference 10 is reserved, and such a route ignored."""
        half, whole = IPv6Address("2001:db8:1:2::").packed[:8], IPv6Address("2001:db8:1:2:3::").packed
        for content, prefix in ((route(0, 0, b""), "::/0"), (route(0, 0, half), "::/0"), (route(48, 0, half), "2001:db8:1::/48"),
                                (route(64, 0, whole), "2001:db8:1:2::/64"), (route(80, 0, whole), "2001:db8:1:2:3::/80")):
            self.assertEqual(self.option(content), nd.RouteInformation(IPv6Network(prefix), 60))
        for content in (route(1, 0, b""), route(65, 0, half), route(129, 0, whole), route(0, 0, whole + half), route(0, 0x10, b"")):
            self.assertEqual(self.option(content), nd.UnknownOption(24, content[2:]))

    def test_the_preferences_of_a_route(self) -> None:
        """RFC 4191, 2.1: 01 High, 00 Medium, 11 Low, in the bits 0x18."""
        for flags, wanted in ((0x08, nd.Preference.HIGH), (0xE7, nd.Preference.MEDIUM), (0x18, nd.Preference.LOW)):
            found = self.option(route(0, flags, b""))
            assert isinstance(found, nd.RouteInformation)
            self.assertEqual(found.preference, wanted)

    def test_link_layer_addresses(self) -> None:
        """Each is of the class of both too. One that is longer than an Ethernet address is another option."""
        mac = nd.Mac("02:00:00:00:00:01")
        self.assertEqual(self.option(b"\2\1" + mac), nd.TargetLinkLayerAddress(mac))
        self.assertNotEqual(nd.TargetLinkLayerAddress(mac), nd.SourceLinkLayerAddress(mac))
        self.assertIsInstance(self.option(b"\1\1" + mac), nd.LinkLayerAddress)
        self.assertEqual(self.option(b"\1\2" + mac + bytes(8)), nd.UnknownOption(1, mac + bytes(8)))

    def test_of_a_solicitation(self) -> None:
        """A solicitation's fields are those of its frame, and a frame may be whatever `bytes()` takes."""
        target = IPv6Address("2001:db8::7")
        frame = message_frame(b"\x87" + bytes(7) + target.packed + b"\1\1\2\0\0\0\0\1", "fe80::1", "ff02::1:ff00:7")
        wanted = nd.NeighborSolicitation(IPv6Address("fe80::1"), IPv6Address("ff02::1:ff00:7"), target,
                                         (nd.SourceLinkLayerAddress(nd.Mac("02:00:00:00:00:01")),))
        self.assertEqual(nd.message_of(memoryview(frame)), wanted)
