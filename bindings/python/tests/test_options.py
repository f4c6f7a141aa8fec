"""The options of a message, by docs/FORMATS.md: those that are not well formed read as unknown ones. And `--mac` of the command line."""
from __future__ import annotations

import contextlib
import io
import unittest
from ipaddress import IPv6Address
from typing import List

from nd import DnsSearchList, RecursiveDnsServers, UnknownOption, options_of
from ndbench.__main__ import main

LIFETIME = bytes(2) + (300).to_bytes(4, "big")
SERVER = IPv6Address("2001:db8::53")


def option(number: int, data: bytes) -> bytes:
    """Returns an option with zeros behind its data up to a multiple of 8 bytes."""
    content = data + bytes(-(len(data) + 2) % 8)
    return bytes([number, (len(content) + 2) // 8]) + content


def name(*labels: bytes) -> bytes:
    return b"".join(bytes([len(label)]) + label for label in labels) + b"\0"


class ServersRow(unittest.TestCase):
    """Recursive DNS Server (RFC 8106, 5.1): an odd length of at least 3, and addresses that may be servers'."""

    def test_lengths(self) -> None:
        self.assertEqual(options_of(option(25, LIFETIME + SERVER.packed * 2)), [RecursiveDnsServers((SERVER, SERVER), 300)])
        for data in (LIFETIME, LIFETIME + SERVER.packed[:8], LIFETIME + SERVER.packed + bytes(8)):
            self.assertEqual(options_of(option(25, data)), [UnknownOption(25, data)])

    def test_addresses(self) -> None:
        for wrong in ("::", "::1", "ff02::1"):
            data = LIFETIME + SERVER.packed + IPv6Address(wrong).packed
            self.assertEqual(options_of(option(25, data)), [UnknownOption(25, data)])


class NamesRow(unittest.TestCase):
    """DNS Search List (RFC 8106, 5.2; RFC 1035, 2.3 and 3.1): labels up to 63 bytes, names up to 255, and zeros behind them."""

    def names(self, data: bytes) -> object:
        found = options_of(option(31, LIFETIME + data))
        self.assertEqual(len(found), 1)
        return found[0].names if isinstance(found[0], DnsSearchList) else None

    def test_names(self) -> None:
        self.assertEqual(self.names(name(b"Example", b"COM") + name(b"a_b-")), ("example.com", "a_b-"))
        self.assertEqual(self.names(name(b"a" * 63)), ("a" * 63,))
        longest = [b"a" * 63] * 3 + [b"b" * 61]
        self.assertEqual(len(name(*longest)), 255)
        self.assertEqual(self.names(name(*longest)), (b".".join(longest).decode(),))

    def test_what_is_no_name(self) -> None:
        too_long = name(*[b"a" * 63] * 3, b"b" * 62)
        for wrong in (b"", b"\1a\1", name(b"a b"), name(b"a.b"), name("\u00e9".encode()), b"\x40" + b"a" * 64 + b"\0", too_long, b"\xc0\x0c",
                      name(b"a") + b"\0" + name(b"b"), b"\7example"):
            self.assertIsNone(self.names(wrong), wrong)


class MacArgument(unittest.TestCase):
    """`--mac` is the address of an interface, and given at most once."""

    def fails(self, words: List[str], text: str) -> None:
        for command in ("replay", "compare", "picture"):
            with contextlib.redirect_stderr(io.StringIO()) as err, self.assertRaises(SystemExit) as ended:
                main([command, "/no/such/file", *words])
            self.assertEqual(ended.exception.code, 2)
            self.assertIn(f"error: argument --mac: {text}\n", err.getvalue())

    def test_a_group_is_no_interface(self) -> None:
        for mac in ("33:33:00:00:00:01", "ff:ff:ff:ff:ff:ff", "01:80:c2:00:00:00"):
            self.fails(["--mac", mac], f"{mac} is the address of a group, and of no interface")

    def test_a_second_one(self) -> None:
        self.fails(["--mac", "02:00:00:00:00:0a", "--mac", "02:00:00:00:00:0b"], "it is given twice, and a command has one node")


class AddressArgument(unittest.TestCase):
    def test_addresses_of_no_interface(self) -> None:
        for text, wanted in (("ff02::1", "ff02::1 is the address of no interface"), ("::", ":: is the address of no interface"),
                             ("::1", "::1 is the address of no interface"), ("fe80::1%eth0", "'fe80::1%eth0' has a zone, and a node has one link"),
                             ("192.0.2.1", "'192.0.2.1' is no IPv6 address")):
            for command in ("replay", "compare", "picture"):
                with contextlib.redirect_stderr(io.StringIO()) as err, self.assertRaises(SystemExit) as ended:
                    main([command, "/no/such/file", "--mac", "02:00:00:00:00:01", "--address", text])
                self.assertEqual(ended.exception.code, 2)
                self.assertIn(f"error: argument --address: {wanted}\n", err.getvalue())


class OfferArgument(unittest.TestCase):
    def test_a_prefix_with_a_zone(self) -> None:
        with contextlib.redirect_stderr(io.StringIO()) as err, self.assertRaises(SystemExit) as ended:
            main(["replay", "/no/such/file", "--role", "router", "--mac", "02:00:00:00:00:01", "--offer", "2001:db8::%eth0/64"])
        self.assertEqual(ended.exception.code, 2)
        self.assertIn("error: argument --offer: '2001:db8::%eth0/64' has a zone, and a prefix has none\n", err.getvalue())
