#!/usr/bin/env python3
"""frames KIND COUNT: frames for the tests, one a line in hexadecimal digits, as a host of 34:56:78:9a:bc:de receives them. KIND is `mixed`: COUNT of
all kinds; `full`: frames that ask for more rows than the tables take, COUNT neighbours among them; or `steady`: COUNT frames of few neighbours, most
of which answer. They are made here from the layouts of the RFCs, and are the same each time. Other scripts import it."""
import ipaddress
import random
import struct
import sys

HOST, HOST_MAC, ROUTER_MAC = "fe80::3656:78ff:fe9a:bcde", "34:56:78:9a:bc:de", "02:00:00:00:00:01"


def packed(text):
    return ipaddress.IPv6Address(text).packed


def mac_bytes(text):
    return bytes(int(digits, 16) for digits in text.split(":"))


def link_local(mac):
    b = mac_bytes(mac)
    return str(ipaddress.IPv6Address(b"\xfe\x80" + bytes(6) + bytes([b[0] ^ 2]) + b[1:3] + b"\xff\xfe" + b[3:]))


def solicited_node(address):
    return str(ipaddress.IPv6Address(bytes.fromhex("ff0200000000000000000001ff") + packed(address)[13:]))


def checksum(source, destination, message):
    text = packed(source) + packed(destination) + struct.pack(">II", len(message), 58) + message + bytes(len(message) % 2)
    total = sum(struct.unpack(f">{len(text) // 2}H", text))
    while total >> 16:
        total = (total & 0xFFFF) + (total >> 16)
    return ~total & 0xFFFF


def frame(source, destination, source_mac, message, flip=0):
    """Returns a frame with an ICMPv6 message. `flip` spoils its checksum."""
    message = message[:2] + struct.pack(">H", checksum(source, destination, message[:2] + bytes(2) + message[4:]) ^ flip) + message[4:]
    to = packed(destination)
    ethernet = (b"\x33\x33" + to[12:] if to[0] == 0xFF else mac_bytes(HOST_MAC)) + mac_bytes(source_mac) + b"\x86\xdd"
    return (ethernet + struct.pack(">IHBB", 6 << 28, len(message), 58, 255) + packed(source) + to + message).hex()


def link_layer(number, mac):
    return bytes([number, 1]) + mac_bytes(mac)


def prefix(address, flags, valid=2592000, preferred=604800):
    return bytes([3, 4, 64, flags]) + struct.pack(">III", valid, preferred, 0) + packed(address)


def servers(lifetime, *addresses):
    return bytes([25, 1 + 2 * len(addresses), 0, 0]) + struct.pack(">I", lifetime) + b"".join(map(packed, addresses))


def names(lifetime, *texts):
    spelled = b"".join(b"".join(bytes([len(label)]) + label.encode() for label in text.split(".")) + b"\0" for text in texts)
    spelled += bytes(-len(spelled) % 8)
    return bytes([31, 1 + len(spelled) // 8, 0, 0]) + struct.pack(">I", lifetime) + spelled


def announced(mac, less=0):
    """Returns the options of a usual Router Advertisement. `less`: how many seconds their lifetimes are shorter."""
    options = link_layer(1, mac) + b"\5\1\0\0" + struct.pack(">I", 1500) + prefix("2001:db8:1::", 0xC0, 2592000 - less, 604800 - less)
    options += prefix("2001:db8:2::", 0x80, 2592000 - less) + prefix("2001:db8:3::", 0x80, 2592000 - less)
    return options + servers(1800 - less, "2001:db8::53", "2001:db8::54") + names(1800 - less, "example.com", "lab.example.net")


def advertisement(mac=ROUTER_MAC, options=None, lifetime=1800, flags=0, flip=0):
    if options is None:
        options = announced(mac)
    return frame(link_local(mac), "ff02::1", mac, bytes([134, 0, 0, 0, 64, flags]) + struct.pack(">HII", lifetime, 0, 0) + options, flip)


def solicitation(mac, flip=0):
    return frame(link_local(mac), solicited_node(HOST), mac, bytes([135]) + bytes(7) + packed(HOST) + link_layer(1, mac), flip)


def answer(mac, flags=0x60, flip=0, address=None):
    """Returns a solicited advertisement of a neighbour, of its link-local address or of another one."""
    address = address or link_local(mac)
    return frame(address, HOST, mac, bytes([136, 0, 0, 0, flags, 0, 0, 0]) + packed(address) + link_layer(2, mac), flip)


def moved(mac, flags=0x20):
    """Returns an unsolicited advertisement of a neighbour that has another link-layer address now: it is STALE then (RFC 4861, 7.2.5)."""
    new = "02:00:00:03" + mac[11:]
    return frame(link_local(mac), "ff02::1", new, bytes([136, 0, 0, 0, flags, 0, 0, 0]) + packed(link_local(mac)) + link_layer(2, new))


def redirect(k, flip=0, mac=ROUTER_MAC, target=None):
    """Returns a Redirect of a router, for one of the destinations behind it: to itself, or to the link-local address of another router."""
    target = target or mac
    message = bytes([137]) + bytes(7) + packed(link_local(target)) + packed(f"2001:db8:99::{1 + k:x}") + link_layer(2, target)
    return frame(link_local(mac), HOST, mac, message, flip)


def router_solicitation(mac):
    return frame(link_local(mac), "ff02::2", mac, bytes([133]) + bytes(7) + link_layer(1, mac))


def echo(mac):
    return frame(link_local(mac), HOST, mac, bytes([128, 0, 0, 0, 0, 1, 0, 1]) + b"who is there?")


def datagram(source, destination, hop_limit, payload):
    """Returns a frame with a packet of an upper layer, from a neighbour."""
    ethernet = mac_bytes(HOST_MAC) + mac_bytes(neighbour(1)) + b"\x86\xdd"
    return (ethernet + struct.pack(">IHBB", 6 << 28, len(payload), 17, hop_limit) + packed(source) + packed(destination) + payload).hex()


def neighbour(i):
    return f"02:00:00:01:{i >> 8:02x}:{i & 255:02x}"


def mixed(count):
    """Yields frames of all kinds, some with a fault, from a few dozen neighbours."""
    choice = random.Random(4861)
    yield advertisement()
    for i in range(1, count):
        mac, k = neighbour(choice.randrange(40)), choice.randrange(80)
        one = choice.choice([solicitation(mac), solicitation(mac), answer(mac), answer(mac, 0x20), redirect(k), router_solicitation(mac), echo(mac),
                             datagram(link_local(mac), f"2001:db8:2::{k:x}", 64, b"payload"), advertisement(), advertisement(mac, link_layer(1, mac), 600, choice.choice([0, 8, 24, 192])), advertisement(mac, b"", 0)])
        if choice.random() < 0.05:
            digits = bytearray.fromhex(one)
            digits[choice.randrange(len(digits))] ^= 1 << choice.randrange(8)
            one = digits.hex() if choice.random() < 0.5 else digits.hex()[: 2 * choice.randrange(len(digits))]
        yield one


def full(count):
    """Yields frames that ask a host for one row more than each table takes at its greatest limit: routers, prefixes, addresses, servers, names,
    redirects, each frame for one row; and then for `count` neighbours. The first frame has the router answered, so that it is not evicted for 5
    seconds."""
    yield solicitation(ROUTER_MAC)
    for i in range(65):
        yield advertisement(f"02:00:00:02:00:{i:02x}" if i else ROUTER_MAC, b"", 9000)
    for k in range(65):
        yield advertisement(options=prefix(f"2001:db8:{k + 1:x}::", 0x80))
    for k in range(64):
        yield advertisement(options=prefix(f"2001:db9:{k + 1:x}::", 0x40))
    for k in range(33):
        yield advertisement(options=servers(1800, f"2001:db8::{k + 1:x}"))
    for k in range(33):
        label = "a" * 61
        yield advertisement(options=names(1800, f"{label}{k:02}.{label}00.{label}00.{'b' * 61}"))
    for k in range(65):
        yield redirect(k)
    for i in range(count):
        yield solicitation(neighbour(i))


ROUTER_MACS = (ROUTER_MAC, "02:00:00:02:00:01", "02:00:00:02:00:02")


def steady(count):
    """Yields frames of three routers, of eight neighbours with link-local addresses, and of three on a prefix. Most answer; now and then one has another
    link-layer address, a router is none any longer, its advertisement or a prefix of it ends soon, or it redirects to another router."""
    choice = random.Random(2461)
    yield solicitation(neighbour(0))
    for _ in range(1, count):
        router, other, mac, k = choice.choice(ROUTER_MACS), choice.choice(ROUTER_MACS), neighbour(choice.randrange(8)), choice.randrange(8)
        options = link_layer(1, router) + prefix("2001:db8:1::", 0xC0, choice.choice((4, 30, 2592000)), 3)
        on_prefix = answer(neighbour(0x80 + k % 3), address=f"2001:db8:1::{1 + k % 3}")
        announced = advertisement(router, options, choice.choice((0, 20, 1800, 1800, 1800)), choice.choice((0, 0, 8, 24)))
        usual = [answer(mac), answer(mac), answer(router, 0xE0), answer(router, 0xE0), on_prefix, answer(mac, 0x20), solicitation(mac), echo(mac), announced]
        redirected = redirect(k, 0, router, other)
        yield choice.choice(usual * 3 + [moved(mac), moved(router, 0xA0), answer(router), redirected, redirected])


KINDS = {"mixed": mixed, "full": full, "steady": steady}

if __name__ == "__main__":
    if len(sys.argv) != 3 or sys.argv[1] not in KINDS:
        sys.exit(__doc__)
    for line in KINDS[sys.argv[1]](int(sys.argv[2])):
        print(line)
