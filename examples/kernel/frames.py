"""frames: the frames that the bench sends, by Scapy, and questions to frames that a stack sent."""
import socket

from scapy.layers.inet6 import (ICMPv6ND_NA, ICMPv6ND_NS, ICMPv6ND_RA, ICMPv6ND_Redirect, ICMPv6ND_RS, ICMPv6NDOptDstLLAddr, ICMPv6NDOptMTU,
                                ICMPv6NDOptPrefixInfo, ICMPv6NDOptSrcLLAddr, IPv6)
from scapy.layers.l2 import Ether

import rfc

# The interface of the stack that is tried, and its link-local address (RFC 4291, appendix A).
MAC, OWN = "02:00:00:00:00:01", "fe80::ff:fe00:1"
# Hosts and routers at the other end of the link.
PEER_MAC, PEER = "02:00:00:00:00:aa", "fe80::aa"
OTHER_MAC = "02:00:00:00:00:bb"
ROUTER_MAC, ROUTER = "02:00:00:00:00:fe", "fe80::fe"

ALL_NODES, ALL_NODES_MAC = "ff02::1", "33:33:00:00:00:01"
ALL_ROUTERS, ALL_ROUTERS_MAC = "ff02::2", "33:33:00:00:00:02"
SOLICITED_NODE, SOLICITED_NODE_MAC = "ff02::1:ff00:1", "33:33:ff:00:00:01"

LOOPBACK = "::1"

# The type of a Nonce option (RFC 3971, 5.3.2), and its length for a nonce of six bytes.
NONCE_OF_SIX_BYTES = b"\x0e\x01"
# ICMPv6 types (RFC 4861, 4).
RS, RA, NS, NA, REDIRECT = range(133, 138)
MESSAGE_AT, ICMPV6 = 54, 58
# The next header of the packets that an upper layer sends: one for experiments, so that nothing else makes any (RFC 4727, 5).
EXPERIMENT = 253


def ns(target=OWN, source=PEER, mac=PEER_MAC, to=None, has_slla=True, hlim=rfc.HOP_LIMIT, **fields):
    """Returns a Neighbor Solicitation: to the solicited-node address of OWN, or by unicast to `to`."""
    frame = Ether(src=mac, dst=MAC if to else SOLICITED_NODE_MAC) / IPv6(src=source, dst=to or SOLICITED_NODE, hlim=hlim)
    frame /= ICMPv6ND_NS(tgt=target, **fields)
    return frame / ICMPv6NDOptSrcLLAddr(lladdr=mac) if has_slla else frame


def na(target, solicited, override, router=0, tlla=None, to=OWN, source=None, hlim=rfc.HOP_LIMIT, **fields):
    """Returns a Neighbor Advertisement, to OWN or to all nodes."""
    frame = Ether(src=tlla or PEER_MAC, dst=MAC if to == OWN else ALL_NODES_MAC) / IPv6(src=source or target, dst=to, hlim=hlim)
    frame /= ICMPv6ND_NA(tgt=target, R=router, S=solicited, O=override, **fields)
    return frame / ICMPv6NDOptDstLLAddr(lladdr=tlla) if tlla else frame


def rs(source, mac):
    """Returns a Router Solicitation."""
    frame = Ether(src=mac, dst=ALL_ROUTERS_MAC) / IPv6(src=source, dst=ALL_ROUTERS, hlim=rfc.HOP_LIMIT)
    return frame / ICMPv6ND_RS() / ICMPv6NDOptSrcLLAddr(lladdr=mac)


def ra(*options, source=ROUTER, mac=ROUTER_MAC, lifetime=1800, has_slla=True, hlim=rfc.HOP_LIMIT, **fields):
    """Returns a Router Advertisement to all nodes, with these options behind its link-layer address."""
    frame = Ether(src=mac, dst=ALL_NODES_MAC) / IPv6(src=source, dst=ALL_NODES, hlim=hlim)
    frame /= ICMPv6ND_RA(**{"routerlifetime": lifetime, "chlim": 0, "prf": 0, **fields})
    for option in ([ICMPv6NDOptSrcLLAddr(lladdr=mac)] if has_slla else []) + list(options):
        frame /= option
    return frame


def prefix(network="2001:db8::", bits=64, on_link=1, autonomous=1, valid=86400, preferred=14400):
    """Returns a Prefix Information option."""
    return ICMPv6NDOptPrefixInfo(prefix=network, prefixlen=bits, L=on_link, A=autonomous, validlifetime=valid, preferredlifetime=preferred)


def mtu(size):
    """Returns an MTU option."""
    return ICMPv6NDOptMTU(mtu=size)


def redirect(target, destination, source=ROUTER, mac=ROUTER_MAC, tlla=None, hlim=rfc.HOP_LIMIT):
    """Returns a Redirect to OWN."""
    frame = Ether(src=mac, dst=MAC) / IPv6(src=source, dst=OWN, hlim=hlim) / ICMPv6ND_Redirect(tgt=target, dst=destination)
    return frame / ICMPv6NDOptDstLLAddr(lladdr=tlla) if tlla else frame


def source(frame):
    """Returns the IPv6 source of a frame."""
    return socket.inet_ntop(socket.AF_INET6, frame[22:38])


def destination(frame):
    """Returns the IPv6 destination of a frame."""
    return socket.inet_ntop(socket.AF_INET6, frame[38:54])


def target(frame):
    """Returns the target of a Neighbor Solicitation or Advertisement."""
    return socket.inet_ntop(socket.AF_INET6, frame[62:78])


def is_multicast(frame):
    """Returns true if the IPv6 destination of a frame is multicast."""
    return frame[38] == 0xFF


def kind(frame):
    """Returns the ICMPv6 type of a message of Neighbor Discovery, and None for another frame."""
    if len(frame) > MESSAGE_AT and frame[12:14] == b"\x86\xdd" and frame[20] == ICMPV6 and RS <= frame[MESSAGE_AT] <= REDIRECT:
        return frame[MESSAGE_AT]
    return None


def is_packet(frame, destination):
    """Returns true for a packet of an upper layer to a destination."""
    return frame[20] == EXPERIMENT and frame[38:54] == socket.inet_pton(socket.AF_INET6, destination)


def options(frame):
    """Returns the options of a Neighbor Solicitation or Advertisement."""
    return frame[78:]


def has_slla(frame):
    """Returns true if a Neighbor Solicitation has a Source Link-Layer Address: one whose length is 1 (RFC 4861, 4.6.1)."""
    packet = Ether(frame)
    return ICMPv6NDOptSrcLLAddr in packet and packet[ICMPv6NDOptSrcLLAddr].len == 1


def tlla(frame):
    """Returns the Target Link-Layer Address of a message, or None."""
    option = Ether(frame).getlayer(ICMPv6NDOptDstLLAddr)
    return option.lladdr if option else None


def lifetimes_on_link(frame, network):
    """Returns the valid and the preferred lifetime of each option of a Router Advertisement that puts a prefix on the link."""
    found, layer = [], Ether(frame)
    while layer := layer.payload.getlayer(ICMPv6NDOptPrefixInfo):
        if layer.L and f"{layer.prefix}/{layer.prefixlen}" == network:
            found.append((layer.validlifetime, layer.preferredlifetime))
    return found


def without_options(frame, **fields):
    """Returns a message of Neighbor Discovery without its options, with other fields, and its lengths and its checksum made again."""
    packet = Ether(frame)
    message = packet[IPv6].payload
    message.remove_payload()
    for name, value in fields.items():
        setattr(message, name, value)
    del packet[IPv6].plen, message.cksum
    return bytes(packet)
