"""floods: scripts of `ndpctl run` in which a node is flooded, and the texts that it is to write. Each yields one more row than a table of the node
takes. The frames are made by frames.py, those that the node sends too. `python3 floods.py` prints how many lines each has."""
import ipaddress
import struct

import frames

ROUTER_MAC, ROUTER = frames.ROUTER_MAC, frames.link_local(frames.ROUTER_MAC)
HOST_ARGS = ["run", "--role", "host", "--mac", frames.HOST_MAC, "--draws", "word:0"]
ROUTER_ARGS = ["run", "--role", "router", "--mac", ROUTER_MAC, "--draws", "word:0"]
GLOBAL = "2001:db8::3656:78ff:fe9a:bcde"
# Neighbours and default routers at most.
LIMITS = ((512, 16), (2048, 64))


def text(address):
    return str(ipaddress.IPv6Address(address))


def source(n):
    return text(frames.packed(f"fe80::1:0:0:{n:x}"))


def source_mac(n):
    return f"02:00:00:09:{n >> 8:02x}:{n & 255:02x}"


def sent(to, mac, bytes_of_frame):
    """Returns a frame as a node of `mac` sends it: with that Ethernet source, and the destination `to` if it is not multicast."""
    destination = bytes_of_frame[:12] if to is None else to.replace(":", "")
    return destination + mac.replace(":", "") + bytes_of_frame[24:]


def solicitation(own, mac, target, from_unspecified=False):
    """Returns a multicast solicitation that a node sends (RFC 4861, 7.2.2; RFC 4862, 5.4.2)."""
    message = bytes([135]) + bytes(7) + frames.packed(target) + (b"" if from_unspecified else frames.link_layer(1, mac))
    return sent(None, mac, frames.frame("::" if from_unspecified else own, frames.solicited_node(target), mac, message))


def answer(own, mac, to, to_mac, flags):
    """Returns an advertisement that answers a solicitation (RFC 4861, 7.2.4)."""
    message = bytes([136, 0, 0, 0, flags, 0, 0, 0]) + frames.packed(own) + frames.link_layer(2, mac)
    return sent(to_mac, mac, frames.frame(own, to, mac, message))


def asks(n, own):
    """Returns a solicitation of neighbour n for an address, with its link-layer address."""
    message = bytes([135]) + bytes(7) + frames.packed(own) + frames.link_layer(1, source_mac(n))
    return frames.frame(source(n), frames.solicited_node(own), source_mac(n), message)


def started():
    """Returns the lines of a host that is left alone for 10 s."""
    asking = frames.router_solicitation(frames.HOST_MAC)
    return [f"0 tx {solicitation(frames.HOST, frames.HOST_MAC, frames.HOST, True)}", f"1000 assigned {frames.HOST}",
            *(f"{at} tx {asking}" for at in (1000, 5000, 9000))]


def of_routers(limit):
    """More default routers than the limit advertise, without link-layer addresses."""
    script, wanted = ["10000 at"], started()
    for n in range(1, limit + 2):
        message = bytes([134, 0, 0, 0, 64, 0]) + struct.pack(">HII", 1800, 0, 0)
        script.append(f"10000 rx {frames.frame(source(n), 'ff02::1', source_mac(n), message)}")
    script.append("10000 show routers")
    wanted += ["10000 heard ra"] * limit + ["10000 refused full routers"]
    wanted += [f"10000 router {source(n)} 1800000 medium" for n in range(1, limit + 1)] + [f"10000 end {limit}"]
    return HOST_ARGS, script, wanted


def of_prefixes():
    """One advertisement has 65 prefixes for the link."""
    options = b"".join(frames.prefix(f"2001:db8:{k:x}::", 0x80) for k in range(1, 66))
    script = ["10000 at", f"10000 rx {frames.advertisement(options=options)}", "10000 show prefixes", "10000 show routers", "10000 show neighbours"]
    return HOST_ARGS, script, started() + ["10000 refused full prefixes"] + ["10000 end 0"] * 3


def of_solicitations(limit):
    """More neighbours than the limit solicit a host, one each millisecond. All but the last are answered, and then a node that detects duplicates."""
    script, wanted = ["10000 at"], started()
    for n in range(1, limit + 2):
        script.append(f"{10000 + n} rx {asks(n, frames.HOST)}")
    for n in range(1, limit + 1):
        wanted += [f"{10000 + n} heard ns", f"{10000 + n} tx {answer(frames.HOST, frames.HOST_MAC, source(n), source_mac(n), 0x60)}"]
    last = 10001 + limit
    script += [f"{last} rx {solicitation(frames.HOST, frames.HOST_MAC, frames.HOST, True)}", f"{last} show neighbours"]
    wanted += [f"{last} refused full neighbours", f"{last} heard ns", f"{last} tx {answer(frames.HOST, frames.HOST_MAC, 'ff02::1', None, 0x20)}"]
    wanted += [f"{last} neighbour {source(n)} {source_mac(n)} delay host" for n in range(1, limit + 1)] + [f"{last} end {limit}"]
    return HOST_ARGS, script, wanted


def of_stale_ones(limit):
    """A host hears of as many neighbours as the limit, one each millisecond. One more evicts the first, which is STALE for the longest time. Then an
    upper layer confirms all of them, and one more is refused. A node that detects duplicates is still answered."""
    def given(n):
        message = bytes([134, 0, 0, 0, 64, 0]) + bytes(10) + frames.link_layer(1, source_mac(n))
        return frames.frame(source(n), "ff02::1", source_mac(n), message)

    def shown(state):
        return [f"{last} neighbour {source(n)} {source_mac(n)} {state} router" for n in range(2, limit + 2)] + [f"{last} end {limit}"]

    last = 10001 + limit
    script, wanted = ["10000 at"], started()
    script += [f"{10000 + n} rx {given(n)}" for n in range(1, limit + 2)] + [f"{last} show neighbours"]
    wanted += [f"{10000 + n} heard ra" for n in range(1, limit + 2)] + shown("stale")
    script += [f"{last} confirm {source(n)}" for n in range(2, limit + 2)] + [f"{last} rx {given(limit + 2)}", f"{last} show neighbours"]
    wanted += [f"{last} refused full neighbours", *shown("reachable")]
    script.append(f"{last} rx {solicitation(frames.HOST, frames.HOST_MAC, frames.HOST, True)}")
    wanted += [f"{last} heard ns", f"{last} tx {answer(frames.HOST, frames.HOST_MAC, 'ff02::1', None, 0x20)}"]
    return HOST_ARGS, script, wanted


def of_packets(limit):
    """A host sends at one moment to more addresses on the link than the limit. The last one that has room evicts the router, which is STALE."""
    advertised = frames.advertisement(options=frames.link_layer(1, ROUTER_MAC) + frames.prefix("2001:db8::", 0xC0))
    script = [f"1200 rx {advertised}", "2200 at"]
    wanted = started()[:3] + ["1200 heard ra", f"1200 tx {solicitation(frames.HOST, frames.HOST_MAC, GLOBAL, True)}", f"2200 assigned {GLOBAL}"]
    for n in range(1, limit + 2):
        if n in (limit, limit + 1):
            script.append("3000 show neighbours")
            wanted += [f"3000 neighbour 2001:db8::{k:x} - incomplete host" for k in range(1, n)]
            wanted += [f"3000 neighbour {ROUTER} {ROUTER_MAC} stale router"] * (n == limit) + [f"3000 end {limit}"]
        script.append(f"3000 send {GLOBAL} 2001:db8::{n:x} 17 -")
        if n <= limit:
            wanted.append(f"3000 tx {solicitation(frames.HOST, frames.HOST_MAC, f'2001:db8::{n:x}')}")
    wanted.append("3000 refused full neighbours")
    script.append("3000 show neighbours")
    wanted += [f"3000 neighbour 2001:db8::{k:x} - incomplete host" for k in range(1, limit + 1)] + [f"3000 end {limit}"]
    return HOST_ARGS, script, wanted


def of_forwarding(limit):
    """All but one of the neighbours of a router solicit it, one each millisecond. A packet whose hop and whose source, which a Redirect goes to, are
    two new neighbours is refused."""
    script = ["1000 route 2001:db8::/64 direct", "1000 route 2001:db8:1::/64 fe80::2"]
    wanted = [f"0 tx {solicitation(ROUTER, ROUTER_MAC, ROUTER, True)}", f"1000 assigned {ROUTER}"]
    for n in range(1, limit):
        script.append(f"{1000 + n} rx {asks(n, ROUTER)}")
        wanted += [f"{1000 + n} heard ns", f"{1000 + n} tx {answer(ROUTER, ROUTER_MAC, source(n), source_mac(n), 0xE0)}"]
    last = 1000 + limit
    script += [f"{last} rx {frames.datagram('2001:db8::9', '2001:db8:1::5', 64, b'')}", f"{last} show neighbours"]
    wanted.append(f"{last} refused full neighbours")
    wanted += [f"{last} neighbour {source(n)} {source_mac(n)} delay host" for n in range(1, limit)] + [f"{last} end {limit - 1}"]
    return ROUTER_ARGS, script, wanted


def floods():
    """Yields a name, arguments, a script and its text for each flood, at the usual limits and at the greatest."""
    for neighbours, routers in LIMITS:
        limits = ["--neighbours", str(neighbours), "--routers", str(routers)]
        for name, (args, script, wanted) in ((f"{routers + 1} default routers", of_routers(routers)), ("65 prefixes", of_prefixes()),
                                             (f"{neighbours + 1} solicitations", of_solicitations(neighbours)),
                                             (f"{neighbours + 1} neighbours, confirmed and not", of_stale_ones(neighbours)),
                                             (f"{neighbours + 1} packets", of_packets(neighbours)),
                                             (f"a packet in transit after {neighbours - 1} solicitations", of_forwarding(neighbours))):
            yield f"{name}, limits {neighbours} and {routers}", args + limits, "\n".join(script) + "\n", "\n".join(wanted) + "\n"


if __name__ == "__main__":
    for what, _, lines, said in floods():
        print(f"{what}: {len(lines.splitlines())} lines, {len(said.splitlines())} of text")
