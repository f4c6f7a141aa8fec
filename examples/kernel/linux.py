"""linux: the stack that is tried: the Linux kernel, in a network namespace. For another stack write a class with the same public methods."""
import json
import socket
import subprocess

import deviations
import frames
import rfc
from space import Space
from views import Address, Left, Neighbour, Parameters, Router

# What RFC 4861 and RFC 4862 leave out is turned off, so that what they have can be compared: stable identifiers (RFC 7217), temporary addresses (RFC
# 8981) and flow labels (RFC 6437). The limit of addresses is the one that a node has.
USUAL = {"ipv6/conf/e0/disable_ipv6": 0, "ipv6/conf/e0/addr_gen_mode": 0, "ipv6/conf/e0/use_tempaddr": 0, "ipv6/auto_flowlabels": 0,
         "ipv6/conf/e0/max_addresses": 64}
# So are detection with a nonce (RFC 7527), and solicitations of routers without an end (RFC 7559).
PLAIN = {**USUAL, "ipv6/conf/all/enhanced_dad": 0, "ipv6/conf/e0/enhanced_dad": 0, "ipv6/conf/e0/router_solicitations": rfc.MAX_RTR_SOLICITATIONS,
         "ipv6/conf/e0/router_solicitation_max_interval": rfc.RTR_SOLICITATION_INTERVAL // 1000}


class Linux:
    """The Linux kernel as a host with one interface, e0, whose other end is an interface of the bench."""
    DEVIATIONS = deviations.LIST

    def __init__(self, bench, end, is_plain, transmits):
        """Makes the link. `bench` is the namespace of the interface `end`, `is_plain` turns off what the model leaves out, and `transmits` is
        DupAddrDetectTransmits."""
        self.space = Space()
        self.space.ip("link", "add", "e0", "address", frames.MAC, "type", "veth", "peer", "name", end, "netns", bench.name)
        self.space.set({**(PLAIN if is_plain else USUAL), "ipv6/conf/e0/dad_transmits": transmits})
        with self.space.inside():
            self.upper = socket.socket(socket.AF_INET6, socket.SOCK_RAW, frames.EXPERIMENT)
            self.index = socket.if_nametoindex("e0")

    def close(self):
        self.upper.close()
        self.space.close()

    def start(self):
        """Brings the interface up."""
        self.space.ip("link", "set", "e0", "up")

    def send(self, destination, content):
        """Sends a packet of the next header frames.EXPERIMENT. Returns false if there is no next hop."""
        try:
            self.upper.sendto(content, 0, (destination, 0, 0, self.index))
        except OSError:
            return False
        return True

    def forget(self, neighbour):
        """Removes a neighbour."""
        try:
            self.space.ip("-6", "neigh", "del", neighbour, "dev", "e0")
        except RuntimeError:
            pass  # there is none

    def neighbours(self):
        """Returns the neighbour cache by address. An entry in the kernel's state FAILED counts as deleted (RFC 4861, 7.3.3)."""
        rows = self.space.table("neigh", "show", "dev", "e0")
        return {row["dst"]: Neighbour(row["state"][0], row.get("lladdr"), "router" in row) for row in rows if row["state"] not in ([], ["FAILED"])}

    def neighbour(self, address):
        """Returns the entry of a neighbour, or None."""
        return self.neighbours().get(address)

    def addresses(self):
        """Returns the stack's own addresses."""
        rows = [row for link in self.space.table("addr", "show", "dev", "e0") for row in link.get("addr_info", []) if "local" in row]
        return {row["local"]: Address(state_of(row), Left(row["valid_life_time"]), Left(row["preferred_life_time"])) for row in rows}

    def routers(self):
        """Returns the default router list."""
        rows = self.space.table("route", "show", "default", "dev", "e0")
        return {row["gateway"]: Router(Left(row.get("expires")), row["pref"]) for row in rows if stands(row)}

    def prefixes(self):
        """Returns the prefixes on the link, but for the link-local one."""
        rows = self.space.table("route", "show", "proto", "kernel", "dev", "e0")
        return {row["dst"]: Left(row.get("expires")) for row in rows if stands(row) and not row["dst"].startswith("fe80:")}

    def parameters(self):
        """Returns the parameters of the link."""
        mtu, hop_limit = (self.space.setting(f"ipv6/conf/e0/{name}") for name in ("mtu", "hop_limit"))
        retrans, base = (self.space.setting(f"ipv6/neigh/e0/{name}") for name in ("retrans_time_ms", "base_reachable_time_ms"))
        return Parameters(mtu, hop_limit, retrans, base)

    def next_hop(self, destination):
        """Returns the address of the next hop, or None."""
        try:
            row = json.loads(self.space.ip("-6", "-j", "route", "get", destination, "oif", "e0"))[0]
        except (RuntimeError, subprocess.SubprocessError):
            return None
        return row.get("gateway", row["dst"])


def state_of(row):
    """Returns the state of an address in the words of the model."""
    for flag, state in (("dadfailed", "DUPLICATE"), ("tentative", "TENTATIVE"), ("deprecated", "DEPRECATED")):
        if row.get(flag):
            return state
    return "PREFERRED"


def stands(row):
    """Returns true unless the lifetime of a route has ended, which the kernel removes only later."""
    return row.get("expires", 0) >= 0
