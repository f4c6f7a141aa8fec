"""A link of two Linux hosts on this machine: a pair of Ethernet interfaces, each in a network namespace of its own."""
from __future__ import annotations

import os
import shutil
import subprocess
import sys
from typing import List, Tuple

HOSTS = ("a", "b")
MACS = {"a": "02:00:00:00:00:0a", "b": "02:00:00:00:00:0b"}


def run(*words: str) -> subprocess.CompletedProcess[str]:
    return subprocess.run(words, capture_output=True, text=True, check=True)


def why_not() -> str:
    """Returns why there is no such link here, or an empty text."""
    if os.environ.get("ND_LIVE") != "1":
        return "ND_LIVE=1 makes network namespaces"
    if sys.platform != "linux" or shutil.which("ip") is None:
        return "no command ip of Linux"
    if os.geteuid() != 0:
        return "not root"
    try:
        with TwoHosts():
            return ""
    except subprocess.CalledProcessError as error:
        return f"no network namespace: {error.stderr.strip()}"


class TwoHosts:
    """Two hosts, `a` and `b`, whose interface is `eth0`. It is up, and has no IPv6 before `begin`."""

    def __enter__(self) -> TwoHosts:
        self.names = {host: f"nd{os.getpid()}{host}" for host in HOSTS}
        try:
            for name in self.names.values():
                run("ip", "netns", "add", name)
            a, b = self.names["a"], self.names["b"]
            run("ip", "-n", a, "link", "add", "eth0", "address", MACS["a"], "type", "veth", "peer", "name", "eth0", "address", MACS["b"], "netns", b)
            for host in HOSTS:
                run(*self.at(host, "sh", "-c", "echo 1 > /proc/sys/net/ipv6/conf/eth0/disable_ipv6"))
                run("ip", "-n", self.names[host], "link", "set", "eth0", "up")
        except subprocess.CalledProcessError:
            self.__exit__()
            raise
        return self

    def __exit__(self, *_error: object) -> None:
        for name in self.names.values():
            subprocess.run(["ip", "netns", "delete", name], capture_output=True, check=False)

    def at(self, host: str, *words: str) -> Tuple[str, ...]:
        """Returns the words of a command at a host."""
        return ("ip", "netns", "exec", self.names[host], *words)

    def begin(self, host: str) -> None:
        """Lets a host begin IPv6: it forms and tries its link-local address."""
        run(*self.at(host, "sh", "-c", "echo 0 > /proc/sys/net/ipv6/conf/eth0/disable_ipv6"))

    def send(self, host: str, frame: bytes) -> None:
        """Sends a frame from a host's interface."""
        code = "import socket, sys; s = socket.socket(socket.AF_PACKET, socket.SOCK_RAW); s.bind(('eth0', 0)); s.send(bytes.fromhex(sys.argv[1]))"
        words: List[str] = [sys.executable, "-c", code, frame.hex()]
        run(*self.at(host, *words))
