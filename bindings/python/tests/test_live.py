"""`compare --interface`: the Neighbor Discovery of this machine's Linux, heard on a pair of interfaces in network namespaces."""
from __future__ import annotations

import os
import signal
import subprocess
import sys
import time
import unittest
from typing import Tuple

from nd import library

from .captures import message_frame
from .namespaces import MACS, TwoHosts, why_not
from .paths import PYTHON


def setUpModule() -> None:
    reason = why_not()
    if reason:
        raise unittest.SkipTest(f"the test bench on an interface: {reason}")
    library.compile_library()


def interrupts() -> None:
    """A command that begins in the background of a shell ignores what Ctrl-C sends."""
    signal.signal(signal.SIGINT, signal.SIG_DFL)


class Live(unittest.TestCase):
    def hear(self, hosts: TwoHosts, *words: str) -> "subprocess.Popen[str]":
        """Begins to hear the interface of host b, and returns when it is heard."""
        command = [sys.executable, "-m", "ndbench", "compare", "--interface", "eth0", "--mac", MACS["a"], "--all", *words]
        environment = {**os.environ, "PYTHONPATH": str(PYTHON)}
        made = subprocess.Popen(hosts.at("b", *command), env=environment, stdout=subprocess.PIPE, stderr=subprocess.PIPE, text=True,
                                preexec_fn=interrupts)
        self.addCleanup(made.wait)
        self.addCleanup(made.kill)
        assert made.stderr is not None
        self.assertTrue(made.stderr.readline().startswith("ndbench: hears eth0 "))
        return made

    def ended(self, made: "subprocess.Popen[str]") -> Tuple[int, str, str]:
        out, err = made.communicate(timeout=60)
        return made.returncode, out, err

    def test_linux_begins(self) -> None:
        """It tries its address within a second, and solicits routers a second later (RFC 4862, 5.4.2; RFC 4861, 6.3.7)."""
        with TwoHosts() as hosts:
            made = self.hear(hosts, "--seconds", "4")
            hosts.begin("a")
            self.assertEqual(self.ended(made), (0, "", "2 messages of the other stack, 0 differences\n"))

    def test_it_is_interrupted(self) -> None:
        """A Router Solicitation with the hop limit of one that was forwarded is a difference."""
        forwarded = message_frame(b"\x85" + bytes(7), "fe80::ff:fe00:a", "ff02::2", "33330000000202000000000a", hop_limit=254)
        with TwoHosts() as hosts:
            made = self.hear(hosts)
            hosts.begin("a")
            time.sleep(3)
            hosts.send("a", forwarded)
            time.sleep(0.3)
            made.send_signal(signal.SIGINT)
            status, out, err = self.ended(made)
        self.assertEqual((status, err), (1, "3 messages of the other stack, 1 difference\n"))
        self.assertRegex(out, r"each receiver drops it \[RFC 4861, 6.1.1\]\n"
                              r"    other stack: packet \d+, at \d+ ms: drop 10 HopLimit\n    node: nothing\n\Z")
