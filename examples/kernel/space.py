"""space: network namespaces of Linux, by `ip`."""
import ctypes
import itertools
import json
import os
import subprocess
from contextlib import contextmanager
from pathlib import Path

CLONE_NEWNET = 0x40000000
LIBC = ctypes.CDLL(None, use_errno=True)
numbers = itertools.count()


def run(*words):
    """Runs a command, and returns what it prints. Raises RuntimeError if it fails."""
    done = subprocess.run(words, capture_output=True, text=True)
    if done.returncode:
        raise RuntimeError(f"{' '.join(words)}: {done.stderr.strip()}")
    return done.stdout


def enter(path):
    """Puts this thread into a network namespace."""
    handle = os.open(path, os.O_RDONLY)
    try:
        if LIBC.setns(handle, CLONE_NEWNET):
            raise OSError(ctypes.get_errno(), f"{path} cannot be entered")
    finally:
        os.close(handle)


class Space:
    """A network namespace."""

    def __init__(self):
        self.name = f"nd_kernel_{os.getpid()}_{next(numbers)}"
        run("ip", "netns", "add", self.name)

    def close(self):
        """Ends the namespace, with the interfaces in it."""
        run("ip", "netns", "del", self.name)

    def ip(self, *words):
        """Runs `ip` in the namespace."""
        return run("ip", "-n", self.name, *words)

    def table(self, *words):
        """Returns the rows that `ip` prints of IPv6 in the namespace."""
        return [row for row in json.loads(self.ip("-6", "-j", *words) or "[]") if row]

    @contextmanager
    def inside(self):
        """Puts this thread into the namespace, and back behind the block."""
        before = f"/proc/self/task/{os.getpid()}/ns/net"
        handle = os.open(before, os.O_RDONLY)
        try:
            enter(f"/run/netns/{self.name}")
            yield
        finally:
            enter(f"/proc/self/fd/{handle}")
            os.close(handle)

    def setting(self, name):
        """Returns a setting of the kernel, such as `ipv6/conf/e0/mtu`, in the namespace."""
        with self.inside():
            return int(Path("/proc/sys/net", name).read_text())

    def set(self, settings):
        """Sets settings of the kernel in the namespace: a dictionary of names and values."""
        with self.inside():
            for name, value in settings.items():
                Path("/proc/sys/net", name).write_text(str(value))
