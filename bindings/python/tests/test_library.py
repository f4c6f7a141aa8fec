"""How the library is found, compiled and called."""
from __future__ import annotations

import os
import stat
import subprocess
import sys
import tempfile
import threading
import time
import unittest
from pathlib import Path
from unittest import mock

import nd
from nd import library

from .paths import PYTHON

USE = "import nd; print(nd.version())"


def run(code: str, **environment: str) -> subprocess.CompletedProcess[str]:
    """Runs a program in another process, with the folder of the module on its path."""
    return subprocess.run([sys.executable, "-c", code], env={**os.environ, "PYTHONPATH": str(PYTHON), **environment}, capture_output=True, text=True,
                          check=False)


class Finding(unittest.TestCase):
    def test_nd_lib_names_a_library(self) -> None:
        with tempfile.TemporaryDirectory() as room:
            said = run(USE, ND_LIB=str(library.compile_library()), CC="no-such-compiler", XDG_CACHE_HOME=room)
            self.assertEqual((said.stdout, list(Path(room).iterdir())), ("(0, 1, 0)\n", []), said.stderr)

    def test_a_missing_library_is_an_error(self) -> None:
        said = run(USE, ND_LIB="/no/such/library.so")
        self.assertRegex(said.stderr, r"nd\.errors\.LibraryError: the library /no/such/library.so cannot be loaded")

    def test_without_a_compiler_the_error_says_what_to_do(self) -> None:
        with tempfile.TemporaryDirectory() as room:
            said = run(USE, ND_LIB="", CC="no-such-compiler", XDG_CACHE_HOME=room)
            self.assertRegex(said.stderr, "no C compiler: .*'no-such-compiler' is not on the path. Install gcc or clang, .* CC, .* ND_LIB")

    def test_a_compiler_that_fails_leaves_no_file(self) -> None:
        with tempfile.TemporaryDirectory() as room:
            compiler = Path(room) / "compiler"
            compiler.write_text("#!/bin/sh\necho out of luck >&2\nexit 1\n", encoding="utf-8")
            compiler.chmod(stat.S_IRWXU)
            said = run(USE, ND_LIB="", CC=str(compiler), XDG_CACHE_HOME=room)
            self.assertRegex(said.stderr, "(?s)LibraryError: the C compiler failed: .*nd.c.*\nout of luck")
            self.assertEqual(list((Path(room) / "jondasik").iterdir()), [])

    def test_a_cache_that_cannot_be_made_is_an_error(self) -> None:
        with tempfile.NamedTemporaryFile() as file:
            said = run(USE, ND_LIB="", XDG_CACHE_HOME=file.name)
            self.assertRegex(said.stderr, "LibraryError: nd.c cannot be compiled into .*jondasik")

    def test_another_command_has_another_file(self) -> None:
        code = "from nd import library; print(library.compiled_path())"
        paths = {run(code, CC=name, XDG_CACHE_HOME="/kept").stdout for name in ("cc", "gcc", "cc ")}
        self.assertEqual(len(paths), 2)
        self.assertTrue(all(path.startswith("/kept/jondasik/nd-") for path in paths), paths)


class Overlap:
    """A library that counts the calls which run at a time. A call takes a while, and as long as it takes until `meeting` threads have made one."""

    def __init__(self, meeting: int) -> None:
        self.running = 0
        self.most = 0
        self.meeting = threading.Barrier(meeting, timeout=20)

    def nd_open(self, *_arguments: object) -> int:
        return 0

    def nd_close(self, *_arguments: object) -> None:
        pass

    def nd_next_due(self, _node: object) -> int:
        self.running += 1
        self.most = max(self.most, self.running)
        self.meeting.wait()
        time.sleep(0.002)
        self.running -= 1
        return 0


class Threads(unittest.TestCase):
    def calls(self, loaded: Overlap, nodes: int) -> None:
        """Opens nodes of a library, and calls it in eight threads, each for the node whose turn it is."""
        with mock.patch.object(library, "_loaded", loaded):
            opened = [nd.Node(nd.Options.host("02:00:00:00:00:01", seed=1)) for _ in range(nodes)]
            threads = [threading.Thread(target=opened[number % nodes].next_due) for number in range(8)]
            for thread in threads:
                thread.start()
            for thread in threads:
                thread.join()

    def test_calls_for_one_node_wait_for_one_another(self) -> None:
        loaded = Overlap(1)
        self.calls(loaded, 1)
        self.assertEqual(loaded.most, 1)

    def test_calls_for_eight_nodes_run_at_the_same_time(self) -> None:
        loaded = Overlap(8)
        self.calls(loaded, 8)
        self.assertEqual((loaded.meeting.broken, loaded.most), (False, 8))
