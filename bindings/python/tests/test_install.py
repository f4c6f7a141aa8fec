"""The wheel of `pip install .`: the module in it works apart from the repository, with the node in C that it brings."""
from __future__ import annotations

import base64
import hashlib
import importlib.util
import os
import subprocess
import sys
import tempfile
import unittest
import zipfile
from pathlib import Path
from typing import Dict

from nd import library

from .paths import EXAMPLES, PYTHON, TOP

BUILD = "import sys; sys.path.insert(0, sys.argv[1]); import backend; print(backend.build_wheel(sys.argv[2]))"
USE = "import nd; from nd import library; print(library.source_folder()); print(library.is_ready(), nd.version(), library.compiled_path())"


def run(folder: Path, *words: str, **environment: str) -> str:
    """Runs Python in another process, in a folder, and returns what it prints."""
    said = subprocess.run([sys.executable, *words], cwd=folder, env={**os.environ, **environment}, capture_output=True, text=True, check=False)
    if said.returncode != 0:
        raise AssertionError(said.stderr)
    return said.stdout


class Wheel(unittest.TestCase):
    def setUp(self) -> None:
        room = tempfile.TemporaryDirectory()
        self.addCleanup(room.cleanup)
        self.room = Path(room.name)
        self.wheel = self.room / run(self.room, "-c", BUILD, str(PYTHON), str(self.room)).strip()

    def contents(self) -> Dict[str, bytes]:
        with zipfile.ZipFile(self.wheel) as wheel:
            return {name: wheel.read(name) for name in wheel.namelist()}

    def test_its_list_has_the_sum_of_each_file(self) -> None:
        contents = self.contents()
        listed = {}
        for line in contents.pop("jondasik-0.1.0.dist-info/RECORD").decode().splitlines():
            path, digest, length = line.split(",")
            listed[path] = (digest, length)
        self.assertEqual(listed.pop("jondasik-0.1.0.dist-info/RECORD"), ("", ""))
        wanted = {path: ("sha256=" + base64.urlsafe_b64encode(hashlib.sha256(content).digest()).decode().rstrip("="), str(len(content)))
                  for path, content in contents.items()}
        self.assertEqual(listed, wanted)

    def test_it_brings_what_a_program_needs(self) -> None:
        contents = self.contents()
        self.assertTrue({"nd/py.typed", "ndbench/py.typed"} <= set(contents))
        self.assertEqual(contents["nd/source/nd.c"], (TOP / "dist" / "nd.c").read_bytes())
        modules = {f"{path.parent.name}/{path.name}" for package in ("nd", "ndbench") for path in (PYTHON / package).glob("*.py")}
        self.assertEqual({name for name in contents if name.endswith(".py")}, modules)

    def test_its_commands_are_those_of_pyproject(self) -> None:
        project = (PYTHON / "pyproject.toml").read_text(encoding="utf-8").partition("[project.scripts]\n")[2]
        wanted = "".join(f"{line}\n" for line in project.replace('"', "").splitlines())
        self.assertEqual(self.contents()["jondasik-0.1.0.dist-info/entry_points.txt"].decode(), f"[console_scripts]\n{wanted}")

    @unittest.skipUnless(importlib.util.find_spec("pip"), "pip is not there")
    def test_pip_installs_the_commands(self) -> None:
        """`ndbench` and `nd-hear`, without a network."""
        target = self.room / "target"
        words = ["-m", "pip", "install", "--quiet", "--no-index", "--no-deps", "--disable-pip-version-check", "--target", str(target), str(PYTHON)]
        run(self.room, *words)
        library.compile_library()
        environment = {**os.environ, "PYTHONPATH": str(target), "ND_LIB": ""}
        for words, wanted in ((["ndbench", "judge", str(EXAMPLES / "captures" / "link.pcapng")], " drop 10 HopLimit [RFC 4861, 6.1.2]\n"),
                              (["nd-hear", str(EXAMPLES / "link.hex")], "rs fe80::ff:fe00:99 ff02::2\n")):
            said = subprocess.run([target / "bin" / words[0], *words[1:]], env=environment, capture_output=True, text=True, check=False)
            self.assertEqual(said.returncode, 0, said.stderr)
            self.assertIn(wanted, said.stdout)

    def test_it_works_apart_from_the_repository(self) -> None:
        with zipfile.ZipFile(self.wheel) as wheel:
            wheel.extractall(self.room)
        library.compile_library()
        folder, used = run(self.room, "-c", USE, PYTHONPATH=str(self.room), ND_LIB="").splitlines()
        self.assertEqual(Path(folder).resolve(), (self.room / "nd" / "source").resolve())
        self.assertEqual(used, f"True (0, 1, 0) {library.compiled_path()}")
