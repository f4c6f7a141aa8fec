"""The library: finds or compiles it, loads it, and calls it.

Calls for different nodes, and calls without a node, may run at the same time. A node holds a lock of its own while a call for it runs (node.py), so
threads may use this module freely, even one node. Do not use it in a signal handler, nor in a forked child of a process with threads.

The environment: `ND_LIB` names a shared library that is already built, and `CC` the compiler (else `cc`). The compiled library is kept in
`XDG_CACHE_HOME`, else in the user's `.cache`, under a name that has a sum of its sources and of the command."""
from __future__ import annotations

import ctypes
import hashlib
import os
import platform
import shlex
import shutil
import subprocess
import tempfile
import threading
from pathlib import Path
from typing import Any, List, Optional

from . import raw
from .errors import LibraryError

FLAGS = ["-O1", "-fPIC", "-shared"]
SOURCES = ("nd.c", "nd.h", "nd_hear.h")

# Held while the library is compiled and loaded. Python may run Node.__del__ meanwhile in the same thread: so a thread may take it again.
_loading = threading.RLock()
_loaded: Optional[ctypes.CDLL] = None


def source_folder() -> Path:
    """Returns the folder of nd.c and its headers: in an installed package its own, in a clone of the repository `dist`."""
    here = Path(__file__).resolve().parent
    folders = [here / "source", here.parents[2] / "dist"]
    for folder in folders:
        if all((folder / name).is_file() for name in SOURCES):
            return folder
    raise LibraryError(f"nd.c is not there: looked in {' and '.join(str(folder) for folder in folders)}")


def cache_folder() -> Path:
    """Returns the folder in which the compiled library is kept."""
    base = os.environ.get("XDG_CACHE_HOME", "")
    return (Path(base) if os.path.isabs(base) else Path.home() / ".cache") / "jondasik"


def compile_command() -> List[str]:
    """Returns the words of the compiler and its flags."""
    return [*shlex.split(os.environ.get("CC") or "cc"), *FLAGS]


def compiled_path() -> Path:
    """Returns where the compiled library of today's sources is kept. It is there only once it was compiled."""
    content = hashlib.sha256("\0".join([*compile_command(), platform.platform(), platform.machine()]).encode())
    folder = source_folder()
    for name in SOURCES:
        content.update((folder / name).read_bytes())
    return cache_folder() / f"nd-{content.hexdigest()[:16]}.so"


def is_ready() -> bool:
    """Returns true if the next call compiles nothing: the library is loaded, named by `ND_LIB`, or compiled already."""
    return _loaded is not None or bool(os.environ.get("ND_LIB")) or compiled_path().is_file()


def compile_library() -> Path:
    """Compiles nd.c into the cache if it is not there yet, and returns the path. It takes under a minute. Raises LibraryError if there is no
    compiler, or if it fails."""
    path = compiled_path()
    if path.is_file():
        return path
    command = compile_command()
    if shutil.which(command[0]) is None:
        raise LibraryError(f"no C compiler: nd.c is compiled on first use, and {command[0]!r} is not on the path. "
                           "Install gcc or clang, name one by CC, or name a built library by ND_LIB")
    try:
        path.parent.mkdir(parents=True, exist_ok=True)
        with tempfile.TemporaryDirectory(dir=path.parent) as room:
            made = Path(room) / "nd.so"
            _run_compiler([*command, str(source_folder() / "nd.c"), "-o", str(made)])
            os.replace(made, path)
    except OSError as error:
        raise LibraryError(f"nd.c cannot be compiled into {path.parent}: {error}") from error
    return path


def _run_compiler(words: List[str]) -> None:
    said = subprocess.run(words, capture_output=True, text=True, check=False)
    if said.returncode != 0:
        raise LibraryError(f"the C compiler failed: {shlex.join(words)}\n{said.stderr[-2000:]}")


def _load() -> ctypes.CDLL:
    path = os.environ.get("ND_LIB") or str(compile_library())
    try:
        loaded = ctypes.CDLL(path)
        for name, (result, arguments) in raw.FUNCTIONS.items():
            function = getattr(loaded, name)
            function.restype, function.argtypes = result, arguments
    except (OSError, AttributeError) as error:
        raise LibraryError(f"the library {path} cannot be loaded: {error}") from error
    found = _parts(loaded.nd_version())
    if found[0] != raw.VERSION[0] or found < raw.VERSION:
        raise LibraryError(f"the library {path} has version {found}, and this module is for {raw.VERSION}")
    return loaded


def _parts(version_number: int) -> tuple[int, int, int]:
    return version_number >> 16, version_number >> 8 & 0xFF, version_number & 0xFF


def call(name: str, *arguments: Any) -> Any:
    """Calls a function of nd.h, and returns its result. Other threads run meanwhile. The first call compiles and loads the library."""
    global _loaded
    if _loaded is None:
        with _loading:
            if _loaded is None:
                _loaded = _load()
    return getattr(_loaded, name)(*arguments)


def version() -> tuple[int, int, int]:
    """Returns the version of the library: major, minor and patch."""
    return _parts(call("nd_version"))
