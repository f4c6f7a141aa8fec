"""The backend of `pip install .` (PEP 517), of Python's standard library alone: puts the packages and the node in C, of the repository's `dist`,
into a wheel. The node is compiled on first use, and not here."""
from __future__ import annotations

import base64
import hashlib
import zipfile
from pathlib import Path
from typing import Any, Dict, Optional

HERE = Path(__file__).resolve().parent
DIST = HERE.parents[1] / "dist"
NAME, VERSION = "jondasik", "0.1.0"
INFO = f"{NAME}-{VERSION}.dist-info"
METADATA = f"""Metadata-Version: 2.1
Name: {NAME}
Version: {VERSION}
Summary: IPv6 Neighbor Discovery as a host or as a router, over a proved node in C, and a test bench for captures
Requires-Python: >=3.9
"""
ENTRY_POINTS = """[console_scripts]
ndbench = ndbench.__main__:main
nd-hear = ndbench.hear:main
"""
WHEEL = """Wheel-Version: 1.0
Generator: jondasik
Root-Is-Purelib: true
Tag: py3-none-any
"""


def files() -> Dict[str, bytes]:
    """Returns the contents of the wheel by their paths in it, but for its list."""
    found = {f"{package}/{path.name}": path.read_bytes() for package in ("nd", "ndbench") for path in sorted((HERE / package).iterdir())
             if path.suffix in (".py", ".typed")}
    found.update({f"nd/source/{name}": (DIST / name).read_bytes() for name in ("nd.c", "nd.h", "nd_hear.h")})
    texts = {"METADATA": METADATA, "WHEEL": WHEEL, "entry_points.txt": ENTRY_POINTS}
    found.update({f"{INFO}/{name}": text.encode() for name, text in texts.items()})
    return found


def record_of(contents: Dict[str, bytes]) -> str:
    """Returns the list of a wheel's files, with the sum and the length of each."""
    lines = []
    for path, content in contents.items():
        digest = base64.urlsafe_b64encode(hashlib.sha256(content).digest()).rstrip(b"=").decode()
        lines.append(f"{path},sha256={digest},{len(content)}\n")
    return "".join(lines) + f"{INFO}/RECORD,,\n"


def build_wheel(wheel_directory: str, config_settings: Optional[Dict[str, Any]] = None, metadata_directory: Optional[str] = None) -> str:
    """Writes the wheel into a folder, and returns its name."""
    name, contents = f"{NAME}-{VERSION}-py3-none-any.whl", files()
    with zipfile.ZipFile(Path(wheel_directory) / name, "w", zipfile.ZIP_DEFLATED) as wheel:
        for path, content in contents.items():
            wheel.writestr(path, content)
        wheel.writestr(f"{INFO}/RECORD", record_of(contents))
    return name


def build_sdist(sdist_directory: str, config_settings: Optional[Dict[str, Any]] = None) -> str:
    """Raises an error: the node in C is in another folder of the repository, so there is no archive of this folder alone."""
    raise NotImplementedError("there is no source archive: install from a clone of the repository")
