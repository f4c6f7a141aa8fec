"""stamp: what dist/ was made of. `dist/STAMP` has the commit and a sum of all sources, the toolchain that made the C files of them (another may make
other bytes of the same code), the verdict of the prover on each crate, and the SHA-256 of each file of dist/."""
import glob
import hashlib
import os
import re
import subprocess
import sys

HERE = os.path.dirname(os.path.realpath(__file__))
TOP = os.path.dirname(os.path.dirname(HERE))
STAMP = f"{TOP}/dist/STAMP"
# The crates of the node and of the command.
CRATES = ["nd_c", "ndpctl"]
# The frames of the examples in C, and what these print of them.
EXAMPLES = [f"{name}.{kind}" for name in ("host", "router", "link") for kind in ("hex", "txt")]
# The files besides the crates and the translator.
OTHERS = ["include/nd.h", "include/nd_hear.h", "include/nd_text.h", "bindings/archives.py", "bindings/c/heap.c", "bindings/c/pool.c",
          *(f"examples/{name}" for name in EXAMPLES),
          *(f"bindings/targets/{name}" for name in ("CMakeLists.txt", "bitcode.py", "build.py", "dist.md", "dist.py", "front.c", "meson.build", "system.c"))]
TRANSLATOR = "bindings/translate"


def read(path):
    with open(path, "rb") as file:
        return file.read()


def others():
    """Returns the files besides the crates, the translator's too."""
    found = [path for end in ("py", "h") for path in glob.glob(f"{TOP}/{TRANSLATOR}/*.{end}")]
    return [*OTHERS, *sorted(os.path.relpath(path, TOP) for path in found)]


def crates_of(names):
    """Returns crates and those that they are built over, in the order of their names, with the line of crates.txt of each."""
    lines = dict(re.findall(r"^(\w+)(?: staticlib)?:(.*)$", read(f"{TOP}/crates.txt").decode(), re.M))
    found, open_ones = {}, [*names]
    while open_ones:
        crate = open_ones.pop()
        if crate in lines and crate not in found:
            found[crate] = lines[crate].split()
            open_ones += found[crate]
    return sorted(found.items())


def files_of(crate):
    """Yields the sources of a crate: its code, its definitions and its proofs."""
    for part in ("src", "specs", "proofs"):
        for folder, _, names in os.walk(f"{TOP}/crates/{crate}/{part}"):
            yield from (os.path.join(folder, name) for name in names)


def sum_of_sources():
    """Returns the sum of all that the C files are made of: the names and bytes of the files, and what each crate is built over."""
    summed = hashlib.sha256()
    crates = crates_of(CRATES)
    files = [f"{TOP}/{name}" for name in others()] + [path for crate, _ in crates for path in files_of(crate)]
    for path in sorted(os.path.relpath(path, TOP) for path in files):
        summed.update(f"{path} {hashlib.sha256(read(f'{TOP}/{path}')).hexdigest()}\n".encode())
    for crate, below in crates:
        summed.update(f"{crate}: {' '.join(below)}\n".encode())
    return summed.hexdigest()


def tools(kit):
    """Returns the name of the toolchain in the folder `kit`, whose clang makes the modules. All else that makes the C files is among the sources."""
    return read(f"{kit}/KIT-ID").decode().strip()


def sums(folder):
    """Returns a line for each file of a folder but its stamp, with its sum."""
    return [f"sha256 {hashlib.sha256(read(f'{folder}/{name}')).hexdigest()} {name}" for name in sorted(os.listdir(folder)) if name != "STAMP"]


def commit():
    """Returns the commit that last changed a source. Exits if a source has changes that are not committed."""
    names = [*OTHERS, TRANSLATOR, "crates.txt", *(f"crates/{crate}/{part}" for crate, _ in crates_of(CRATES) for part in ("src", "specs", "proofs"))]
    names = [name for name in names if os.path.exists(f"{TOP}/{name}")]
    git = ["git", "-C", TOP]
    changed = subprocess.run([*git, "status", "--porcelain", "--", *names], capture_output=True, text=True, check=True).stdout
    if changed:
        sys.exit(f"FAILED: dist/ is made of what is committed:\n{changed}")
    return subprocess.run([*git, "log", "-1", "--format=%H", "--", *names], capture_output=True, text=True, check=True).stdout.strip()


def text(of, kit, verdicts):
    """Returns the stamp of dist/, which was made of this commit by this kit. `verdicts` are those of the crates by their names."""
    said = [f"verdict {crate} {verdict}" for crate, verdict in verdicts.items()]
    return "\n".join([f"commit {of}", f"sources {sum_of_sources()}", f"tools {tools(kit)}", *said, *sums(f"{TOP}/dist"), ""])
