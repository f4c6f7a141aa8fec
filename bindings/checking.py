"""checking: what the checks of the bindings share: running a command, and counting what passed, what failed and what was skipped."""
import os
import re
import shutil
import subprocess
import sys
import time
from contextlib import contextmanager

TOP = os.path.dirname(os.path.dirname(os.path.abspath(__file__)))
INCLUDE = f"{TOP}/include"
WARNINGS = ["-Wall", "-Wextra", "-Wpedantic", "-Werror"]

# With the argument `full` what takes long is tried too.
IS_FULL = "full" in sys.argv[1:]

passed, failed = 0, 0
# The parts that were skipped, and why.
skipped = {}
# The part that is skipped without a tool.
PARTS = {"rt": "the archives", "g++": "headers in C++", "clang": "programs by clang", "valgrind": "programs under valgrind", "node": "the page in node",
         **dict.fromkeys(("cargo", "rustc"), "programs in Rust"), **dict.fromkeys(("pkg-config", "cmake", "meson", "ninja"), "what is installed"),
         **dict.fromkeys(("gcc", "cc", "ar", "objcopy", "nm", "make"), "programs in C")}


def run(words, **more):
    """Runs a command. What it reads and prints is text, or bytes with `text=False`."""
    return subprocess.run(words, **{"capture_output": True, "text": True, **more})


def run_for(seconds, words, **more):
    """Runs a command. Returns None if it has not ended after so many seconds."""
    try:
        return run(words, timeout=seconds, **more)
    except subprocess.TimeoutExpired:
        return None


def report_if(what, is_so, detail=""):
    """Counts and prints a check. `detail` is printed if it failed."""
    global passed, failed
    passed, failed = (passed + 1, failed) if is_so else (passed, failed + 1)
    print(f"{'passed' if is_so else 'FAILED'}: {what}", flush=True)
    if not is_so and detail:
        print(detail.rstrip("\n"), flush=True)
    return is_so


def report(what, process):
    """Counts and prints a command that is to end with status 0."""
    return report_if(what, process.returncode == 0, (process.stdout + process.stderr)[-4000:])


def parts():
    """Returns the parts of the checks that may be skipped, as CONTRIBUTING.md lists them."""
    listed = re.search(r"^## What is skipped\n(.*?)(?=^## )", read(f"{TOP}/CONTRIBUTING.md"), re.M | re.S)
    return re.findall(r"^\| (?!Part)([^|]*[^|-]) \|", listed[1], re.M) if listed else []


def skip(part, why):
    """Counts a part that is skipped, in whole or in part, and prints each reason once. A part that CONTRIBUTING.md doesn't list is a failure."""
    if part not in skipped and part not in parts():
        report_if(f"CONTRIBUTING.md lists {part!r} as a part that may be skipped", False)
    elif why not in skipped.setdefault(part, []):
        skipped[part].append(why)
        print(f"skipped: {part}: {why}", flush=True)


def has(tool):
    """Returns true if a tool is there. Else the part that needs it is skipped."""
    if shutil.which(tool):
        return True
    skip(PARTS[tool], f"{tool} is not there")
    return False


def result():
    """Returns the last line of a check."""
    return f"{passed} passed, {failed} failed" + (f", {len(skipped)} skipped" if skipped else "")


@contextmanager
def timed(what):
    """Prints how long a part of the checks took by the clock."""
    begun = time.monotonic()
    yield
    print(f"took {time.monotonic() - begun:.0f} seconds: {what}", flush=True)


def read(path):
    with open(path, encoding="utf-8") as file:
        return file.read()
