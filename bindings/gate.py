#!/usr/bin/env python3
"""gate [FOLDER]: runs `rt ci` in a repository, this one if no folder is named, and lets `rt lib` build over the libraries that it proved. Without that
`rt lib` proves them again.

`rt ci` gives a checkout the libraries of its earlier checks back, in place of those that it has just proved, and those may be of a text that nobody
proved: a source that changed while a check built its library. So these are removed first. What lies there when `rt ci` has ended is what this run made,
and each of it is marked as built of its sources, if `rt ci` passed and no source changed in the meantime: a crate that it refuses may have left a library
too. Then a line for each crate says how many processor minutes its checks took. The last line is that of `rt ci`, 'N passed, M failed'; changed sources
are one more failure."""
import functools
import glob
import hashlib
import importlib.machinery
import importlib.util
import os
import re
import shutil
import subprocess
import sys
import time

from minutes import Minutes

HERE = os.path.dirname(os.path.abspath(__file__))
# What is made in a crate.
MADE = "out"


def kit():
    """Loads the toolchain's `rt`, which knows how it names what it has built."""
    loader = importlib.machinery.SourceFileLoader("rt", os.path.realpath(shutil.which("rt")))
    rt = importlib.util.module_from_spec(importlib.util.spec_from_loader("rt", loader))
    loader.exec_module(rt)
    return rt


def sum_of_sources(top):
    """Returns a sum of what `rt ci` reads: the crates without what is made in them, their list, and the handles."""
    summed = hashlib.sha256()
    paths = [f"{top}/crates.txt", f"{top}/HANDLES"]
    for folder, folders, names in os.walk(f"{top}/crates"):
        if os.path.dirname(folder) == f"{top}/crates":
            folders[:] = [name for name in folders if name != MADE]
        paths += [os.path.join(folder, name) for name in names]
    for path in sorted(paths):
        with open(path, "rb") as file:
            summed.update(f"{path} {hashlib.sha256(file.read()).hexdigest()}\n".encode())
    return summed.hexdigest()


def remove_libraries(top):
    """Removes the libraries of earlier checks, and those that a run of `rt ci` which was killed has set aside."""
    for path in glob.glob(f"{top}/crates/*/{MADE}/rlib") + glob.glob(f"{top}/.git/rt-aside/*/rlib"):
        shutil.rmtree(path)


def mark_libraries(top):
    """Notes at each library that is there that its sources are those of today."""
    sys.dont_write_bytecode = True
    os.chdir(top)
    rt = kit()
    # A crate's sum is made of those below it: each is made once.
    rt.rtlib.Crate.stamp = functools.cache(rt.rtlib.Crate.stamp)
    rt.rtlib.Crate = rt.Crate
    for crate in rt.rtlib.crates_below(top):
        stamp = f"{crate.folder}/{MADE}/rlib/stamp"
        is_new = os.path.exists(f"{crate.rlib}/format") and not os.path.exists(stamp)
        if is_new and not crate.is_program and not crate.is_static:
            with open(stamp, "w", encoding="utf-8") as file:
                file.write(crate.stamp())


def run_ci(top):
    """Runs `rt ci`, prints what it prints, and returns how many passed and failed."""
    last = ""
    with subprocess.Popen(["rt", "ci"], cwd=top, stdout=subprocess.PIPE, stderr=subprocess.STDOUT, text=True, errors="replace") as ran:
        for line in ran.stdout:
            last = line.rstrip("\n")
            print(line, end="", flush=True)
    found = re.fullmatch(r"(\d+) passed, (\d+) failed", last)
    passed, failed = (int(found[1]), int(found[2])) if found else (0, 1)
    return passed, failed or int(ran.returncode != 0)


def main(top):
    top = os.path.realpath(top)
    remove_libraries(top)
    before = sum_of_sources(top)
    begun = time.monotonic()
    with Minutes(top) as minutes:
        passed, failed = run_ci(top)
    print(*minutes.lines(), f"minutes: by the clock: {(time.monotonic() - begun) / 60:.1f}", sep="\n", flush=True)
    if sum_of_sources(top) != before:
        print("FAILED: crates, crates.txt or HANDLES changed while rt ci ran, so what it proved is not what is there")
        failed += 1
    elif failed == 0:
        mark_libraries(top)
    print(f"{passed} passed, {failed} failed")
    return 1 if failed else 0


if __name__ == "__main__":
    sys.exit(main(*(sys.argv[1:] or [os.path.dirname(HERE)])))
