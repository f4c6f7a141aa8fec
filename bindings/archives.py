#!/usr/bin/env python3
"""archives CRATE: makes the archive of a crate, by `rt lib`, over libraries of today's sources: those that are of others are proved and built first. The
last line of the prover, its verdict, is kept beside the archive in libCRATE.verdict, and printed."""
import os
import subprocess
import sys

TOP = os.path.dirname(os.path.dirname(os.path.abspath(__file__)))


def make(crate):
    """Makes the archive, and returns its path and the verdict. Raises CalledProcessError, with what was said, if it is not proved."""
    folder = f"{TOP}/crates/{crate}"
    archive, kept = f"{folder}/out/lib{crate}.a", f"{folder}/out/lib{crate}.verdict"
    for path in (archive, kept):
        if os.path.exists(path):
            os.remove(path)
    made = subprocess.run(["rt", "lib"], cwd=folder, stdin=subprocess.DEVNULL, capture_output=True, text=True, check=True)
    verdict = made.stdout.rstrip("\n").rsplit("\n", 1)[-1]
    with open(kept, "w", encoding="utf-8") as file:
        file.write(f"{verdict}\n")
    return archive, verdict


def make_below(crate):
    """Makes the libraries that a crate is built over: of a static library its archive too, of a program nothing else. Raises CalledProcessError."""
    if os.path.exists(f"{TOP}/crates/{crate}/src/main.rt"):
        subprocess.run(["rt", "check"], cwd=f"{TOP}/crates/{crate}", stdin=subprocess.DEVNULL, capture_output=True, text=True, check=True)
    else:
        make(crate)


def main(crate):
    try:
        print(make(crate)[1])
    except subprocess.CalledProcessError as why:
        sys.exit(f"{why.stdout}{why.stderr}archives: {crate} is not proved")


if __name__ == "__main__":
    main(*sys.argv[1:])
