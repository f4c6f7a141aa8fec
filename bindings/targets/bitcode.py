#!/usr/bin/env python3
"""bitcode OUT [CRATE [TARGET]]: builds a crate, crates/nd_c unless another is named, as `rt lib --target` and `rt run` do, over libraries of today's
sources. OUT/nd.bc is the LLVM module that Rattle passed to clang for it, OUT/nd.verdict what the prover said last, and OUT/nd.a what was built: the
archive, or the object of a program. TARGET is aarch64's unless it is named; `host` is x86-64's, for which the archive of `rt lib` is. A folder of a toolchain
whose clang copies its input stands in for the kit's."""
import importlib.machinery
import importlib.util
import os
import shutil
import subprocess
import sys

sys.path.insert(0, f"{os.path.dirname(os.path.realpath(__file__))}/..")
import archives  # noqa: E402

AARCH64 = "aarch64-unknown-linux-gnu"
HOST = "host"
CRATES = os.path.realpath(f"{os.path.dirname(__file__)}/../../crates")
# Rattle clears the environment of clang, so that the paths are in the text.
CLANG = """#!/bin/sh
for word in "$@"; do
    case $word in *.bc) /bin/cp "$word" "{out}/nd.bc" ;; esac
done
exec "{kit}/bin/clang" "$@"
"""


def kit_of(program):
    """Returns the folder of the kit that has `rt`."""
    return os.path.dirname(os.path.dirname(os.path.realpath(program)))


def library(kit):
    """Loads the part of the kit's `rt` that knows the words of a crate."""
    loader = importlib.machinery.SourceFileLoader("rtlib", f"{kit}/bin/rtlib.py")
    module = importlib.util.module_from_spec(importlib.util.spec_from_loader("rtlib", loader))
    sys.modules["rtlib"] = module
    loader.exec_module(module)
    return module


def keeping_toolchain(kit, out):
    """Makes the folder of a toolchain whose clang copies its input to OUT."""
    folder = f"{out}/toolchain"
    shutil.rmtree(folder, ignore_errors=True)
    os.makedirs(f"{folder}/bin")
    os.symlink(f"{kit}/toolchain/lib", f"{folder}/lib")
    for name in os.listdir(f"{kit}/toolchain/bin"):
        if name != "clang":
            os.symlink(f"{kit}/toolchain/bin/{name}", f"{folder}/bin/{name}")
    with open(f"{folder}/bin/clang", "w", encoding="utf-8") as file:
        file.write(CLANG.format(out=out, kit=f"{kit}/toolchain"))
    os.chmod(f"{folder}/bin/clang", 0o755)
    return folder


def main(out, name="nd_c", target=AARCH64):
    sys.dont_write_bytecode = True
    out, crate = os.path.realpath(out), f"{CRATES}/{name}"
    os.makedirs(out, exist_ok=True)
    # Libraries of other sources than today's are built again.
    archives.make_below(name)
    kit = kit_of(shutil.which("rt"))
    rtlib = library(kit)
    os.chdir(crate)
    words = rtlib.Crate(crate, rtlib.root_above(crate) or crate, {}).words(["--jobs", "1"])
    words += ["--target", target] if target != HOST else []
    made = subprocess.run([f"{kit}/bin/rattle", "build", *words, "--incremental", "out/incremental",
                           "--toolchain", keeping_toolchain(kit, out), "-o", f"{out}/nd.a"], capture_output=True, text=True, check=False)
    said = (made.stdout + made.stderr).strip().splitlines()
    if made.returncode or not os.path.exists(f"{out}/nd.bc"):
        sys.exit("\n".join(["bitcode: Rattle's module was not found", *said[-10:]]))
    with open(f"{out}/nd.verdict", "w", encoding="utf-8") as file:
        file.write(f"{said[-1]}\n")
    print(said[-1])


main(*sys.argv[1:])
