#!/usr/bin/env python3
"""dist [FOLDER]: makes dist/, the node and the command as C files, or FOLDER. A file is the LLVM module that Rattle makes of a proved crate for
x86-64, the one of its archive or program, optimised by the toolchain's clang and printed as C by bindings/translate; behind it is C of this folder.

  nd.c        the node at -O2, with c/heap.c and front.c: the functions of nd.h
  nd_small.c  the same at -Os, its functions marked for size, equal ones merged
  ndpctl.c    the command at -O2, with system.c

What is made on the way is in bindings/out/targets. Where a tool is missing nothing is made, with a line 'skipped: ..'."""
import os
import re
import sys
from collections import namedtuple
from concurrent.futures import ThreadPoolExecutor

import build
import stamp
from build import BINDINGS, HERE, OUT, TOP, clang, made_once, read, run, write

DIST = f"{TOP}/dist"
TRANSLATE = f"{BINDINGS}/translate"
HEADERS = ["nd.h", "nd_hear.h", "nd_text.h"]
# How CMake and Meson build what is there.
BUILDS = ["CMakeLists.txt", "meson.build"]
TARGET = "--target=x86_64-unknown-linux-gnu"
# Vectors of the processor, and tables of relative addresses, are not for C. The last two are among what Rattle gives to clang for its archive.
OPTIMISE = [TARGET, "--no-default-config", "-Wno-override-module", "-fno-pic", "-fno-pie", "-fno-vectorize", "-fno-slp-vectorize", "-S", "-emit-llvm",
            "-x", "ir", "-mllvm", "-sink-common-insts=false"]
SMALL = ["-Os", "-Xclang", "-fmerge-functions"]
# The main function of Rattle's program: its first step, what is left out, the call that it ends in, and what it says of another processor.
PROCESSOR_TEST = re.compile(r'(^define i32 @main\(\)[^\n]*\nstart:\n[^\n]*@__sysv_signal\([^\n]*\n)(?:(?!^}).)*?'
                            r'(  (%\w+) = call i32 @"ndpctl::main\+start"\(\)\n  ret i32 \3\n)(?:(?!^}).)*^}', re.M | re.S)
# What system.c needs before the first header.
FEATURES = "#define _GNU_SOURCE\n#define _FILE_OFFSET_BITS 64\n"
# A file of dist/: its crate, the flags of clang, whether the functions are marked for size, and its first line.
File = namedtuple("File", "crate flags is_small says")
FILES = {
    "nd.c": File("nd_c", ["-O2"], False, "The node of nd.h, for speed."),
    "nd_small.c": File("nd_c", SMALL, True, "The node of nd.h, for size."),
    "ndpctl.c": File("ndpctl", ["-O2"], False, "The command ndpctl: cc -O2 ndpctl.c -o ndpctl."),
}


def module_of(crate):
    """Makes Rattle's LLVM module of a crate for this machine, and returns its path."""
    return build.bitcode(f"{OUT}/{crate}", crate, "host")


def marked_for_size(text):
    """Returns a module whose functions clang optimises for size."""
    return re.sub(r"^(attributes #\d+ = \{)", r"\1 optsize", text, flags=re.M)


def without_processor_test(text):
    """Returns the command's module whose main does not ask first what the processor of x86-64 can do: the C compiler chooses the instructions."""
    made, count = PROCESSOR_TEST.subn(r"\1\2}", text)
    if count != 1:
        sys.exit("FAILED: the main function of Rattle's program has another form")
    return made


def optimise(module, out, file):
    """Writes Rattle's module as clang optimises it."""
    edit = marked_for_size if file.is_small else without_processor_test if file.crate == "ndpctl" else None
    if edit:
        run(clang(), TARGET, "--no-default-config", "-S", "-emit-llvm", "-x", "ir", "-Xclang", "-disable-llvm-passes", module, "-o", f"{out}.in")
        write(f"{out}.in", edit(read(f"{out}.in")))
        module = f"{out}.in"
    run(clang(), *OPTIMISE, *file.flags, module, "-o", out)


def optimised(name):
    """Makes the optimised module of a file of dist/, and returns its path."""
    file, out = FILES[name], f"{OUT}/{name.removesuffix('.c')}.ll"
    module = module_of(file.crate)
    made_once(out, [module, os.path.realpath(__file__)], lambda: optimise(module, out, file))
    return out


def translated(module):
    """Returns a module as C."""
    out = f"{module}.c"
    run(sys.executable, TRANSLATE, module, out)
    return read(out)


def text_of(name, module):
    """Returns a file of dist/: C of a module between what this folder has for it."""
    head = f"/* {FILES[name].says} Made by `make -C bindings dist` of the proved crate {FILES[name].crate}; see README.md. */\n"
    made = translated(module)
    if FILES[name].crate == "ndpctl":
        return head + FEATURES + made + read(f"{HERE}/system.c")
    if "set_pointers" in made:
        sys.exit("FAILED: the node has pointers in constants, and front.c has no call that puts them there first")
    heap = f"\n/* ---- heap ---- */\n#ifndef ND_OWN_MEMORY\n{read(f'{BINDINGS}/c/heap.c')}#endif\n"
    return head + made + heap + read(f"{HERE}/front.c")


def texts_of(modules):
    """Returns the files of dist/ but its stamp by their names. `modules` are the optimised modules by the names of the C files."""
    texts = {name: text_of(name, module) for name, module in modules.items()}
    texts |= {name: read(f"{TOP}/include/{name}") for name in HEADERS}
    texts |= {name: read(f"{TOP}/examples/{name}") for name in stamp.EXAMPLES}
    texts |= {name: read(f"{HERE}/{name}") for name in BUILDS}
    return texts | {"pool.c": read(f"{BINDINGS}/c/pool.c"), "README.md": read(f"{HERE}/dist.md")}


def write_files(folder, texts):
    """Writes the files of a folder, and removes the others."""
    os.makedirs(folder, exist_ok=True)
    for name in {*os.listdir(folder)} - {*texts}:
        os.remove(f"{folder}/{name}")
    for name, text in texts.items():
        write(f"{folder}/{name}", text)


def make(folder=DIST):
    """Makes the files of dist/, and their stamp if they are to be committed. Raises Skipped if a tool is missing."""
    build.need("rt")
    build.prepare()
    commit = stamp.commit() if folder == DIST else None
    for crate in stamp.CRATES:
        module_of(crate)
    with ThreadPoolExecutor(2) as pool:
        modules = dict(zip(FILES, pool.map(optimised, FILES)))
    write_files(folder, texts_of(modules))
    if commit:
        verdicts = {crate: read(f"{OUT}/{crate}/nd.verdict").strip() for crate in stamp.CRATES}
        write(f"{folder}/STAMP", stamp.text(commit, build.kit(), verdicts))


def main(*folder):
    try:
        make(*folder)
        print(f"made: {', '.join(FILES)}")
    except build.Skipped as why:
        print(f"skipped: dist: {why}")


if __name__ == "__main__":
    main(*sys.argv[1:])
