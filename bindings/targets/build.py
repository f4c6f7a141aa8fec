#!/usr/bin/env python3
"""build TARGET..: the library for other processors, of what `rt lib` keeps of crates/nd_c. What is made is in bindings/out/targets. Where a tool is missing
the target is skipped, with a line 'skipped: ..'.

  aarch64   libnd_c.a for aarch64: the one that `rt lib --target` makes, as it comes with the module for the others
  riscv64   libnd_c.a for riscv64, of Rattle's LLVM module
  wasm64    nd.wasm of the same module, with a 64-bit memory"""
import hashlib
import os
import re
import shutil
import subprocess
import sys
from concurrent.futures import ThreadPoolExecutor

HERE = os.path.dirname(os.path.realpath(__file__))
BINDINGS = os.path.dirname(HERE)
TOP = os.path.dirname(BINDINGS)
OUT = f"{BINDINGS}/out/targets"
HEADERS = ["nd.h", "nd_hear.h"]
STACK = 16384
PAGE = 65536
WASM = "wasm64-unknown-unknown"
LOWER = [f"--enable-{feature}" for feature in ("memory64", "bulk-memory", "sign-ext", "nontrapping-float-to-int", "mutable-globals", "extended-const",
                                               "multivalue")]
PACKAGES = {"wasm-opt": "binaryen", "gcc": "gcc", "aarch64-linux-gnu-objcopy": "binutils-aarch64-linux-gnu",
            "riscv64-linux-gnu-objcopy": "binutils-riscv64-linux-gnu"}


class Skipped(Exception):
    pass


def need(*tools):
    for tool in tools:
        if not shutil.which(tool):
            package = f" (Debian: {PACKAGES[tool]})" if tool in PACKAGES else ""
            raise Skipped(f"{tool} is not there{package}")


def run(*words, **more):
    made = subprocess.run(words, capture_output=True, text=True, check=False, **more)
    if made.returncode:
        sys.exit(f"FAILED: {' '.join(words)}\n{made.stdout}{made.stderr}")
    return made.stdout


def read(path):
    with open(path, encoding="utf-8") as file:
        return file.read()


def write(path, text):
    """Writes a file, unless it has this text: nd.c is not compiled again then."""
    if os.path.exists(path) and read(path) == text:
        return
    with open(path, "w", encoding="utf-8") as file:
        file.write(text)


def kit():
    return os.path.dirname(os.path.dirname(os.path.realpath(shutil.which("rt"))))


def sum_of(paths, words=()):
    """Returns a sum of files, words and the kit's name."""
    both = hashlib.sha256(" ".join([read(f"{kit()}/KIT-ID"), *words]).encode())
    for path in sorted(paths):
        with open(path, "rb") as file:
            both.update(path.encode() + file.read())
    return both.hexdigest()


def sources():
    for folder, folders, names in os.walk(f"{TOP}/crates"):
        folders[:] = [name for name in folders if name != "out"]
        yield from (os.path.join(folder, name) for name in names if name.endswith((".rt", ".antt")))


def made_once(path, paths, make, words=()):
    """Calls `make` unless the file was made of the same files and words before."""
    stamp = f"{path}.of"
    wanted = sum_of(paths, words)
    if os.path.exists(path) and os.path.exists(stamp) and read(stamp) == wanted:
        return
    make()
    write(stamp, wanted)


def bitcode(out=OUT, crate="nd_c", *target):
    """Makes Rattle's LLVM module of a crate for aarch64, or for a target that bitcode.py knows, and returns its path."""
    need("rt")
    os.makedirs(out, exist_ok=True)
    tool = f"{HERE}/bitcode.py"
    made_once(f"{out}/nd.bc", [*sources(), f"{TOP}/crates.txt", tool], lambda: print(run(sys.executable, tool, out, crate, *target), end="", flush=True))
    return f"{out}/nd.bc"


def clang():
    return f"{kit()}/toolchain/bin/clang"


def compiled(target, out, *flags, of=bitcode):
    """Compiles Rattle's module for a target."""
    module, tool = of(), f"{HERE}/retarget.py"
    words = [target, out, *flags]
    made_once(out, [module, tool], lambda: run(sys.executable, tool, clang(), module, *words), words)


def renamed(archive, target):
    """Copies an archive for a processor, with the names of nd.h for the memory functions."""
    need(f"{target}-linux-gnu-objcopy")
    os.makedirs(f"{OUT}/{target}", exist_ok=True)
    run(f"{target}-linux-gnu-objcopy", f"--redefine-syms={BINDINGS}/c/memory.names", archive, f"{OUT}/{target}/libnd_c.a")


def aarch64():
    bitcode()
    renamed(f"{OUT}/nd.a", "aarch64")


def riscv64():
    compiled("riscv64-unknown-linux-gnu", f"{OUT}/riscv64.o", "-march=rv64gc", "-mabi=lp64d", "-fPIC")
    archive = f"{OUT}/riscv64.a"
    if os.path.exists(archive):
        os.remove(archive)
    run(f"{kit()}/toolchain/bin/llvm-ar", "rcsD", archive, f"{OUT}/riscv64.o")
    renamed(archive, "riscv64")


def memory_names():
    """Returns the names of nd.h for the memory functions, by those that the library calls."""
    return dict(map(str.split, read(f"{BINDINGS}/c/memory.names").splitlines()))


def functions():
    """Returns the functions of the headers that the library defines."""
    text = "".join(read(f"{TOP}/include/{name}") for name in HEADERS)
    return [name for name in re.findall(r"^[a-z]\w* (?:\*)?(nd_\w+)\(", text, re.M) if name not in memory_names().values()]


def module(name, memory, *flags, of=bitcode, exported=functions):
    """Makes a module of WebAssembly with a 64-bit memory of so many bytes, of Rattle's module that `of` makes."""
    need("rt", "gcc")
    compiled(WASM, f"{OUT}/{name}.o", "-mcpu=lime1", *flags, of=of)
    # gcc's headers that need no C library stand in for clang's, which the kit lacks.
    words = [f"--target={WASM}", "-mcpu=lime1", *flags, "-std=c11", "-O2", "-ffreestanding", "-fno-builtin", "-DND_POOL_GIVEN", "-Wall", "-Wextra", "-Werror",
             "-nostdinc", "-isystem", run("gcc", "-print-file-name=include").strip(), f"-I{TOP}/include"]
    # The module calls the memory functions by Rattle's names.
    words += [f"-D{named}={own}" for own, named in memory_names().items()]
    others = {f"{OUT}/{name}.module.o": f"{HERE}/module.c", f"{OUT}/{name}.pool.o": f"{BINDINGS}/c/pool.c"}
    for to, source in others.items():
        run(clang(), *words, "-c", source, "-o", to)
    exports = [f"--export={it}" for it in [*exported(), "nd_free_memory", "nd_give_pool"]]
    # The stack comes first, so that one that is too short leaves the memory, which is a trap.
    sizes = ["-z", f"stack-size={STACK}", f"--initial-memory={memory}"]
    run(f"{OUT}/wasm-ld", "-mwasm64", "--no-entry", "--stack-first", *sizes, "--gc-sections", *exports, f"{OUT}/{name}.o", *others, "-o", f"{OUT}/{name}.wasm")
    return f"{OUT}/{name}.wasm"


def wasm64():
    module("nd", 16 * PAGE)


TARGETS = {"aarch64": aarch64, "riscv64": riscv64, "wasm64": wasm64}


def make(name):
    try:
        TARGETS[name]()
        print(f"made: {name}", flush=True)
    except Skipped as why:
        print(f"skipped: {name}: {why}", flush=True)


def prepare():
    """Makes the folder of what is built, with the kit's clang under the name by which it is a linker of WebAssembly."""
    sys.dont_write_bytecode = True
    os.makedirs(OUT, exist_ok=True)
    if shutil.which("rt") and not os.path.lexists(f"{OUT}/wasm-ld"):
        os.symlink(clang(), f"{OUT}/wasm-ld")


def main(names):
    prepare()
    if shutil.which("rt"):
        bitcode()
    with ThreadPoolExecutor(2) as pool:
        list(pool.map(make, names))


if __name__ == "__main__":
    main(sys.argv[1:])
