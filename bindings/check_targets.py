"""check_targets: the library on other processors. The archives and the module of the Makefile are built; nd.c and nd_small.c, the same files for
all, are compiled for each processor, where it is big-endian or has 32 bits too, and the command for some. The programs print on each what they print
on this machine over the archive: the rows of the corpus, longer scripts, the examples and the tests. Programs for other processors run under qemu."""
import json
import os
import shutil
import sys
from collections import namedtuple
from concurrent.futures import ThreadPoolExecutor

import check_command
import node_programs
from check_programs import BINDINGS, HOST, TESTS, difference
from checking import TOP, has, read, report_if, run, skip

OUT = f"{BINDINGS}/out/targets"
DIST = f"{TOP}/dist"
# The part of the runs of what takes long that is tried under an emulator.
SHARE = 20
# A target: its name, its compiler with the flags for it, its qemu, and the archive for it, or the file of dist/ with the flags for that.
Target = namedtuple("Target", "name compiler emulator archive file flags", defaults=[None, "nd.c", ["-O2"]])
ARM = ["arm-linux-gnueabihf-gcc"]
TARGETS = [
    Target("aarch64", ["aarch64-linux-gnu-gcc"], "qemu-aarch64", f"{OUT}/aarch64/libnd_c.a"),
    Target("riscv64", ["riscv64-linux-gnu-gcc"], "qemu-riscv64", f"{OUT}/riscv64/libnd_c.a"),
    Target("nd.c on aarch64", ["aarch64-linux-gnu-gcc"], "qemu-aarch64"),
    Target("nd.c on arm, 32 bits", ARM, "qemu-arm"),
    Target("nd_small.c on arm, Thumb-2, 32 bits", [*ARM, "-mthumb"], "qemu-arm", None, "nd_small.c", ["-Os"]),
    Target("nd.c on s390x, big-endian", ["s390x-linux-gnu-gcc"], "qemu-s390x"),
    Target("nd.c on mips, 32 bits, big-endian", ["mips-linux-gnu-gcc"], "qemu-mips"),
    Target("nd_small.c on powerpc, 32 bits, big-endian", ["powerpc-linux-gnu-gcc"], "qemu-ppc", None, "nd_small.c", ["-Os"]),
]
# Where the command runs too.
COMMANDS = [(ARM, "qemu-arm"), (["s390x-linux-gnu-gcc"], "qemu-s390x")]
# Debian's packages of what is not called by the name of its package. The compiler of one version, as gcc-12-.., does as well.
VERSIONS = ("", "-14", "-13", "-12")


def compiler_of(words):
    """Returns the words of a compiler as it is called on this machine, by its version if need be, or None."""
    names = [f"{words[0]}{version}" for version in VERSIONS]
    there = [name for name in names if shutil.which(name)]
    return [there[0], *words[1:]] if there else None


def lacking(compiler, emulator):
    """Returns what is missing to build and run on a target, or None."""
    if not compiler_of(compiler):
        return f"{compiler[0]} is not there (Debian: gcc-{compiler[0].removesuffix('-gcc')})"
    return None if shutil.which(emulator) else f"{emulator} is not there (Debian: qemu-user)"


def known_programs():
    """Returns the programs that run on other processors: all but the one that takes minutes there."""
    return {name: program for name, program in node_programs.programs(SHARE).items() if name != "exhausted"}


def tried(room, target, wanted):
    """Builds the programs for a target and runs them. Returns what `compared` returns, and nothing, or what the compiler said of a file of dist/."""
    place, compiler = f"{room}/{target.name.replace(' ', '_').replace(',', '')}", compiler_of(target.compiler)
    os.mkdir(place)
    node, include = target.archive, f"{TOP}/include"
    if not node:
        node, include = f"{place}/node.o", DIST
        words = [*compiler, "-std=c11", *target.flags, "-Wall", "-Wextra", "-DND_OWN_MEMORY", f"-I{DIST}"]
        said = run([*words, "-c", f"{DIST}/{target.file}", "-o", node])
        if said.returncode:
            return (0, 0, []), said.stderr
    over = node_programs.Over([*compiler, "-static", "-O1", f"-I{include}"], node, place, [target.emulator])
    return node_programs.compared(over, known_programs(), wanted), ""


def check_processors(room, wanted):
    """Requires that the programs print on each target what they print on this machine."""
    there = []
    for target in TARGETS:
        why = lacking(target.compiler, target.emulator)
        if why or (target.archive and not os.path.exists(target.archive)):
            skip("other processors", f"{target.name}: {why or 'it was not built'}")
        else:
            there.append(target)
    with ThreadPoolExecutor(2) as pool:
        done = list(zip(there, pool.map(lambda target: tried(room, target, wanted), there)))
    for target, ((runs, lines, wrong), said) in done:
        if report_if(f"{target.name}: it is compiled", not said, said[-4000:]):
            report_if(f"{target.name}: {runs} runs, {lines} lines as on this machine", runs and not wrong, "\n".join(wrong[:8]))


def check_commands(room):
    """Requires that the command writes on other processors what the corpus and the examples have."""
    for words, emulator in COMMANDS:
        if lacking(words, emulator):
            continue
        program, what = f"{room}/{emulator}-ndpctl", f"dist/ndpctl.c by {words[0]} under {emulator}"
        said = run([*compiler_of(words), "-static", "-O1", f"{DIST}/ndpctl.c", "-o", program])
        if report_if(f"{what}: it is compiled", said.returncode == 0, said.stderr[-4000:]):
            check_command.check_rows(what, [emulator, program])


def reference(room, archive):
    """Returns what the programs print on this machine over the archive, by their names, or None if one is not built."""
    known, place = known_programs(), f"{room}/of_targets"
    os.mkdir(place)
    failed = [text for name, program in known.items()
              if (text := node_programs.build(["gcc", "-O2", f"-I{TOP}/include"], archive, program, f"{place}/{name}"))]
    if not report_if("the programs for this machine are built", not failed, "\n".join(failed)[-3000:]):
        return None
    return {name: node_programs.outputs([f"{place}/{name}"], program) for name, program in known.items()}


def check_wasm64(traced):
    """Requires that the module with a 64-bit memory does in node what the archive does: the example of a host, and the runs of `trace`."""
    what = "wasm64: the example of a host in node"
    if not os.path.exists(f"{OUT}/nd.wasm") or not has("node"):
        return
    words = ["node", "--experimental-wasm-memory64", f"{BINDINGS}/targets/host.mjs", f"{OUT}/nd.wasm", HOST[0], "0"]
    said = run(words, input=read(f"{TOP}/examples/host.hex"))
    if said.returncode == 9 or "CompileError" in said.stderr:
        return skip("other processors", "node has no 64-bit memory")
    report_if(what, said.stdout == read(f"{TOP}/examples/host.txt"), said.stdout + said.stderr)
    words = ["node", "--experimental-wasm-memory64", f"{TESTS}/runs.mjs", f"{TOP}/docs/try/index.html", f"{OUT}/nd.wasm"]
    said = run(words, input=json.dumps(node_programs.traced()))
    wanted = [text for _, text, _ in traced]
    wrong = [difference(one, other) for one, other in zip(json.loads(said.stdout or "[]"), wanted) if one != other]
    lines = sum(text.count("\n") for text in wanted)
    report_if(f"wasm64 in node: {len(wanted)} scripts, {lines} lines as on this machine", said.stdout and not wrong, said.stderr + "\n".join(wrong[:4]))
    return None


def check_targets(room, archive):
    """Builds the targets, and compares them with the archive for this machine."""
    if os.environ.get("ND_ARCHIVE"):
        return skip("other processors", "ND_ARCHIVE names an archive for this machine")
    if not has("gcc"):
        return None
    made = run([sys.executable, f"{BINDINGS}/targets/build.py", "aarch64", "riscv64", "wasm64"])
    for line in made.stdout.splitlines():
        if line.startswith("skipped: "):
            skip("other processors", line.removeprefix("skipped: "))
    if not report_if("targets/build.py", made.returncode == 0, made.stdout + made.stderr):
        return None
    wanted = reference(room, archive)
    if not wanted:
        return None
    check_processors(room, wanted)
    check_commands(room)
    return check_wasm64(wanted["trace"])
