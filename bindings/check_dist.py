"""check_dist: dist/, the node in C as it is committed. Its files are those of its stamp. With `full` the stamp has the sum of today's sources, and
where the toolchain is that of the stamp, dist/ is made again, and has the same bytes. nd.c and nd_small.c compile without a warning in each way that
is tried, and the examples and the tests print over them what they print over the archive, or what is committed where that isn't there. The memory
functions that nd.c has are the examples', also in threads. No call takes more stack than nd.h says. With `full` more ways and all programs are
tried, and those with sanitizers. The crate for Rust passes its tests over nd.c in four threads. The figures of README.md are today's."""
import os
import re
import sys
from collections import namedtuple
from concurrent.futures import ThreadPoolExecutor

import node_programs
import stack_bound
from check_programs import (BINDINGS, FEW_NODES, NEEDED, POOL, SMALL, STACK_SAID, TESTS, check_global, check_host, check_keeping, check_lines,
                            check_many, check_router, check_rust, check_stack, check_symbols, check_threads_of_many, check_traces)
from checking import INCLUDE, IS_FULL, TOP, WARNINGS, has, read, report, report_if, run, skip, timed

sys.path.insert(0, f"{BINDINGS}/targets")
import build  # noqa: E402
import dist  # noqa: E402
import stamp  # noqa: E402

DIST = f"{TOP}/dist"
EXAMPLES = ("host", "router", "global", "stack", "hear", "many", "gateway")
SANITIZED = ["-O1", "-g1", "-fsanitize=undefined,address", "-fno-sanitize-recover=all"]
# A way to compile a file of dist/: the compiler, its flags for the file and those for all that is linked with it, the file, and whether all programs
# run over it, or the quick ones.
Way = namedtuple("Way", "compiler flags linked file is_whole")
WAYS = [
    Way("gcc", ["-O2", "-m32"], ["-m32"], "nd.c", True),
    Way("gcc", ["-O2"], [], "nd.c", True),
    Way("clang", ["-O2"], [], "nd.c", True),
    Way("gcc", ["-O3"], [], "nd.c", False),
    Way("gcc", ["-Os"], [], "nd_small.c", True),
    Way("clang", ["-Os"], [], "nd_small.c", False),
    Way("gcc", ["-O0"], [], "nd.c", False),
    Way("clang", ["-O0"], [], "nd.c", False),
]
# What `full` tries besides. gcc takes minutes with its sanitizers.
MORE_WAYS = [
    Way("gcc", SANITIZED, SANITIZED, "nd.c", True),
    Way("clang", SANITIZED, SANITIZED, "nd.c", True),
    Way("clang", SANITIZED, SANITIZED, "nd_small.c", True),
    Way("gcc", ["-O2", "-DND_ISO_C"], [], "nd.c", True),
    Way("clang", ["-O3"], [], "nd.c", True),
    Way("clang", ["-O2", "-m32"], ["-m32"], "nd.c", True),
    Way("gcc", ["-O1"], [], "nd.c", True),
    Way("gcc", ["-Os", "-m32"], ["-m32"], "nd_small.c", True),
    Way("gcc", ["-O2"], [], "nd_small.c", True),
]
# The share of the runs that a way with sanitizers has.
SLOW = 5
QUICK = ("host", "hear", "trace", "misuse", "random", "pooled", "fuzz")
# The ways whose stack is measured, and the sentence of nd.h with the most bytes of each.
WITH_STACK = {**dict.fromkeys(("nd.c by gcc -O2", "nd.c by clang -O2", "nd_small.c by gcc -Os", "nd_small.c by clang -Os"), STACK_SAID),
              **dict.fromkeys(("nd.c by gcc -O0", "nd.c by clang -O0"), r"without optimisation a call over nd\.c takes up to ([\d,]+)")}
# The sentences of README.md with the bytes that functions return, and the program that prints these.
SAID = (r"`nd_node_bytes` of a host with 16 neighbours and the usual other limits is ([\d,]+)",
        r"`nd_pool_bytes` of it is ([\d,]+) for frames of at most 1,514",
        r"`nd_pool_bytes` of these limits is ([\d,]+) for frames of at most 590")
BYTES = """#include <stdio.h>
#include "nd.h"

int main(void)
{
    nd_limits few = {.neighbours = 16}, small = {%s};
    printf("%%zu %%zu %%zu\\n", nd_node_bytes(&few), nd_pool_bytes(&few, 1514), nd_pool_bytes(&small, 590));
    return 0;
}
""" % ", ".join(map(str, SMALL))
# README.md's lines for a Cortex-M4, the sentences with the bytes of flash, and the most that they may be.
M4 = ["arm-none-eabi-gcc", "-mthumb", "-mcpu=cortex-m4", "-Os", "-ffunction-sections", "-fdata-sections"]
M4_LINKED = ["-nostartfiles", "--specs=nosys.specs", "-Wl,--gc-sections", "-Wl,-e,main"]
GRAPH = "-fcallgraph-info=su"  # gcc writes the calls of an object and the stack of each, for stack_bound
FLASH = {"all functions of nd.h": (r"all functions of `nd\.h` take ([\d,]+) bytes", 165_000),
         "a host's loop": (r"a program with the loop of `nd\.h` and `pool\.c` ([\d,]+)", 140_000)}


def name_of(way):
    return f"{way.file} by {' '.join([way.compiler, *way.flags])}"


def place_of(room, name):
    return f"{room}/{re.sub(r'[ =,/]', '_', name)}"


def share_of(way):
    return SLOW if way.flags is SANITIZED else 1


# ---- what dist/ was made of ----

def check_stamp():
    """Requires that the files of dist/ are those of its stamp, and with `full` that it is of today's sources."""
    kept = read(stamp.STAMP)
    listed = re.findall(r"^sha256 .*$", kept, re.M)
    others = "\n".join(sorted(set(listed) ^ set(stamp.sums(DIST))))
    report_if(f"dist/STAMP has the sums of the {len(listed)} files of dist/", listed and not others, others)
    verdicts = dict(re.findall(r"^verdict (\w+) (.*)$", kept, re.M))
    is_proved = [*verdicts] == stamp.CRATES and all(verdict.startswith("logic=proved ") for verdict in verdicts.values())
    report_if(f"dist/STAMP has the verdicts of {' and '.join(stamp.CRATES)}: they are proved", is_proved, str(verdicts))
    if IS_FULL:
        said = "sources changed since dist/ was made: `make -C bindings dist page` makes it again"
        report_if("dist/STAMP has the sum of today's sources", f"sources {stamp.sum_of_sources()}\n" in kept, said)
    return kept


def check_copied():
    """Requires that the headers of dist/, its pool.c, and what CMake and Meson read are those of the repository."""
    copied = {name: f"{INCLUDE}/{name}" for name in dist.HEADERS} | {"pool.c": POOL}
    copied |= {name: f"{BINDINGS}/targets/{name}" for name in dist.BUILDS}
    others = [name for name, source in copied.items() if read(f"{DIST}/{name}") != read(source)]
    report_if(f"dist/ has the {len(copied)} files that it copies", not others, ", ".join(others))


def check_made(room, kept):
    """Makes dist/ again where the toolchain is that of its stamp, and compares the bytes."""
    if not IS_FULL:
        return skip("what is made again", "`bindings/check full` makes it, which takes some minutes")
    what = "dist/ is made again"
    try:
        build.need("rt")
        if f"tools {stamp.tools(build.kit())}\n" not in kept:
            return skip("what is made again", "the toolchain is another than that of dist/STAMP")
        dist.make(f"{room}/dist")
    except build.Skipped as why:
        return skip("what is made again", str(why))
    except SystemExit as why:
        return report_if(what, False, str(why))
    names = sorted({*os.listdir(DIST), *os.listdir(f"{room}/dist")} - {os.path.basename(stamp.STAMP)})
    others = [name for name in names if not (os.path.exists(f"{DIST}/{name}") and os.path.exists(f"{room}/dist/{name}"))
              or read(f"{DIST}/{name}") != read(f"{room}/dist/{name}")]
    return report_if(f"{what}, and has the same bytes: {', '.join(names)}", not others, f"other bytes: {', '.join(others)}")


# ---- programs over the node, compiled in each way ----

def can_compile(way):
    """Returns true if there is the compiler of a way, with the C library that it links."""
    if not has(way.compiler):
        return False
    said = run([way.compiler, *way.linked, "-x", "c", "-", "-o", os.devnull], input="#include <stdlib.h>\nint main(void) { return 0; }\n")
    if said.returncode:
        part = "programs with 32 bits" if "-m32" in way.linked else "programs with sanitizers"
        skip(part, f"{' '.join([way.compiler, *way.linked])} links no program")
    return said.returncode == 0


def compile_node(way, out, *more):
    """Compiles a file of dist/ in a way, and returns what the compiler said."""
    return run([way.compiler, "-std=c11", *way.flags, *WARNINGS, *more, f"-I{DIST}", "-c", f"{DIST}/{way.file}", "-o", out])


def tried(room, way, wanted):
    """Compiles a file of dist/ in a way, and runs the programs over it. Returns what the compiler said, and what `compared` returns."""
    known = {name: program for name, program in node_programs.programs(share_of(way)).items() if IS_FULL or way.is_whole or name in QUICK}
    place = place_of(room, name_of(way))
    os.mkdir(place)
    said = compile_node(way, f"{place}/node.o", "-DND_OWN_MEMORY")
    if said.returncode:
        return said, (0, 0, [])
    over = node_programs.Over([way.compiler, *way.linked, "-O1", f"-I{DIST}"], f"{place}/node.o", place)
    return said, node_programs.compared(over, known, wanted[share_of(way)])


def reference(room, node):
    """Returns what the programs print over a build of the node, by the share of their runs; or None. All runs are to end with status 0."""
    wanted, words = {}, ["gcc", "-O2", f"-I{INCLUDE}"]
    for share in (1, SLOW) if IS_FULL else (1,):
        known, place = node_programs.programs(share), f"{room}/reference_{share}"
        os.mkdir(place)
        failed = [text for name, program in known.items() if (text := node_programs.build(words, node, program, f"{place}/{name}"))]
        if not report_if("the programs are built", not failed, "\n".join(failed)[-3000:]):
            return None
        with ThreadPoolExecutor(2) as pool:
            wanted[share] = dict(zip(known, pool.map(lambda name: node_programs.outputs([f"{place}/{name}"], known[name]), known)))
        failed = [f"{name}: {it}" for name, said in wanted[share].items() for it in said if it[0]]
        report_if(f"{len(known)} programs over {os.path.basename(node)}", not failed, "\n".join(failed)[-3000:])
    return wanted


def node_to_compare_with(room):
    """Returns the archive, or if it is not there, nd.c compiled without memory functions; None if that fails."""
    if os.path.exists(f"{os.path.dirname(room)}/libnd_c.a"):
        return f"{os.path.dirname(room)}/libnd_c.a"
    skip("the archives", "the archive is not there")
    said = compile_node(Way("gcc", ["-O2"], [], "nd.c", True), f"{room}/nd.o", "-DND_OWN_MEMORY")
    return f"{room}/nd.o" if report("dist/nd.c, to compare with itself", said) else None


def check_ways(room, wanted):
    """Requires that the files of dist/ compile without a warning in each way, and that the programs print over them what is wanted."""
    ways = [way for way in WAYS + (MORE_WAYS if IS_FULL else []) if can_compile(way)]
    with ThreadPoolExecutor(2) as pool:
        done = list(zip(ways, pool.map(lambda way: tried(room, way, wanted), ways)))
    for way, (said, (runs, lines, wrong)) in done:
        what = f"dist/{name_of(way)}"
        if report_if(f"{what}, without a warning", said.returncode == 0 and not said.stderr, said.stderr[-4000:]):
            report_if(f"{what}: {runs} runs, {lines} lines as they are wanted", runs and not wrong, "\n".join(wrong[:8]))
    return [name_of(way) for way, _ in done]


def check_stacks(room, names):
    """Requires that no call over nd.c takes more stack than nd.h says; with `full` also where it is not optimised."""
    for name, sentence in WITH_STACK.items():
        if name in names and (IS_FULL or sentence == STACK_SAID):
            place = place_of(room, name)
            check_stack(place, f"{place}/node.o", f" of dist/{name}", sentence)


# ---- nd.c as it is ----

def check_as_it_is(room, compiler):
    """Compiles nd.c with its own memory functions and the examples over it, by README.md's line, and requires that these print what is committed."""
    what, place = f"dist/nd.c as it is by {compiler}", f"{room}/plain_{compiler}"
    os.mkdir(place)
    way = Way(compiler, ["-O2"], [], "nd.c", True)
    if not report(f"{what}, without a warning", compile_node(way, f"{place}/node.o")):
        return None
    words = [compiler, *node_programs.STANDARD, "-O2", *WARNINGS, f"-I{DIST}"]
    for name in EXAMPLES:
        said = run([*words, f"{TOP}/examples/c/{name}.c", f"{place}/node.o", "-pthread", "-o", f"{place}/{name}"])
        if not report_if(f"{name} over {what} is built", said.returncode == 0, said.stderr):
            return None
    check_host(f"host over {what}", f"{place}/host")
    check_router(f"{place}/router", f"router over {what}")
    check_global(f"{place}/global", f"global over {what}")
    check_keeping(f"{place}/stack", f"stack over {what}")
    check_lines(f"hear over {what}", [f"{place}/hear"])
    said = check_many(f"{place}/many", FEW_NODES, f"many over {what}")
    if said:
        check_threads_of_many(f"{place}/many", FEW_NODES, said)
    return f"{place}/node.o"


# ---- what README.md says ----

def number_said(sentence):
    found = re.search(sentence, " ".join(read(f"{DIST}/README.md").split()))
    return int(found[1].replace(",", "")) if found else None


def check_bytes_said(room, node):
    """Requires that README.md has the bytes that the functions return."""
    words = ["gcc", "-std=c11", f"-I{DIST}", "-x", "c", "-", "-x", "none", node, "-o", f"{room}/said"]
    if report("a program that prints bytes over dist/nd.c is built", run(words, input=BYTES)):
        said, wanted = run([f"{room}/said"]).stdout.split(), [str(number_said(sentence)) for sentence in SAID]
        report_if("dist/README.md has the bytes that the functions return", said == wanted, f"{said}, and README.md has {wanted}")


def text_bytes(path):
    """Returns the bytes of code and constants of an object or a program."""
    said = run(["size", path]).stdout.splitlines()
    return int(said[1].split()[0]) if len(said) == 2 else 0


def flash(room):
    """Returns the bytes of flash on a Cortex-M4 of nd_small.c, and of a host's loop over it with pool.c; or what the compiler said if it fails."""
    header = re.search(r"^ \*     (nd_node node = .*?nd_close\(&node\);)$", read(f"{INCLUDE}/nd.h"), re.M | re.S)[1]
    with open(f"{room}/m4_loop.inc", "w", encoding="utf-8") as file:
        file.write(re.sub(r"^ \*", "", header, flags=re.M))
    loop = [f'-DLOOP="{room}/m4_loop.inc"', "-DND_POOL_BYTES=65536", f"{TESTS}/flash.c", f"{DIST}/pool.c", f"{room}/m4.o", "-o", f"{room}/m4"]
    for words in (["-DND_OWN_MEMORY", GRAPH, "-c", f"{DIST}/nd_small.c", "-o", f"{room}/m4.o"], [*M4_LINKED, *loop]):
        said = run([*M4, "-std=c11", *WARNINGS, f"-I{DIST}", *words])
        if said.returncode:
            return said.stderr
    return dict(zip(FLASH, (text_bytes(f"{room}/m4.o"), text_bytes(f"{room}/m4"))))


def check_flash(room):
    """Requires that nd_small.c takes the flash on a Cortex-M4 that README.md says, where the compiler is that of its figures, and never more than a
    limit."""
    if not has_for_m4():
        return
    said = flash(room)
    if not report_if("dist/nd_small.c for a Cortex-M4, without a warning", isinstance(said, dict), str(said)):
        return
    version = run([M4[0], "-dumpversion"]).stdout.strip()
    is_known = f"arm-none-eabi-gcc {version}" in " ".join(read(f"{DIST}/README.md").split())
    for what, taken in said.items():
        sentence, most = FLASH[what]
        is_said = not is_known or number_said(sentence) == taken
        report_if(f"dist/nd_small.c on a Cortex-M4: {what} in {taken} bytes of flash", 0 < taken <= most and is_said,
                  f"README.md has {number_said(sentence)}")
    check_stack_on_m4(room)


def check_stack_on_m4(room):
    """Requires that no call of nd_small.c, which check_flash has compiled, takes more stack on a Cortex-M4 than nd.h says, with pool.c."""
    made = f"{room}/m4_pool.o"
    if not report("dist/pool.c for a Cortex-M4", run([*M4, "-std=c11", *WARNINGS, f"-I{DIST}", GRAPH, "-c", f"{DIST}/pool.c", "-o", made])):
        return
    found = stack_bound.bounds(f"{room}/m4.o", [f"{room}/m4.ci", f"{room}/m4_pool.ci"], build.functions(), "arm-none-eabi-objdump")
    function = max(found, key=lambda name: found[name][0])
    most, said = found[function][0], int(re.search(STACK_SAID, read(f"{INCLUDE}/nd.h"))[1].replace(",", ""))
    report_if(f"dist/nd_small.c on a Cortex-M4: {function} takes {most} bytes of stack at most, nd_hear {found['nd_hear'][0]}", 0 < most <= said,
              f"nd.h says {said}: {' > '.join(found[function][1])}")


def has_for_m4():
    said = [build.shutil.which(M4[0]), has("gcc") and build.shutil.which("size")]
    return all(said) or skip("other processors", f"{M4[0]} is not there (Debian: gcc-arm-none-eabi, libnewlib-arm-none-eabi)")


def check_over(room):
    """Runs the programs over the files of dist/, compiled in each way."""
    with timed("the node in C, compiled in each way"):
        node = node_to_compare_with(room)
        wanted = node and reference(room, node)
        if not wanted:
            return
        names = check_ways(room, wanted)
        trace = f"{place_of(room, 'nd.c by gcc -O2')}/trace"
        if report_if("trace over dist/nd.c is built", os.path.exists(trace)):
            check_traces(trace, "trace over dist/nd.c")
        check_symbols("dist/nd.c by gcc -O2", f"{place_of(room, 'nd.c by gcc -O2')}/node.o", NEEDED)
        check_stacks(room, names)


def check_dist(room):
    kept = check_stamp()
    check_copied()
    check_made(room, kept)
    if not has("gcc"):
        return
    room = f"{room}/of_dist"
    os.mkdir(room)
    nodes = {compiler: check_as_it_is(room, compiler) for compiler in (("gcc", "clang") if IS_FULL else ("gcc",)) if has(compiler)}
    if nodes["gcc"]:
        check_bytes_said(room, nodes["gcc"])
        check_over(room)
    check_flash(room)
    check_rust(room, "dist/nd.c")
