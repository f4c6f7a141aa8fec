"""check_programs: the archives, and the programs over them: the examples and the tests in C, and the crate for Rust. Each also runs under valgrind, on
fewer frames where that takes long."""
import glob
import os
import re
import resource
import subprocess
import sys
import tarfile

import archives
from check_hostile import check_hostile
from checking import INCLUDE, IS_FULL, TOP, WARNINGS, has, read, report, report_if, run, run_for, skip, timed

BINDINGS = f"{TOP}/bindings"
TESTS = f"{BINDINGS}/tests"
sys.path.insert(0, TESTS)
import corpus  # noqa: E402
import frames  # noqa: E402
import hostile  # noqa: E402
import scripts  # noqa: E402
import streams  # noqa: E402

# The symbols that the archive of a node takes from the program.
NEEDED = {"memcpy", "memmove", "memset", "nd_alloc", "nd_realloc", "nd_free"}
HEAP = f"{BINDINGS}/c/heap.c"
POOL = f"{BINDINGS}/c/pool.c"
COUNTING = f"{TESTS}/heap.c"
VALGRIND = ["valgrind", "-q", "--error-exitcode=99", "--leak-check=full", "--errors-for-leak-kinds=definite"]
HOST = ["34:56:78:9a:bc:de", "word:0"]
ROUTER = ["02:00:00:00:00:01", "word:0"]
NDPCTL = f"{TOP}/crates/ndpctl/out/ndpctl"
MIXED = "\n".join(frames.mixed(300)) + "\n"
FEW = "\n".join(frames.mixed(40)) + "\n"
FULL = "\n".join(frames.full(2049)) + "\n"
STEADY = "\n".join(frames.steady(1000)) + "\n"
NAMED = hostile.named()[0]
# The limits of a small node, in the order of nd.h.
SMALL = [8, 2, 4, 4, 2, 2, 4, 8, 1, 1, 3]
# A simulation whose nodes fit into the memory that dist/nd.c has unless another is asked for.
FEW_NODES = {"hosts": 9, "links": 3, "routers": 2, "seconds": 120}
MORE_NODES = {"hosts": 100, "links": 8, "routers": 4, "seconds": 300}
# Seconds, for an example that takes a small part of one.
LONGEST = 60


def archive_of(crate, variable):
    """Returns the archive of a crate: the one that the variable names, or the one that is made of what `rt lib` makes. None if there is none."""
    if os.environ.get(variable):
        return os.environ[variable]
    folder = f"{TOP}/crates/{crate}"
    if not os.path.isdir(folder):
        return skip("the archives", f"crates/{crate} is not there")
    if not has("rt"):
        return None
    try:
        made, verdict = archives.make(crate)
    except subprocess.CalledProcessError as why:
        return report_if(f"the archive of {crate} is built", False, (why.stdout + why.stderr)[-4000:]) or None
    report_if(f"the archive of {crate} is built, and its verdict is that of PROVER.md", f"\n{verdict}\n" in read(f"{TOP}/docs/PROVER.md"), verdict)
    return made


def renamed(room, archive):
    """Returns a copy of the archive of a node in which the memory functions have the names of nd.h. None if there is none."""
    if not archive or not has("objcopy"):
        return None
    words = ["objcopy", f"--redefine-syms={BINDINGS}/c/memory.names", archive, f"{room}/libnd_c.a"]
    return words[-1] if report("the memory functions of the archive have the names of nd.h", run(words)) else None


def check_symbols(what, archive, needed):
    """Requires that an archive needs no other symbols than these."""
    if has("nm"):
        listed = run(["nm", archive]).stdout
        others = set(re.findall(r"^ +U (\S+)", listed, re.M)) - set(re.findall(r"^\w+ [TtRrDdBb] (\S+)", listed, re.M)) - needed
        report_if(f"{what} needs no other symbols than {len(needed)}", not others, f"it needs {sorted(others)}\n")


def build(room, name, sources, *more):
    """Builds a program and returns its path, or None if that fails."""
    words = ["gcc", "-std=c11", "-D_POSIX_C_SOURCE=200809L", "-O2", "-g", *WARNINGS, f"-I{INCLUDE}", *sources, *more, "-o", f"{room}/{name}"]
    is_built = run(words)
    return f"{room}/{name}" if report_if(f"{name} is built", is_built.returncode == 0, is_built.stderr) else None


def check_runs(what, words, text="", under=None):
    """Runs a program, and then under valgrind, on the text `under` if it is given. Returns what it printed first."""
    first = run(words, input=text)
    report(what, first)
    if has("valgrind"):
        report(f"{what}, under valgrind", run([*VALGRIND, *words], input=text if under is None else under))
    return first.stdout


def check_hear(room):
    archive = archive_of("nd_hear_c", "ND_HEAR_ARCHIVE")
    if not archive or not has("gcc"):
        return
    check_symbols("the archive of nd_hear_c", archive, set())
    program = build(room, "hear", [f"{TOP}/examples/c/hear.c", archive])
    if not program:
        return
    check_lines("hear", [program])
    check_runs("hear reads the frames", [program], read(f"{TOP}/examples/link.hex"))
    check_long_line(room, archive)


def check_long_line(room, archive):
    """Requires that `hear` reads a line that fills its buffer. It is built by each compiler, since each lays the buffers out in its own way: bytes 0x33
    that are written behind the frame are digits again if the frame is behind the line."""
    for compiler in ("gcc", "clang"):
        what = f"hear by {compiler}: a line as long as its buffer"
        if not has(compiler):
            continue
        words = [compiler, "-std=c11", "-D_POSIX_C_SOURCE=200809L", "-O2", f"-I{INCLUDE}", f"{TOP}/examples/c/hear.c", archive, "-o", f"{room}/long"]
        said = run([f"{room}/long"], input="3" * 16399) if report(f"{what}: it is built", run(words)) else None
        report_if(what, said and said.returncode == 0 and said.stdout == "drop 2\n", str(said))


def check_lines(what, words):
    """Requires that the example `hear` prints for the frames of a link, and for those of the corpus, the beginnings of the lines of `ndpctl check`."""
    rows = [*zip(read(f"{TOP}/examples/link.hex").splitlines(), read(f"{TOP}/examples/link.txt").splitlines()), *corpus.checks()]
    said = run(words, input="".join(f"{frame}\n" for frame, _ in rows))
    lines = said.stdout.splitlines()
    wrong = [f"{line!r} for {wanted!r}" for line, (_, wanted) in zip(lines, rows) if not f"{wanted} ".startswith(f"{line} ")]
    report_if(f"{what}: {len(rows)} frames, of each what ndpctl check prints", len(lines) == len(rows) and not wrong, said.stderr + "\n".join(wrong[:4]))
    check_last_line(what, words, read(f"{TOP}/examples/link.hex"))


def check_last_line(what, words, text):
    """Requires that an example reads nothing behind the end of a last line without a line feed. The digit there is no byte, as no other character is."""
    said, wanted = (run(words, input=text + end) for end in ("3", "z"))
    is_same = said.returncode == wanted.returncode == 0 and said.stdout == wanted.stdout
    report_if(f"{what}: a last line that ends with half a byte", is_same, difference(said.stdout, wanted.stdout))


def check_no_moment(what, words, text):
    """Requires that an example names each line that begins with no moment, or with one above 2^46, and passes over it. Some follow each line of a
    text: first digits of a frame, of which 19, all, or four are decimal."""
    bad = ["3333000000020200000a1", "33330000000102000000", "3333ff9abcde0200", f"{2**62 - 1} 3333", f"{2**46 + 1}", "", "-1", "x 41", "5x41"]
    wanted, lines = run(words, input=text), [line for known in text.splitlines() for line in (known, *bad)]
    said = run_for(LONGEST, words, input="".join(f"{line}\n" for line in lines))
    named = said and [int(number) for number in re.findall(r"^\w+: line (\d+) has no moment up to 2\^46$", said.stderr, re.M)]
    all_bad = [number for number in range(1, len(lines) + 1) if number % (len(bad) + 1) != 1]
    is_so = said and (said.returncode, said.stdout, named) == (0, wanted.stdout, all_bad)
    report_if(f"{what}: lines without a moment are named", is_so, str(said))


def with_a_moment(text):
    """Returns lines of an example with one more, which has the last moment and no frame yet."""
    return f"{text}{text.splitlines()[-1].split()[0]} "


def check_host(what, program):
    """Requires that a host of the examples prints the expected text for its frames."""
    text = read(f"{TOP}/examples/host.hex")
    said = check_runs(what, [program, *HOST], text)
    report_if(f"{what} prints the expected text", said == read(f"{TOP}/examples/host.txt"), said)
    check_last_line(what, [program, *HOST], with_a_moment(text))
    check_no_moment(what, [program, *HOST], text)


def check_router(program, what="router"):
    """Requires that the router of the examples sends for its frames what the same router sends by `ndpctl run`."""
    text = read(f"{TOP}/examples/router.hex")
    said = check_runs(what, [program, *ROUTER], text)
    sent = [line for line in read(f"{TOP}/examples/scripts/router.output").splitlines() if line.split()[1] == "tx"]
    wanted = read(f"{TOP}/examples/router.txt")
    report_if(f"{what} sends the expected frames", said == wanted and wanted.splitlines() == sent, said)
    check_last_line(what, [program, *ROUTER], with_a_moment(text))
    check_no_moment(what, [program, *ROUTER], text)


def check_global(program, what="global"):
    """Requires that the router with a global address sends and takes for its frames what the same router does by `ndpctl run`."""
    text = read(f"{TOP}/examples/global.hex")
    said = check_runs(what, [program, *ROUTER], text)
    done = [line for line in read(f"{TOP}/examples/scripts/global.output").splitlines() if line.split()[1] in ("tx", "up", "assigned")]
    wanted = read(f"{TOP}/examples/global.txt")
    report_if(f"{what} prints the expected text", said == wanted and wanted.splitlines()[:len(done)] == done, said)
    check_last_line(what, [program, *ROUTER], with_a_moment(text))
    check_no_moment(what, [program, *ROUTER], text)


def check_keeping(program, what="stack"):
    """Requires that the stack that keeps its packets sends the frames that a node sends by `ndpctl run` which keeps them itself."""
    text = read(f"{TOP}/examples/stack.hex")
    said = check_runs(what, [program, *HOST], text)
    sent = [line for line in read(f"{TOP}/examples/scripts/stack.output").splitlines() if line.split()[1] == "tx"]
    wanted = read(f"{TOP}/examples/stack.txt")
    report_if(f"{what} prints the expected text", said == wanted and wanted.splitlines()[:len(sent)] == sent, said)
    check_last_line(what, [program, *HOST], with_a_moment(text))
    check_no_moment(what, [program, *HOST], text)


def simulated(program, numbers, **more):
    """Returns what `many` prints for these arguments but for its time, by the names of its lines; or None if it fails."""
    said = run([program, *(f"{name}={number}" for name, number in {**numbers, **more}.items())])
    return dict(line.split() for line in said.stdout.splitlines()[:-2]) if said.returncode == 0 else None


def check_many(program, numbers, what="many"):
    """Requires that a simulation repeats itself, that another seed gives another one, and what the RFCs say of its end: each host has its link-local
    address and one of each prefix, each router its link-local address and the one that it is given; each packet has arrived or is lost."""
    first, again, other = simulated(program, numbers), simulated(program, numbers), simulated(program, numbers, seed=2)
    if not report_if(f"{what}: {' '.join(map(str, numbers.values()))}", first and again and other, "it failed"):
        return None
    report_if(f"{what}: the same seed, the same lines", first == again, f"{first}\n{again}")
    report_if(f"{what}: another seed, another hash", first["hash"] != other["hash"], first["hash"])
    for counts in (first, other):
        known = {name: int(number) for name, number in counts.items() if name != "hash"}
        routers = numbers["links"] * numbers["routers"]
        wanted = (numbers["hosts"] + routers, numbers["hosts"] * (1 + numbers["routers"]) + routers * 2, 0)
        is_whole = (known["nodes"], known["addresses_assigned"], known["refusals"]) == wanted
        report_if(f"{what}: {known['nodes']} nodes, {known['addresses_assigned']} addresses", is_whole, str(counts))
        is_kept = known["packets_sent"] == known["packets_arrived"] + known["packets_lost"]
        happened = min(known[name] for name in ("packets_arrived", "packets_lost", "neighbours_failed", "redirects_heard"))
        report_if(f"{what}: {known['packets_sent']} packets, {known['redirects_heard']} Redirects", is_kept and happened > 0, str(counts))
    return first


def check_threads_of_many(program, numbers, wanted):
    """Requires that a simulation is the same with one thread, with a few, and with a thread for each link."""
    for threads in (2, numbers["links"]):
        said = simulated(program, numbers, threads=threads)
        report_if(f"many: {threads} threads, the lines of one", said == wanted, f"{said}\n{wanted}")


def check_simulations(room, archive):
    """Builds and checks `many` over the archive, with few nodes and with more, in one thread and in several."""
    program = build(room, "many", [f"{TOP}/examples/c/many.c", HEAP, archive], "-pthread")
    if not program:
        return
    for numbers in (FEW_NODES, MORE_NODES):
        said = check_many(program, numbers)
        if said:
            check_threads_of_many(program, numbers, said)
    words = [program, *(f"{name}={number}" for name, number in FEW_NODES.items()), f"threads={FEW_NODES['links']}"]
    if has("valgrind"):
        report("many, under valgrind", run([*VALGRIND, *words]))
        report("many, under helgrind", run(["valgrind", "--tool=helgrind", "-q", "--error-exitcode=99", *words]))


def check_traces(program, what="trace"):
    """Runs the rows of `ndpctl run` over the library, and compares what it prints with their texts."""
    wrong = []
    known = corpus.runs()
    for row in known:
        said = run([program, *row.words], input=row.script)
        if said.returncode or said.stdout != row.text:
            wrong.append(f"{row.name}: {said.stderr}{difference(said.stdout, row.text)}")
    report_if(f"{what}: {len(known)} rows of ndpctl run", not wrong, "\n".join(wrong[:8]))
    longest = max(known, key=lambda row: len(row.script))
    if has("valgrind"):
        report(f"{what}: {longest.name}, under valgrind", run([*VALGRIND, program, *longest.words], input=longest.script))


def difference(said, wanted):
    """Returns the first line that differs."""
    for number, (one, other) in enumerate(zip([*said.splitlines(), "(end)"], [*wanted.splitlines(), "(end)"]), 1):
        if one != other:
            return f"line {number} is {one[:200]!r}, not {other[:200]!r}"
    return "one has more lines"


def check_beside_ndpctl(program):
    """Runs longer scripts over the library and by ndpctl, with the same seeds."""
    if not os.path.exists(NDPCTL):
        return skip("programs compared with ndpctl", "crates/ndpctl/out/ndpctl is not there")
    for seed in (1, 2, 3):
        for role in ("host", "router"):
            args = ["run", "--role", role, "--mac", frames.HOST_MAC, "--draws", f"seed:{seed}"]
            script = scripts.long(seed, 2000)
            said, wanted = run([program, *args], input=script), run([NDPCTL, *args], input=script)
            is_same = said.returncode == wanted.returncode == 0 and said.stdout == wanted.stdout
            report_if(f"trace: as ndpctl run, {role}, seed {seed}, {len(wanted.stdout.splitlines())} lines", is_same,
                      said.stderr + wanted.stderr + difference(said.stdout, wanted.stdout))


def check_memory_of_run():
    """Requires that a line that is far ahead takes no more memory than a near one: with 32 MiB ndpctl run writes for it what it writes where there is a line
    for each hour. The text has some 15 million bytes."""
    if not os.path.exists(NDPCTL):
        return
    words = [NDPCTL, "run", "--role", "router", "--mac", frames.HOST_MAC]
    first, hour, last = "0 advertise 3 4 1800 64 - 0 0 0\n", 3_600_000, 300_000_000
    wanted = run(words, input=first + "".join(f"{at} at\n" for at in [*range(hour, last, hour), last]))
    limit = (32 << 20, 32 << 20)
    said = run(words, input=f"{first}{last} at\n", preexec_fn=lambda: resource.setrlimit(resource.RLIMIT_AS, limit))
    is_same = said.returncode == wanted.returncode == 0 and said.stdout == wanted.stdout
    report_if(f"ndpctl run: {len(wanted.stdout.splitlines())} lines of text for one line, in 32 MiB", is_same,
              said.stderr + wanted.stderr + difference(said.stdout, wanted.stdout))


def choices():
    """Returns choices of limits, in the order of nd.h: each at 1 and at its greatest, the others usual; and those that also run under valgrind: all at
    1, all at their greatest, and those of a small node."""
    found = re.findall(r"RANGE\(\w+, (\d+), (\d+)\)", read(f"{TESTS}/ranges.h"))
    usual, greatest = ([int(numbers[i]) for numbers in found] for i in range(2))
    return [usual[:i] + [number] + usual[i + 1:] for i in range(len(found)) for number in (1, greatest[i])], [[1] * len(found), greatest, SMALL]


def check_bytes(program):
    """Requires that nodes take no more bytes than nd_node_bytes says, where the tables are full."""
    corners, others = choices()
    wrong = []
    for limits in corners:
        said = run([program, *map(str, limits)], input=FULL)
        print(said.stdout, end="")
        wrong += [f"{limits}: {said.stderr}"] if said.returncode else []
    report_if(f"bytes: {len(corners)} choices of limits", len(corners) == 2 * len(SMALL) and not wrong, "\n".join(wrong))
    for limits in others:
        print(check_runs(f"bytes: {' '.join(map(str, limits))}", [program, *map(str, limits)], FULL, FULL), end="")


def check_pool(program):
    """Requires that a pool of nd_pool_bytes is enough for all that a node does, and that a part of it isn't: half of it where packets take most,
    and a quarter where tables and lists do."""
    many, greatest = [64] + [0] * 9 + [8], [int(number) for number in re.findall(r"RANGE\(\w+, \d+, (\d+)\)", read(f"{TESTS}/ranges.h"))]
    choices_of = [([1] * len(SMALL), 250), (SMALL, 250), ([16] + [0] * 10, 250), (many, 500), ([0] * len(SMALL), 500), (greatest[:2] + [0] * 9, 500)]
    wrong = []
    for limits, part in choices_of:
        for role, longest in (("0", 590), ("0", 1514), ("1", 590), ("1", 1514)):
            for thousandths, status in ((1000, 0), (part, 3)):
                said = run([program, role, "4861", str(longest), str(thousandths), *map(str, limits)], input=FULL)
                if status == 0:
                    print(f"  {' '.join(map(str, limits))}, {('host', 'router')[int(role)]}, {longest}: {said.stdout}", end="")
                wrong += [f"{limits}, {longest}: {said.stdout}{said.stderr}"] if said.returncode != status else []
    report_if(f"pooled: {len(choices_of)} choices of limits, in a pool of nd_pool_bytes, and in a part of it", not wrong, "\n".join(wrong))
    for role in ("0", "1"):
        check_runs(f"pooled: a small node, {('host', 'router')[int(role)]}", [program, role, "4861", "1514", "1000", *map(str, SMALL)], FULL, FULL)


def check_loops(room, archive):
    """Runs the loop at the head of nd.h on a link with a frame that is longer than its buffer, and requires that README.md has the same loop."""
    header = re.search(r"^ \*     (nd_node node = .*?nd_close\(&node\);)$", read(f"{INCLUDE}/nd.h"), re.M | re.S)[1]
    loops = {"nd.h": re.sub(r"^ \*", "", header, flags=re.M)}
    loops["README.md"] = re.search(r"^```c\n(nd_node node = .*?)```$", read(f"{TOP}/README.md"), re.M | re.S)[1]
    report_if("the loops of nd.h and of README.md are the same", len({"".join(text.split()) for text in loops.values()}) == 1)
    for name, text in loops.items():
        with open(f"{room}/loop.inc", "w", encoding="utf-8") as file:
            file.write(text)
        giant = build(room, "giant", [f"{TESTS}/giant.c", COUNTING, archive], f'-DLOOP="{room}/loop.inc"')
        if giant:
            check_runs(f"giant: the loop of {name}, and a frame longer than its buffer", [giant])


# The sentence of nd.h with the bytes of stack that a call has.
STACK_SAID = r"A call has ([\d,]+) bytes of stack\."


def check_stack(room, node, over="", sentence=STACK_SAID):
    """Measures how much stack the calls of other tests take over the archive, or over another build of the node, and requires that nd.h says enough."""
    if os.uname().machine != "x86_64":
        return skip("programs for x86-64", "nd.h says of x86-64 how much stack a call has")
    header = re.sub(r"\n \* *", " ", read(f"{INCLUDE}/nd.h"))
    bytes_said = re.search(sentence, header)[1].replace(",", "")
    calls = set(re.findall(r"^\w+ (nd_\w+)\(", read(f"{INCLUDE}/nd.h") + read(f"{INCLUDE}/nd_hear.h"), re.M))
    calls -= {"nd_version", "nd_refusal_of", "nd_limit_of", "nd_free"}
    more = ["-Dmain=tested_main", f"-DSTACK_BYTES={bytes_said}", "-pthread", *(f"-Wl,--wrap={call}" for call in sorted(calls))]
    few = [["0", "4000", "4861", "0"], ["1", "4000", "4861", "0"]]
    for name, runs, text in (("scarce", [[]], NAMED), ("limits", [[]], FULL), ("random", few, NAMED)):
        program = build(room, f"stack_{name}", [f"{TESTS}/{name}.c", f"{TESTS}/stack.c", COUNTING, node], *more)
        for words in runs if program else ():
            said = run([program, *words], input=text)
            report(f"stack{over}: the calls of {' '.join([name, *words])} take at most {bytes_said} bytes", said)
            print(f"  {said.stderr.splitlines()[-1] if said.stderr else ''}")
    return None


def check_tests(room, archive):
    check_loops(room, archive)
    check_stack(room, archive)
    messages = build(room, "messages", [f"{TESTS}/messages.c", COUNTING, archive])
    for number, role in ((0, "host"), (1, "router")) if messages else ():
        print(f"  {check_runs(f'messages: {role}', [messages, str(number)], MIXED, FEW)}", end="")
    misuse = build(room, "misuse", [f"{TESTS}/misuse.c", COUNTING, archive])
    if misuse:
        print(check_runs("misuse", [misuse]), end="")
    refuse = build(room, "refuse", [f"{TESTS}/refuse.c", COUNTING, archive])
    for number, role in ((0, "host"), (1, "router")) if refuse else ():
        print(check_runs(f"refuse: {role}, 300 frames, each request refused once", [refuse, str(number)], MIXED, FEW), end="")
    threads = build(room, "threads", [f"{TESTS}/threads.c", HEAP, archive], "-pthread")
    if threads:
        print(check_runs("threads", [threads], MIXED, FEW), end="")
        if has("valgrind"):
            report("threads, under helgrind", run(["valgrind", "--tool=helgrind", "-q", "--error-exitcode=99", threads], input=FEW))
    limits = build(room, "limits", [f"{TESTS}/limits.c", COUNTING, archive])
    if limits:
        print(check_runs("limits: each at 1 and at its greatest", [limits], FULL, FULL), end="")
    size = build(room, "bytes", [f"{TESTS}/bytes.c", COUNTING, archive])
    if size:
        check_bytes(size)
    check_leases(room, archive)
    pooled = build(room, "pooled", [f"{TESTS}/pooled.c", POOL, archive], "-DND_POOL_GIVEN")
    if pooled:
        check_pool(pooled)
    trace = build(room, "trace", [f"{TESTS}/trace.c", COUNTING, archive])
    if trace:
        check_traces(trace)
        check_beside_ndpctl(trace)
    check_memory_of_run()
    with timed("hostile input"):
        check_hostile(room, archive, build, trace)
    with timed("floods"):
        check_floods(room, archive)
    check_by_hand(room, build(room, "measure", [f"{TESTS}/measure.c", HEAP, archive]))


def check_by_hand(room, measure):
    """Requires that the C by hand with which `measure compare` compares the library gives the same records, frames, paths and tables for the same lines."""
    by_hand = build(room, "by_hand", [f"{BINDINGS}/compare/by_hand.c"], f"-I{TESTS}")
    for kind, stream in streams.COMPARED.items() if measure and by_hand else ():
        wrong, count = [], 0
        for known in (16, 127, 512, 2048):
            words, text = [str(max(512, known)), str(streams.PREPARED), "records"], streams.text_of(stream(known))
            said, wanted = run([by_hand, *words], input=text), run([measure, *words], input=text)
            count += sum(int(lines) for lines in re.findall(r"^(\d+) lines, 0 refused", wanted.stdout, re.M))
            if said.returncode or wanted.returncode or said.stdout != wanted.stdout:
                wrong.append(f"{known} neighbours: {said.stderr}{wanted.stderr}{difference(said.stdout, wanted.stdout)}")
        report_if(f"by_hand: {kind}, {count} lines: the records and the tables of the library", count > 0 and not wrong, "\n".join(wrong))


def check_floods(room, archive):
    """Floods the link of a node, with the policy `speakers` and without it."""
    flooded = build(room, "flooded", [f"{TESTS}/flooded.c", HEAP, archive])
    for neighbours in ("512", "2048") if flooded else ():
        for policies in ("0", "2"):
            said = run([flooded, neighbours, policies])
            report(f"flooded: {neighbours} neighbours, policies {policies}", said)
            print(said.stdout + said.stderr, end="")


def check_leases(room, archive):
    """Compares nodes that remember their answers with ones that forget them, and nodes that are asked with ones whose leases are used."""
    program = build(room, "leases", [f"{TESTS}/leases.c", COUNTING, archive])
    for number, role in ((0, "host"), (1, "router")) if program else ():
        for seed in range(4861, 4861 + (4 if IS_FULL else 1)):
            said = run([program, str(number), "50000", str(seed)], input=STEADY)
            report(f"leases: {role}, runs of 50000 steps, seed {seed}", said)
            print(said.stdout, end="")
        if has("valgrind"):
            report(f"leases: {role}, under valgrind", run([*VALGRIND, program, str(number), "1000", "4861"], input=STEADY))


def check_bare(room, archive):
    """Builds and runs a host without a C library, in a pool."""
    if os.uname().machine != "x86_64":
        return skip("programs for x86-64", "bare is for x86-64")
    more = ["-ffreestanding", "-fno-stack-protector", "-nostdlib", "-static", "-no-pie"]
    pool = build(room, "pool", [f"{TESTS}/pool.c", POOL])
    if pool:
        report("pool: 300,000 requests", run([pool, "300000"]))
    exhausted = build(room, "exhausted", [f"{TESTS}/exhausted.c", POOL, archive], "-DND_POOL_GIVEN")
    if exhausted:
        said = run([exhausted])
        report("exhausted: pools that packets fill, and a day", said)
        print(said.stdout, end="")
    bare = build(room, "bare", [f"{TESTS}/bare.c", POOL, archive], *more)
    if bare:
        said = run([bare])
        report_if("bare: a host without libc", said.returncode == 0 and said.stdout == "frame\nassigned\nframe\nframe\n", said.stdout)
    return None


def check_examples(room, archive):
    host = build(room, "host", [f"{TOP}/examples/c/host.c", HEAP, archive])
    if host:
        check_host("host", host)
    in_pool = build(room, "host_in_a_pool", [f"{TOP}/examples/c/host.c", POOL, archive])
    if in_pool:
        check_host("host in a pool", in_pool)
    router = build(room, "router", [f"{TOP}/examples/c/router.c", HEAP, archive])
    if router:
        check_router(router)
    with_global = build(room, "global", [f"{TOP}/examples/c/global.c", HEAP, archive])
    if with_global:
        check_global(with_global)
    stack = build(room, "stack", [f"{TOP}/examples/c/stack.c", HEAP, archive])
    if stack:
        check_keeping(stack)
    check_simulations(room, archive)
    build(room, "gateway", [f"{TOP}/examples/c/gateway.c", HEAP, archive])
    loop = build(room, "loop", [f"{TOP}/examples/c/loop.c", HEAP, archive])
    if loop and not os.environ.get("ND_LIVE"):
        skip("a TAP device", "ND_LIVE=1 runs the example loop on one")
    elif loop:
        said = run([f"{TESTS}/live.sh", loop])
        skip("a TAP device", said.stdout.strip()) if "skipped: " in said.stdout else report("loop on a TAP device", said)


def check_make(archive):
    """Makes what the Makefile makes of an archive for this machine."""
    if has("make"):
        report("make programs", run(["make", "-s", "-C", BINDINGS, "programs", f"ND_ARCHIVE={archive}"]))


def has_rust():
    """Returns true if there is a cargo with the Rust that the crate needs. Else the programs in Rust are skipped."""
    if not has("cargo") or not has("rustc"):
        return False
    needed = re.search(r'^rust-version = "([\d.]+)"', read(f"{BINDINGS}/rust/Cargo.toml"), re.M)[1]
    there = re.search(r"^rustc ([\d.]+)", run(["rustc", "--version"]).stdout)[1]
    if [int(part) for part in there.split(".")] >= [int(part) for part in needed.split(".")]:
        return True
    skip("programs in Rust", f"they need Rust {needed}, and {there} is there")
    return False


def check_rust(room, over, library=None):
    """Runs the tests of the crate for Rust, in four threads, and its example: over the archive in the folder `library`, or over dist/nd.c, which the
    crate compiles, and then as a package too. What cargo makes is in `room`. No test may be passed over."""
    if not has_rust() or not (library or has("cc")):
        return
    others = {name: value for name, value in os.environ.items() if name != "ND_LIB"}
    environment = {**others, **({"ND_LIB": library} if library else {}), "CARGO_TARGET_DIR": f"{room}/target", "RUST_TEST_THREADS": "4"}
    words = ["--offline", "--locked", "--quiet", "--manifest-path"]
    said = run(["cargo", "test", *words, f"{BINDINGS}/rust/Cargo.toml"], env=environment)
    if report(f"the tests of the crate nd over {over}, in four threads", said):
        passed, ignored = (sum(map(int, re.findall(rf"^test result: .* (\d+) {word}", said.stdout, re.M))) for word in ("passed", "ignored"))
        report_if(f"the tests of the crate nd over {over}: {passed}, and none is passed over", passed > 0 and ignored == 0, said.stdout)
    if report(f"the example in Rust over {over} is built", run(["cargo", "build", *words, f"{TOP}/examples/rust/Cargo.toml"], env=environment)):
        check_host(f"host in Rust over {over}", f"{room}/target/debug/host")
        said = run([f"{room}/target/debug/host", *HOST], input="5 a\u00e91\n")
        report(f"host in Rust over {over}: a line with a letter of two bytes", said)
    if not library:
        check_package(room)


def check_package(room):
    """Requires that the crate for Rust as a package has dist/nd.c and its headers, and is built of what is in it."""
    environment = {name: value for name, value in os.environ.items() if name != "ND_LIB"} | {"CARGO_TARGET_DIR": f"{room}/package"}
    if not has("make") or not report("the crate nd with the node in C", run(["make", "-C", BINDINGS, "crate", f"OUT={room}/made"])):
        return
    words = ["cargo", "package", "--offline", "--locked", "--quiet", "--allow-dirty", "--manifest-path", f"{room}/made/crate/Cargo.toml"]
    if not report("the crate nd as a package, which is built of what is in it", run(words, env=environment)):
        return
    path = glob.glob(f"{room}/package/package/*.crate")[0]
    with tarfile.open(path) as package:
        carried = {os.path.basename(name): package.extractfile(name).read() for name in package.getnames() if "/c/" in name}
    wanted = {name: read(f"{TOP}/dist/{name}").encode() for name in ("nd.c", "nd.h", "nd_hear.h")}
    report_if(f"the crate nd as a package has the files of dist/: {', '.join(wanted)}; {os.path.getsize(path)} bytes", carried == wanted)


def check_programs(room):
    """Checks the programs for this machine, and returns the archive of a node, or None."""
    with timed("the archive of nd_hear_c, and its example"):
        check_hear(room)
    with timed("the archive of nd_c"):
        archive = renamed(room, archive_of("nd_c", "ND_ARCHIVE"))
    if not archive:
        return None
    check_symbols("the archive of nd_c", archive, NEEDED)
    if has("gcc"):
        with timed("the examples in C"):
            check_examples(room, archive)
        with timed("the tests in C"):
            check_tests(room, archive)
        with timed("bare, and the Makefile"):
            check_bare(room, archive)
            check_make(archive)
    with timed("the crate for Rust"):
        check_rust(room, "the archive", room)
    return archive
