"""node_programs: the examples and the tests in C that run over a build of the node, with their inputs. What they print over one build is compared
with what they print over another, on this machine or under an emulator. Other checks import it."""
import re
from collections import namedtuple

from check_programs import COUNTING, FEW_NODES, FULL, HEAP, HOST, NAMED, POOL, ROUTER, SMALL, STEADY, TESTS
from checking import TOP, read, run

import corpus
import frames
import scripts

EXAMPLES = f"{TOP}/examples/c"
STANDARD = ["-std=c11", "-D_POSIX_C_SOURCE=200809L"]
# The seed of all draws.
SEED = "4861"
# ND_POLICIES_ROBUST of nd.h.
ROBUST = "10783"
# A program: its sources besides the node, its flags, and its runs: the arguments and the input of each.
Program = namedtuple("Program", "sources flags runs")
# How programs are built over a node and run: a compiler with its flags, the node's object or archive, a folder for them, and the emulator that runs them.
Over = namedtuple("Over", "words node room emulator", defaults=[[]])


def traced():
    """Returns the runs of `trace`: the rows of the corpus, and a longer script for a host and for a router."""
    known = [(row.words, row.script) for row in corpus.runs()]
    return known + [(["run", "--role", role, "--mac", frames.HOST_MAC, "--draws", "seed:1"], scripts.long(1, 1000)) for role in ("host", "router")]


def examples():
    """Returns the examples, each over malloc."""
    heard = read(f"{TOP}/examples/link.hex") + "".join(f"{frame}\n" for frame, _ in corpus.checks())
    few = [f"{name}={number}" for name, number in FEW_NODES.items()]
    inputs = {"host": (HOST, read(f"{TOP}/examples/host.hex")), "router": (ROUTER, read(f"{TOP}/examples/router.hex")),
              "global": (ROUTER, read(f"{TOP}/examples/global.hex")), "stack": (HOST, read(f"{TOP}/examples/stack.hex")), "hear": ([], heard)}
    made = {name: Program([f"{EXAMPLES}/{name}.c", HEAP], [], [run_of]) for name, run_of in inputs.items()}
    return made | {"many": Program([f"{EXAMPLES}/many.c", HEAP], ["-pthread"], [([*few, f"threads={threads}"], "") for threads in (1, 2, 3)])}


def tests(share):
    """Returns the tests that run one `share`-th of what takes long."""
    few = "\n".join(frames.mixed(300 // share)) + "\n"
    of_random = [[role, str(20000 // share), SEED, "20", policies] for role, policies in (("0", "0"), ("1", "0"), ("0", "1"), ("0", ROBUST))]
    of_pooled = [[role, SEED, "590", part, *map(str, SMALL)] for role in "01" for part in ("1000", "500")]
    return {
        "trace": Program([f"{TESTS}/trace.c", COUNTING], [], traced()),
        "misuse": Program([f"{TESTS}/misuse.c", COUNTING], [], [([], "")]),
        "messages": Program([f"{TESTS}/messages.c", COUNTING], [], [([role], few) for role in "01"]),
        "refuse": Program([f"{TESTS}/refuse.c", COUNTING], [], [([role], few) for role in "01"]),
        "scarce": Program([f"{TESTS}/scarce.c", COUNTING], [], [([], NAMED)]),
        "limits": Program([f"{TESTS}/limits.c", COUNTING], [], [([], FULL)]),
        "hostile": Program([f"{TESTS}/hostile.c", HEAP], [], [([how, str(each * share)], NAMED) for how, each in (("plain", 35), ("mended", 485))]),
        "random": Program([f"{TESTS}/random.c", COUNTING], [], [(words, NAMED) for words in of_random]),
        "leases": Program([f"{TESTS}/leases.c", COUNTING], [], [([role, str(4000 // share), SEED], STEADY) for role in "01"]),
        "pooled": Program([f"{TESTS}/pooled.c", POOL], ["-DND_POOL_GIVEN"], [(words, FULL) for words in of_pooled]),
        "exhausted": Program([f"{TESTS}/exhausted.c", POOL], ["-DND_POOL_GIVEN"], [([], "")]),
        "fuzz": Program([f"{TESTS}/fuzz.c", COUNTING], [], [(["0", str(seed)], "") for seed in (1, 2, 3)]),
    }


def programs(share=1):
    return examples() | tests(share)


def build(words, node, program, out):
    """Builds a program over a build of the node, by a compiler and its flags. Returns what the compiler says if it fails, else nothing."""
    said = run([*words, *STANDARD, *program.flags, *program.sources, node, "-o", out])
    return said.stderr or f"status {said.returncode}" if said.returncode else ""


def without_times(text):
    """Returns what a program prints without how long it took, which is in the last two lines of `many` and in words of others."""
    text = re.sub(r"^(seconds|events_a_second) .*\n", "", text, flags=re.M)
    return re.sub(r"\d[\d,.]* (?:ms|seconds|s)\b", "(a time)", text)


def outputs(words, program):
    """Returns what the runs of a program print, each with its status. `words` run it."""
    said = [run([*words, *arguments], input=text) for arguments, text in program.runs]
    return [(it.returncode, without_times(it.stdout), it.stderr) for it in said]


def differences(name, program, said, wanted):
    """Returns a line for each run that prints something else than it is to, or ends otherwise."""
    wrong = []
    for (arguments, _), it, other in zip(program.runs, said, wanted):
        if it[:2] != other[:2]:
            lines = zip([*it[1].splitlines(), "(end)"], [*other[1].splitlines(), "(end)"])
            first = next((f"{one[:160]!r}, not {another[:160]!r}" for one, another in lines if one != another), "")
            wrong.append(f"{name} {' '.join(arguments)[:80]}: status {it[0]}, not {other[0]}: {first} {it[2][-400:]}")
    return wrong


def compared(over, known, wanted):
    """Builds programs over a node, and runs them. Returns how many runs and lines there were, and what is not as it is wanted. `wanted` are the outputs
    by the names of the programs."""
    runs, lines, wrong = 0, 0, []
    for name, program in known.items():
        failed = build(over.words, over.node, program, f"{over.room}/{name}")
        if failed:
            wrong.append(f"{name} is not built: {failed[-2000:]}")
            continue
        said = outputs([*over.emulator, f"{over.room}/{name}"], program)
        runs, lines = runs + len(said), lines + sum(text.count("\n") for _, text, _ in said)
        wrong += differences(name, program, said, wanted[name])
    return runs, lines, wrong
