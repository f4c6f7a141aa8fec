"""check_command: dist/ndpctl.c, the command as one C file. It compiles without a warning by gcc and clang, with nothing else, and writes for each
row of the corpus its text and for each example its output, links over UDP among them. Where the program that Rattle builds is there, both write the
same bytes and end alike: for the rows, wrong command lines, frames that are cut and changed, long scripts, a full disk, a closed output and an input
in parts."""
import glob
import os
import re
import subprocess
from collections import namedtuple
from concurrent.futures import ThreadPoolExecutor

from check_programs import NDPCTL
from checking import IS_FULL, TOP, WARNINGS, has, read, report_if, run, skip, timed

import corpus
import frames
import hostile
import scripts

COMMAND = f"{TOP}/dist/ndpctl.c"
SECONDS = 120
SANITIZED = ["-O1", "-g1", "-fsanitize=undefined,address", "-fno-sanitize-recover=all"]
# A run: its words and what it reads; and the text that it is to write, with its status and what it says of a fault, unless two programs are compared.
Case = namedtuple("Case", "words text wanted status fault", defaults=[None, 0, ""])
HOST = ["run", "--role", "host", "--mac", frames.HOST_MAC]
WRONG = [[], ["--help"], ["-V"], ["check", "--help"], ["run"], ["run", "--role", "x"], ["run", "--role", "host"],
         ["run", "--role", "host", "--mac", "1"], ["link", "--wire", "x"], ["chek"], ["help", "run"], [*HOST, "--neighbours", "0"],
         [*HOST, "--neighbours", "2049"], ["run", "--rolle", "host"], ["link", "x"], ["x" * 5000], ["check", "\xe9"]]
# What a shell does with the program, which is {p}: a file, a full disk, an input or an output that is closed, a reader that ends, an input in parts.
SHELL = ["{p} check < {top}/examples/link.hex", "{p} check < /dev/null", "{p} check < {top}/examples/link.hex > /dev/full; echo $?",
         "{p} check <&-; echo $?", "{p} link < {top}/examples/scripts/two_hosts.script >&-; echo $?", "{p} check < {top}/examples/link.hex | head -1",
         "yes 00 | head -100000 | {p} check | tail -1", "(printf 0011; sleep 0.1; printf '22\\n33') | {p} check"]


def rows():
    """Returns the rows of the corpus, and the examples, with their texts. Links run over UDP too."""
    known = [Case(row.words, row.script, row.text, *([2, f"ndpctl: line {row.malformed}: malformed\n"] if row.malformed else []))
             for row in corpus.read().rows]
    for line in read(f"{TOP}/examples/table.txt").splitlines():
        if line and line[0] != "#":
            _, given, written, *words = line.split()
            known.append(Case(words, read(f"{TOP}/examples/{given}"), read(f"{TOP}/examples/{written}")))
    return known + [Case([*case.words, "--wire", "udp"], *case[1:]) for case in known if case.words == ["link"]]


def changed_frames():
    """Returns frames that are cut at each byte and changed at each byte, and frames of a link."""
    lines = list(frames.mixed(300))
    for line in hostile.named()[0].splitlines():
        digits = line.split()[-1]
        data = bytes.fromhex(digits)
        lines += [digits, *(data[:i].hex() for i in range(1, len(data)))]
        lines += [(data[:i] + bytes([byte ^ 0x55]) + data[i + 1:]).hex() for i, byte in enumerate(data)]
    return [line.split()[-1] for line in lines]


def others():
    """Returns runs of which only the program that Rattle builds says what they write."""
    lines = changed_frames()
    known = [Case(words, "") for words in WRONG] + [Case(["check"], "\n".join(lines) + "\n"), Case(["check"], "\n".join(lines[:500]) + "\nzz\n"),
                                                    Case(["check"], read(f"{TOP}/examples/link.hex").upper()), Case(["check"], b"\xff\xfe\n")]
    for path in sorted(glob.glob(f"{TOP}/examples/scripts/*.script")):
        text = read(path)
        known += [Case(words, text) for words in (["link"], ["link", "--wire", "udp"], HOST, ["run", "--role", "router", "--mac", frames.HOST_MAC])]
    for seed in (1, 2, 3):
        text = scripts.long(seed, 2000)
        known += [Case(["run", "--role", role, "--mac", frames.HOST_MAC, "--draws", f"seed:{seed}"], text) for role in ("host", "router")]
    return known


def written(program, case):
    """Returns the status of a run, what it wrote, and what it said. `program` are the words that run it."""
    text = case.text.encode() if isinstance(case.text, str) else case.text
    said = subprocess.run([*program, *case.words], input=text, capture_output=True, timeout=SECONDS, check=False)
    return said.returncode, said.stdout, said.stderr


def shown(case, said, wanted):
    """Returns what tells two runs apart."""
    lines = zip([*said[1].splitlines(), b"(end)"], [*wanted[1].splitlines(), b"(end)"])
    first = next((f"{one[:160]!r}, not {other[:160]!r}" for one, other in lines if one != other), "")
    return f"{' '.join(case.words)[:80]}: status {said[0]}, not {wanted[0]}: {first} {said[2][-300:]!r}, {wanted[2][-300:]!r}"


def check_rows(what, program):
    """Requires the text of each row of the corpus and of each example."""
    known = rows()
    pairs = [(case, written(program, case), (case.status, case.wanted.encode(), case.fault.encode())) for case in known]
    wrong = [shown(case, said, wanted) for case, said, wanted in pairs if said != wanted]
    report_if(f"{what}: {len(known)} rows of the corpus and examples, links over UDP among them", not wrong, "\n".join(wrong[:8]))


def check_beside(what, program):
    """Requires that the program writes what the one that Rattle builds writes."""
    if not os.path.exists(NDPCTL):
        return skip("programs compared with ndpctl", "crates/ndpctl/out/ndpctl is not there")
    known = rows() + others()
    pairs = [(written([program], case), written([NDPCTL], case)) for case in known]
    wrong = [shown(case, said, wanted) for case, (said, wanted) in zip(known, pairs) if said != wanted]
    lines = sum(wanted[1].count(b"\n") for _, wanted in pairs)
    report_if(f"{what}: {len(known)} runs, {lines} lines, as ndpctl does", not wrong, "\n".join(wrong[:8]))
    for command in SHELL:
        said, wanted = (run(["sh", "-c", command.format(p=it, top=TOP)]) for it in (program, NDPCTL))
        is_same = (said.returncode, said.stdout, said.stderr) == (wanted.returncode, wanted.stdout, wanted.stderr)
        report_if(f"{what}: `{command.format(p='ndpctl', top='.')}`, as ndpctl does", is_same, f"{said}\n{wanted}")
    return None


def compiled(room, way):
    """Compiles the command by a compiler and flags. Returns the program, which has the name that its usage says, and what the compiler said."""
    place = f"{room}/command_{re.sub(r'[ =,]', '_', ' '.join(way))}"
    os.mkdir(place)
    return f"{place}/ndpctl", run([*way, *WARNINGS, COMMAND, "-o", f"{place}/ndpctl"])


def ways():
    """Returns the compilers with their flags."""
    known = [["gcc", "-O2"], ["clang", "-O2"]]
    if IS_FULL:
        known += [["gcc", "-Os"], ["gcc", "-O0"], ["gcc", "-O2", "-m32"], ["clang", *SANITIZED]]
    return [way for way in known if has(way[0]) and can_link(way)]


def can_link(way):
    """Returns true if a compiler with its flags has the headers and the C library that the command needs."""
    said = run([*way, "-x", "c", "-", "-o", os.devnull], input="#include <errno.h>\nint main(void) { return errno; }\n")
    return said.returncode == 0 or skip("programs with 32 bits" if "-m32" in way else "programs with sanitizers", f"{' '.join(way)} links no program")


def check_command(room):
    with timed("the command in C"), ThreadPoolExecutor(2) as pool:
        known = ways()
        for way, (program, said) in zip(known, pool.map(lambda way: compiled(room, way), known)):
            what = f"dist/ndpctl.c by {' '.join(way)}"
            if report_if(f"{what}, without a warning", said.returncode == 0 and not said.stderr, said.stderr[-4000:]):
                check_rows(what, [program])
                check_beside(what, program)
