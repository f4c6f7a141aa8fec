"""check_hostile: what hostile input does to the library: frames that are cut and changed, floods, random frames, and memory that is refused to an
event. It also runs the rows of `ndpctl run` with each request refused once, and calls that random bytes decide. The counts are compared with
tests/hostile.txt. `bindings/check full` takes all frames with a mended checksum, four seeds of random frames, and calls of ten minutes."""
import os
import re
import subprocess
import sys
import time

from checking import INCLUDE, IS_FULL, TOP, WARNINGS, has, read, report, report_if, run, skip

TESTS = f"{TOP}/bindings/tests"
sys.path.insert(0, TESTS)
import corpus  # noqa: E402
import floods  # noqa: E402
import hostile  # noqa: E402

STORED = f"{TESTS}/hostile.txt"
VALGRIND = ["valgrind", "-q", "--error-exitcode=99", "--leak-check=full", "--errors-for-leak-kinds=definite"]
SEED, RANDOM_FRAMES, EACH_OF_RANDOM = 4861, 1_000_000, 20
ND_POLICY_PARTS = 1


def stored():
    """Returns the texts of the file of counts by their titles."""
    parts = read(STORED).split("## ")[1:] if os.path.exists(STORED) else []
    return dict(part.split("\n", 1) for part in parts)


def compare(title, text):
    """Requires that counts are those of the file."""
    wanted = stored().get(title, "")
    report_if(f"{title}: the counts are those of hostile.txt", text.strip() == wanted.strip(), f"## {title}\n{text}")


def start(room, name, words):
    """Starts a program on the frames of hostile.py. What it prints goes to files."""
    with open(f"{room}/frames", "rb") as frames, open(f"{room}/{name}.out", "wb") as out, open(f"{room}/{name}.err", "wb") as err:
        return subprocess.Popen(words, stdin=frames, stdout=out, stderr=err)


def finish(room, name, process):
    """Waits for a program. Returns the lines that it printed, or None if it failed."""
    status = process.wait()
    is_done = report_if(f"{name}", status == 0, read(f"{room}/{name}.err"))
    return read(f"{room}/{name}.out").splitlines() if is_done else None


def under_valgrind(what, words):
    if has("valgrind"):
        report(f"{what}, under valgrind", run([*VALGRIND, *words], input=hostile.named()[0]))


def check_changed(room, name, is_mended, step, process):
    """Compares what nd_hear and both nodes say of each frame with what the rules say."""
    expected = list(hostile.expected_lines(is_mended, step))
    lines = finish(room, name, process)
    if lines is None:
        return
    wrong = [f"frame {i}: {line}, not {wanted}" for i, (line, wanted) in enumerate(zip(lines, expected)) if line != wanted]
    are_right = not wrong and len(lines) == len(expected)
    report_if(f"{name}: {len(lines)} frames, of each the answers and fields that the rules say", are_right, "\n".join(wrong[:8]))
    compare(name, hostile.counts(lines))


def check_random(room, name, process):
    """Compares what nd_hear says of a sample of the random frames with what the rules say."""
    lines = finish(room, name, process)
    if lines is None:
        return
    wrong = hostile.wrong_samples(lines)
    samples = sum(line.startswith("frame ") for line in lines)
    report_if(f"{name}: nd_hear says of each {EACH_OF_RANDOM}th frame, {samples}, what the rules say", not wrong and samples, "\n".join(wrong[:8]))
    compare(name, "\n".join(line for line in lines if not line.startswith("frame ")))
    print(f"  {read(f'{room}/{name}.err').strip()}")


def refusals_of(trace, row, is_first):
    """Runs a script once for each request for memory, which is refused. Returns how many runs there were, and those that wrote something else. The
    requests of nd_open are the same for all scripts, and are refused for the first one alone."""
    requests, opening = (int(run([trace, *row.words, "--refuse", "0"], input=lines).stderr) for lines in (row.script, ""))
    refused = range(1 if is_first else opening + 1, requests + 1)
    said = ((n, run([trace, *row.words, "--refuse", str(n)], input=row.script)) for n in refused)
    return len(refused), [n for n, process in said if process.returncode or process.stdout != row.text]


def check_scripts(trace):
    """Requires that each row of `ndpctl run` has its text whichever request is refused."""
    known, runs, wrong = corpus.runs(), 0, []
    for i, row in enumerate(known):
        count, others = refusals_of(trace, row, i == 0)
        runs += count
        wrong += [f"{row.name}: request {n}" for n in others]
    report_if(f"trace: {len(known)} rows, each request refused once", not wrong, "\n".join(wrong[:8]))
    compare("rows of ndpctl run", f"{len(known)} rows, {runs} requests refused")


def check_floods(trace):
    for name, args, script, wanted in floods.floods():
        said = run([trace, *args], input=script)
        is_same = said.returncode == 0 and said.stdout == wanted
        report_if(f"flood: {name}: {len(wanted.splitlines())} lines", is_same, said.stderr + said.stdout[-2000:])


def check_scarce(program):
    said = run([program], input=hostile.named()[0])
    if report("scarce: each request of an event refused", said):
        compare("scarce", said.stdout)


def check_fuzz(room, archive, build):
    """Runs `fuzz` over the archive, and over one that is wrong in each way of broken.c, which it has to notice. Builds it for libFuzzer too."""
    counting = f"{TESTS}/heap.c"
    seconds, seed = (600, int(time.time())) if IS_FULL else (5, SEED)
    fuzz = build(room, "fuzz", [f"{TESTS}/fuzz.c", counting, archive])
    if fuzz:
        said = run([fuzz, str(seconds), str(seed)])
        report(f"fuzz: {seconds} seconds, from seed {seed}", said)
        print(said.stdout, end="")
        under_valgrind("fuzz, one input", [fuzz, "0", str(SEED)])
    text = read(f"{TESTS}/broken.c")
    wrapped = [f"-Wl,--wrap={call}" for call in re.findall(r"^WRAP\(\w+, (nd_\w+)", text, re.M)]
    broken = build(room, "broken", [f"{TESTS}/fuzz.c", f"{TESTS}/broken.c", counting, archive], *wrapped)
    faults = int(re.search(r"#define FAULTS (\d+)", text)[1]) if broken else 0
    said = [run([broken, "5", str(SEED)], env={**os.environ, "FAULT": str(i)}) for i in range(1, faults + 1)]
    missed = [str(i) for i, it in enumerate(said, 1) if it.returncode != 1 or not it.stderr.startswith("failed: ")]
    report_if(f"fuzz: each of {faults} faults is noticed", faults and not missed, f"not noticed: {' '.join(missed)}")
    if has("clang"):
        words = ["clang", "-std=c11", "-O1", "-g", "-DFUZZER", "-fsanitize=fuzzer,address", *WARNINGS, f"-I{INCLUDE}"]
        made = run([*words, f"{TESTS}/fuzz.c", counting, archive, "-o", f"{room}/fuzzer"])
        if "libclang_rt" in made.stderr:
            return skip("programs by clang", "the runtime of libFuzzer is not there")
        if report("fuzz for libFuzzer is built", made):
            report("fuzz by libFuzzer: 5000 inputs", run([f"{room}/fuzzer", "-runs=5000", "-max_len=4096", f"-seed={SEED}"]))
    return None


def check_hostile(room, archive, build, trace):
    """Builds the programs over the archive, and runs them side by side. `trace` is the program of that name, or None."""
    step, seeds = (1, 4) if IS_FULL else (5, 1)
    counting = f"{TESTS}/heap.c"
    program = build(room, "hostile", [f"{TESTS}/hostile.c", f"{TOP}/bindings/c/heap.c", archive])
    fuzz = build(room, "random", [f"{TESTS}/random.c", counting, archive])
    scarce = build(room, "scarce", [f"{TESTS}/scarce.c", counting, archive])
    with open(f"{room}/frames", "w", encoding="ascii") as file:
        file.write(hostile.named()[0])
    changed, random = [], []
    with_sum = "frames changed and mended" + (f", each {step}th" if step > 1 else "")
    if program:
        for name, is_mended, n in (("frames changed", False, 1), (with_sum, True, step)):
            words = [program, "mended" if is_mended else "plain", str(n)]
            changed.append((name, is_mended, n, start(room, name, words)))
    for seed in range(SEED, SEED + seeds) if fuzz else ():
        with_parts = [(0, "host with parts", ND_POLICY_PARTS)] if seed == SEED else []
        for number, role, policies in [(0, "host", 0), (1, "router", 0), *with_parts]:
            name = f"random frames at a {role}, seed {seed}"
            random.append((name, start(room, name, [fuzz, str(number), str(RANDOM_FRAMES), str(seed), str(EACH_OF_RANDOM), str(policies)])))
    if trace:
        check_floods(trace)
        check_scripts(trace)
    if scarce:
        check_scarce(scarce)
        under_valgrind("scarce", [scarce])
    check_fuzz(room, archive, build)
    for name, is_mended, n, process in changed:
        check_changed(room, name, is_mended, n, process)
    for name, process in random:
        check_random(room, name, process)
    if program:
        under_valgrind("hostile, each 499th frame", [program, "plain", "499"])
        under_valgrind("hostile, each 499th frame, mended", [program, "mended", "499"])
    for number, role in ((0, "host"), (1, "router")) if fuzz else ():
        under_valgrind(f"random: {role}, 5000 frames", [fuzz, str(number), "5000", str(SEED), "0"])
