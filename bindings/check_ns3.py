"""check_ns3: ns-3 over dist/nd.c, by the programs of examples/ns3: `interop`, `under`, and `scale` in each of its modes; and, where ns-3's source is
there, `mpi`, with one rank and with two."""
import glob
import os
import re
import shutil

from checking import TOP, read, report, report_if, run, run_for, skip

NS3 = f"{TOP}/examples/ns3"
TWO_RANKS = "two ranks of ns-3"
SMALL = ["--hosts=100", "--links=5", "--seconds=60"]
# mpirun starts nothing as root without these.
AS_ROOT = {"OMPI_ALLOW_RUN_AS_ROOT": "1", "OMPI_ALLOW_RUN_AS_ROOT_CONFIRM": "1"}


def make(*targets):
    return run(["make", "-s", "-C", NS3, *targets])


def check_steps(what, program):
    """Counts the checks that a program of examples/ns3 prints. Without the repairs of ns-3's faults as many of them fail as its README.md says."""
    said = run([f"{NS3}/out/{program}"])
    *steps, last = said.stdout.splitlines() or [""]
    for word, text in re.findall(r"^(passed|FAILED): (.*)$", "\n".join(steps), re.M):
        report_if(f"{what}: {program}: {text}", word == "passed")
    report_if(f"{what}: {program}: {last}", said.returncode == 0 and last.endswith(" passed, 0 failed"), said.stderr[-2000:])
    unrepaired = run([f"{NS3}/out/{program}", "--asNs3"]).stdout.splitlines() or [""]
    row = f"| `{program}` | {last} | {unrepaired[-1]} |"
    report_if(f"{what}: {program}: README.md says what is seen: {row}", row in read(f"{NS3}/README.md"))


def check_mpi():
    """The hash of all records of two ranks is that of one."""
    source = os.environ.get("NS3_SOURCE") or next(iter(sorted(glob.glob(f"{NS3}/out/ns3-3.37*/ns-3.37"))), None)
    if not source:
        return skip(TWO_RANKS, "ns-3's source is not there: `make source` in examples/ns3 fetches it, or NS3_SOURCE names its folder ns-3.37")
    for tool in ("mpicxx", "mpirun"):
        if not shutil.which(tool):
            return skip(TWO_RANKS, f"{tool} is not there")
    # Most of what is compiled is ns-3's, so without optimisation.
    if not report(f"{TWO_RANKS}: mpi is compiled", make("out/mpi", f"NS3_SOURCE={os.path.abspath(source)}", "CXXFLAGS=-O0")):
        return False
    command = [f"{NS3}/out/mpi", "--hosts=100", "--links=4", "--seconds=40"]
    two = ["mpirun", "--bind-to", "none", "--oversubscribe", "-n", "2", *command]
    said = [run_for(600, words, env={**os.environ, **AS_ROOT}) for words in (command, two)]
    found = [re.search(r"datagrams sent.*", process.stdout) if process else None for process in said]
    is_equal = None not in found and found[0][0] == found[1][0]
    return report_if(f"{TWO_RANKS}: they do what one does: {found[0][0] if found[0] else 'nothing'}", is_equal,
                     "\n".join(process.stdout + process.stderr if process else "not ended" for process in said))


def check_ns3():
    what = "ns-3 over dist/nd.c"
    if not shutil.which("make"):
        return skip(what, "make is not there")
    missing = make("missing").stdout.splitlines()
    if missing:
        return skip(what, "; ".join(missing))
    if not report(f"{what}: the programs of examples/ns3 are compiled", make("all")):
        return False
    for program in ("interop", "under"):
        check_steps(what, program)
    for mode in ("own", "under", "alone"):
        said = run([f"{NS3}/out/scale", f"--mode={mode}", *SMALL])
        sent = re.search(r"datagrams sent (\d+), arrived (\d+)", said.stdout)
        report_if(f"{what}: scale: {mode}: all datagrams arrive", sent is not None and sent[1] == sent[2], said.stdout + said.stderr)
    return check_mpi()
