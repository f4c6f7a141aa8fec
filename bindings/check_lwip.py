"""check_lwip: lwIP over dist/nd.c, by `fragments` of examples/lwip: messages in fragments, with pointers of 32 and of 64 bits."""
import glob
import os

from checking import TOP, report_if, run, skip

LWIP = f"{TOP}/examples/lwip"


def check_lwip():
    what = "lwIP over dist/nd.c"
    source = os.environ.get("LWIP") or next(iter(sorted(glob.glob(f"{LWIP}/out/lwip-2.1.3*/src"))), None)
    if not source:
        return skip(what, "lwIP's source is not there: `make source` in examples/lwip fetches it, or LWIP names its folder src")
    said = run([f"{LWIP}/fragments", f"LWIP={os.path.abspath(source)}"])
    *steps, last = said.stdout.splitlines() or [""]
    for word, text in (line.split(": ", 1) for line in steps if ": " in line):
        skip(what, text) if word == "skipped" else report_if(f"{what}: {text}", word == "passed")
    if last.startswith("skipped: "):
        return skip(what, last.removeprefix("skipped: "))
    return report_if(f"{what}: {last}", said.returncode == 0, said.stderr)
