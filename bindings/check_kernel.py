"""check_kernel: the Linux kernel's Neighbor Discovery, compared with that of the module for Python by `run` of examples/kernel."""
import os

from checking import TOP, report_if, run, skip


def check_kernel():
    what = "Linux compared with a node"
    if not os.environ.get("ND_LIVE"):
        return skip(what, "ND_LIVE=1 makes network namespaces, and takes some minutes")
    said = run([f"{TOP}/examples/kernel/run"])
    last = (said.stdout.splitlines() or [""])[-1]
    if last.startswith("skipped: "):
        return skip(what, last.removeprefix("skipped: "))
    return report_if(f"{what}: {last}", said.returncode == 0, (said.stdout + said.stderr)[-4000:])
