"""check_gateway: gateway.c over dist/nd.c as the router of three Linux hosts, by `live` of examples/gateway."""
import os

from checking import TOP, report_if, run, skip


def check_gateway():
    what = "a router for Linux hosts"
    if not os.environ.get("ND_LIVE"):
        return skip(what, "ND_LIVE=1 makes network namespaces, and takes a minute or two")
    said = run([f"{TOP}/examples/gateway/live"])
    last = (said.stdout.splitlines() or [""])[-1]
    if last.startswith("skipped: "):
        return skip(what, last.removeprefix("skipped: "))
    return report_if(f"{what}: {last}", said.returncode == 0, (said.stdout + said.stderr)[-4000:])
