"""check_python: the tests of the module for Python, which compile dist/nd.c once, and its example for pytest."""
import os
import re
import subprocess
import sys

from checking import TOP, has, report, report_if, run, skip

MODULE = f"{TOP}/bindings/python"
EXAMPLE = f"{TOP}/examples/python/test_link.py"
# Seconds: the compiler takes a minute of them on a busy machine.
LONGEST = 600


def environment(room):
    """Returns the environment in which the module compiles its own library, into a folder."""
    kept = {name: value for name, value in os.environ.items() if name not in ("ND_LIB", "CC")}
    return {**kept, "XDG_CACHE_HOME": room, "PYTHONPATH": MODULE, "PYTHONDONTWRITEBYTECODE": "1"}


def check_python(room):
    what = "the module for Python: its tests"
    if not has("cc"):
        return
    try:
        said = run([sys.executable, "-m", "unittest", "-v"], cwd=MODULE, timeout=LONGEST, env=environment(room))
        report(what, said)
        for reason in sorted(set(re.findall(r" skipped ['\"](.*)['\"]$", said.stderr, re.M))):
            skip("tests of the module for Python", reason)
    except subprocess.TimeoutExpired:
        report_if(what, False, f"they have not ended after {LONGEST} seconds")
    check_pytest(room)


def check_pytest(room):
    """Runs the example for pytest by the first Python that has it."""
    pythons = [python for python in (sys.executable, "/usr/bin/python3") if os.path.exists(python)]
    found = next((python for python in pythons if run([python, "-c", "import pytest"]).returncode == 0), None)
    if found is None:
        skip("the example for pytest", "pytest is not there (Debian: python3-pytest)")
        return
    said = run([found, "-m", "pytest", "-q", "-p", "no:cacheprovider", EXAMPLE], env=environment(room))
    report("the module for Python: the example for pytest", said)
