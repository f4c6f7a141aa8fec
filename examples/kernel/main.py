"""main [ARGUMENTS OF PYTEST]: runs the tests of this folder, and prints 'N passed, M failed' as the last line, with ', K skipped' behind it if tests
were skipped. `run` calls it."""
import signal
import sys
from pathlib import Path

import pytest


class Counts:
    """Counts the tests. One whose fixture fails counts as failed."""

    def __init__(self):
        self.outcomes = {}

    def pytest_runtest_logreport(self, report):
        if report.when == "call" or report.outcome != "passed":
            self.outcomes[report.nodeid] = report.outcome

    def pytest_collectreport(self, report):
        if report.failed:
            self.outcomes[report.nodeid] = "failed"

    def number(self, outcome):
        return list(self.outcomes.values()).count(outcome)


def interrupt(_number, _frame):
    """Ends the tests as at a press of Ctrl-C, so that the namespaces are removed."""
    raise KeyboardInterrupt


def main(arguments):
    signal.signal(signal.SIGTERM, interrupt)
    counts, folder = Counts(), Path(__file__).resolve().parent
    paths = [] if any(Path(argument.split("::")[0]).exists() for argument in arguments) else [str(folder)]
    status = pytest.main(["-q", "-p", "no:cacheprovider", "--rootdir", str(folder), *paths, *arguments], plugins=[counts])
    failed, skipped = counts.number("failed"), counts.number("skipped")
    if status not in (pytest.ExitCode.OK, pytest.ExitCode.TESTS_FAILED):
        failed = max(failed, 1)
    print(f"{counts.number('passed')} passed, {failed} failed" + (f", {skipped} skipped" if skipped else ""))
    return 1 if failed else 0


if __name__ == "__main__":
    sys.exit(main(sys.argv[1:]))
