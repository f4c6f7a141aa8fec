"""minutes: the processor time of the checks that `rt ci` runs, by crate and by what they are for, as Linux shows them in /proc every few seconds. What a
check takes after it was last seen is not counted."""
import glob
import os
import threading

# Seconds between two looks.
APART = 2
KINDS = ("proofs", "tests", "edits")
TICKS = os.sysconf("SC_CLK_TCK")


def seen(top):
    """Yields for each check of a crate of this checkout that runs now: what tells it from others, its crate, its kind, and its seconds so far. An edit is
    checked in a folder of its own, whichever the checkout is."""
    for folder in glob.glob("/proc/[0-9]*"):
        try:
            with open(f"{folder}/cmdline", "rb") as file:
                words = file.read().decode(errors="replace").split("\0")
            if not words[0].endswith("/rattle") or "--crate-name" not in words:
                continue
            place = os.readlink(f"{folder}/cwd")
            with open(f"{folder}/stat", encoding="utf-8", errors="replace") as file:
                numbers = file.read().rsplit(")", 1)[1].split()
        except OSError:
            continue
        is_edit = os.path.basename(place).startswith("rt-edit-")
        if is_edit or place.startswith(f"{top}/crates/"):
            kind = "edits" if is_edit else "tests" if "--test" in words else "proofs"
            # The fields of proc(5) behind the name: user and system time, and the start of the process.
            yield (folder, numbers[19]), words[words.index("--crate-name") + 1], kind, (int(numbers[11]) + int(numbers[12])) / TICKS


class Minutes:
    """Looks at the checks until it is left."""

    def __init__(self, top):
        self.top, self.checks, self.is_over = top, {}, threading.Event()
        self.looks = threading.Thread(target=self.look, daemon=True)

    def look(self):
        while not self.is_over.wait(APART):
            self.checks.update({key: rest for key, *rest in seen(self.top)})

    def __enter__(self):
        self.looks.start()
        return self

    def __exit__(self, *_):
        self.is_over.set()
        self.looks.join()

    def lines(self):
        """Returns a line for each crate, in the order in which they were seen, and one for all."""
        crates = dict.fromkeys(crate for crate, _, _ in self.checks.values())
        sums = {crate: [self.sum(crate, kind) for kind in KINDS] for crate in crates}
        sums["all crates"] = [sum(column) for column in zip(*sums.values())] or [0] * len(KINDS)
        return [f"minutes: {crate}: " + ", ".join(f"{kind} {seconds / 60:.1f}" for kind, seconds in zip(KINDS, each)) for crate, each in sums.items()]

    def sum(self, crate, kind):
        return sum(seconds for of, what, seconds in self.checks.values() if (of, what) == (crate, kind))
