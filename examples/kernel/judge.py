"""judge: compares, in one test, what the stack did with what the model did. A difference passes only if a deviation of the list says it exactly."""
from collections import Counter
from dataclasses import dataclass, field

from link import SETTLING

# How much was compared in all tests, and how often each deviation was seen.
COMPARISONS, totals = "comparisons", Counter()


@dataclass
class Difference:
    """What the stack and the model did not do alike. `subject` is what was compared, `key` which of them, `event` what had happened."""
    subject: str
    kernel: object
    model: object
    key: str = ""
    event: dict = field(default_factory=dict)

    def __str__(self):
        event = ", ".join(f"{name} {shown(value)}" for name, value in self.event.items())
        return f"{self.subject} {self.key} ({event}):\n  kernel {shown(self.kernel)}\n  model  {shown(self.model)}"


def shown(value):
    """Returns a text of what was compared, with frames in digits."""
    if isinstance(value, (list, tuple)):
        return "[" + ", ".join(shown(part) for part in value) + "]"
    return value.hex() if isinstance(value, bytes) else str(value)


class Judge:
    """Judges one test. In a test at random any deviation of the list may show; in another one exactly those have to that are listed for it."""

    def __init__(self, test, deviations, is_random=False):
        self.deviations, self.is_random = deviations, is_random
        self.listed = {deviation.name for deviation in deviations if test in deviation.shown_by}
        self.compared, self.seen, self.unlisted = 0, Counter(), []

    def deviation_of(self, difference):
        """Returns the name of the deviation that says a difference, or None."""
        of_subject = (deviation for deviation in self.deviations if difference.subject in deviation.subjects)
        return next((deviation.name for deviation in of_subject if deviation.explains(difference)), None)

    def compare(self, subject, kernel, model, key="", **event):
        """Compares two values. Returns true if they are equal."""
        self.compared += 1
        if kernel == model:
            return True
        difference = Difference(subject, kernel, model, key, event)
        name = self.deviation_of(difference)
        if name is None:
            self.unlisted.append(difference)
        else:
            self.seen[name] += 1
        return False

    def compare_rows(self, subject, answers, **event):
        """Compares two tables, row by row, where a row that is absent is None. Returns the keys of those that differ."""
        kernel, model = answers
        return [key for key in sorted({*kernel, *model}) if not self.compare(subject, kernel.get(key), model.get(key), key, **event)]

    def compare_settled(self, link, table, only=None, settling=SETTLING, **event):
        """Compares a table of a link, row by row, once each difference is listed, or as it is after `settling` milliseconds."""
        def is_listed(answers):
            kernel, model = answers
            differing = [key for key in {*kernel, *model} if kernel.get(key) != model.get(key)]
            return all(self.deviation_of(Difference(table, kernel.get(key), model.get(key), key, event)) for key in differing)

        return self.compare_rows(table, link.both(table, only=only, settling=settling, until=is_listed), **event)

    def faults(self):
        """Returns what is wrong, in words: nothing, if all is as it is listed."""
        faults = [f"no deviation of the list says this: {difference}" for difference in self.unlisted]
        if not self.is_random:
            faults += [f"the deviation '{name}' shows in this test, for which it isn't listed" for name in sorted(self.seen.keys() - self.listed)]
            faults += [f"the deviation '{name}' is listed for this test, and no longer shows" for name in sorted(self.listed - self.seen.keys())]
        return faults

    def verdict(self):
        """Adds to the totals, and fails unless all is as it is listed."""
        totals.update({COMPARISONS: self.compared, **self.seen})
        faults = self.faults()
        assert not faults, "\n".join(faults)
