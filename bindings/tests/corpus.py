"""corpus: the runs of ndpctl with what they write, and the frames in them, as crates/tests_hostile/stdin has them. crates/tests_hostile/src/corpus.rt says
what a line is. A line that is none of these is an error. Other scripts import it."""
import os
import re
from dataclasses import dataclass, field

TOP = os.path.dirname(os.path.dirname(os.path.dirname(os.path.abspath(__file__))))
CORPUS = f"{TOP}/crates/tests_hostile/stdin"
# What the program over the corpus prints: a line for each row first.
PRINTED = f"{TOP}/crates/tests_hostile/stdout"


@dataclass
class Row:
    """A run: its words without `ndpctl`, its script and its text. `malformed` is the line that ends it with status 2, or 0; `once` says that it isn't swept."""
    name: str
    words: list = field(default_factory=list)
    once: bool = False
    malformed: int = 0
    script: str = ""
    text: str = ""


class Corpus:
    """`frames` are digits by name, `rows` are the runs, and `changed` the names of the frames that are cut and changed."""

    def __init__(self, text):
        self.frames, self.rows, self.changed, self.named = {}, [], [], set()
        self.frame, self.row = None, None
        for number, line in enumerate(text.splitlines(), 1):
            if line and line[0] != "#":
                self.require(self.take(line), f"line {number} is wrong: {line[:120]}")
        names = [row.name for row in self.rows]
        self.require(len(names) == len(set(names)), "two rows have one name")
        self.require(all(self.frames.values()), "a frame has no digits")
        self.require(len(self.frames) == len(set(self.frames.values())), "two frames are the same")
        self.require(self.named == set(self.frames), f"frames are not used: {sorted(set(self.frames) - self.named)}")

    @staticmethod
    def require(is_so, what):
        if not is_so:
            raise ValueError(f"{CORPUS}: {what}")

    def take(self, line):
        """Adds a line. Returns false if it is wrong."""
        word, _, rest = line.partition(" ")
        if word == "frame":
            is_new = rest not in self.frames
            self.frame, self.row = rest, None
            self.frames.setdefault(rest, "")
            return is_new and re.fullmatch("[A-Z0-9_]+", rest)
        if word == "row":
            self.frame, self.row = None, Row(rest)
            self.rows.append(self.row)
            return rest != ""
        if word == "change":
            self.frame, self.row = None, None
            self.changed.append(rest)
            self.named.add(rest)
            return rest in self.frames
        if self.frame:
            self.frames[self.frame] += line[1:]
            return re.fullmatch(" ([0-9a-f]{2})+", line)
        return self.row and self.take_of_row(self.row, line)

    def take_of_row(self, row, line):
        """Adds a line of a row. Returns false if it is wrong."""
        mark, rest = line[0], line[1:]
        if mark in ">|<+":
            names = re.findall(r"\{(.*?)\}", rest)
            self.named.update(names)
            said = re.sub(r"\{(.*?)\}", lambda it: self.frames.get(it[1], it[0]), rest)
            if mark in "<+":
                row.text += f"{said}\n"
            else:
                row.script += said + ("\n" if mark == ">" else "")
            return "{" not in said and "}" not in said
        if line == "once":
            row.once = True
        elif re.fullmatch(r"words ndpctl( \S+)+", line):
            row.words = line.split(" ")[2:]
        elif re.fullmatch(r"malformed [1-9]\d*", line):
            row.malformed = int(line.split(" ")[1])
        else:
            return False
        return True


def read():
    with open(CORPUS, encoding="utf-8") as file:
        return Corpus(file.read())


def without_library(row):
    """Returns why no program over the library can do a run, or None. A run of another kind than these is an error."""
    kind = row.words[0] if row.words else "nothing"
    if kind == "run":
        return "a line is malformed, and trace is for well-formed scripts" if row.malformed else None
    if kind == "check":
        return "they are of ndpctl check, whose frames go to the example hear and to the page"
    if kind == "link":
        return "the library has no link"
    raise ValueError(f"{CORPUS}: the row {row.name!r} is of {kind}, which no program runs")


def runs():
    """Returns the rows of `ndpctl run` that a program over the library can do."""
    return [row for row in read().rows if without_library(row) is None]


def checks():
    """Returns frames and their lines: the rows of `ndpctl check`, up to a malformed line."""
    rows = []
    for row in read().rows:
        if row.words[0] == "check":
            rows += zip(row.script.splitlines(), row.text.splitlines())
    return rows
