"""cursor: the words of a line of a module, one after the other, and how the translator stops at what it doesn't know."""
import re
from contextlib import contextmanager

NAME = r'(?:"[^"]*"|[-\w$.]+)'
# A name, a text, a number, a word or a sign.
WORD = re.compile(rf'[%@!#]{NAME}|c?"[^"]*"|-?0x[0-9A-Fa-f]+|-?\d+(?:\.\d+(?:e[-+]?\d+)?)?|[A-Za-z_][\w.]*|<\{{|\}}>|\S')


class Refused(Exception):
    """What is not translated. Its text says why; `place` is the line of the module, if it is known."""

    place = ""


def refuse(*words):
    raise Refused(" ".join(map(str, words)))


@contextmanager
def at_line(number, text):
    """Names the line of the module for whatever is refused inside."""
    try:
        yield
    except Refused as refused:
        refused.place = refused.place or f"\n  line {number}: {text.strip()[:200]}"
        raise


def of_line(translate):
    """Makes a function of a line name it if something is refused."""
    def translated(line):
        with at_line(*line.place):
            return translate(line)
    return translated


class Cursor:
    """The words of a line, and which one is next."""

    def __init__(self, text):
        self.words, self.at = WORD.findall(text), 0

    def peek(self, ahead=0):
        """Returns a word without reading it; behind the last one it is empty."""
        return self.words[self.at + ahead] if self.at + ahead < len(self.words) else ""

    def next(self):
        self.at += 1
        return self.words[self.at - 1] if self.at <= len(self.words) else refuse("the line ends too early")

    def take(self, *words):
        """Reads one of these words, if it is next, and returns it."""
        return self.next() if self.peek() in words else None

    def skip(self, words):
        """Reads as many of these words as are next, and returns them."""
        begin = self.at
        while self.peek() in words:
            self.at += 1
        return self.words[begin:self.at]

    def expect(self, *words):
        """Reads these words."""
        for word in words:
            if self.next() != word:
                refuse(f"'{word}' is expected, not '{self.words[self.at - 1]}'")

    def count(self):
        """Reads a number that is not negative."""
        word = self.next()
        return int(word) if word.isdecimal() else refuse(f"a number is expected, not '{word}'")

    def listed(self, end, part):
        """Returns what `part` reads, once for each of a list with commas that ends with the word `end`."""
        parts = []
        while not self.take(end):
            parts.append(part())
            if self.peek() != end:
                self.expect(",")
        return parts

    def skip_parentheses(self):
        """Reads from an opening parenthesis to its closing one."""
        self.expect("(")
        while not self.take(")"):
            self.skip_parentheses() if self.peek() == "(" else self.next()

    def finish(self):
        """Refuses what is left of the line."""
        if self.peek():
            refuse(f"'{self.peek()}' at the end is not known")
