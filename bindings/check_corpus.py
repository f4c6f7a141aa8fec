"""check_corpus: each row of the corpus is run: by the program over it (crates/tests_hostile), whose stored output has its line; and by the programs over
the library, or there is a reason why they can't. A row of another kind is an error."""
import re
import sys

from checking import TOP, read, report_if

sys.path.insert(0, f"{TOP}/bindings/tests")
import corpus  # noqa: E402

COUNTS = r"\d+ requests, \d+ without effect, (\d+) reads, (\d+) bytes, \d+ writes, \d+ frames, \d+ malformed cuts"


def is_line_of(row, line):
    """Returns true if this is what the program prints of a row: of one that is swept, with the number of its reads and of its bytes."""
    if row.once:
        return line == f"{row.name}: whole"
    counts = re.fullmatch(f"{re.escape(row.name)}: {COUNTS}", line)
    # There is one read more, for the end of the script, unless a malformed line ends the run.
    return counts and (int(counts[1]), int(counts[2])) == (len(row.script) + (row.malformed == 0), len(row.text))


def check_printed(known):
    """Requires that the stored output of the program has a line for each row, and counts the frames that are cut and changed."""
    printed = read(corpus.PRINTED).splitlines()
    wrong = [f"{row.name}: {line}" for row, line in zip(known.rows, printed) if not is_line_of(row, line)]
    lengths = [len(known.frames[name]) // 2 for name in known.changed]
    changed = sum(length + 1 + 255 * length for length in lengths)
    ends = [f"{changed} frames cut and changed", "0 lines of the corpus are wrong, 0 frames are not used"]
    has_ends = printed[len(known.rows):len(known.rows) + 1] + printed[-1:] == ends
    report_if(f"the corpus: {len(known.rows)} rows and {len(lengths)} frames have their lines in the output of tests_hostile", has_ends and not wrong,
              "\n".join(wrong[:8]))


def check_corpus():
    try:
        known = corpus.read()
        reasons = [corpus.without_library(row) for row in known.rows]
    except ValueError as why:
        report_if("the corpus is read", False, str(why))
        return
    check_printed(known)
    report_if(f"the corpus: {reasons.count(None)} rows of ndpctl run are for the programs over the library", None in reasons)
    for why in sorted({*reasons} - {None}):
        names = [row.name for row, of_row in zip(known.rows, reasons) if of_row == why]
        print(f"  {len(names)} are not, since {why}: {'; '.join(names)}")
