"""hostile: the frames that `hostile`, `random` and `scarce` read, and what the first two are to print, by the rules of rules.py: of the frames of the
corpus, cut and changed, at the nodes of busy.h; and of a sample of random frames."""
import ipaddress
import os
from collections import Counter

import corpus
import rules

HERE = os.path.dirname(os.path.abspath(__file__))


def packed(text):
    return ipaddress.IPv6Address(text).packed


# The nodes of busy.h.
FE80 = (packed("fe80::"), 64)
BUSY = [rules.Node(rules.HOST, [packed("fe80::3656:78ff:fe9a:bcde"), packed("2001:db8::3656:78ff:fe9a:bcde")],
                   [packed("2001:db8:5:0:3656:78ff:fe9a:bcde")], [FE80, (packed("2001:db8::"), 64), (packed("2001:db8:5::"), 64)],
                   {packed("2001:db8:1::5"): packed("fe80::2")}, [packed("fe80::ff:fe00:1"), packed("fe80::2")]),
        rules.Node(rules.ROUTER, [packed("fe80::ff:fe00:1")])]


def named():
    """Returns the text of the frames, a name and its digits a line, and those that are varied. These are the frames that the corpus says to change, and
    come first; behind them are those of hostile.hex, which no row of the corpus has."""
    known = corpus.read()
    with open(f"{HERE}/hostile.hex", encoding="ascii") as file:
        others = dict(line.split() for line in file)
    both = {*known.frames.values()} & {*others.values()} | {*known.frames} & {*others}
    if both:
        raise ValueError(f"frames of the corpus are in hostile.hex too: {sorted(both)}")
    frames = {name: known.frames[name] for name in known.changed}
    text = "".join(f"{name} {digits}\n" for name, digits in (frames | others).items())
    return text, [bytes.fromhex(digits) for digits in frames.values()]


def variants(frame):
    """Yields a frame cut to each length, the whole one too, and then with each byte at each other value."""
    yield from (frame[:length] for length in range(len(frame) + 1))
    for at, byte in enumerate(frame):
        before, behind = frame[:at], frame[at + 1:]
        yield from (before + bytes([value]) + behind for value in range(256) if value != byte)


def mended(frame, is_cut):
    """Returns a frame with a good checksum, if it has a whole ICMPv6 message. One that was cut has the payload length of what is left."""
    if len(frame) < 58 or frame[20] != 58:
        return frame
    length = len(frame) - 54 if is_cut else int.from_bytes(frame[18:20], "big")
    if length < 4 or 54 + length > len(frame):
        return frame
    message = frame[54:56] + b"\0\0" + frame[58:54 + length]
    text = frame[22:54] + length.to_bytes(4, "big") + b"\0\0\0\x3a" + message + bytes(length % 2)
    # The sum is above 0, so its one's complement sum is 1 to 65535.
    total = int.from_bytes(text, "big") % 65535 or 65535
    return frame[:18] + length.to_bytes(2, "big") + frame[20:56] + (65535 - total).to_bytes(2, "big") + frame[58:]


def expected_lines(is_mended, step=1):
    """Yields the lines that `hostile` is to print."""
    number = 0
    for base in named()[1]:
        for at, frame in enumerate(variants(base)):
            if number % step == 0:
                frame = mended(frame, at < len(base)) if is_mended else frame
                hearings = rules.heard_by_both(frame)
                reports = (node.reports(frame, hearing) for node, hearing in zip(BUSY, hearings))
                yield "%02x%02x%02x%02x %08x%08x" % (*hearings, *reports, *(rules.crc_of(frame, hearing) for hearing in hearings))
            number += 1


COLUMNS = ("nd_hear, for a host", "nd_hear, for a router", "the host", "the router")
MESSAGES = {rules.RS: "rs", rules.RA: "ra", rules.NS: "ns", rules.NA: "na", rules.REDIRECT: "redirect", rules.OTHER: "other",
            rules.IN_TRANSIT: "in transit"}


def counts(lines):
    """Returns how many frames were what, for each column of the lines that `hostile` prints."""
    text = f"{len(lines)} frames\n"
    for i, column in enumerate(COLUMNS):
        said = Counter(int(line[2 * i:2 * i + 2], 16) for line in lines)
        heard = " ".join(f"{word} {said[number]}" for number, word in MESSAGES.items())
        text += f"  {column}: heard {heard}\n    dropped by reason {' '.join(str(said[why]) for why in rules.REASONS)}\n"
    return text


def wrong_samples(lines):
    """Returns the lines of `random` in which nd_hear says something else of a frame than the rules."""
    wrong = []
    for line in lines:
        if line.startswith("frame "):
            _, said, crc, digits = line.split(" ")
            frame = bytes.fromhex(digits)
            hearings = rules.heard_by_both(frame)
            if said != "%02x%02x" % hearings or crc != "%08x%08x" % tuple(rules.crc_of(frame, hearing) for hearing in hearings):
                wrong.append(line)
    return wrong
