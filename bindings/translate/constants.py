"""constants: the constants and variables of the module, as arrays of bytes. A pointer among them is put there when the program begins."""
import re
from dataclasses import dataclass, field

from cursor import NAME, refuse
from ir_types import CLOSING, PTR, Array, Integer, Structure, read_type
from operands import NUMBER, TRUTHS, ZEROS, Reader

CONSTANT = re.compile(rf"(@{NAME}) = ((?:private|internal|unnamed_addr|local_unnamed_addr|dso_local|hidden) )*(constant|global) (.*)$")


@dataclass
class Contents:
    """Bytes, and the C of the pointers among them by their places, where the bytes are 0."""

    data: bytes
    pointers: dict = field(default_factory=dict)


def translate_constant(text, module):
    """Returns the declaration of the constant of a line, and the calls that put pointers into it."""
    found = CONSTANT.match(text)
    line, name = Reader(found[4], module), module.names[found[1]]
    t = read_type(line)
    contents = read_contents(line, t)
    alignment = line.alignment() if line.peek() else t.alignment
    line.finish()
    kind = "const " if found[3] == "constant" and not contents.pointers else ""
    values = ",".join(map(str, contents.data.rstrip(b"\0"))) or "0"
    declaration = f"_Alignas({alignment}) static {kind}u8 {name}[{max(1, len(contents.data))}] = {{{values}}};"
    return declaration, [f"  stp_1(Q_OF({name} + {at}), {value});" for at, value in contents.pointers.items()]


def read_contents(line, t):
    """Reads the value of a constant."""
    word = line.peek()
    if word in ZEROS:
        line.next()
        return Contents(bytes(t.size))
    if word.startswith('c"'):  # a text, in which a backslash is before another one or two hexadecimal digits
        text = line.next()[2:-1].encode()
        return Contents(re.sub(rb"\\([0-9A-Fa-f]{2}|\\)", lambda m: m[1] if m[1] == b"\\" else bytes([int(m[1], 16)]), text))
    if word in CLOSING and isinstance(t, (Array, Structure)):
        line.next()
        return joined(t, line.listed(CLOSING[word], lambda: read_contents(line, read_type(line))))
    if isinstance(t, Integer) and NUMBER.fullmatch(word):
        return Contents((int(TRUTHS.get(line.next(), word)) & (1 << t.bits) - 1).to_bytes(t.size, "little"))
    return Contents(bytes(8), {0: line.operand(t)}) if t == PTR else refuse(f"a constant of the type {t} is expected, not '{word}'")


def joined(t, parts):
    """Returns the contents of an array or a structure, with zeros between its parts."""
    whole = Contents(b"")
    for index, part in enumerate(parts):
        at = t.offset(index) if isinstance(t, Structure) else len(whole.data)
        whole.data = whole.data.ljust(at, b"\0") + part.data
        whole.pointers.update({at + place: text for place, text in part.pointers.items()})
    return Contents(whole.data.ljust(t.size, b"\0"), whole.pointers)
