"""vectors: values of several parts: structures, and vectors of bytes. A vector of 32 or 64 bytes is two halves, `a` and `b`."""
from cursor import refuse
from ir_types import I8, I32, Integer, Structure, Type, Vector, constant_of, read_type
from operands import Value, lane


def below(length, index):
    """Returns the index of a part, which has to be known."""
    return index if index is not None and index < length else refuse("a part of", length, "at", index)


def extractvalue(line):
    whole = line.typed(Structure)
    line.expect(",")
    at = below(len(whole.type.parts), line.count())
    return Value(whole.type.parts[at], f"{whole.text}.f{at}")


def insertvalue(line):
    whole, part = line.operands(Structure, Type)
    line.expect(",")
    at = below(len(whole.type.parts), line.count())
    return Value(whole.type, f"{line.module.c_type(whole.type)}_set{at}({whole.text}, {part.text})")


def insertelement(line):
    whole, part, at = line.operands(Vector, Type, Integer)
    t = whole.type
    return Value(t, f"{t.c_name}_set({whole.text}, {below(t.length, constant_of(at.text))}, {lane(part.text, t)})")


def extractelement(line):
    whole, at = line.operands(Vector, Integer)
    k = below(whole.type.length, constant_of(at.text)) if whole.type.of == I8 else refuse("an element of", whole.type)
    return Value(I8, f"v16_get({sixteen(whole, k)}, {k % 16})")


def sixteen(whole, at):
    """Writes the sixteen bytes of a vector in which this one is."""
    text, length = whole.text, int(whole.type.c_name[1:])
    while length > 16:
        length //= 2
        text, at = (f"{text}.a", at) if at < length else (f"{text}.b", at - length)
    return text


def shufflevector(line):
    first, second = line.operands(Vector, Vector)
    line.expect(",")
    mask = read_type(line)
    if first.type.of != I8 or mask != Vector(getattr(mask, "length", 0), I32):
        refuse("shufflevector of", first.type, "by", mask)
    to = Vector(mask.length, I8)
    if line.take("zeroinitializer"):
        return Value(to, f"{to.c_name}_splat(v16_get({sixteen(first, 0)}, 0))")
    line.expect("<")
    taken = [below(2 * first.type.length, constant_of(text)) for text in line.listed(">", lambda: line.typed(I32).text)]
    return Value(to, shuffled(first, second, taken) if len(taken) == mask.length == 16 else refuse("shufflevector to", to))


def shuffled(first, second, taken):
    """Writes sixteen bytes that are taken of one or two vectors."""
    length, begin = first.type.length, taken[0]
    if begin % 16 == 0 and taken == list(range(begin, begin + 16)):
        return sixteen(first, begin) if begin < length else sixteen(second, begin - length)
    if length > 32 or max(taken) > 31:
        refuse("a shuffle of more than 32 bytes")
    halves = f"{first.text}, {second.text}" if length == 16 else f"{first.text}.a, {first.text}.b"
    return f"V16_SHUFFLE({halves}, {', '.join(map(str, taken))})"
