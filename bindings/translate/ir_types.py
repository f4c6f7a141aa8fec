"""ir_types: the types of LLVM, and C for its numbers: unsigned, of the next of 8, 16, 32, 64 and 128 bits, with zeros above their own."""
import re
from dataclasses import dataclass

from cursor import refuse


class Type:
    """A type: its bytes in an array, its alignment, and the type of C that its values have."""

    is_wide = False  # C may have it as two numbers
    size = property(lambda self: refuse("the size of", self))
    alignment = property(lambda self: self.size)
    c_name = property(lambda self: refuse("no C type for", self))


@dataclass(frozen=True)
class Plain(Type):
    """A pointer, a double, or void."""

    in_c: str
    size = 8
    c_name = property(lambda self: self.in_c)


@dataclass(frozen=True)
class Integer(Type):
    bits: int
    # The bits of its type in C, which are the next of these. Those above its own are zeros.
    container = property(lambda self: next(bits for bits in (8, 16, 32, 64, 128) if self.bits <= bits))
    is_wide = property(lambda self: self.bits > 64)
    size = property(lambda self: self.container // 8)
    c_name = property(lambda self: f"u{self.container}")


@dataclass(frozen=True)
class Array(Type):
    length: int
    of: Type
    size = property(lambda self: self.length * self.of.size)
    alignment = property(lambda self: self.of.alignment)


@dataclass(frozen=True)
class Vector(Type):
    """A vector. C has those of 16, 32 and 64 bytes. One of i1 has a byte for each, with all bits alike."""

    length: int
    of: Type
    c_name = property(lambda self: f"v{self.length}" if self.length in (16, 32, 64) and self.of in (I1, I8) else refuse("no C type for", self))


@dataclass(frozen=True)
class Structure(Type):
    parts: tuple
    is_packed: bool
    alignment = property(lambda self: 1 if self.is_packed else max((part.alignment for part in self.parts), default=1))
    size = property(lambda self: rounded_up(self.offset(len(self.parts)), self.alignment))
    c_name = property(lambda self: "_".join(("s", *(part.c_name for part in self.parts))) if not self.is_packed else refuse("no C type for", self))

    def offset(self, index):
        """Returns where a part begins; for the number of parts, where the last one ends."""
        at = 0
        for part in self.parts[:index]:
            at = rounded_up(at, 1 if self.is_packed else part.alignment) + part.size
        return at if self.is_packed or index == len(self.parts) else rounded_up(at, self.part(index).alignment)

    def part(self, index):
        return self.parts[index] if 0 <= index < len(self.parts) else refuse("no part", index, "of", self)


PTR, DOUBLE, VOID = Plain("Q"), Plain("double"), Plain("void")
I1, I8, I32, I64, I128 = map(Integer, (1, 8, 32, 64, 128))
PLAIN = {"ptr": PTR, "double": DOUBLE, "void": VOID}
# The functions of prelude.h for bits that are seen as another type.
SAME_BITS = {(Vector(16, I8), I128): "v16_u128", (I128, Vector(16, I8)): "u128_v16", (DOUBLE, I64): "bits_of_double", (I64, DOUBLE): "double_of_bits"}
TO = {"inttoptr": PTR, "uitofp": DOUBLE}
CLOSING = {"[": "]", "<": ">", "{": "}", "<{": "}>"}


def rounded_up(at, step):
    return -(-at // step) * step


def read_type(cursor):
    word = cursor.next()
    if word in PLAIN:
        return PLAIN[word]
    if re.fullmatch(r"i\d+", word) and 1 <= int(word[1:]) <= 128:
        return Integer(int(word[1:]))
    if word in ("[", "<"):
        length = cursor.count()
        cursor.expect("x")
        of = read_type(cursor)
        cursor.expect(CLOSING[word])
        return Array(length, of) if word == "[" else Vector(length, of)
    if word in ("{", "<{"):
        return Structure(tuple(cursor.listed(CLOSING[word], lambda: read_type(cursor))), word == "<{")
    return refuse(f"a type is expected, not '{word}'")


def number(value, t):
    """Writes a constant of a type."""
    value &= (1 << t.bits) - 1
    if t.is_wide:
        return f"u128_of({number(value >> 64, I64)}, {number(value, I64)})"
    return f"{value}u" if value < 1 << 32 else f"UINT64_C({value})"


def constant_of(text):
    """Returns the value of a constant of at most 32 bits as `number` writes it, or None."""
    return int(text[:-1]) if re.fullmatch(r"\d+u", text) else None


def kept(text, t):
    """Writes an expression without the bits above those of its type."""
    if t.is_wide:
        return text if t.bits == 128 else f"u128_and({text}, {number(-1, t)})"
    return f"({t.c_name})({text})" if t.bits == t.container else f"({t.c_name})(({text}) & {number(-1, t)})"


def signed(text, t):
    """Writes the signed number that a number is."""
    if t.is_wide:
        refuse("a signed number of", t)
    above = t.container - t.bits
    return f"((int{t.container}_t)({t.c_name})({text} << {above}) >> {above})" if above else f"(int{t.bits}_t){text}"


def converted(op, t, text, to):
    """Writes a value of the type `t` as one of another type, by an instruction of conversion."""
    is_number, is_of_truths = isinstance(t, Integer), isinstance(t, Vector) and t.of == I1
    are_numbers = is_number and isinstance(to, Integer)
    if op == "zext" and are_numbers:
        return f"({to.c_name}){text}" if not to.is_wide else text if t.is_wide else f"u128_of(0, {text})"
    if op == "sext" and are_numbers:
        return extended(t, text, to)
    if op == "trunc" and are_numbers:
        return kept(f"u128_low({text})" if t.is_wide and not to.is_wide else text, to)
    if op in ("zext", "sext") and is_of_truths and to == Vector(t.length, I8):
        return text if op == "sext" else f"{to.c_name}_and({text}, {to.c_name}_splat(1))"
    if op == "bitcast" and (is_of_truths and to == Integer(t.length) or (t, to) in SAME_BITS):
        return f"{SAME_BITS.get((t, to)) or f'{t.c_name}_mask'}({text})"
    if op in ("ptrtoint", "ptrtoaddr") and t == PTR and isinstance(to, Integer) and not to.is_wide:
        return kept(f"(u64){text}", to)
    if op in TO and is_number and not t.is_wide and to == TO[op]:
        return f"(Q)(u64){text}" if to == PTR else f"(double){text}"
    return refuse(op, "of", t, "to", to)


def extended(t, text, to):
    """Writes a signed number with more bits."""
    if to.is_wide:
        low = f"((u64)0 - {text})" if t == I1 else f"(u64)(int64_t){signed(text, t)}"
        return kept(f"u128_of((u64)((int64_t){low} >> 63), {low})", to)
    if t == I1:
        return kept(f"0u - {text}" if to.bits <= 32 else f"(u64)0 - {text}", to)
    return kept(f"({to.c_name}){signed(text, t)}", to)
