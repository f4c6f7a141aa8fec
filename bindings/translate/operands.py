"""operands: reads the operands of a line, and writes them in C."""
import re
import struct
from dataclasses import dataclass

from cursor import Cursor, refuse
from ir_types import DOUBLE, I8, I64, PTR, Array, Integer, Structure, Type, Vector, converted, number, read_type, signed

# What is said of a value, a parameter or a function, and asks nothing of C: it only allows an optimiser more.
ATTRIBUTES = frozenset("""noundef nonnull readonly readnone writeonly noalias signext zeroext inreg returned dead_on_unwind writable noext nofree
    nocapture immarg range captures initializes align dereferenceable dereferenceable_or_null dead_on_return local_unnamed_addr unnamed_addr
    dso_local fastcc ccc coldcc internal private hidden""".split())
ZEROS = ("undef", "poison", "zeroinitializer", "null")
NUMBER = re.compile(r"-?\d+|true|false")
TRUTHS = {"true": 1, "false": 0}


@dataclass(frozen=True)
class Value:
    """A value of LLVM, and its expression in C; of the type void a statement."""

    type: Type
    text: str


class Reader(Cursor):
    """The words of a line of the module, and the function that it is in, if it is in one."""

    def __init__(self, text, module, function=None):
        super().__init__(text)
        self.module, self.function = module, function

    def attributes(self):
        """Reads attributes, with what is in parentheses behind them."""
        while self.peek() in ATTRIBUTES:
            word = self.next()
            if self.peek() == "(":
                self.skip_parentheses()
            elif word == "align":
                self.count()

    def typed(self, kind=Type):
        """Reads a type and an operand of it. The type has to be this one, or of this class."""
        t = read_type(self)
        if t != kind and not (isinstance(kind, type) and isinstance(t, kind)):
            refuse("an operand of the type", t)
        self.attributes()
        return Value(t, self.operand(t))

    def operands(self, *kinds):
        """Reads operands of these types or classes, with commas between them."""
        values = [self.typed(kinds[0])]
        for kind in kinds[1:]:
            self.expect(",")
            values.append(self.typed(kind))
        return values

    def two(self):
        """Reads a type and two operands of it."""
        first = self.typed()
        self.expect(",")
        return first, Value(first.type, self.operand(first.type))

    def converted(self, op):
        """Reads an operand and the type to which it is to be converted, and returns the result."""
        self.skip(("nuw", "nsw", "nneg"))
        value = self.typed()
        self.expect("to")
        to = read_type(self)
        return Value(to, converted(op, value.type, value.text, to))

    def label(self, *before):
        """Reads the name of a block behind these words."""
        self.expect(*before, "label")
        return self.next()

    def alignment(self):
        """Reads the alignment at the end of a load, a store, an alloca or a constant."""
        self.expect(",", "align")
        return self.count()

    def operand(self, t):
        """Reads an operand of a type, and returns its C."""
        word = self.next()
        if word.startswith("%"):
            return self.function.value(word) if self.function else refuse("a value outside of a function:", word)
        if word.startswith("@") and t == PTR:
            return self.module.address(word)
        if word in ZEROS:
            return self.zero(t)
        if isinstance(t, Integer) and NUMBER.fullmatch(word):
            return number(int(TRUTHS.get(word, word)), t)
        if t == DOUBLE and re.match(r"-?\d", word):
            return double(word)
        if isinstance(t, Vector) and word in ("<", "splat"):
            return self.vector(t, word)
        if isinstance(t, Structure) and word == "{":
            return f"(({self.module.c_type(t)}){{{', '.join(self.listed('}', lambda: self.typed().text))}}})"
        if word == "getelementptr" and t == PTR:
            return self.address(is_constant=True)
        if word not in ("inttoptr", "ptrtoint", "ptrtoaddr"):
            refuse(f"an operand of the type {t} is expected, not '{word}'")
        self.expect("(")
        value = self.converted(word)
        self.expect(")")
        return f"({value.text})"

    def zero(self, t):
        """Writes the zero of a type, which undef and poison are too."""
        if isinstance(t, Integer):
            return number(0, t)
        if isinstance(t, Structure):
            return f"(({self.module.c_type(t)}){{{', '.join(map(self.zero, t.parts))}}})"
        return f"{t.c_name}_splat(0)" if isinstance(t, Vector) else {PTR: "Q_NULL", DOUBLE: "0.0"}.get(t) or refuse("a zero of the type", t)

    def vector(self, t, word):
        """Reads the rest of a constant vector."""
        lanes = self.listed({"splat": ")", "<": ">"}[word], lambda: lane(self.typed().text, t)) if word == "<" or self.take("(") else []
        if word == "splat" and len(lanes) == 1:
            return f"{t.c_name}_splat({lanes[0]})"
        return vector_of(lanes) if t.c_name == f"v{len(lanes)}" else refuse(len(lanes), "values of", t)

    def address(self, is_constant=False):
        """Reads what getelementptr computes: a pointer, and an offset from it in bytes. Only with `inbounds` it stays in its object."""
        inbounds = "inbounds" in self.skip(("inbounds", "nuw", "nusw"))
        if is_constant:
            self.expect("(")
        t = Array(0, read_type(self))  # the first index is one into an array of it
        self.expect(",")
        base, fixed, parts = self.typed(PTR).text, 0, []
        while self.take(","):
            index, word = read_type(self), self.peek()
            text = self.operand(index)
            known = int(TRUTHS.get(word, word)) if isinstance(index, Integer) and NUMBER.fullmatch(word) else None
            if isinstance(t, Structure) and known is not None:
                fixed, t = fixed + t.offset(known), t.part(known)
                continue
            t = t.of if isinstance(t, Array) and isinstance(index, Integer) and not index.is_wide else refuse("an index", word, "into", t)
            if known is not None:
                fixed += known * t.size
            else:
                scale = f" * {t.size}u" if t.size != 1 else ""
                parts.append(f"(u64){text if index == I64 else f'(int64_t){signed(text, index)}'}{scale}")
        if is_constant:
            self.expect(")")
        parts += [str(fixed)] if fixed else []
        return f"{'ADD' if inbounds else 'FAR'}({base}, {' + '.join(parts)})" if parts else base


def double(word):
    """Writes a number with a fraction, which LLVM has as a decimal or by its bits."""
    value = struct.unpack(">d", int(word, 16).to_bytes(8, "big"))[0] if re.fullmatch("0x[0-9A-Fa-f]{1,16}", word) else float(word)
    return repr(value) if value - value == 0 else f"double_of_bits(UINT64_C({int(word, 16)}))"


def lane(text, t):
    """Writes the byte that a vector has for one of its values."""
    return text if t.of == I8 else f"(u8)(0u - {text})"


def vector_of(lanes):
    """Writes a vector of these bytes. One of more than 16 is two halves."""
    half = len(lanes) // 2
    return f"v16_of({', '.join(lanes)})" if half == 8 else f"(v{len(lanes)}){{{vector_of(lanes[:half])}, {vector_of(lanes[half:])}}}"
