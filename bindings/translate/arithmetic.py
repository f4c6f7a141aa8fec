"""arithmetic: what is computed of numbers. C gets no signed overflow and no shift by too much, which LLVM allows where the result isn't used."""
from cursor import refuse
from ir_types import DOUBLE, I1, I8, PTR, Integer, Type, Vector, constant_of, kept, signed
from operands import Value

# The operators of C, for unsigned and for signed numbers.
UNSIGNED = {"add": "+", "sub": "-", "mul": "*", "and": "&", "or": "|", "xor": "^", "udiv": "/", "urem": "%", "shl": "<<", "lshr": ">>"}
SIGNED = {"sdiv": "/", "srem": "%", "ashr": ">>"}
SHIFTS, DIVISIONS, OF_BITS = ("shl", "lshr", "ashr"), ("udiv", "urem", "sdiv", "srem"), ("and", "or", "xor")
OF_DOUBLES = ("fadd", "fsub", "fmul", "fdiv")  # prelude.h rounds each result on its own
OF_VECTORS = {I8: ("add", "sub", *OF_BITS, *SHIFTS), I1: OF_BITS}
COMPARED = {"eq": "==", "ne": "!=", "lt": "<", "le": "<=", "gt": ">", "ge": ">="}
EXCHANGED = {"gt": "lt", "le": "ge"}  # with the operands exchanged
OPPOSITE = {"eq": "ne", "ne": "eq", "lt": "ge", "ge": "lt", "gt": "le", "le": "gt"}


def binary(line):
    """Translates an instruction with two operands of one type."""
    line.skip(("nuw", "nsw", "exact", "disjoint"))
    first, second = line.two()
    op, t, a, b = line.op, first.type, first.text, second.text
    if isinstance(t, Vector) and op in OF_VECTORS.get(t.of, ()):
        return Value(t, f"{t.c_name}_{op}({a}, {b})")
    if t == DOUBLE and op in OF_DOUBLES:
        return Value(t, f"d_{op}({a}, {b})")
    if not isinstance(t, Integer) or op in OF_DOUBLES or (t.is_wide and op in DIVISIONS) or (t.is_wide and t.bits != 128 and op == "ashr"):
        refuse(op, "of", t)
    if t.is_wide:
        return Value(t, kept(f"u128_{op}({a}, {f'(unsigned)u128_low({b}) & 127u' if op in SHIFTS else b})", t))
    return Value(t, of_number(op, t, a, b))


def of_number(op, t, a, b):
    if op in SIGNED:
        return kept(f"{signed(a, t)} {SIGNED[op]} {amount(b, t) if op == 'ashr' else signed(b, t)}", t)
    if op in OF_BITS + DIVISIONS:  # these give no more bits than they are given
        return f"({a} {UNSIGNED[op]} {b})" if t.bits > 16 else f"({t.c_name})({a} {UNSIGNED[op]} {b})"
    return kept(f"({'u64' if t.bits > 32 else 'u32'}){a} {UNSIGNED[op]} {amount(b, t) if op in SHIFTS else b}", t)


def amount(b, t):
    """Writes how far a shift goes. By the bits of a number or more the result is poison in LLVM, and C must not see it."""
    constant = constant_of(b)
    return f"({b} & {t.container - 1}u)" if constant is None else str(constant if constant < t.bits else 0)


def icmp(line):
    line.take("samesign")
    how = line.next()
    sign, order = ("", how) if how in ("eq", "ne") else (how[:1], how[1:])
    first, second = line.two()
    t, a, b = first.type, first.text, second.text
    if order not in COMPARED or sign not in ("", "u", "s"):
        refuse("icmp", how)
    if (isinstance(t, Vector) or t.is_wide) and order in EXCHANGED:
        a, b, order = b, a, EXCHANGED[order]
    if isinstance(t, Vector):
        return Value(Vector(t.length, I1), f"{t.c_name}_{sign}{order}({a}, {b})" if t.of == I8 else refuse("icmp of", t))
    return Value(I1, f"(u8){compared(t, sign, order, (a, b))}")


def compared(t, sign, order, texts):
    if t.is_wide:
        if sign == "s" and t.bits != 128:
            refuse("a signed number of", t)
        kind = "eq" if order in ("eq", "ne") else "slt" if sign == "s" else "lt"
        return f"{'!' if order in ('ne', 'ge') else ''}u128_{kind}({', '.join(texts)})"
    if t == PTR and sign != "s":
        texts = ["0u" if text == "Q_NULL" else f"(u64){text}" for text in texts]
    elif not isinstance(t, Integer):
        refuse("icmp of", t)
    elif sign == "s":
        texts = [signed(text, t) for text in texts]
    return f"({f' {COMPARED[order]} '.join(texts)})"


def fcmp(line):
    how = line.next()
    first, second = line.two()
    if how[:1] not in ("o", "u") or how[1:] not in COMPARED or how in ("one", "ueq") or first.type != DOUBLE:
        refuse("fcmp", how, "of", first.type)
    is_ordered = how[0] == "o" or how == "une"  # as C's are; others are the opposite, negated
    operator = COMPARED[how[1:] if is_ordered else OPPOSITE[how[1:]]]
    return Value(I1, f"(u8){'' if is_ordered else '!'}({first.text} {operator} {second.text})")


def select(line):
    test, first, second = line.operands(Type, Type, Type)
    text = f"{test.text} ? {first.text} : {second.text}" if test.type == I1 else f"{test.text}, {first.text}, {second.text}"
    return Value(first.type, f"({text})" if test.type == I1 else f"{first.type.c_name}_select({text})")


def freeze(line):
    value = line.typed()
    if not all(isinstance(part, Integer) and not part.is_wide for part in getattr(value.type, "parts", [value.type])):
        refuse("freeze of", value.type)
    return Value(value.type, f"{line.module.c_type(value.type)}_frozen({value.text})")
