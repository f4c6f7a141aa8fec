"""calls: of functions of the module and of LLVM's own (intrinsics), and loads and stores, as functions named by bits and alignment."""
from cursor import refuse
from ir_types import DOUBLE, I8, PTR, VOID, Integer, Type, Vector, constant_of, kept, read_type
from operands import Value

# What says something to LLVM, and does nothing.
SAYING = ("@llvm.lifetime.start.p0", "@llvm.lifetime.end.p0", "@llvm.assume", "@llvm.experimental.noalias.scope.decl")
MOVES = ("memcpy.p0.p0.i64", "memmove.p0.p0.i64", "memset.p0.i64")
# Of numbers: how many there are. Behind them cttz, ctlz and abs have one that says what is poison, and it is dropped.
OF_NUMBERS = {"umax": 2, "umin": 2, "smax": 2, "smin": 2, "usub.sat": 2, "uadd.sat": 2, "fshl": 3, "fshr": 3, "cttz": 1, "ctlz": 1, "ctpop": 1,
              "abs": 1, "bswap": 1, "ucmp": 2, "scmp": 2}
OF_128 = ("umax", "umin", "usub.sat", "bswap", "ucmp")  # those that prelude.h has of 128 bits


def call(line):
    line.attributes()
    t, name = read_type(line), line.next()
    if not name.startswith("@"):
        refuse("a call of", name)
    if name in SAYING:
        line.at, text = len(line.words), ""
    else:
        line.expect("(")
        given = line.listed(")", line.typed)
        text = intrinsic(name[6:], t, given) if name.startswith("@llvm.") else line.module.call(name, t, given)
    return Value(t, f"{text};" if t == VOID and text else text)


def intrinsic(name, t, given):
    """Writes a call of the function llvm.NAME."""
    texts = [each.text for each in given]
    if name in MOVES:
        to, what, length, is_volatile = texts
        function, constant = name.partition(".")[0], constant_of(length)
        if is_volatile != "0u":
            refuse("a volatile", function)
        if constant is None:
            return f"{function}_n({to}, {what}, {length})"
        return f"{function.upper()}({to}, {what}, {constant})" if constant else "(void)0"
    if name == "trap":
        return "TRAP()"
    if name == "arithmetic.fence.f64" and t == DOUBLE:
        return f"d_fence({texts[0]})"
    kind = next((kind for kind in OF_NUMBERS if name.startswith(f"{kind}.")), None)
    of = given[0].type if given else VOID
    if kind and isinstance(of, Integer) and of.bits in ((8, 16, 32, 64, 128) if kind in OF_128 else (8, 16, 32, 64)):
        text = f"{kind.replace('.', '_')}{of.bits}({', '.join(texts[:OF_NUMBERS[kind]])})"
        return kept(text, t) if kind in ("ucmp", "scmp") else text
    return refuse(f"a call of llvm.{name}")


def access(line, t):
    """Reads an alignment. Returns how the functions for a type are named, and how many bytes are accessed one by one: 0 if all at once."""
    by, wide = line.alignment(), -(-t.bits // 8) if isinstance(t, Integer) else 1
    if isinstance(t, Integer):
        return f"{t.container}_{min(by, t.size, 8)}", 0 if wide in (1, 2, 4, 8, 16) else wide
    if isinstance(t, Vector) and t.of == I8:
        return f"_{t.c_name}", 0
    return {PTR: f"p_{min(by, 8)}", DOUBLE: "_double"}.get(t) or refuse("an access to", t), 0


def load(line):
    t = read_type(line)
    line.expect(",")
    p = line.typed(PTR).text
    kind, odd = access(line, t)
    text = f"ld{kind}({p})" if not odd else f"ldn({p}, {odd})" if odd < 8 else f"u128_of(ldn(ADD({p}, 8), {odd - 8}), ldn({p}, 8))"
    return Value(t, kept(text, t) if isinstance(t, Integer) and t.bits != t.container else text)


def store(line):
    value, address = line.operands(Type, PTR)
    v, p = value.text, address.text
    kind, odd = access(line, value.type)
    if odd > 8:
        return Value(VOID, f"stn({p}, u128_low({v}), 8); stn(ADD({p}, 8), u128_high({v}), {odd - 8});")
    return Value(VOID, f"stn({p}, {v}, {odd});" if odd else f"st{kind}({p}, {v});")
