"""cases: a small function of LLVM for each instruction and intrinsic that the translator knows, and for what C could break of them. Each takes three
numbers of 64 bits, %a, %b and %c, and returns one."""
import re
from dataclasses import dataclass

HEAD = """target datalayout = "e-m:e-p270:32:32-p271:32:32-p272:64:64-i64:64-i128:128-f80:128-n8:16:32:64-S128"
target triple = "x86_64-unknown-linux-gnu"
"""
WIDTHS = (1, 3, 8, 13, 16, 24, 32, 33, 48, 64)
ORDERS = ("eq", "ne", "ult", "ule", "ugt", "uge", "slt", "sle", "sgt", "sge")
BITWISE, SUMS, SHIFTS = ("and", "or", "xor"), ("add", "sub"), ("shl", "lshr", "ashr")


@dataclass(frozen=True)
class Case:
    """A function: its name, the lines of its body, and what stands in front of it in the module."""

    name: str
    body: str
    before: str = ""

    def text(self, number):
        lines = [line.strip() for line in self.body.strip().split("\n")]
        body = "".join(f"{line}\n" if line.endswith(":") else f"  {line}\n" for line in lines)
        return f"{self.before}define i64 @t_{number}(i64 %a, i64 %b, i64 %c) {{\nstart:\n{body}}}\n"


def narrow(width, **names):
    """Lines that make numbers of so many bits of numbers of 64."""
    conversion = "trunc i64 %{} to i{}" if width < 64 else "add i64 %{}, 0"
    return "".join(f"%{name} = {conversion.format(of, width)}\n" for name, of in names.items())


def result(width, name="r"):
    """Lines that return a number of so many bits."""
    if width == 128:
        return (f"%high0 = lshr i128 %{name}, 64\n%high1 = trunc i128 %high0 to i64\n%low = trunc i128 %{name} to i64\n"
                "%high = mul i64 %high1, 3\n%z = add i64 %high, %low\nret i64 %z")
    return f"%z = {f'zext i{width} %{name} to i64' if width < 64 else f'add i64 %{name}, 0'}\nret i64 %z"


# %x and %y of 128 bits.
WIDE = "".join(f"%{x}h = zext i64 %{high} to i128\n%{x}s = shl i128 %{x}h, 64\n%{x}l = zext i64 %{low} to i128\n%{x} = or i128 %{x}s, %{x}l\n"
               for x, high, low in (("x", "a", "b"), ("y", "c", "a")))
# %p, 64 bytes of memory with the three numbers in front, and addresses in it.
MEMORY = """%p = alloca [64 x i8], align 16
%p8 = getelementptr inbounds i8, ptr %p, i64 8
%p16 = getelementptr inbounds i8, ptr %p, i64 16
call void @llvm.memset.p0.i64(ptr align 16 %p, i8 7, i64 64, i1 false)
store i64 %a, ptr %p, align 8
store i64 %b, ptr %p8, align 8
store i64 %c, ptr %p16, align 8
"""


def of_width(w):
    """What is computed of two numbers of a width."""
    two = narrow(w, x="a", y="b")
    few = f"%n = and i{w} %y, {(1 << (w.bit_length() - 1)) - 1 if w > 1 else 0}\n"
    for op in (*SUMS, "mul", *BITWISE):
        yield Case(f"{op} i{w}", two + f"%r = {op} i{w} %x, %y\n" + result(w))
    for op in SHIFTS:
        yield Case(f"{op} i{w}", two + few + f"%r = {op} i{w} %x, %n\n" + result(w))
        yield Case(f"{op} i{w} by a constant", two + f"%r = {op} i{w} %x, {w // 2}\n" + result(w))
        yield Case(f"{op} i{w} by any amount, used if it is small",
                   two + f"""%r0 = {op} i{w} %x, %y
                   %t = icmp {f'ult i{w} %y, {w}' if w > 1 else 'eq i1 %y, false'}
                   %r1 = select i1 %t, i{w} %r0, i{w} 0
                   %r2 = select i1 %t, i{w} %r0, i{w} %y
                   %r = xor i{w} %r1, %r2
                   """ + result(w))
    for op in ("udiv", "urem"):
        yield Case(f"{op} i{w}", two + f"%d = or i{w} %y, 1\n%r = {op} i{w} %x, %d\n" + result(w))
    for op in ("sdiv", "srem") if w > 1 else ():
        yield Case(f"{op} i{w}", two + f"%d0 = lshr i{w} %y, 1\n%d = or i{w} %d0, 1\n%r = {op} i{w} %x, %d\n" + result(w))
    for how in ORDERS:
        yield Case(f"icmp {how} i{w}", two + f"%r = icmp {how} i{w} %x, %y\n" + result(1))
    yield Case(f"select i{w}", two + f"%t = trunc i64 %c to i1\n%r = select i1 %t, i{w} %x, i{w} %y\n" + result(w))
    yield Case(f"freeze i{w}", two + f"%r = freeze i{w} %x\n" + result(w))
    for to in (to for to in (8, 24, 32, 64, 96, 128) if to > w):
        for op in ("zext", "sext"):
            yield Case(f"{op} i{w} to i{to}", two + (f"%r = {op} i{w} %x to i{to}\n" if to != 96 else f"%r0 = {op} i{w} %x to i96\n"
                f"%r = zext i96 %r0 to i128\n")
                       + result(128 if to == 96 else to))
    yield Case(f"trunc i{w} without overflow", two + f"%q = lshr i{w} %x, {w // 2}\n%r = trunc nuw i{w} %q to i{max(w - w // 2, 1)}\n"
               + result(max(w - w // 2, 1))) if w > 1 else Case("two of i1", two + "%r = add i1 %x, 1\n" + result(1))


def in_memory(w):
    """Numbers of a width in memory, and as cases of a switch."""
    yield Case(f"store and load i{w}", narrow(w, x="a") + f"""%p = alloca [32 x i8], align 8
        %q = getelementptr i8, ptr %p, i64 3
        store i{w} %x, ptr %q, align 1
        %r = load i{w}, ptr %q, align 1
        """ + result(w))
    bits = (1 << max(w // 8 * 8, 8)) - 1 if w < 64 else -1
    yield Case(f"bytes of i{w}", narrow(w, x="a") + f"""%p = alloca i64, align 8
        store i64 %b, ptr %p, align 8
        store i{w} %x, ptr %p, align 1
        %y = load i64, ptr %p, align 8
        %z = and i64 %y, {bits}
        ret i64 %z""")
    third = f"i{w} 3, label %f\ni{w} -2, label %f\n" if w > 2 else ""
    yield Case(f"switch i{w}", narrow(w, x="a") + f"""switch i{w} %x, label %d [
        i{w} 0, label %e
        {third}]
        d:
        br label %g
        e:
        br label %g
        {'f:' if third else 'unused:'}
        br label %g
        g:
        %z = phi i64 [ %a, %d ], [ %b, %e ], [ %c, {'%f' if third else '%unused'} ]
        ret i64 %z""")


def of_128():
    """What is computed of two numbers of 128 bits, and of those between 64 and 128."""
    for op in (*SUMS, "mul", *BITWISE):
        yield Case(f"{op} i128", WIDE + f"%r = {op} i128 %x, %y\n" + result(128))
        yield Case(f"{op} i96", WIDE + f"%x1 = trunc i128 %x to i96\n%y1 = trunc i128 %y to i96\n%r0 = {op} i96 %x1, %y1\n"
            f"%r = zext i96 %r0 to i128\n" + result(128))
    for op in SHIFTS:
        yield Case(f"{op} i128", WIDE + f"%n = and i128 %y, 127\n%r = {op} i128 %x, %n\n" + result(128))
        for n in (0, 1, 63, 64, 65, 127):
            yield Case(f"{op} i128 by {n}", WIDE + f"%r = {op} i128 %x, {n}\n" + result(128))
    for how in ORDERS:
        yield Case(f"icmp {how} i128", WIDE + f"%r = icmp {how} i128 %x, %y\n" + result(1))
        yield Case(f"icmp {how} i128, alike", WIDE + f"%d = trunc i64 %c to i1\n%e = zext i1 %d to i128\n%u = add i128 %x, %e\n"
            f"%r = icmp {how} i128 %x, %u\n" + result(1))
    for call, count in (("umax", 2), ("umin", 2), ("usub.sat", 2), ("bswap", 1)):
        given = ", ".join(("i128 %x", "i128 %y")[:count])
        yield Case(f"{call} i128", WIDE + f"%r = call i128 @llvm.{call}.i128({given})\n" + result(128))
    yield Case("ucmp i128", WIDE + "%r = call i8 @llvm.ucmp.i8.i128(i128 %x, i128 %y)\n" + result(8))
    yield Case("switch i128", WIDE + """switch i128 %y, label %d [
        i128 0, label %e
        i128 18446744073709551616, label %d
        i128 18446744073709551617, label %e
        ]
        d:
        ret i64 %a
        e:
        ret i64 %b""")
    yield Case("store and load i96", WIDE + """%p = alloca [32 x i8], align 16
        store i128 %y, ptr %p, align 16
        %x1 = trunc i128 %x to i96
        %q = getelementptr inbounds i8, ptr %p, i64 1
        store i96 %x1, ptr %q, align 1
        %r0 = load i96, ptr %q, align 1
        %m = load i128, ptr %p, align 16
        %r1 = zext i96 %r0 to i128
        %m0 = and i128 %m, 79228162514264337593543950335
        %r = xor i128 %r1, %m0
        """ + result(128))
    yield Case("store and load i128", WIDE + """%p = alloca i128, align 16
        store i128 %x, ptr %p, align 16
        %p8 = getelementptr inbounds i8, ptr %p, i64 8
        %z = load i64, ptr %p8, align 8
        ret i64 %z""")


def intrinsics(w):
    """The intrinsics of numbers of a width."""
    three = narrow(w, x="a", y="b", n="c")
    for call in ("umax", "umin", "smax", "smin", "usub.sat", "uadd.sat"):
        yield Case(f"{call} i{w}", three + f"%r = call i{w} @llvm.{call}.i{w}(i{w} %x, i{w} %y)\n" + result(w))
    for call in ("fshl", "fshr"):
        yield Case(f"{call} i{w}", three + f"%r = call i{w} @llvm.{call}.i{w}(i{w} %x, i{w} %y, i{w} %n)\n" + result(w))
        yield Case(f"{call} i{w} by its bits", three + f"%r = call i{w} @llvm.{call}.i{w}(i{w} %x, i{w} %y, i{w} {w})\n" + result(w))
    for call in ("cttz", "ctlz", "abs"):
        yield Case(f"{call} i{w}", three + f"%r = call i{w} @llvm.{call}.i{w}(i{w} %x, i1 false)\n" + result(w))
    yield Case(f"ctpop i{w}", three + f"%r = call i{w} @llvm.ctpop.i{w}(i{w} %x)\n" + result(w))
    for call in ("ucmp", "scmp"):
        for to in (2, 8, 32):
            yield Case(f"{call} i{w} to i{to}", three + f"%r = call i{to} @llvm.{call}.i{to}.i{w}(i{w} %x, i{w} %y)\n" + result(to))
    if w > 8:
        yield Case(f"bswap i{w}", three + f"%r = call i{w} @llvm.bswap.i{w}(i{w} %x)\n" + result(w))


def accesses():
    """Loads and stores at each alignment, and what moves bytes."""
    for by in (1, 2, 4, 8):
        for w in (8, 16, 32, 64, 128):
            yield Case(f"load i{w} align {by}", MEMORY + f"%q = getelementptr inbounds i8, ptr %p, i64 {by}\n"
                f"%r = load i{w}, ptr %q, align {min(by, w // 8)}\n" + result(w))
            yield Case(f"store i{w} align {by}", MEMORY + (narrow(w, x="c") if w < 128 else "%x = zext i64 %c to i128\n")
                       + f"%q = getelementptr inbounds i8, ptr %p, i64 {by}\nstore i{w} %x, ptr %q, align {min(by, w // 8)}\n"
                       f"%r = load i128, ptr %p, align 16\n" + result(128))
        yield Case(f"a pointer at an address that is a multiple of {by}", MEMORY + f"""%q = getelementptr inbounds i8, ptr %p, i64 {32 + by}
            store ptr %p8, ptr %q, align {by}
            %r = load ptr, ptr %q, align {by}
            %z = load i64, ptr %r, align 8
            ret i64 %z""")
    for call in ("memcpy", "memmove"):
        for length in ("5", "0", "%n"):
            yield Case(f"{call} of {length}", MEMORY + f"""%q = getelementptr i8, ptr %p, i64 33
                %n = and i64 %c, 15
                call void @llvm.{call}.p0.p0.i64(ptr %q, ptr %p8, i64 {length}, i1 false)
                %z = load i64, ptr %q, align 1
                ret i64 %z""")
    yield Case("memmove over itself", MEMORY + """%q = getelementptr i8, ptr %p, i64 3
        %n = and i64 %c, 15
        call void @llvm.memmove.p0.p0.i64(ptr %q, ptr %p, i64 %n, i1 false)
        call void @llvm.memmove.p0.p0.i64(ptr %p8, ptr %q, i64 13, i1 false)
        %z = load i64, ptr %p8, align 1
        ret i64 %z""")
    for call in ("memcpy", "memmove"):
        yield Case(f"{call} of nothing to null", MEMORY + f"""%n = sub i64 %c, %c
            call void @llvm.{call}.p0.p0.i64(ptr null, ptr null, i64 0, i1 false)
            call void @llvm.{call}.p0.p0.i64(ptr null, ptr null, i64 %n, i1 false)
            ret i64 %a""")
    yield Case("memset of nothing to null", "%n = sub i64 %c, %c\ncall void @llvm.memset.p0.i64(ptr null, i8 1, i64 %n, i1 false)\nret i64 %a")
    yield Case("memset", MEMORY + """%n = and i64 %c, 15
        %y = trunc i64 %b to i8
        call void @llvm.memset.p0.i64(ptr %p, i8 %y, i64 %n, i1 false)
        call void @llvm.memset.p0.i64(ptr %p16, i8 %y, i64 3, i1 false)
        %z = load i64, ptr %p8, align 1
        %v = load i64, ptr %p16, align 1
        %s = add i64 %z, %v
        ret i64 %s""")
    yield Case("a load stays in front of a store", MEMORY + """%v = load i64, ptr %p8, align 8
        store i64 %c, ptr %p8, align 8
        %z = sub i64 %v, %c
        ret i64 %z""")


def addresses():
    """The forms of getelementptr."""
    for flags in ("", "inbounds ", "nuw "):
        yield Case(f"getelementptr {flags}by an index", MEMORY + f"%i = and i64 %c, 5\n%q = getelementptr {flags}i64, ptr %p, i64 %i\n"
            f"%z = load i64, ptr %q, align 8\nret i64 %z")
    yield Case("getelementptr by an index of 32 bits", MEMORY + """%i0 = trunc i64 %c to i32
        %i = and i32 %i0, 1
        %j = sub i32 0, %i
        %q = getelementptr i64, ptr %p8, i32 %j
        %z = load i64, ptr %q, align 8
        ret i64 %z""")
    yield Case("getelementptr into a structure", MEMORY + "%q = getelementptr inbounds { i8, i32, [3 x i16], i64 }, ptr %p, i64 0, i32 2, "
        "i64 1\n%r = load i16, ptr %q, align 2\n" + result(16))
    yield Case("getelementptr behind a structure", MEMORY + "%q = getelementptr inbounds { i64, i8 }, ptr %p, i64 1\n"
        "%r = load i16, ptr %q, align 2\n" + result(16))
    yield Case("getelementptr into a structure of i24 and i1", MEMORY + "%q = getelementptr inbounds { i1, i24, i8, i64 }, ptr %p, i64 0, "
        "i32 3\n%z = load i64, ptr %q, align 8\nret i64 %z")
    yield Case("getelementptr into a packed structure", MEMORY + "%q = getelementptr inbounds <{ i8, i32, i64 }>, ptr %p, i64 1, i32 2\n"
        "%r = load i64, ptr %q, align 1\n" + result(64))
    yield Case("getelementptr into an array of structures", MEMORY + """%i = and i64 %c, 1
        %q = getelementptr inbounds [3 x { i16, i64 }], ptr %p, i64 0, i64 %i, i32 1
        %z = load i64, ptr %q, align 8
        ret i64 %z""")
    yield Case("getelementptr back", MEMORY + "%q = getelementptr i8, ptr %p16, i64 -8\n%z = load i64, ptr %q, align 8\nret i64 %z")
    yield Case("getelementptr without a step", MEMORY + "%q = getelementptr inbounds i8, ptr %p8, i64 0\n%z = load i64, ptr %q, align 8\nret i64 %z")
    yield Case("getelementptr far away and back", MEMORY + """%q = getelementptr i8, ptr %p, i64 -1000000
        %s = getelementptr i8, ptr %q, i64 1000008
        %z = load i64, ptr %s, align 8
        ret i64 %z""")
    yield Case("getelementptr of null", "%q = getelementptr i8, ptr null, i64 %a\n%z = ptrtoint ptr %q to i64\nret i64 %z")


def pointers():
    """Pointers in memory, and data that is moved as one."""
    yield Case("a pointer in memory", MEMORY + "store ptr %p8, ptr %p16, align 8\n%q = load ptr, ptr %p16, align 8\n"
        "%z = load i64, ptr %q, align 8\nret i64 %z")
    yield Case("data moved as a pointer", MEMORY + "%q = load ptr, ptr %p8, align 8\nstore ptr %q, ptr %p16, align 8\n"
        "%z = load i64, ptr %p16, align 8\nret i64 %z")
    yield Case("data moved as a pointer by a phi", MEMORY + """%q = load ptr, ptr %p8, align 8
        %t = trunc i64 %c to i1
        br i1 %t, label %d, label %e
        d:
        br label %e
        e:
        %s = phi ptr [ %p, %d ], [ %q, %start ]
        store ptr %s, ptr %p16, align 8
        %v = load i64, ptr %p16, align 8
        %z = select i1 %t, i64 7, i64 %v
        ret i64 %z""")
    yield Case("icmp of pointers", MEMORY + """%u = and i64 %c, 31
        %q = getelementptr inbounds i8, ptr %p, i64 %u
        %x = icmp ult ptr %p8, %q
        %y = icmp eq ptr %p8, %q
        %n = icmp ne ptr %q, null
        %x1 = zext i1 %x to i64
        %y1 = select i1 %y, i64 2, i64 %x1
        %z = select i1 %n, i64 %y1, i64 9
        ret i64 %z""")
    yield Case("inttoptr and ptrtoint", MEMORY + "%i = ptrtoint ptr %p to i64\n%j = add i64 %i, 8\n%q = inttoptr i64 %j to ptr\n"
        "%z = load i64, ptr %q, align 8\nret i64 %z")
    for op in ("ptrtoint", "ptrtoaddr"):
        yield Case(f"{op}", MEMORY + f"""%n = and i64 %c, 31
            %q = getelementptr inbounds i8, ptr %p, i64 %n
            %i = {op} ptr %q to i64
            %j = {op} ptr %p to i64
            %k = ptrtoint ptr %q to i16
            %l = ptrtoint ptr %p to i16
            %s = sub i16 %k, %l
            %t = zext i16 %s to i64
            %u = sub i64 %i, %j
            %z = mul i64 %t, %u
            ret i64 %z""")
    yield Case("ptrtoint to i16", "%q = inttoptr i64 %a to ptr\n%r = ptrtoint ptr %q to i16\n" + result(16))
    yield Case("inttoptr of a constant",
        "%q = select i1 false, ptr null, ptr inttoptr (i64 16 to ptr)\n%z = ptrtoint ptr %q to i64\nret i64 %z")
    yield Case("select of pointers", MEMORY + "%t = trunc i64 %c to i1\n%q = select i1 %t, ptr %p, ptr %p8\n%z = load i64, ptr %q, align 8\n"
        "ret i64 %z")


def jumps():
    """Blocks, phis, and where a value is computed."""
    loop = """%n = and i64 %c, 7
        br label %l
        l:
        {}
        %i = phi i64 [ 0, %start ], [ %j, %l ]
        %j = add i64 %i, 1
        {}
        %t = icmp ugt i64 %j, %n
        br i1 %t, label %e, label %l
        e:
        {}
        ret i64 %z"""
    yield Case("phis that exchange their values", loop.format("%x = phi i64 [ %a, %start ], [ %y, %l ]\n%y = phi i64 [ %b, %start ], [ %x, %l ]",
        "", "%z = sub i64 %x, %y"))
    yield Case("phis that go round", loop.format("%x = phi i64 [ %a, %start ], [ %y, %l ]\n%y = phi i64 [ %b, %start ], [ %w, %l ]\n"
        "%w = phi i64 [ %c, %start ], [ %x, %l ]", "",
                                                 "%z0 = mul i64 %x, 31\n%z1 = sub i64 %z0, %y\n%z2 = mul i64 %z1, 31\n%z = add i64 %z2, %w"))
    yield Case("a phi that keeps its value", loop.format("%x = phi i64 [ %a, %start ], [ %x, %l ]\n%y = phi i64 [ %b, %start ], [ %v, %l ]",
        "%v = mul i64 %y, %x", "%z = sub i64 %x, %y"))
    yield Case("a value is of its turn of the loop", loop.format("%x = phi i64 [ %a, %start ], [ %v, %l ]", "%u = mul i64 %x, 3\n"
        "%v = add i64 %u, %i", "%z = sub i64 %u, %v"))
    yield Case("phis of other types", """%t = trunc i64 %c to i1
        %x = trunc i64 %a to i5
        %w = zext i64 %b to i128
        %v0 = insertvalue { i64, i8 } poison, i64 %a, 0
        %v1 = insertvalue { i64, i8 } %v0, i8 3, 1
        br i1 %t, label %d, label %e
        d:
        br label %f
        e:
        br label %f
        f:
        %x1 = phi i5 [ %x, %d ], [ -1, %e ]
        %w1 = phi i128 [ %w, %d ], [ -1, %e ]
        %v = phi { i64, i8 } [ %v1, %d ], [ { i64 7, i8 9 }, %e ]
        %h = phi double [ 1.5, %d ], [ 2.5, %e ]
        """.replace("%h = phi double [ 1.5, %d ], [ 2.5, %e ]", "%h = phi double [ 1.5, %d ], [ 2.5, %e ]")
        + """%x2 = zext i5 %x1 to i128
        %m = mul i128 %w1, 33
        %s = add i128 %x2, %m
        %v2 = extractvalue { i64, i8 } %v, 0
        %v3 = extractvalue { i64, i8 } %v, 1
        %v4 = zext i64 %v2 to i128
        %v5 = zext i8 %v3 to i128
        %h0 = bitcast double %h to i64
        %h1 = zext i64 %h0 to i128
        %s1 = add i128 %s, %v4
        %s2 = add i128 %s1, %v5
        %r = add i128 %s2, %h1
        """ + result(128))
    yield Case("a division behind its test", """%t = icmp eq i64 %b, 0
        br i1 %t, label %e, label %d
        d:
        %q = udiv i64 %a, %b
        br label %e
        e:
        %z = phi i64 [ %c, %start ], [ %q, %d ]
        ret i64 %z""")
    yield Case("a value that is used twice", "%x = mul i64 %a, %b\n%y = add i64 %x, %c\n%z = xor i64 %x, %y\nret i64 %z")
    yield Case("what is only assumed", """%k = lshr i64 %a, 1
        %t = icmp sge i64 %k, 0
        call void @llvm.assume(i1 %t)
        %p = alloca i64, align 8
        call void @llvm.assume(i1 true) [ "align"(ptr %p, i64 8) ]
        ret i64 %a""")
    yield Case("a trap that is not reached", """%k = lshr i64 %a, 1
        %t = icmp slt i64 %k, 0
        br i1 %t, label %d, label %e
        d:
        call void @llvm.trap()
        unreachable
        e:
        ret i64 %c""")


def slots():
    """Slots of the stack that may share a place, and those that may not."""
    fill = "call void @llvm.memset.p0.i64(ptr %{0}, i8 {1}, i64 48, i1 false)\nstore i64 %{2}, ptr %{0}, align 8\n"
    two = "%p = alloca [48 x i8], align 8\n%q = alloca [48 x i8], align 16\n%k = alloca [48 x i8], align 8\n"
    start, end = "call void @llvm.lifetime.start.p0(ptr {0}%{1})\n".format, "call void @llvm.lifetime.end.p0(ptr {0}%{1})\n".format
    yield Case("slots one after the other", two + start("", "p") + fill.format("p", 1, "a") + "%x = load i64, ptr %p, align 8\n" + end("", "p")
        + start("nonnull ", "q")
               + fill.format("q", 2, "b") + "%y = load i64, ptr %q, align 8\n" + end("nonnull ", "q") + "%z = sub i64 %x, %y\nret i64 %z")
    yield Case("slots at the same time", two + start("", "p") + fill.format("p", 1, "a") + start("", "q") + fill.format("q", 2, "b")
        + "%x = load i64, ptr %p, align 8\n"
               + end("", "p") + "%y = load i64, ptr %q, align 8\n" + end("", "q") + "%z = sub i64 %x, %y\nret i64 %z")
    yield Case("a slot that lives on where another one begins", two + "%t = trunc i64 %c to i1\nbr i1 %t, label %d, label %e\nd:\n" + start("",
        "p") + fill.format("p", 1, "a")
               + "br label %f\ne:\n" + start("", "k") + fill.format("k", 3, "c") + end("", "k") + "br label %f\nf:\n" + start("", "q")
               + fill.format("q", 2, "b")
               + "br i1 %t, label %g, label %h\ng:\n%x = load i64, ptr %p, align 8\nret i64 %x\nh:\n%y = load i64, ptr %q, align 8\nret i64 %y")
    yield Case("a slot that lives round a loop", two + "%n = and i64 %c, 3\n" + start("", "q") + fill.format("q", 1, "a") + end("", "q")
        + """br label %l
        l:
        %i = phi i64 [ 0, %start ], [ %j, %m ]
        %j = add i64 %i, 1
        %t0 = icmp eq i64 %i, 0
        br i1 %t0, label %s, label %k1
        s:
        """ + start("", "p") + fill.format("p", 2, "b") + "br label %m\nk1:\n" + start("", "q") + fill.format("q", 3, "c") + "%x = load i64, "
        "ptr %p, align 8\n"
               + "%y = load i64, ptr %q, align 8\n%w = sub i64 %x, %y\n" + end("", "q") + """br label %m
        m:
        %v = phi i64 [ %w, %k1 ], [ 5, %s ]
        %t = icmp ugt i64 %j, %n
        br i1 %t, label %e, label %l
        e:
        ret i64 %v""")
    yield Case("a slot without a lifetime", two + fill.format("p", 1, "a") + start("", "q") + fill.format("q", 2, "b") + end("", "q") + start("",
        "k") + fill.format("k", 3, "c")
               + "%y = load i64, ptr %k, align 8\n" + end("", "k") + "%x = load i64, ptr %p, align 8\n%z = sub i64 %x, %y\nret i64 %z")
    yield Case("a slot that lives on behind the end of another one", two + start("", "k") + fill.format("k", 1, "a") + start("", "p")
        + fill.format("p", 2, "b") + end("", "p")
               + start("", "q") + fill.format("q", 3, "c") + "%x = load i64, ptr %k, align 8\n%y = load i64, ptr %q, align 8\n"
               "%z = sub i64 %x, %y\nret i64 %z")
    places = "".join(f"%p{k} = alloca [{size} x i8], align {by}\n%i{k} = ptrtoint ptr %p{k} to i64\n%j{k} = and i64 %i{k}, {by - 1}\n"
        f"%s{k + 1} = add i64 %s{k}, %j{k}\n"
                     for k, (size, by) in enumerate(((1, 1), (3, 8), (1, 16), (5, 2), (1, 8), (7, 16), (1, 4))))
    yield Case("slots of any alignment", "%s0 = add i64 0, 0\n" + places + "ret i64 %s7")


def calls():
    """Calls of functions of the module, and of one outside."""
    yield Case("structures that are passed and returned", """%s = insertvalue { i64, i8 } poison, i64 %a, 0
        %y = trunc i64 %b to i8
        %u = insertvalue { i64, i8 } %s, i8 %y, 1
        %r = call { i64, i8 } @pair({ i64, i8 } %u)
        %v = extractvalue { i64, i8 } %r, 0
        %w = extractvalue { i64, i8 } %r, 1
        %wz = zext i8 %w to i64
        %z = add i64 %v, %wz
        ret i64 %z""", "define internal { i64, i8 } @pair({ i64, i8 } %s) noinline {\n  %a = extractvalue { i64, i8 } %s, 0\n  %b = xor i64 %a, 5\n"
               "  %t = insertvalue { i64, i8 } %s, i64 %b, 0\n  ret { i64, i8 } %t\n}\n")
    for parts in ("{ i64, i64 }", "{ i8, i64 }", "{ i64, i8, i16, i32 }"):
        kinds = [each.strip() for each in parts.strip("{}").split(",")]
        values = [f"trunc i64 %{letter} to {kind}" if kind != "i64" else f"add i64 %{letter}, 1" for kind, letter in zip(kinds, "abca")]
        made = "".join(f"%p{k} = {value}\n%s{k + 1} = insertvalue {parts} %s{k}, {kinds[k]} %p{k}, {k}\n" for k, value in enumerate(values))
        made = made.replace("%s0,", "poison,") + f"%s = freeze {parts} %s{len(kinds)}\n%z0 = add i64 0, 0\n"
        for k, kind in enumerate(kinds):
            made += f"%v{k} = extractvalue {parts} %s, {k}\n" + (f"%w{k} = zext {kind} %v{k} to i64\n" if kind != "i64" else f"%w{k} = add i64 %v{k}, 0\n")
            made += f"%m{k} = mul i64 %z{k}, 3\n%z{k + 1} = add i64 %m{k}, %w{k}\n"
        yield Case(f"freeze of {parts}", made + f"ret i64 %z{len(kinds)}")
    yield Case("a select of structures", """%t = trunc i64 %c to i1
        %x = insertvalue { i64, i8 } { i64 1, i8 2 }, i64 %a, 0
        %y = insertvalue { i64, i8 } zeroinitializer, i64 %b, 0
        %r = select i1 %t, { i64, i8 } %x, { i64, i8 } %y
        %v = extractvalue { i64, i8 } %r, 0
        %w = extractvalue { i64, i8 } %r, 1
        %wz = zext i8 %w to i64
        %z = add i64 %v, %wz
        ret i64 %z""")
    yield Case("parameters of all types", """%x = zext i64 %a to i128
        %h = uitofp i64 %b to double
        %p = alloca i64, align 8
        %n = trunc i64 %b to i3
        call void @all(i3 %n, i128 %x, double %h, ptr nonnull align 8 %p, i1 true, i16 -2)
        %z = load i64, ptr %p, align 8
        ret i64 %z""", "define internal void @all(i3 zeroext %0, i128 noundef %1, double %2, "
            "ptr noundef nonnull writeonly captures(none) %3, i1 %4, i16 %5) unnamed_addr {\n"
               "  %w = trunc i128 %1 to i64\n  %v = bitcast double %2 to i64\n  %s = add i64 %w, %v\n  %n = sext i3 %0 to i64\n"
               "  %u = xor i64 %s, %n\n  %o = zext i1 %4 to i64\n"
               "  %k = sext i16 %5 to i64\n  %e = mul i64 %o, %k\n  %y = add i64 %u, %e\n  store i64 %y, ptr %3, align 8\n  ret void\n}\n")
    yield Case("a call whose result is not used", "%r = call i64 @counted(i64 %a)\n%z = load i64, ptr @count, align 8\nret i64 %z",
               "@count = internal global i64 5, align 8\ndefine internal i64 @counted(i64 %by) noinline {\n"
               "  %x = load i64, ptr @count, align 8\n  %y = add i64 %x, %by\n"
               "  store i64 %y, ptr @count, align 8\n  ret i64 %y\n}\n")
    yield Case("a function of another file", "%r = tail call i64 @given(i64 noundef %a, i64 %b)\n%z = add i64 %r, %c\nret i64 %z",
        "declare i64 @given(i64, i64)\n")


def constants():
    """Constants of each kind, and pointers in them."""
    read = "%i = and i64 %c, {0}\n%q = getelementptr inbounds {1}, ptr @{2}, i64 %i\n%r = load {1}, ptr %q, align 1\n"
    yield Case("an array of numbers", read.format(3, "i32", "numbers") + result(32),
        "@numbers = private unnamed_addr constant [4 x i32] [i32 1, i32 -2, i32 305419896, i32 0], align 4\n")
    yield Case("a text", read.format(3, "i8", "text") + result(8), '@text = private unnamed_addr constant [4 x i8] c"a\\22\\\\\\FF", align 1\n')
    yield Case("a structure", read.format(15, "i16", "structure") + result(16),
               "@structure = private unnamed_addr constant { i8, i24, [3 x i16], { i1, i64 } } { i8 1, i24 -2, [3 x i16] [i16 3, i16 4, "
               "i16 258], { i1, i64 } { i1 true, i64 -5 } }, align 8\n")
    yield Case("a packed structure", read.format(7, "i16", "packed") + result(16),
               "@packed = private unnamed_addr constant <{ i8, i64, [7 x i8] }> <{ i8 1, i64 72623859790382856, [7 x i8] zeroinitializer }>, "
               "align 1\n")
    yield Case("a constant of zeros", read.format(3, "i32", "zeros") + result(32),
        "@zeros = private unnamed_addr constant [4 x i32] zeroinitializer, align 16\n")
    pointing = """@pointing = private unnamed_addr constant <{ ptr, [8 x i8], ptr }> <{ ptr getelementptr (i8, ptr @aimed, i64 8), \
[8 x i8] c"\\01\\00\\00\\00\\00\\00\\00\\00", ptr @aimed }>, align 8
@aimed = private unnamed_addr constant [4 x i32] [i32 4, i32 5, i32 6, i32 7], align 4
"""
    yield Case("pointers in a constant", """%t = trunc i64 %c to i1
        %k = select i1 %t, i64 16, i64 0
        %w = getelementptr inbounds i8, ptr @pointing, i64 %k
        %q = load ptr, ptr %w, align 8
        %r = load i32, ptr %q, align 4
        """ + result(32), pointing)
    yield Case("constants of 64 bits and of others", "%x = add i64 %a, -81985529216486896\n%y = xor i64 %x, 4294967296\n"
        "%u = trunc i64 %y to i33\n%v = and i33 %u, -4294967295\n%r = or i33 %v, 2\n" + result(33))
    yield Case("undef and poison are not used", "%k = lshr i64 %a, 1\n%t = icmp sge i64 %k, 0\n%x = select i1 %t, i64 %b, i64 undef\n"
        "%z = select i1 %t, i64 %x, i64 poison\nret i64 %z")


def vectors(n):
    """Vectors of so many bytes."""
    two = MEMORY.replace("[64 x i8]", "[128 x i8]") + f"""%p64 = getelementptr inbounds i8, ptr %p, i64 64
        call void @llvm.memmove.p0.p0.i64(ptr %p64, ptr %p, i64 64, i1 false)
        store i64 %b, ptr %p64, align 1
        %p{n - 9}b = getelementptr inbounds i8, ptr %p, i64 {n - 9}
        store i64 %c, ptr %p{n - 9}b, align 1
        %x = load <{n} x i8>, ptr %p, align 1
        %y = load <{n} x i8>, ptr %p64, align 1
        """
    out = f"""store <{n} x i8> %r, ptr %p, align 1
        %r0 = load i64, ptr %p, align 1
        %r1 = load i64, ptr %p8, align 1
        %last = getelementptr inbounds i8, ptr %p, i64 {n - 8}
        %r3 = load i64, ptr %last, align 1
        %r2 = mul i64 %r0, 31
        %z0 = add i64 %r2, %r1
        %z1 = mul i64 %z0, 31
        %z = add i64 %z1, %r3
        ret i64 %z"""
    for op in (*SUMS, *BITWISE):
        yield Case(f"{op} <{n} x i8>", two + f"%r = {op} <{n} x i8> %x, %y\n" + out)
    for op in SHIFTS:
        yield Case(f"{op} <{n} x i8>", two + f"%r = {op} <{n} x i8> %x, splat (i8 3)\n" + out)
    for how in ORDERS:
        yield Case(f"icmp {how} <{n} x i8>", two + f"%m = icmp {how} <{n} x i8> %x, %y\n%r = bitcast <{n} x i1> %m to i{n}\n" + result(n))
    for op in BITWISE:
        yield Case(f"{op} <{n} x i1>", two + f"%m = icmp ult <{n} x i8> %x, %y\n%k = icmp slt <{n} x i8> %x, zeroinitializer\n"
            f"%o = {op} <{n} x i1> %m, %k\n"
                   f"%r = bitcast <{n} x i1> %o to i{n}\n" + result(n))
    yield Case(f"zext <{n} x i1>", two + f"%m = icmp ult <{n} x i8> %x, %y\n%r = zext <{n} x i1> %m to <{n} x i8>\n" + out)
    yield Case(f"select and sext <{n} x i8>", two + f"%m = icmp ult <{n} x i8> %x, splat (i8 100)\n%s = sext <{n} x i1> %m to <{n} x i8>\n"
               f"%r = select <{n} x i1> %m, <{n} x i8> %y, <{n} x i8> %s\n" + out)
    yield Case(f"select of <{n} x i8> by i1", two + f"%t = trunc i64 %c to i1\n%r = select i1 %t, <{n} x i8> %x, <{n} x i8> %y\n" + out)
    listed, truths = ", ".join(f"i8 {k * 7 % 256 - 128}" for k in range(n)), ", ".join(f"i1 {'true' if k % 3 else 'false'}" for k in range(n))
    yield Case(f"constants of <{n} x i8>", two + f"%s = add <{n} x i8> %x, <{listed}>\n"
        f"%r = select <{n} x i1> <{truths}>, <{n} x i8> %s, <{n} x i8> splat (i8 -3)\n" + out)
    for k in (0, n // 2 - 1, n // 2, n - 1):
        yield Case(f"insertelement and extractelement {k} of <{n} x i8>", two + narrow(8, e="c") + f"""%u = extractelement <{n} x i8> %x, i64 {k}
            %s = mul i8 %u, %e
            %r = insertelement <{n} x i8> %y, i8 %s, i64 {k}
            """ + out)
    yield Case(f"shufflevector of one byte to <{n} x i8>", two + narrow(8, e="c") + f"""%u = insertelement <{n} x i8> poison, i8 %e, i64 0
        %r = shufflevector <{n} x i8> %u, <{n} x i8> poison, <{n} x i32> zeroinitializer
        """ + out)
    for k in range(0, n, 16):
        yield Case(f"sixteen bytes of <{n} x i8> from {k} on", two + f"%v = shufflevector <{n} x i8> %x, <{n} x i8> poison, "
            f"<16 x i32> <{numbered(range(k, k + 16))}>\n"
                   "%r = bitcast <16 x i8> %v to i128\n" + result(128))


def numbered(places):
    return ", ".join(f"i32 {place}" for place in places)


def shuffles():
    """Bytes that are taken of vectors, and vectors as numbers of 128 bits."""
    mixed = narrow(8, e="a", f="b") + """%u = insertelement <{0} x i8> zeroinitializer, i8 %e, i64 {1}
        %w = insertelement <{0} x i8> %u, i8 %f, i64 3
        %s = shufflevector <{0} x i8> %w, <{0} x i8> {2}, <16 x i32> <{3}>
        %r0 = bitcast <16 x i8> %s to i128
        %k0 = extractelement <{0} x i8> %w, i64 3
        %k = zext i8 %k0 to i128
        %r = add i128 %r0, %k
        """
    for name, places in (("even", range(0, 32, 2)), ("odd", range(1, 32, 2)), ("mixed", [31, 0, 7, 16, 17, 3] * 2 + [3, 17, 1, 30])):
        yield Case(f"shufflevector of {name} bytes of 32", mixed.format(32, 17, "poison", numbered(places)) + result(128))
    listed = ", ".join(f"i8 {k + 1}" for k in range(16))
    for name, places in (("two", [31, 0, 7, 16, 17, 3] * 2 + [3, 17, 1, 30]), ("the second", range(16, 32)), ("one", [15, 3, 3, 0] * 4)):
        yield Case(f"shufflevector of {name} of 16", mixed.format(16, 15, f"<{listed}>", numbered(places)) + result(128))
    yield Case("shufflevector with bytes that may be any", narrow(8, e="a") + f"""%u = insertelement <16 x i8> zeroinitializer, i8 %e, i64 1
        %s = shufflevector <16 x i8> %u, <16 x i8> poison, <16 x i32> <i32 1, {', '.join(['i32 poison'] * 15)}>
        %z0 = extractelement <16 x i8> %s, i64 0
        """ + "%z = zext i8 %z0 to i64\nret i64 %z")
    yield Case("bitcast of i128", WIDE + """%v = bitcast i128 %x to <16 x i8>
        %w = shufflevector <16 x i8> %v, <16 x i8> poison, <16 x i32> zeroinitializer
        %s = xor <16 x i8> %v, %w
        %r = bitcast <16 x i8> %s to i128
        """ + result(128))


def doubles():
    """Numbers with a fraction."""
    two = """%x0 = lshr i64 %a, 20
        %y0 = lshr i64 %b, 30
        %y1 = or i64 %y0, 1
        %x = uitofp i64 %x0 to double
        %y = uitofp nneg i64 %y1 to double
        """
    for op in ("fadd", "fsub", "fmul", "fdiv"):
        yield Case(op, two + f"%r = {op} double %x, %y\n%z = bitcast double %r to i64\nret i64 %z")
    yield Case("infinities", "%t = trunc i64 %a to i1\n%r = select i1 %t, double 0xFFF0000000000000, double 0x7FF0000000000000\n"
               "%z = bitcast double %r to i64\nret i64 %z")
    yield Case("what is no number", "%t = trunc i64 %a to i1\n%r = select i1 %t, double 0xFFF8000000000000, double 0x7FF8000000000000\n"
               "%x0 = and i64 %b, 65535\n%x = uitofp i64 %x0 to double\n%q = fcmp ult double %r, %x\n%z = zext i1 %q to i64\nret i64 %z")
    yield Case("fmul and fadd, not joined", two + "%m = fmul double %x, %y\n%r = fadd double %m, %x\n%z = bitcast double %r to i64\nret i64 %z")
    yield Case("a double in memory", two + "%p = alloca double, align 8\nstore double %x, ptr %p, align 8\n%r = load double, ptr %p, align 8\n"
               "%s = call double @llvm.arithmetic.fence.f64(double %r)\n%z = bitcast double %s to i64\nret i64 %z")
    yield Case("constants with a fraction", two + "%m = fmul double %x, 1.250000e-01\n%r = fadd double %m, 0x3FB999999999999A\n"
        "%t = trunc i64 %c to i1\n"
               "%s = select i1 %t, double %r, double -2.5\n%z = bitcast double %s to i64\nret i64 %z")
    yield Case("uitofp of i32", "%x0 = trunc i64 %a to i32\n%x = uitofp i32 %x0 to double\n%z = bitcast double %x to i64\nret i64 %z")
    for how in ("oeq", "olt", "ole", "ogt", "oge", "une", "ult", "ugt", "uge", "ule"):
        yield Case(f"fcmp {how}", f"%x = bitcast i64 %a to double\n%y = bitcast i64 %b to double\n%r = fcmp {how} double %x, %y\n" + result(1))


def all_cases():
    cases = [case for width in WIDTHS for case in (*of_width(width), *in_memory(width))] + list(of_128())
    cases += [case for width in (8, 16, 32, 64) for case in intrinsics(width)]
    for subject in (accesses, addresses, pointers, jumps, slots, calls, constants, shuffles, doubles):
        cases += subject()
    return cases + [case for length in (16, 32, 64) for case in vectors(length)]


def declarations(text):
    """Returns a declaration for each intrinsic that a text calls."""
    lines = {}
    for found in re.finditer(r"call (?P<type>\S+) @(?P<name>llvm\.[\w.]+)\((?P<given>.*?)\)(?: \[|$)", text, re.M):
        types = re.findall(r"(?:^|, )(ptr|i\d+|double)\b", found["given"])
        given = [f"{each} immarg" if each == "i1" and found["name"] != "llvm.assume" else each for each in types]
        lines[found["name"]] = f"declare {found['type']} @{found['name']}({', '.join(given)})\n"
    return "".join(lines.values())


def module(cases):
    """Returns the module of the cases: the functions t_0, t_1 and so on."""
    text = "".join(case.text(number) for number, case in enumerate(cases))
    return HEAD + text + declarations(text)
