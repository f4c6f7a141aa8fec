"""faults: changes of the translator and of prelude.h that the cases have to notice. Each old text is in its file exactly once."""
from dataclasses import dataclass


@dataclass(frozen=True)
class Fault:
    """A change of a file, and what compiles the translation so that it is seen."""

    file: str
    old: str
    new: str
    compiler: tuple = ("gcc", "-O0")


NO_INT128, NO_VECTORS = ("gcc", "-O0", "-DND_NO_INT128"), ("gcc", "-O0", "-DND_NO_VECTORS")
ISO_C = ("gcc", "-O0", "-DND_ISO_C", "-DND_NO_INT128")
SANITIZED = ("gcc", "-O0", "-fsanitize=undefined", "-fno-sanitize-recover=all")
BY_CLANG = ("clang", "-O0", "-fsanitize=undefined", "-fno-sanitize-recover=all")
FAULTS = [
    # Numbers and their widths.
    Fault("ir_types.py", "if t.bits == t.container else f\"({t.c_name})(({text}) & {number(-1, t)})\"", "if True else ''"),
    Fault("ir_types.py", "return text if t.bits == 128 else", "return text if t.bits else"),
    Fault("ir_types.py", "value &= (1 << t.bits) - 1", "value &= (1 << min(t.bits, 63)) - 1"),
    Fault("ir_types.py", "UINT64_C({value})", "{value & 0xffffffff}u"),
    Fault("ir_types.py", "return kept(f\"({to.c_name}){signed(text, t)}\", to)", "return f\"({to.c_name}){text}\""),
    Fault("ir_types.py", "low = f\"((u64)0 - {text})\" if t == I1 else", "low = text if t == I1 else"),
    Fault("ir_types.py", "(u64)((int64_t){low} >> 63)", "(u64)0"),
    Fault("ir_types.py", "u128_low({text})", "u128_high({text})"),
    Fault("ir_types.py", "kept(f\"(u64){text}\", to)", "f\"(u64){text}\""),
    Fault("ir_types.py", "{to.c_name}_and({text}, {to.c_name}_splat(1))", "{text}"),
    # Arithmetic.
    Fault("arithmetic.py", "EXCHANGED = {\"gt\": \"lt\", \"le\": \"ge\"}", "EXCHANGED = {\"gt\": \"ge\", \"le\": \"ge\"}"),
    Fault("arithmetic.py", "texts = [signed(text, t) for text in texts]", "pass"),
    Fault("arithmetic.py", "amount(b, t) if op == 'ashr' else signed(b, t)", "amount(b, t) if op == 'ashr' else b"),
    Fault("arithmetic.py", "f\"({b} & {t.container - 1}u)\" if", "f\"({b} & {t.container // 2 - 1}u)\" if"),
    Fault("arithmetic.py", "f\"({b} & {t.container - 1}u)\" if", "b if", SANITIZED),
    Fault("arithmetic.py", "({'u64' if t.bits > 32 else 'u32'}){a}", "{a}", BY_CLANG),
    Fault("arithmetic.py", "' if op in SHIFTS else b}", "' if op not in SHIFTS else b}"),
    Fault("arithmetic.py", "'!' if order in ('ne', 'ge') else ''", "'!' if order == 'ne' else ''"),
    Fault("arithmetic.py", "COMPARED[how[1:] if is_ordered else OPPOSITE[how[1:]]]", "COMPARED[how[1:] if is_ordered else how[1:]]"),
    Fault("arithmetic.py", "\"lt\": \"ge\", \"ge\": \"lt\", \"gt\": \"le\"", "\"lt\": \"gt\", \"ge\": \"lt\", \"gt\": \"le\""),
    # Memory and addresses.
    Fault("operands.py", "fixed += known * t.size", "fixed += known"),
    Fault("operands.py", "f'(int64_t){signed(text, index)}'", "text"),
    Fault("operands.py", "scale = f\" * {t.size}u\" if t.size != 1 else \"\"", "scale = \"\""),
    Fault("operands.py", "fixed + t.offset(known)", "fixed + t.offset(0)"),
    Fault("ir_types.py", "at = rounded_up(at, 1 if self.is_packed else part.alignment) + part.size", "at += part.size"),
    Fault("ir_types.py", "rounded_up(self.offset(len(self.parts)), self.alignment)", "self.offset(len(self.parts))"),
    Fault("ir_types.py", "1 if self.is_packed else part.alignment)", "part.alignment)"),
    Fault("calls.py", "stn(ADD({p}, 8), u128_high({v}), {odd - 8});", ""),
    Fault("calls.py", "{min(by, t.size, 8)}\"", "{min(max(by, 2), t.size, 8)}\"", SANITIZED),
    Fault("calls.py", "return f\"{function}_n({to}, {what}, {length})\"", "return f\"{function.upper()}({to}, {what}, {length})\"", SANITIZED),
    Fault("instructions.py", "IN_PLACE = (\"load\", ", "IN_PLACE = ("),
    # Constants.
    Fault("constants.py", "at = t.offset(index) if isinstance(t, Structure) else len(whole.data)", "at = len(whole.data)"),
    Fault("constants.py", "at + place: text", "place: text"),
    Fault("constants.py", "t.size, \"little\"", "t.size, \"big\""),
    Fault("constants.py", "m[1] if m[1] == b\"\\\\\" else", "b\"\" if m[1] == b\"\\\\\" else"),
    # Blocks, phis and slots of the stack.
    Fault("blocks.py", "if any(word in written", "if any(word in ()"),
    Fault("blocks.py", "{then} else {other}", "{then} else {then}"),
    Fault("blocks.py", "jump(line, to)} else \" for case, to in cases", "jump(line, other)} else \" for case, to in cases"),
    Fault("blocks.py", "default: {jump(line, other)}", "default: {jump(line, cases[0][1])}"),
    Fault("stack_slots.py", "self.together[name] |= point if point & bit else 0", "pass"),
    Fault("stack_slots.py", "if at_end & ~living.get(to, at_end):", "if False:"),
    Fault("stack_slots.py", "else points[-1] & ~self.bits[name]", "else points[-1] & self.bits[name]"),
    Fault("functions.py", "max(slot.alignment for slot in place)", "1"),
    # Structures and vectors.
    Fault("vectors.py", "f\"{whole.text}.f{at}\"", "f\"{whole.text}.f0\""),
    Fault("vectors.py", "(f\"{text}.a\", at) if at < length", "(f\"{text}.a\", at) if at <= length"),
    Fault("vectors.py", "{k % 16}", "{k % 8}"),
    Fault("vectors.py", "sixteen(second, begin - length)", "sixteen(first, begin - length)"),
    Fault("vectors.py", "f\"{first.text}, {second.text}\" if length == 16", "f\"{second.text}, {first.text}\" if length == 16"),
    Fault("operands.py", "return text if t.of == I8 else f\"(u8)(0u - {text})\"", "return text"),
    Fault("operands.py", "{vector_of(lanes[:half])}, {vector_of(lanes[half:])}", "{vector_of(lanes[half:])}, {vector_of(lanes[:half])}"),
    # The functions of prelude.h.
    Fault("prelude.h", "return a > b ? (u##bits)(a - b) : (u##bits)0;", "return (u##bits)(a - b);"),
    Fault("prelude.h", "return s < a ? (u##bits)-1 : s;", "return s;"),
    Fault("prelude.h", "return n ? (u##bits)(a << n | b >> (bits - n)) : a;", "return (u##bits)(a << n | b >> (bits - n) % bits);"),
    Fault("prelude.h", "return a ? (u16)cttz32(a) : 16;", "return (u16)cttz32(a);"),
    Fault("prelude.h", "(u8)(ctlz32(a) - 24)", "(u8)ctlz32(a)"),
    Fault("prelude.h", "a.h >> (n - 64) | s << (128 - n))", "a.h >> (n - 64))", NO_INT128),
    Fault("prelude.h", "u128_of(a.h + b.h + (l < a.l), l)", "u128_of(a.h + b.h, l)", NO_INT128),
    Fault("prelude.h", "u128_of(a.h - b.h - (a.l < b.l), a.l - b.l)", "u128_of(a.h - b.h, a.l - b.l)", NO_INT128),
    Fault("prelude.h", "(int64_t)a.h < (int64_t)b.h ||", "a.h < b.h ||", NO_INT128),
    Fault("prelude.h", "(mid >> 32) + a.l * b.h", "a.l * b.h", NO_INT128),
    Fault("prelude.h", "v = v << 8 | p[n]", "v = v << 7 | p[n]"),
    Fault("prelude.h", "a == 0) return 64; for (; !(a & 1)", "a == 0) return 63; for (; !(a & 1)", ISO_C),
    Fault("prelude.h", "return (c & a) | (~c & b);", "return (c & b) | (~c & a);"),
    Fault("prelude.h", "V16(ult, 0 - (a < b))", "V16(ult, 0 - (a <= b))", NO_VECTORS),
    Fault("prelude.h", "ks[k] < 16 ? a.at[ks[k]] : b.at[ks[k] - 16]", "a.at[ks[k] & 15]", NO_VECTORS),
    Fault("prelude.h", "if (k < half) x.a", "if (k <= half) x.a"),
    Fault("prelude.h", "h##_mask(x.b) << half", "h##_mask(x.b) << (half - 1)"),
    Fault("prelude.h", "st_##h(ADD(p, half), x.b)", "st_##h(ADD(p, half), x.a)"),
    Fault("prelude.h", "#define d_fmul(a, b) d_fence((a) * (b))", "#define d_fmul(a, b) ((a) * (b))", ("gcc", "-O2", "-march=haswell",
        "-ffp-contract=fast")),
]
