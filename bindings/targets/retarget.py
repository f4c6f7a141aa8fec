#!/usr/bin/env python3
"""retarget CLANG MODULE.bc TARGET OUT.o [flags of clang]: compiles Rattle's LLVM module, which was made for aarch64, for another processor with 64-bit
pointers that is little-endian: riscv64 or wasm64. What names aarch64 in the module is replaced, and anything of aarch64 that is not known here is
refused."""
import re
import subprocess
import sys
import tempfile

LAYOUTS = {
    "riscv64": "e-m:e-p:64:64-i64:64-i128:128-n32:64-S128",
    "wasm64": "e-m:e-p:64:64-p10:8:8-p20:8:8-i64:64-i128:128-n32:64-S128-ni:1:10:20",
}
OF_AARCH64 = r'"(?:target-cpu|target-features|probe-stack|stack-probe-size)"="[^"]*" ?'
# The sum of neighbouring bytes, by which a hash table's group of 16 is searched, in the general instructions of LLVM.
ADDP = "llvm.aarch64.neon.addp.v16i8"
EVEN, ODD = (", ".join(f"i32 {i}" for i in range(first, 32, 2)) for first in (0, 1))
PAIRWISE = f"""
define internal <16 x i8> @addp.v16i8(<16 x i8> %a, <16 x i8> %b) alwaysinline nounwind {{
  %even = shufflevector <16 x i8> %a, <16 x i8> %b, <16 x i32> <{EVEN}>
  %odd = shufflevector <16 x i8> %a, <16 x i8> %b, <16 x i32> <{ODD}>
  %sum = add <16 x i8> %even, %odd
  ret <16 x i8> %sum
}}
"""
# The flags that Rattle gives to clang.
FLAGS = ["-ffunction-sections", "-fdata-sections", "-mllvm", "-trap-unreachable", "-mllvm", "-disable-machine-licm", "-mllvm",
         "-disable-postra-machine-licm", "-mllvm", "-sink-common-insts=false", "--no-default-config", "-no-canonical-prefixes",
         "-fno-crash-diagnostics", "-Werror", "-O3"]
OF_WASM = ["-mllvm", "-expand-div-rem-bits=64", "-mllvm", "-expand-fp-convert-bits=64"]
OF_OTHERS = ["-mllvm", "-no-trap-after-noreturn"]


def extended(line):
    """Returns a line of a function that C calls or that calls C, with its 32-bit numbers sign-extended in registers, as RISC-V has them."""
    if not line.startswith(("define ", "declare ")) or " internal " in line or " private " in line:
        return line
    line = line.replace("noundef i32 %", "noundef signext i32 %")
    return re.sub(r"^(define|declare)( dso_local)?( noundef)? i32 @", r"\1\2\3 signext i32 @", line)


def retargeted(text, target):
    layout = LAYOUTS[target.split("-")[0]]
    text = re.sub(r"^target datalayout = .*", f'target datalayout = "{layout}"', text, count=1, flags=re.M)
    text = re.sub(r"^target triple = .*", f'target triple = "{target}"', text, count=1, flags=re.M)
    lines = [re.sub(OF_AARCH64, "", line) if line.startswith("attributes ") else line for line in text.split("\n")]
    if target.startswith("riscv64"):
        lines = [extended(line) for line in lines]
    if any(line.startswith("declare ") and f"@{ADDP}(" in line for line in lines):
        lines = [line for line in lines if not (line.startswith("declare ") and f"@{ADDP}(" in line)]
        lines = [line.replace(f"@{ADDP}(", "@addp.v16i8(") for line in lines] + [PAIRWISE]
    others = [line for line in lines if "llvm.aarch64." in line or " asm " in line]
    if others:
        sys.exit("\n".join(["retarget: the module has these of aarch64's own", *others[:4]]))
    return "\n".join(lines)


def main(clang, module, target, out, *flags):
    with tempfile.TemporaryDirectory() as room:
        as_text = ["-x", "ir", module, "-S", "-emit-llvm", "-Xclang", "-disable-llvm-passes", "-o", f"{room}/of_aarch64.ll"]
        subprocess.run([clang, "--target=aarch64-unknown-linux-gnu", *as_text], check=True, capture_output=True)
        with open(f"{room}/of_aarch64.ll", encoding="utf-8") as file:
            text = retargeted(file.read(), target)
        with open(f"{room}/nd.ll", "w", encoding="utf-8") as file:
            file.write(text)
        own = OF_WASM if target.startswith("wasm") else OF_OTHERS
        made = subprocess.run([clang, f"--target={target}", *flags, *own, *FLAGS, "-c", "-x", "ir", f"{room}/nd.ll", "-o", out], check=False)
    sys.exit(made.returncode)


if __name__ == "__main__":
    main(*sys.argv[1:])
