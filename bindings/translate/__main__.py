#!/usr/bin/env python3
"""translate MODULE.ll OUT.c: writes a module of LLVM as a file of C11, for any processor, 32-bit and big-endian ones too.

The module is one that Rattle makes for x86-64 or aarch64, optimised by clang. OUT.c has prelude.h, and behind it, for each function of the module,
a function; for each value of LLVM a variable, or a part of the one expression that uses it; for each block a label.

KEPT is what LLVM says of the module. Its memory is bytes: numbers are little-endian at the offsets of the module's layout, and pointers have 8
bytes, on every machine; the functions of prelude.h read and write it. Variables hold pointers in 64 bits too, since one may be data that is only
moved. Numbers are unsigned, with zeros above their own bits. What LLVM calls poison or undef is 0, or what the machine gives; where C would have
undefined behaviour and LLVM only poison, the C is written so that it has none. README.md has the list.

NAMES. A function that the module defines for others is m_NAME, one of its own f1, f2, .., and one that it calls os_NAME. All are static: the
functions that others see, and those that are called, are in C that is put behind. Constants are g0, g1, .., and a structure of a u64 and a u8 is
s_u64_u8, with the parts f0 and f1. If a constant has pointers in it, set_pointers has to be called before any other function.

REFUSED is whatever is not known here: volatile and atomic accesses, calls by pointers, addresses of functions, allocas of a size that isn't known,
thread-local variables, assembly, and all types, instructions, intrinsics and attributes that Rattle's modules did not have so far. Then nothing is
written, the line `translate: ..` says what it is and where, and the status is 1."""
import sys
from pathlib import Path

sys.dont_write_bytecode = True

from cursor import Refused  # noqa: E402
from module import Module  # noqa: E402


def main(source, out):
    try:
        text = Module().translate(Path(source).read_text("utf-8"))
        Path(out).write_text(f"{Path(__file__).with_name('prelude.h').read_text('utf-8')}\n{text}", "utf-8")
    except Refused as refused:
        sys.exit(f"translate: {source}: {refused}{refused.place}")
    except (OSError, UnicodeDecodeError) as error:
        sys.exit(f"translate: {error}")


if __name__ == "__main__":
    main(*sys.argv[1:]) if len(sys.argv) == 3 else sys.exit("translate: usage: python3 bindings/translate MODULE.ll OUT.c")
