"""module: a module of LLVM as the text of C that goes behind prelude.h."""
import re

from constants import CONSTANT, translate_constant
from cursor import NAME, at_line, refuse
from functions import Function, read_signature
from ir_types import Structure

# Lines that say nothing of what the functions do, as Rattle's modules have them.
IGNORED = re.compile(r"""$|;|source_filename\ |target\ triple\ |!|attributes\ \#\d+\ =\ \{(?:\ (?:nounwind|willreturn|norecurse|nosync|nofree
    |nocallback|mustprogress|noinline|alwaysinline|inlinehint|noreturn|cold|speculatable|nobuiltin|nocreateundeforpoison|optsize|minsize|uwtable|memory\([^)]*\)
    |"(?:probe-stack|stack-probe-size|target-cpu|target-features|tune-cpu|frame-pointer)"="[^"]*"))*\ \}$""", re.VERBOSE)
LAYOUT = re.compile(r'target datalayout = "([^"]*)"$')
FUNCTION = re.compile(rf"(define|declare) ([^@]*)(@{NAME})\(")


def parts_of(text):
    """Returns the parts of a module: each line that is in no function, with its number, and the lines behind it that are."""
    parts, is_open = [], False
    for number, line in enumerate(text.split("\n"), 1):
        if is_open and line != "}":
            parts[-1][1].append((number, line))
        elif not is_open and not IGNORED.match(line):
            parts.append(((number, line), []))
        is_open = line.startswith("define ") or is_open and line != "}"
    return parts


class Module:
    """What is known of the module."""

    def __init__(self):
        self.names = {}  # the C names of constants and functions
        self.signatures = {}  # of functions; None of LLVM's own
        self.structures = {}  # the C types of the parts of structures, by their C names
        self.layout = None

    def address(self, name):
        """Returns the C of the address of a constant."""
        if name in self.signatures or name not in self.names:
            refuse("the address of a function:" if name in self.signatures else "no such name:", name)
        return f"Q_OF({self.names[name]})"

    def call(self, name, t, given):
        """Returns the C of a call of a function of the module, or of one that it calls."""
        signature = self.signatures.get(name) or refuse("no such function:", name)
        if (signature.type, [each.type for each in signature.parameters]) != (t, [each.type for each in given]):
            refuse(name, "has other types")
        return f"{self.names[name]}({', '.join(each.text for each in given)})"

    def c_type(self, t):
        """Returns the C of a type. The structures among them are declared."""
        if isinstance(t, Structure):
            parts = [self.c_type(part) for part in t.parts]
            if self.structures.setdefault(t.c_name, parts) != parts:
                refuse("another structure has the C name of", t)
        return t.c_name

    def prototype(self, signature, names):
        """Writes the head of a function whose parameters have these names."""
        given = ", ".join(f"{self.c_type(each.type)} {name}".rstrip() for each, name in zip(signature.parameters, names))
        return f"static {self.c_type(signature.type)} {self.names[signature.name]}({given or 'void'})"

    def read_head(self, text):
        """Names the constant or the function of a line, since others in front of it may use the name."""
        function, constant, layout = FUNCTION.match(text), CONSTANT.match(text), LAYOUT.match(text)
        if function:
            kind, linkage, name = function.groups()
            plain, is_own = name[1:].strip('"'), kind == "define" and bool({"internal", "private"} & set(linkage.split()))
            is_intrinsic = kind == "declare" and plain.startswith("llvm.")
            if not is_own and not is_intrinsic and not re.fullmatch(r"\w+", plain, re.ASCII):
                refuse("a name that C cannot have:", name)
            self.names[name] = f"f{len(self.signatures) + 1}" if is_own else ("m_" if kind == "define" else "os_") + plain
            self.signatures[name] = None if is_intrinsic else read_signature(text, self)
        elif constant:
            self.names[constant[1]] = f"g{len(self.names) - len(self.signatures)}"
        else:
            self.layout = layout[1].split("-") if layout else refuse("the line is not known")
            # ir_types.py has the layout of a little-endian machine with 64-bit pointers.
            if not {"e", "i64:64", "i128:128"} <= set(self.layout) or any(re.match("p0?:", word) for word in self.layout):
                refuse("the layout is another one")

    def structure_declarations(self):
        """Yields the structures that functions pass and return. Those within others are first."""
        for name, parts in self.structures.items():
            yield f"typedef struct {{ {' '.join(f'{part} f{at};' for at, part in enumerate(parts))} }} {name};"
            for at, part in enumerate(parts):
                yield f"static inline {name} {name}_set{at}({name} s, {part} e) {{ s.f{at} = e; return s; }}"
            if {*parts} <= {"u8", "u16", "u32", "u64"}:
                each = " ".join(f"s.f{at} = {part}_frozen(s.f{at});" for at, part in enumerate(parts))
                yield f"static inline {name} {name}_frozen({name} s) {{ {each} return s; }}"

    def translate(self, text):
        """Returns the C of a module."""
        parts, constants, pointers, functions = parts_of(text), [], [], []
        for place, _ in parts:
            with at_line(*place):
                self.read_head(place[1])
        self.layout or refuse("the module has no layout")
        prototypes = [f"{self.prototype(each, [''] * len(each.parameters))};" for each in self.signatures.values() if each]
        for place, body in parts:
            with at_line(*place):
                if place[1].startswith("@"):
                    declaration, calls = translate_constant(place[1], self)
                    constants.append(declaration)
                    pointers += calls
                elif place[1].startswith("define "):
                    functions += Function(self, self.signatures[FUNCTION.match(place[1])[3]]).translate(body)
        pointers = ["static void set_pointers(void)\n{", *pointers, "}"] if pointers else []
        return "\n".join([*self.structure_declarations(), *prototypes, *constants, *pointers, *functions])
