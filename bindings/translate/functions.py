"""functions: a function of the module as a function of C."""
import re
from dataclasses import dataclass

from blocks import read_blocks, read_phi, uses_of
from cursor import refuse
from instructions import translate_instruction
from ir_types import VOID, Type, read_type
from operands import Reader, Value
from stack_slots import Slot, places_of


@dataclass(frozen=True)
class Signature:
    """The name of a function, its type and its parameters, which have names if it is defined."""

    name: str
    type: Type
    parameters: tuple


def read_signature(text, module):
    """Reads a line that begins with 'define' or 'declare'."""
    line = Reader(re.sub(r"( #\d+)?( {)?$", "", text), module)
    line.next()
    line.attributes()
    t, name = read_type(line), line.next()

    def parameter():
        kind = read_type(line)
        line.attributes()
        return Value(kind, line.next() if line.peek().startswith("%") else "")

    line.expect("(")
    parameters = line.listed(")", parameter)
    line.skip(("unnamed_addr", "local_unnamed_addr", "noinline"))
    line.finish()
    return Signature(name, t, tuple(parameters))


class Function:
    """What is known of the function that is being written."""

    def __init__(self, module, signature):
        self.module, self.signature = module, signature
        self.names = {}  # the C names of values
        self.inside = {}  # the C of values that are written where they are used
        self.labels = {}  # the C names of the blocks to which a jump leads
        self.variables = {}  # the C types of variables
        self.phis = {}  # the phis of each block: their variables, and their values by the blocks before
        self.blocks, self.slots, self.uses = [], [], {}

    def value(self, name):
        """Returns the C of a value."""
        return self.inside.get(name) or self.names.setdefault(name, f"x{len(self.names)}")

    def variable(self, name, t):
        """Declares the variable of a value, and returns its C name."""
        variable = self.value(name or refuse("a value without a name"))
        self.variables[variable] = self.module.c_type(t)
        return variable

    def add_slot(self, line):
        """Reads an alloca: a slot of the stack, whose address the value is."""
        t = read_type(line)
        if line.peek(1) != "align" or line.block != self.blocks[0].name:
            refuse("an alloca of a number of", t, "or behind the first block")
        self.slots.append(Slot(line.result, t.size, line.alignment()))
        return Value(VOID, "")

    def translate(self, lines):
        """Returns the lines of C of the function; `lines` are those of its body, pairs of a number and a text."""
        head = self.module.prototype(self.signature, [self.value(each.text) for each in self.signature.parameters])
        self.blocks = read_blocks(self, lines)
        self.uses = uses_of(self.blocks)
        for block in self.blocks:
            self.phis[block.name] = [read_phi(line) for line in block.instructions if line.op == "phi"]
        bodies = {block.name: [translate_instruction(line) for line in block.instructions if line.op != "phi"] for block in self.blocks}
        text = [f"{head}\n{{", *self.declarations()]
        for block, lines in bodies.items():
            text += [f"{self.labels[block]}:;"] if block in self.labels else []
            text += [f"  {line}" for line in lines if line]
        return [*text, "}\n"]

    def declarations(self):
        """Yields the declarations of the variables, and of the slots of the stack that are used."""
        for t in dict.fromkeys(self.variables.values()):
            yield f"  {t} {', '.join(variable for variable, of in self.variables.items() if of == t)};"
        for at, place in enumerate(places_of([slot for slot in self.slots if slot.name in self.names], self.blocks)):
            yield f"  _Alignas({max(slot.alignment for slot in place)}) u8 y{at}_[{max(1, max(slot.size for slot in place))}];"
            yield from (f"  Q const {self.value(slot.name)} = Q_OF(y{at}_);" for slot in place)
