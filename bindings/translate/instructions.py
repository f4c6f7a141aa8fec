"""instructions: one instruction of a block as C. A value that is used once, in its own block, is written where it is used; others get a variable."""
import re

import arithmetic
import blocks
import calls
import vectors
from cursor import of_line, refuse
from ir_types import PTR, VOID
from operands import Value

INSTRUCTIONS = {
    **dict.fromkeys((*arithmetic.UNSIGNED, *arithmetic.SIGNED, *arithmetic.OF_DOUBLES), arithmetic.binary),
    **dict.fromkeys(("zext", "sext", "trunc", "bitcast", "uitofp", "ptrtoint", "ptrtoaddr", "inttoptr"), lambda line: line.converted(line.op)),
    "icmp": arithmetic.icmp, "fcmp": arithmetic.fcmp, "select": arithmetic.select, "freeze": arithmetic.freeze,
    "extractvalue": vectors.extractvalue, "insertvalue": vectors.insertvalue, "extractelement": vectors.extractelement,
    "insertelement": vectors.insertelement, "shufflevector": vectors.shufflevector,
    "getelementptr": lambda line: Value(PTR, line.address()), "load": calls.load, "store": calls.store, "call": calls.call,
    "alloca": lambda line: line.function.add_slot(line), "br": blocks.br, "switch": blocks.switch,
    "ret": lambda line: Value(VOID, "return;" if line.take("void") else f"return {line.typed().text};"),
    "unreachable": lambda line: Value(VOID, "UNREACHABLE();"),
}
# These stay where they are: what they give depends on when they run, or C compilers make better code of it.
IN_PLACE = ("load", "call", "freeze", "insertelement")
LONGEST_INSIDE = 160  # a longer expression gets a variable


@of_line
def translate_instruction(line):
    """Returns the C of an instruction, which is empty if it is written elsewhere."""
    op, function = line.op, line.function
    value = INSTRUCTIONS[op](line) if op in INSTRUCTIONS else refuse(f"the instruction '{op}' is not known")
    line.finish()
    if value.type == VOID:
        return value.text
    uses = function.uses[line.result]
    if not uses:
        return f"(void){value.text};" if op in IN_PLACE else ""
    if op not in IN_PLACE and uses == [line.block] and len(value.text) < LONGEST_INSIDE:
        function.inside[line.result] = value.text if is_closed(value.text) else f"({value.text})"
        return ""
    return f"{function.variable(line.result, value.type)} = {value.text};"


def is_closed(text):
    """Returns true if an expression means the same wherever it is put: a name, or what ends with the parenthesis that it begins with."""
    depth = 0
    for at, letter in enumerate(text):
        depth += (letter == "(") - (letter == ")")
        if depth == 0 and letter == ")" and at < len(text) - 1:
            return False
    return re.match(r"\w*\(|\w+$", text) is not None
