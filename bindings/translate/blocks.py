"""blocks: the lines of a function by its blocks, how one leads to the next, and phis, whose values are moved on the way there."""
import re
from collections import defaultdict
from dataclasses import dataclass

from cursor import NAME, at_line, of_line, refuse
from ir_types import I1, VOID, Integer, read_type
from operands import Reader, Value

LABEL = re.compile(rf"({NAME}):")
METADATA = re.compile(r"( #\d+)?(, ![\w.]+ ![\w]+)*$")  # and the number of a group of attributes


class Instruction(Reader):
    """An instruction: its words behind its name, `op`, and the name of its value, `result`, which is empty if it has none."""

    def __init__(self, place, function, block):
        super().__init__(place[1], function.module, function)
        self.place, self.block = place, block  # the number and the text of the line, and the name of its block
        self.result = self.next() if self.peek(1) == "=" else ""
        self.take("=")
        self.skip(("tail", "notail"))
        self.op = self.next()


@dataclass(frozen=True)
class Block:
    name: str
    instructions: list

    def targets(self):
        """Returns the names of the blocks to which it leads."""
        words = self.instructions[-1].words if self.instructions else []
        return [word for before, word in zip(words, words[1:]) if before == "label"]


def read_blocks(function, lines):
    """Returns the blocks of a function; `lines` are pairs of a number and a text. If the first block has no label, its name is %start."""
    blocks = []
    for place in whole_lines(lines):
        with at_line(*place):
            label = LABEL.match(place[1])
            if label or not blocks:
                blocks.append(Block(f"%{label[1]}" if label else "%start", []))
            if not label:
                blocks[-1].instructions.append(Instruction(place, function, blocks[-1].name))
    return blocks or refuse("a function without a block")


def whole_lines(lines):
    """Returns the lines that are not empty, without metadata, and a switch as one."""
    whole, is_open = [], False
    for number, text in lines:
        text = METADATA.sub("", text.rstrip())
        if is_open:
            whole[-1] = (whole[-1][0], f"{whole[-1][1]} {text.strip()}")
        elif text and not text.startswith(";"):
            whole.append((number, text))
        is_open = text.endswith("[") or is_open and text.strip() != "]"
    return whole


def uses_of(blocks):
    """Returns for each value the blocks that use it, one for each use. A use by a phi is in no block, and what is assumed is none."""
    uses = defaultdict(list)
    for block in blocks:
        for line in block.instructions:
            for word in () if "@llvm.assume" in line.words else line.words[line.at:]:
                if word.startswith("%"):
                    uses[word].append("" if line.op == "phi" else block.name)
    return uses


@of_line
def read_phi(line):
    """Reads a phi. Returns its variable, and its values by the blocks before."""
    t, values = read_type(line), {}
    while line.take("["):
        text = line.operand(t)
        line.expect(",")
        values[line.next()] = text
        line.expect("]")
        line.take(",")
    line.finish()
    return line.function.variable(line.result, t), values


def jump(line, to):
    """Writes the way from the block of a line to another one: the values of its phis, all read before any is written, and the jump."""
    function, moves = line.function, []
    for variable, values in function.phis[to] if to in function.phis else refuse("no such block:", to):
        text = values.get(line.block) or refuse(f"a phi without a value from {line.block}")
        moves += [(variable, text)] if text != variable else []
    written = {variable for variable, _ in moves}
    if any(word in written and word != variable for variable, text in moves for word in re.findall(r"\bx\d+\b", text)):
        read = "".join(f"{function.variables[variable]} t{k} = {text}; " for k, (variable, text) in enumerate(moves))
        text = read + "".join(f"{variable} = t{k}; " for k, (variable, _) in enumerate(moves))
    else:
        text = "".join(f"{variable} = {text}; " for variable, text in moves)
    label = function.labels.setdefault(to, f"b{len(function.labels)}")
    return f"{{ {text}goto {label}; }}" if text else f"goto {label};"


def br(line):
    if line.peek() == "label":
        return Value(VOID, jump(line, line.label()))
    test, then, other = line.typed(I1).text, jump(line, line.label(",")), jump(line, line.label(","))
    return Value(VOID, f"if ({test}) {then} else {other}")


def switch(line):
    value, other, cases = line.typed(Integer), line.label(","), []
    line.expect("[")
    while not line.take("]"):
        cases.append((line.typed(value.type).text, line.label(",")))
    if value.type.is_wide:
        tests = "".join(f"if (u128_eq({value.text}, {case})) {jump(line, to)} else " for case, to in cases)
        return Value(VOID, tests + jump(line, other))
    return Value(VOID, f"switch ({value.text}) {{ {' '.join(f'case {case}: {jump(line, to)}' for case, to in cases)} default: {jump(line, other)} }}")
