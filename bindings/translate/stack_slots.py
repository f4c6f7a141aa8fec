"""stack_slots: the memory of a function on the stack. LLVM says when what is in a slot begins and ends to live, and slots that never live at the same
time share one place, as they do in a program that LLVM compiles."""
import re
from dataclasses import dataclass

from cursor import NAME, of_line, refuse

LIFETIME = re.compile(rf"call void @llvm\.lifetime\.(start|end)\.p0\(ptr (?:nonnull )?(%{NAME}|poison)\)")
LEAST_SHARED = 32  # smaller slots are better apart: C compilers make registers of them


@dataclass(frozen=True)
class Slot:
    name: str
    size: int
    alignment: int


class Lifetimes:
    """Which slots of a function may live at the same time. A set of slots is a number with a bit for each."""

    def __init__(self, blocks):
        self.events = {block.name: [event for line in block.instructions for event in events_of(line)] for block in blocks}
        names = dict.fromkeys(name for events in self.events.values() for name, _ in events)
        self.bits = {name: 1 << n for n, name in enumerate(names)}
        self.together = dict.fromkeys(names, 0)  # the slots that may live while this one does
        for block, live in self.at_begin(blocks).items():
            for point in self.points(block, live):
                for name, bit in self.bits.items():
                    self.together[name] |= point if point & bit else 0

    def at_begin(self, blocks):
        """Returns for each block what may live where it begins: what began on some way there and has not ended."""
        behind = {block.name: block.targets() for block in blocks}
        living, todo = dict.fromkeys(behind, 0), list(behind)
        while todo:
            block = todo.pop()
            at_end = self.points(block, living[block])[-1]
            for to in behind[block]:
                if at_end & ~living.get(to, at_end):
                    living[to] |= at_end
                    todo.append(to)
        return living

    def points(self, block, live):
        """Returns what may live where a block begins, and behind each event of it."""
        points = [live]
        for name, starts in self.events[block]:
            points.append(points[-1] | self.bits[name] if starts else points[-1] & ~self.bits[name])
        return points

    def may_share(self, one, other):
        """Returns true if two slots never live at the same time, and are better in one place."""
        is_known = one.name in self.bits and other.name in self.bits and min(one.size, other.size) >= LEAST_SHARED
        return is_known and not self.bits[one.name] & self.together[other.name]


def places_of(slots, blocks):
    """Returns the places of slots, the largest first. Each is a list of the slots that share it."""
    lifetimes, places = Lifetimes(blocks), []
    for slot in sorted(slots, key=lambda slot: -slot.size):
        shared = next((place for place in places if all(lifetimes.may_share(slot, other) for other in place)), [])
        shared.append(slot)
        places += [shared] if len(shared) == 1 else []
    return places


@of_line
def events_of(line):
    """Returns the slot that begins (True) or ends (False) to live by an instruction, if there is one."""
    found = LIFETIME.search(line.place[1])
    if "@llvm.lifetime." in line.place[1] and not (found and found[2] in ("poison", *(slot.name for slot in line.function.slots))):
        refuse("a lifetime, but of no slot of the stack")
    return [(found[2], found[1] == "start")] if found and found[2] != "poison" else []
