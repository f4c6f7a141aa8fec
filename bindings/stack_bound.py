#!/usr/bin/env python3
"""stack_bound [--direct] OBJECT GRAPH.. FUNCTION..: how many bytes of stack a call of each function takes at most, and the calls that take them. The
graphs are those that gcc writes with `-fcallgraph-info=su`, whose names end in `.ci`, and the object is what it compiled. Fails if a function calls
itself, calls by a pointer, or takes no fixed stack; with `--direct` what is called by a pointer is left out. What the C library takes is not counted:
it has no graph. OBJDUMP names the program that reads the object, else `objdump`."""
import os
import re
import subprocess
import sys

NODE = re.compile(r'^node: \{ title: "([^"]+)" label: "[^"]*?(\d+) bytes \((\w+)\)', re.M)
POINTER = "__indirect_call"
EDGE = re.compile(r'^edge: \{ sourcename: "([^"]+)" targetname: "([^"]+)"', re.M)


class Graph:
    """The functions of graphs, with the bytes that each takes, and their calls."""

    def __init__(self, texts, is_direct):
        self.taken, self.calls, self.aliases, self.known, self.open = {}, {}, {}, {}, []
        self.is_direct = is_direct
        for text in texts:
            for title, count, kind in NODE.findall(text):
                if kind != "static":
                    sys.exit(f"FAILED: {name_of(title)} takes no fixed stack: {kind}")
                self.taken[name_of(title)] = int(count)
            for caller, called in EDGE.findall(text):
                self.calls.setdefault(name_of(caller), set()).add(name_of(called))

    def bound(self, function):
        """Returns the bytes that a call of a function takes at most, and the functions that are then called."""
        function = self.aliases.get(function, function)
        if function == POINTER and self.is_direct:
            return 0, []
        if function == POINTER or function in self.open:
            sys.exit(f"FAILED: no bound: {' calls '.join([*self.open, function])}")
        if function not in self.known:
            self.open.append(function)
            count, chain = max(map(self.bound, self.calls.get(function, ())), default=(0, []))
            self.open.pop()
            self.known[function] = self.taken.get(function, 0) + count, [function, *chain]
        return self.known[function]


def name_of(title):
    """Returns the name of a function: that of a static one has its file before it."""
    return title.rsplit(":", 1)[-1]


def aliases_of(path, taken, objdump):
    """Returns functions of an object that are another one with the same code, which alone is in the graph."""
    said = subprocess.run([objdump, "-t", path], capture_output=True, text=True, check=True).stdout
    places = {}
    for at, section, name in re.findall(r"^([0-9a-f]+) .{7} ?(\.text\S*)\s+[0-9a-f]+ (?:\.hidden )?(\S+)$", said, re.M):
        places.setdefault((section, int(at, 16) & ~1), []).append(name)
    first = {name: next((it for it in names if it in taken), name) for names in places.values() for name in names}
    return {name: other for name, other in first.items() if name not in taken and name != other}


def bounds(path, graphs, functions, objdump="objdump", is_direct=False):
    """Returns for each function what `Graph.bound` does. `path`: the object; `objdump`: the program that reads it; `is_direct`: what is called by a
    pointer is left out."""
    texts = []
    for graph in graphs:
        with open(graph, encoding="utf-8") as file:
            texts.append(file.read())
    made = Graph(texts, is_direct)
    made.aliases = aliases_of(path, made.taken, objdump)
    return {function: made.bound(function) for function in functions}


def main(*words):
    is_direct = words[0] == "--direct"
    path, *others = words[is_direct:]
    graphs = [word for word in others if word.endswith(".ci")]
    for function, (count, chain) in bounds(path, graphs, others[len(graphs):], os.environ.get("OBJDUMP", "objdump"), is_direct).items():
        print(f"{function} {count}: {' > '.join(chain)}")


if __name__ == "__main__":
    main(*sys.argv[1:])
