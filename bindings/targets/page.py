#!/usr/bin/env python3
"""page [FILE [MODULE..]], or page --text: makes docs/try/index.html, or FILE, of its source in bindings/page and of the proved crates nd_tell_c and
nd_c, as modules of WebAssembly with a 32-bit memory. If modules are named, `tell` or `node`, the others are those of docs/try/index.html. With --text
both are those, and the page is made of its source around them, without the toolchain. Where a tool is missing nothing is made, with a line
'skipped: ..'. The page names the tools that made its modules: others may make other bytes of the same code."""
import base64
import gzip
import json
import os
import re
import subprocess
import sys

import build
from build import BINDINGS, OUT, TOP, Skipped, need, read

sys.path.insert(0, f"{BINDINGS}/tests")
import rules  # noqa: E402

SOURCE = f"{BINDINGS}/page"
PAGE = f"{TOP}/docs/try/index.html"
# The parts of the page's script. Those before view.js need no browser.
SCRIPTS = ["tell.js", "capture.js", "fields.js", "sections.js", "node.js", "script.js", "words.js", "replay.js", "summary.js",
           "view.js", "arrows.js", "stations.js", "pair.js", "run.js", "hear.js", "tabs.js"]
# The modules: the crate, where Rattle's module of it is, its memory, and its functions.
MODULES = {"tell": ("nd_tell_c", f"{OUT}/tell", 32 * build.PAGE, lambda: ["nd_tell"]), "node": ("nd_c", OUT, 16 * build.PAGE, build.functions)}


def tools():
    """Returns the names of the tools that make the module."""
    need("rt", "wasm-opt")
    binaryen = re.search(r"\d+", subprocess.run(["wasm-opt", "--version"], capture_output=True, text=True, check=True).stdout)[0]
    return f"{read(f'{build.kit()}/KIT-ID').strip()}, binaryen {binaryen}"


def module(name):
    """Makes a module and returns its bytes. It has no names, since these say nothing of what it does."""
    need("rt", "gcc", "wasm-opt")
    build.prepare()
    crate, out, memory, exported = MODULES[name]
    build.run("rt", "lib", cwd=f"{TOP}/crates/{crate}")
    wide = build.module(f"page_{name}", memory, of=lambda: build.bitcode(out, crate), exported=exported)
    build.run("wasm-opt", *build.LOWER, "--memory64-lowering", "--strip-debug", "--strip-producers", wide, "-o", f"{OUT}/page_{name}_low.wasm")
    with open(f"{OUT}/page_{name}_low.wasm", "rb") as file:
        return file.read()


def packed(made):
    """Returns a module as text, packed by gzip without a date."""
    return base64.b64encode(gzip.compress(made, 9, mtime=0)).decode()


def unpacked(text):
    return gzip.decompress(base64.b64decode(text))


def blocks(name):
    """Returns the blocks of lines of a file of the source, without its head."""
    return [block.split("\n") for block in re.split(r"\n\n+", re.sub(r"^#.*\n", "", read(f"{SOURCE}/{name}"), flags=re.M).strip())]


def examples():
    """Returns the examples of the page: titles, the roles that they are for, and lines of digits."""
    found = [{"title": title, "role": role, "digits": digits} for title, role, *digits in blocks("examples.txt")]
    return [*found, {"title": "Fourteen frames of a link", "role": "either", "digits": read(f"{TOP}/examples/link.hex").split()}]


def scripts():
    """Returns the scripts of the page: titles, options and lines. One that is an example of the command has its name too."""
    for title, options, *lines in blocks("scripts.txt"):
        if options.startswith("example "):
            yield {"title": title, **example(options.split()[1])}
        else:
            role, mac, draws = options.split()
            yield {"title": title, "role": role, "mac": mac, "draws": draws, "lines": lines}


def example(name):
    """Returns the script of an example of `ndpctl run`, as examples/table.txt has it."""
    words = re.search(rf"^{name} +(\S+) .* run --role (\S+) --mac (\S+) --draws (\S+)$", read(f"{TOP}/examples/table.txt"), re.M)
    return {"role": words[2], "mac": words[3], "draws": words[4], "lines": read(f"{TOP}/examples/{words[1]}").splitlines(), "example": name}


def words():
    """Returns what the words of a line mean: by the kind of the line and the word, what each word behind it is."""
    return {kind: {word: meanings for word, *meanings in (line.split(" | ") for line in lines)} for kind, *lines in blocks("words.txt")}


def capture():
    """Returns the capture of the page, the frames of examples/host.hex with their moments, as a link has it."""
    return "_".join(line.replace(" ", "-") for line in read(f"{TOP}/examples/host.hex").splitlines() if " " in line)


def on_one_line(value):
    return json.dumps(value, indent=0).replace("\n", "")


def page_of(modules, by):
    """Returns the page with its packed modules, by their names, and the tools that made them."""
    parts = {"TELL": modules["tell"], "NODE": modules["node"], "EXAMPLES": on_one_line(examples()), "SCRIPTS": on_one_line(list(scripts())),
             "CAPTURE": on_one_line(capture()), "WORDS": on_one_line(words()),
             "REASONS": on_one_line(["", *rules.REASONS.values()]), "TOOLS": by,
             "SIZES": " and ".join(f"{len(unpacked(it)):,}" for it in modules.values()), "STYLE": read(f"{SOURCE}/page.css").rstrip("\n")}
    parts["SCRIPT"] = filled("\n\n".join(read(f"{SOURCE}/{name}").rstrip("\n") for name in SCRIPTS), parts)
    return filled(read(f"{SOURCE}/page.html"), parts)


def filled(text, parts):
    return re.sub(r"@([A-Z]+)@", lambda it: parts[it[1]], text)


def parts_of(page):
    """Returns the packed modules of a page by their names, and the tools that made them."""
    found = {name: re.search(rf"const {name.upper()}_MODULE = '([\w+/=]+)';", page)[1] for name in MODULES}
    return found, re.search(r"Modules made with: (.*) -->", page)[1]


def main_text():
    """Makes the text of the page anew around the modules that it has."""
    modules, by = parts_of(read(PAGE))
    build.write(PAGE, page_of(modules, by))
    print(f"made: the text of {os.path.basename(PAGE)}, around its modules, which were made by {by}")


def main(path=PAGE, *names):
    kept = parts_of(read(PAGE))[0] if names else {}
    try:
        by, made = tools(), {name: module(name) if name in (names or MODULES) else unpacked(kept[name]) for name in MODULES}
    except Skipped as why:
        print(f"skipped: page: {why}")
        return
    os.makedirs(os.path.dirname(path), exist_ok=True)
    build.write(path, page_of({name: packed(it) for name, it in made.items()}, by))
    print(f"made: {os.path.basename(path)}, with modules of {' and '.join(str(len(it)) for it in made.values())} bytes by {by}")


if __name__ == "__main__":
    if sys.argv[1:] == ["--text"]:
        main_text()
    else:
        main(*sys.argv[1:])
