"""check_header: the headers against the sources. The numbers, structures and functions of both headers are those of the library's crates, by name and
by value, and none is on one side alone. gcc compares them: what the sources have is declared once more behind the headers, with the value of each
number, and with size, place and type of each field. The declarations for Rust are compared likewise. Then each number of the headers is changed in
turn, in a copy, and each change has to be refused."""
import glob
import os
import re
import shutil
import tempfile
from concurrent.futures import ThreadPoolExecutor

from checking import INCLUDE, TOP, WARNINGS, has, read, report, report_if, run, skip

HEADERS = ["nd_hear.h", "nd.h"]
# The structures of the library's crates, by their names in C.
STRUCTS = {"Slot": "nd_node", "Limits": "nd_limits", "Options": "nd_options", "Record": "nd_out", "NeighbourRow": "nd_neighbour_row",
           "RouterRow": "nd_router_row", "PrefixRow": "nd_prefix_row", "AddressRow": "nd_address_row", "ServerRow": "nd_server_row",
           "NameRow": "nd_name_row", "RedirectRow": "nd_redirect_row", "ParametersRow": "nd_parameters_row", "OfferRow": "nd_offer_row",
           "RouteRow": "nd_route_row", "Advertising": "nd_advertising", "CountsRow": "nd_counts_row", "NextHopRow": "nd_next_hop_row",
           "OwnAddress": "nd_own_address", "PathRow": "nd_path", "Message": "nd_message", "Heard": "nd_heard"}
# The fields of nd_options behind those that the library reads: it takes nothing but zeros there.
BEHIND_OPTIONS = [("identifier", "[u8; 8]")]
# What the sources have as arrays, or have not: the memory functions are the toolchain's, which the archive calls.
OTHER_STRUCTS = {"nd_addr", "nd_mac", "nd_block"}
ALLOCATOR = """struct nd_block nd_alloc(size_t, size_t);
struct nd_block nd_realloc(void *, size_t, size_t, size_t);
void nd_free(void *);
_Static_assert(sizeof(struct nd_block) == 16 && offsetof(struct nd_block, ok) == 0 && offsetof(struct nd_block, p) == 8, "nd_block");
_Static_assert(_Generic(((struct nd_block *)0)->ok, bool: 1, default: 0) && _Generic(((struct nd_block *)0)->p, void *: 1, default: 0), "nd_block");
_Static_assert(sizeof(nd_addr) == 16 && sizeof(((nd_addr *)0)->bytes) == 16, "nd_addr");
_Static_assert(sizeof(nd_mac) == 6 && sizeof(((nd_mac *)0)->bytes) == 6, "nd_mac");
"""
# The enumerations of the sources, by the beginnings of their names in C. A value `NotForUs` is ND_WHY_NOT_FOR_US.
ENUMS = {"WHY": "Why", "LOSS": "Loss", "REFUSAL": "Refusal", "LIMIT": "Limit", "ROLE": "Role", "PREFERENCE": "Preference", "STATE": "State",
         "REACHABILITY": "Reachability", "HOP": "Hop|Route", "CLEARABLE": "Clearable", "OUT": "Out|Output", "HEARING": "Hearing"}
NUMBERS = {"bool": ("bool", 1), "u8": ("uint8_t", 1), "u16": ("uint16_t", 2), "u32": ("uint32_t", 4), "u64": ("uint64_t", 8), "i32": ("int32_t", 4),
           "usize": ("size_t", 8), "*mut u8": ("void *", 8)}
ARRAYS = {("u8", 16): "nd_addr", ("u8", 6): "nd_mac"}
ALIASES = {"nd_addr": "[u8; 16]", "nd_mac": "[u8; 6]"}
# The parameters that the sources take as the bytes of a structure. C passes its address and its size.
AS_BYTES = {("nd_open", "options"): "nd_options"}
# What a header computes: it is compared by its values.
COMPUTED = {"REFUSED"}
# The crates with the structures, those with the functions of each header, the files with the numbers, and those whose constants they name.
CRATES = ["nd_c_types", "nd_heard", "nd_session"]
EXPORTS = {"nd_hear.h": "nd_hear_c", "nd.h": "nd_c"}
WITH_NUMBERS = ["nd_heard/src/header.rt", "nd_c_types/src/header.rt"]
NAMED = ["nd_addr/src/ip6.rt", "nd_addr/src/frame.rt", "nd_table/src/ends.rt", "nd_node/src/version.rt"]


def source(crate):
    return "\n".join(read(path) for path in sorted(glob.glob(f"{TOP}/crates/{crate}/src/**/*.rt", recursive=True)))


def without_comments(text):
    return re.sub(r"/\*.*?\*/|//[^\n]*", " ", text, flags=re.S)


def structs_of(text):
    """Returns the #[repr(C)] structures with their fields and types. Ghost fields take no bytes."""
    structs = {}
    for name, body in re.findall(r"#\[repr\(C\)\]\s*(?:#\[[^\n]*\]\s*)*pub struct (\w+) \{(.*?)\n\}", without_comments(text), re.S):
        fields = re.findall(r"^ +(?:pub(?:\(crate\))? )?(?!ghost\b)(\w+): ([^,{]+),$", body, re.M)
        structs[name] = [(field, ALIASES.get(kind, kind)) for field, kind in fields]
    return structs


def place(kind, structs):
    """Returns the size and the alignment of a type."""
    array = re.fullmatch(r"\[(\w+); (\d+)\]", kind)
    if array:
        size, align = place(array[1], structs)
        return size * int(array[2]), align
    if kind in NUMBERS:
        return NUMBERS[kind][1], NUMBERS[kind][1]
    at, widest = places(structs[kind], structs)[1:]
    return at, widest


def places(fields, structs):
    """Returns the fields with their places, and the size and the alignment of their structure."""
    at, widest, rows = 0, 1, []
    for field, kind in fields:
        size, align = place(kind, structs)
        at = (at + align - 1) // align * align
        rows.append((field, kind, at, size))
        at, widest = at + size, max(widest, align)
    return rows, (at + widest - 1) // widest * widest, widest


def flat(fields, structs, names):
    """Returns the fields, with those of a structure that C does not know in its place. `names` are those of the structures in C."""
    for field, kind in fields:
        if kind in structs and kind not in names:
            yield from flat(structs[kind], structs, names)
        else:
            yield field, kind


def type_of(kind, names):
    """Returns the type of a field in C, or None for an array that is compared by its size alone. `names` are those of the structures in C."""
    array = re.fullmatch(r"\[(\w+); (\d+)\]", kind)
    return ARRAYS.get((array[1], int(array[2]))) if array else names.get(kind) or NUMBERS[kind][0]


def struct_lines(structs, names):
    """Yields assertions in C for each structure: its size, and the place, the size and the type of each field."""
    for name, fields in structs.items():
        if name not in names:
            continue
        c_name = names[name]
        rows, size, _ = places(list(flat(fields, structs, names)), structs)
        yield f'_Static_assert(sizeof({c_name}) == {size}, "{c_name}");'
        for field, kind, at, field_size in rows:
            it = f"((({c_name} *)0)->{field})"
            yield f'_Static_assert(offsetof({c_name}, {field}) == {at} && sizeof{it} == {field_size}, "{c_name}.{field}");'
            if type_of(kind, names):
                yield f'_Static_assert(_Generic({it}, {type_of(kind, names)}: 1, default: 0), "{c_name}.{field}");'


def parameters_of(kind, names):
    """Returns the parameters in C for one of the source."""
    if kind == "Global":
        return []
    raw = re.fullmatch(r"\*(mut|const) (\w+)", kind)
    if raw:
        return [f"{'const ' if raw[1] == 'const' else ''}{NUMBERS[raw[2]][0] if raw[2] in NUMBERS else raw[2]} *"]
    refers = re.fullmatch(r"&(mut )?(?:\[(\w+)(?:; (\d+))?\]|(\w+))", kind)
    if not refers:
        return [NUMBERS[kind][0]]
    const = "" if refers[1] else "const "
    if refers[3]:
        return [f"{const}{ARRAYS[refers[2], int(refers[3])]} *"]
    named = refers[4] or refers[2]
    pointer = f"{const}{names[named] if named in names else NUMBERS[named][0]} *"
    return [pointer] if refers[4] else [pointer, "size_t"]


def functions_of(text, names, pattern=r'pub extern "C" fn (\w+)\((.*?)\)(?: -> (\w+))?'):
    """Returns the declaration in C of each function."""
    functions = {}
    for name, words, result in re.findall(pattern, without_comments(text), re.S):
        parameters = []
        for parameter, kind in re.findall(r"(\w+): ([^,]+)", words):
            structure = AS_BYTES.get((name, parameter)) if kind.strip() == "&[u8]" else None
            parameters += [f"const {structure} *", "size_t"] if structure else parameters_of(kind.strip(), names)
        functions[name] = f"{NUMBERS[result][0] if result else 'void'} {name}({', '.join(parameters) or 'void'});"
    return functions


def upper(name):
    return re.sub(r"(?<!^)(?=[A-Z])", "_", name).upper()


def value_of(expression, known):
    """Returns the number of an expression of the source, in which known constants may be named, or None if it is none."""
    text = re.sub(r"\bu(\d+)::MAX\b", lambda it: str(2 ** int(it[1]) - 1), re.sub(r" as \w+", "", expression))
    text = re.sub(r"\b[A-Z]\w*\b", lambda it: str(known.get(it[0], it[0])), text)
    return eval(text, {"__builtins__": {}}) if re.fullmatch(r"[\s\dxa-f_()+<\-]+", text) else None


def constants_of(paths, known):
    """Returns the constants of files that are numbers."""
    found = {}
    for path in paths:
        for name, expression in re.findall(r"^(?:pub )?const (\w+): [iu]\w+ =\s+([^;]+);", without_comments(read(f"{TOP}/crates/{path}")), re.M):
            value = value_of(expression, known | found)
            if value is not None:
                found[name] = value
    return found


def numbers_of_source():
    """Returns the numbers of the sources, by their names in C without ND_."""
    known = constants_of(NAMED, {})
    numbers = constants_of(WITH_NUMBERS, known)
    whys = re.search(r"\benum Why \{(.*?)\}", without_comments(read(f"{TOP}/crates/nd_addr/src/why.rt")), re.S)[1]
    numbers |= {f"WHY_{upper(name)}": int(number) for name, number in re.findall(r"(\w+) = (\d+),", whys)}
    version = re.search(r'VERSION: &str = "(\d+)\.(\d+)\.(\d+)"', read(f"{TOP}/crates/nd_node/src/version.rt"))
    numbers |= {f"VERSION_{name}": int(version[i]) for i, name in enumerate(("MAJOR", "MINOR", "PATCH"), 1)}
    return numbers | {"VERSION": known["VERSION_NUMBER"]}


def names_of_numbers(text):
    """Returns the names without ND_ that a header has for numbers: the values of its enumerations, and its #define lines, except for guards and
    initializers."""
    text = without_comments(text)
    names = [re.fullmatch(r"\s*ND_(\w+)(?:\s*=.*)?", value, re.S)[1] for body in re.findall(r"\benum\s+\w+\s*\{(.*?)\}", text, re.S)
             for value in body.strip().rstrip(",").split(",")]
    defined = re.findall(r"^\s*#\s*define\s+(?:ND_)?(\w+)(\(?)((?:\\\n|[^\n])*)$", text, re.M)
    return names + [name for name, bracket, body in defined
                    if name not in COMPUTED and (bracket or body.strip(" \\\n") and not body.strip(" \\\n").startswith("{"))]


def structs_in(text):
    """Returns the structures of a header with the names of their fields."""
    found = re.findall(r"\bstruct\s+(\w+)\s*\{(.*?)\}", without_comments(text), re.S)
    return {name: re.findall(r"(\w+)(?:\[\d+\])*\s*(?=[,;])", body) for name, body in found}


def functions_in(text):
    return set(re.findall(r"\b(nd_\w+)\([^;{]*\);", without_comments(text)))


def differences(what, source_names, header_names):
    """Returns what is on one side alone, or twice in the header."""
    alone = [f"{what} {name} is in the {'sources' if name in source_names else 'headers'} alone"
             for name in sorted(set(source_names) ^ set(header_names))]
    return alone + [f"{what} {name} is twice in the headers" for name in sorted(set(header_names)) if list(header_names).count(name) > 1]


class Sources:
    """What the sources have for C."""

    def __init__(self):
        self.structs = structs_of("\n".join(source(crate) for crate in CRATES))
        self.functions = {header: functions_of(source(crate), STRUCTS) for header, crate in EXPORTS.items()}
        self.numbers = numbers_of_source()
        size = constants_of(["nd_c_types/src/options.rt"], {})["SIZE"] + sum(place(kind, {})[0] for _, kind in BEHIND_OPTIONS)
        self.structs["Options"] += BEHIND_OPTIONS
        self.step = constants_of(["nd_c_types/src/refusal.rt"], {})["STEP"]
        self.program = f"""#undef ND_VERSION_MAJOR
#undef ND_VERSION_MINOR
#undef ND_VERSION_PATCH
#define ND_VERSION_MAJOR 3
#define ND_VERSION_MINOR 4
#define ND_VERSION_PATCH 5
_Static_assert(ND_VERSION == 0x30405, "ND_VERSION");
#include <string.h>
int main(void) {{
    static const unsigned char none[sizeof(nd_options)];
    nd_node node = ND_NODE_INIT;
    nd_options options = ND_OPTIONS_INIT;
    return node.is_open || node.at || sizeof options != {size} || memcmp(&options, none, sizeof options);
}}
"""

    def lines(self):
        """Yields C that is compiled behind the headers where these are right."""
        yield ALLOCATOR
        yield from struct_lines(self.structs, STRUCTS)
        yield from (line for functions in self.functions.values() for line in functions.values())
        yield f'_Static_assert(ND_REFUSED(3, 2) == -3 * {self.step} - 2, "ND_REFUSED");'
        for name, number in self.numbers.items():
            yield f'_Static_assert(ND_{name} == {number}{"" if number < 0 else "ull"}, "ND_{name}");'

    def faults(self, include):
        """Returns what is wrong with the headers of a folder."""
        texts = {header: read(f"{include}/{header}") for header in HEADERS}
        both = "\n".join(texts.values())
        numbers = names_of_numbers(both)
        faults = differences("the number", self.numbers, numbers)
        declared = structs_in(both)
        faults += differences("the structure", {*STRUCTS.values(), *OTHER_STRUCTS}, list(declared))
        for name, c_name in STRUCTS.items():
            fields = [field for field, _ in flat(self.structs[name], self.structs, STRUCTS)] if name in self.structs else []
            if fields != declared.get(c_name):
                faults.append(f"{c_name} has the fields {declared.get(c_name)}, not {fields}")
        allocator = functions_in(ALLOCATOR)
        faults += differences("the function", set(self.functions["nd_hear.h"]), list(functions_in(texts["nd_hear.h"])))
        faults += differences("the function", {*self.functions["nd.h"], *allocator}, list(functions_in(both)))
        with tempfile.TemporaryDirectory() as room:
            words = ["gcc", "-std=c11", *WARNINGS, f"-I{include}", "-x", "c", "-", "-o", f"{room}/program"]
            made = run(words, input="\n".join(['#include "nd.h"', *self.lines(), self.program]))
            if made.returncode:
                faults.append(made.stderr)
            elif run([f"{room}/program"]).returncode:
                faults.append("ND_NODE_INIT or ND_OPTIONS_INIT is not what the sources take for it")
        return faults

    def wrong_arms(self):
        """Returns the arms of a `match` in which a value has the number of another one, and the numbers that no arm has."""
        text = without_comments("\n".join(source(crate) for crate in CRATES))
        arms = []
        for begin, enum in ENUMS.items():
            arms += re.findall(rf"\b(?:{enum})::(\w+)\b(?:(?!=>|\n\n|\b{begin}_).)*=>(?:(?!=>|\n\n).)*?\b({begin})_([A-Z_]+)\b", text, re.S)
            arms += [(value, begin, name) for name, value in re.findall(rf"\b{begin}_([A-Z_]+) => (?:Some\()?(?:{enum})::(\w+)", text)]
        wrong = [f"{value} has the number ND_{begin}_{name}" for value, begin, name in arms if upper(value) != name]
        seen = {f"{begin}_{name}" for _, begin, name in arms}
        # An event that is refused has an arm for each reason.
        unseen = [name for name in self.numbers if name.split("_")[0] in ENUMS and not name.startswith("WHY_") and name not in seen | {"OUT_REFUSED"}]
        return wrong + [f"no arm has ND_{name}" for name in unseen]


def changes(text):
    """Yields a header with each of its numbers changed in turn, and with what was changed. A number is also the greatest of a type, by name."""
    code = re.sub(r"/\*.*?\*/|//[^\n]*|#if[^\n]*|#error[^\n]*", lambda it: re.sub(r"[^\n]", " ", it[0]), text, flags=re.S)
    for it in re.finditer(r"(?<![\w.])(?:\d+(?!\w)|UINT(?:32|64)_MAX)", code):
        other = str(int(it[0]) + 1) if it[0].isdigit() else "INT32_MAX"
        line = text.count("\n", 0, it.start()) + 1
        yield f"line {line}: {text.splitlines()[line - 1].strip()[:60]}: {other}", text[:it.start()] + other + text[it.end():]


def check_changes(sources):
    """Changes each number of the headers in a copy, and requires that each change is refused."""
    tried = [(header, what, text) for header in HEADERS for what, text in changes(read(f"{INCLUDE}/{header}"))]

    def passes(one):
        header, what, text = one
        with tempfile.TemporaryDirectory() as room:
            shutil.copytree(INCLUDE, f"{room}/include")
            with open(f"{room}/include/{header}", "w", encoding="utf-8") as file:
                file.write(text)
            return None if sources.faults(f"{room}/include") else f"{header}, {what}"

    with ThreadPoolExecutor(2) as pool:
        passed = list(filter(None, pool.map(passes, tried)))
    report_if(f"each of {len(tried)} changes of a number of the headers is refused", len(tried) > 100 and not passed, "\n".join(passed))


def check_source():
    crates = [*CRATES, *EXPORTS.values()]
    missing = [crate for crate in crates if not os.path.isdir(f"{TOP}/crates/{crate}")]
    if missing:
        return report_if("the headers against the sources", False, f"crates/{missing[0]} is not there")
    sources = Sources()
    faults = sources.faults(INCLUDE)
    functions = set().union(*sources.functions.values())
    what = f"{len(sources.numbers)} numbers, {len(STRUCTS)} structures, {len(functions)} functions"
    is_same = report_if(f"nd_hear.h and nd.h are what the sources have: {what}", not faults, "\n".join(faults))
    wrong = sources.wrong_arms()
    report_if("each number that C sees stands at the value of its name", not wrong, "\n".join(wrong))
    check_texts(sources)
    if is_same:
        check_changes(sources)
    return check_rust(sources)


def check_rust(sources):
    """Compares the declarations for Rust with the headers, and its enumerations with their numbers."""
    folder = f"{TOP}/bindings/rust/src"
    raw = read(f"{folder}/raw.rs")
    structs = structs_of(raw)
    names = {name: name for name in structs}
    functions = functions_of(raw, names, r"pub fn (\w+)\((.*?)\)(?: -> (\w+))?;")
    constants = {name: value_of(value, {}) for name, value in re.findall(r"^pub const (ND_\w+): \w+ = ([^;]+);", raw, re.M)}
    equal = [f'_Static_assert({name} == {number}{"" if number < 0 else "ull"}, "{name}");' for name, number in constants.items()]
    lines = ['#include "nd.h"', *struct_lines(structs, names), *functions.values(), *equal, ""]
    words = ["gcc", "-std=c11", *WARNINGS, f"-I{INCLUDE}", "-fsyntax-only", "-x", "c", "-"]
    report(f"raw.rs against nd.h: structures, functions, {len(constants)} numbers", run(words, input="\n".join(lines)))
    exported = {name for declared in sources.functions.values() for name in declared}
    alone = differences("the function", exported, list(functions))
    report_if(f"raw.rs against nd.h: {len(functions)} functions, {len(structs)} structures", not alone, "\n".join(alone))
    text = without_comments("".join(read(path) for path in sorted(glob.glob(f"{folder}/*.rs")) if not path.endswith("/raw.rs")))
    found = set()
    for begin, enum in ENUMS.items():
        found |= {(f"{begin}_{upper(value)}", int(number)) for number, value in re.findall(rf"\b(\d+) => (?:{enum})::(\w+)", text)}
        for body in re.findall(rf"\b(?:{enum}) \{{(.*?)\}}", text, re.S):
            found |= {(f"{begin}_{upper(value)}", int(number)) for value, number in re.findall(r"\b([A-Z]\w*) = (\d+),", body)}
    begins = {name.split("_")[0] for name, _ in found}
    wanted = {(name, number) for name, number in sources.numbers.items() if name.split("_")[0] in begins}
    wrong = [f"ND_{name} is {number} in the {'crate' if (name, number) in found else 'headers'} alone" for name, number in sorted(found ^ wanted)]
    report_if(f"the enumerations of the crate for Rust: {len(found)} numbers", len(begins) >= 10 and not wrong, "\n".join(wrong))


def check_texts(sources):
    """Compares the words of nd_text.h with those of the sources. `trace` prints them too, and is compared with what `ndpctl run` prints."""
    named = re.findall(r'case ND_(\w+): return "([^"]*)";', read(f"{INCLUDE}/nd_text.h"))
    text = without_comments("\n".join(source(crate) for crate in ("nd_addr", "nd_out")))
    words = {}
    for begin, enum in ENUMS.items():
        for value, word in re.findall(rf'\b(?:{enum})::(\w+)(?:\([^()]*\))? => (?:\{{\s*)?(?:text\.push_str\()?"([^"]+)"', text):
            words[f"{begin}_{upper(value)}"] = word.strip()
    own = {"OUT", "DONE", "NOTHING", "WAITING", "NO", "CLOSED", "INVALID", "PAST"}
    wrong = [f"ND_{name}: {word!r}, not {words.get(name)!r}" for name, word in named if name.split("_")[0] not in own and words.get(name) != word]
    begins = {name.split("_")[0] for name, _ in named}
    wrong += [f"ND_{name} has no text" for name in sources.numbers if name.split("_")[0] in begins and name not in dict(named) | {"NO_MEMORY": 0}]
    report_if(f"nd_text.h has the words of the sources: {len(named)}", len(named) > 50 and not wrong, "\n".join(wrong))


def check_compilers():
    """Compiles each header alone, and all behind the system's own and before it, which has names that begin alike."""
    for compiler, standards, language in (("gcc", ["c99", "c11"], "c"), ("g++", ["c++11", "c++17"], "c++")):
        if not has(compiler):
            continue
        for standard in standards:
            words = [compiler, f"-std={standard}", *WARNINGS, f"-I{INCLUDE}", "-D_DEFAULT_SOURCE", "-fsyntax-only", "-x", language, "-"]
            for headers in (["nd_hear.h"], ["nd.h"], ["nd_text.h"], ["nd.h", "nd_hear.h"], ["netinet/in.h", "netinet/icmp6.h", "nd_hear.h", "nd_text.h"],
                            ["nd_text.h", "netinet/in.h", "netinet/icmp6.h"]):
                text = "".join(f"#include <{header}>\n" for header in headers)
                report(f"{' and '.join(headers)} as {standard}", run(words, input=text))


def check_headers():
    check_compilers()
    if has("gcc"):
        check_source()
