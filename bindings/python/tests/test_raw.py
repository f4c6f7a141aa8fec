"""raw.py against the headers: the numbers as they are written there, and the structures and functions as a C compiler reads them."""
from __future__ import annotations

import ctypes
import os
import re
import subprocess
import tempfile
import unittest
from pathlib import Path
from typing import Dict, List, Tuple

from nd import library, raw

from .paths import TOP

HEADERS = ("nd_hear.h", "nd.h")
# ctypes has no type of its own for size_t: it is that of the unsigned integer with as many bits.
C_NAMES = {ctypes.c_int32: "int32_t", ctypes.c_uint32: "uint32_t", ctypes.c_uint64: "uint64_t", ctypes.c_uint8: "uint8_t",
           ctypes.c_char_p: "uint8_t *", None: "void"}
SIZE_T = f"uint{8 * ctypes.sizeof(ctypes.c_size_t)}_t"
STRUCTURES = {name: kind for name, kind in vars(raw).items()
              if isinstance(kind, type) and issubclass(kind, ctypes.Structure) and kind is not ctypes.Structure}


def code_of(folder: str) -> str:
    """Returns the text of both headers of a folder without comments."""
    text = "".join((TOP / folder / name).read_text(encoding="utf-8") for name in HEADERS)
    return re.sub(r"/\*.*?\*/", "", text, flags=re.S)


def enumerations_of(code: str) -> Dict[str, Dict[str, int]]:
    """Returns the values by name of each enumeration."""
    found = {}
    for name, body in re.findall(r"enum (nd_\w+)\s*\{(.*?)\}", code, re.S):
        found[name] = {key: int(value) for key, value in re.findall(r"(\w+)\s*=\s*(-?\d+)", body)}
    return found


def numbers_of(values: Dict[str, int]) -> Dict[str, int]:
    """Returns the values by the names that raw.py has for them: without what all of them begin with."""
    prefix = os.path.commonprefix(list(values)).rpartition("_")[0] + "_"
    return {name[len(prefix):]: value for name, value in values.items()}


def prototypes_of(code: str) -> Dict[str, Tuple[str, List[str]]]:
    """Returns the type of the result, and those of the arguments, of each function of the library. The memory functions are the program's."""
    found = {}
    for result, name, arguments in re.findall(r"^(\w+) (nd_\w+)\(([^)]*)\);", re.sub(r"\bsize_t\b", SIZE_T, code), re.M | re.S):
        words = [re.sub(r"\bconst ", "", " ".join(argument.split())) for argument in arguments.split(",")]
        types = [re.sub(r"\w+$", "", word).strip() for word in words]
        if name != "nd_free":
            found[name] = (result, [] if arguments.strip() == "void" else types)
    return found


def c_name(kind: object) -> str:
    """Returns the name in C of a type of ctypes."""
    if kind in C_NAMES:
        return C_NAMES[kind]  # type: ignore[index]
    pointed = kind._type_  # type: ignore[attr-defined]
    return f"{C_NAMES.get(pointed, pointed.__name__)} *"


class Numbers(unittest.TestCase):
    def test_enumerations_are_those_of_the_headers(self) -> None:
        found = enumerations_of(code_of("include"))
        self.assertEqual(set(found), set(raw.ENUMERATIONS))
        for name, kind in raw.ENUMERATIONS.items():
            with self.subTest(name):
                self.assertEqual({member.name: member.value for member in kind}, numbers_of(found[name]))

    def test_numbers_of_the_node_in_c_are_the_same(self) -> None:
        found = enumerations_of(code_of("dist"))
        self.assertEqual(set(found), set(raw.ENUMERATIONS))
        for name, values in found.items():
            with self.subTest(name):
                members = {member.name: member.value for member in raw.ENUMERATIONS[name]}
                self.assertLessEqual(numbers_of(values).items(), members.items())

    def test_unknown_numbers_are_taken(self) -> None:
        for name, kind in raw.ENUMERATIONS.items():
            with self.subTest(name):
                self.assertEqual(int(kind(4096)), 4096)


class Functions(unittest.TestCase):
    def test_functions_are_those_of_the_headers(self) -> None:
        for folder in ("include", "dist"):
            found = prototypes_of(code_of(folder))
            self.assertGreater(len(found), 30)
            made = {name: (c_name(result), [c_name(kind) for kind in kinds]) for name, (result, kinds) in raw.FUNCTIONS.items()}
            self.assertEqual(made, found)


class Structures(unittest.TestCase):
    def test_structures_are_named_in_the_headers(self) -> None:
        self.assertEqual(set(STRUCTURES), set(re.findall(r"^\} (nd_\w+);", code_of("dist"), re.M)))

    def test_sizes_offsets_and_constants_are_those_of_the_compiler(self) -> None:
        wanted, questions = [], []
        for name, kind in STRUCTURES.items():
            wanted.append(f"{name} {ctypes.sizeof(kind)}")
            questions.append(f'printf("{name} %zu\\n", sizeof({name}));')
            for field, *_ in kind._fields_:
                place = getattr(kind, field)
                wanted.append(f"{name}.{field} {place.offset} {place.size}")
                questions.append(f'printf("{name}.{field} %zu %zu\\n", offsetof({name}, {field}), sizeof((({name} *)0)->{field}));')
        major, minor, patch = raw.VERSION
        constants = {"ND_VERSION": major << 16 | minor << 8 | patch, "ND_MOMENT_LIMIT": raw.MOMENT_LIMIT, "ND_FOREVER": raw.FOREVER,
                     "ND_LIFETIME_INFINITE": raw.LIFETIME_INFINITE, "ND_BUFFER_BYTES": raw.BUFFER_BYTES,
                     "ND_POLICIES_ROBUST": raw.POLICIES_ROBUST.value}
        for constant, value in constants.items():
            wanted.append(f"{constant} {value}")
            questions.append(f'printf("{constant} %llu\\n", (unsigned long long)({constant}));')
        self.assertEqual(self.printed(questions), wanted)

    def printed(self, statements: List[str]) -> List[str]:
        """Returns the lines that a program of these statements prints."""
        source = "#include <stdio.h>\n#include \"nd.h\"\nint main(void)\n{\n" + "\n".join(statements) + "\nreturn 0;\n}\n"
        with tempfile.TemporaryDirectory() as room:
            path = Path(room) / "sizes.c"
            path.write_text(source, encoding="utf-8")
            compiler = library.compile_command()[0]
            subprocess.run([compiler, f"-I{TOP / 'dist'}", str(path), "-o", f"{room}/sizes"], check=True)
            return subprocess.run([f"{room}/sizes"], check=True, capture_output=True, text=True).stdout.splitlines()


if __name__ == "__main__":
    unittest.main()
