"""check_translator: the program that writes a module of LLVM as C. Small functions, for each instruction and intrinsic that it knows, are compiled
by the kit's clang as they are, and by gcc and clang as they are translated; both are called with the same numbers, and must return the same. Without
the toolchain what the compilers make of the translation is compared with each other alone. What is to be refused is refused by the message that names
it, and a line of which a word is missing or another one is translated or refused. Planted faults have to be noticed. With `full` all faults are
planted, and the sanitizers look on."""
import os
import random
import shutil
import sys
from concurrent.futures import ThreadPoolExecutor

from checking import IS_FULL, TOP, WARNINGS, has, read, report_if, run, skip

TRANSLATE = f"{TOP}/bindings/translate"
TESTS = f"{TRANSLATE}/tests"
sys.path.insert(0, TESTS)
import cases  # noqa: E402
import faults  # noqa: E402
import refused  # noqa: E402

JOBS = 2
SANITIZE = ["-O1", "-fsanitize=undefined,address", "-fno-sanitize-recover=all"]
ISO_C = ["-DND_ISO_C", "-DND_NO_INT128", "-pedantic-errors"]
# How the translation is compiled: always, and with `full`.
BUILDS = [("gcc", ["-O0"]), ("gcc", ["-O2"]), ("clang", ["-O2"]), ("gcc", ["-O1", *ISO_C]), ("gcc", ["-O1", "-DND_NO_INT128"]), ("gcc", ["-O1",
    "-DND_NO_VECTORS"])]
MORE_BUILDS = [("gcc", ["-O3", "-march=native"]), ("gcc", ["-Os"]), ("gcc", ["-O2", "-DND_CHECKED"]), ("clang", ["-O0"]), ("clang", ["-O2", *ISO_C]),
               ("gcc", SANITIZE), ("clang", [*SANITIZE, "-fsanitize=pointer-overflow"])]
# Compilers for other processors, and what runs their programs. Their results are compared with those of this one.
OTHERS = [("gcc -m32", ""), ("arm-linux-gnueabihf-gcc", "qemu-arm"), ("s390x-linux-gnu-gcc", "qemu-s390x"), ("mips-linux-gnu-gcc", "qemu-mips"),
          ("powerpc-linux-gnu-gcc", "qemu-ppc"), ("aarch64-linux-gnu-gcc", "qemu-aarch64")]
MUTILATED = 1000
IS_RIGHT = ", 0 wrong, hash "


def write(path, text):
    with open(path, "w", encoding="utf-8") as file:
        file.write(text)


def translate(source, out, program=TRANSLATE):
    return run([sys.executable, program, source, out])


def clang_of_kit():
    """Returns the clang that can read the module, or None."""
    if not has("rt"):
        return None
    return f"{os.path.dirname(os.path.dirname(os.path.realpath(shutil.which('rt'))))}/toolchain/bin/clang"


def tables(known):
    """Returns the tables in front of the driver."""
    numbers, table = range(len(known)), "static u64 (*const {}[])(u64, u64, u64) = {{{}}};".format
    names = ", ".join(f'"{case.name}"' for case in known)
    return "\n".join([f"enum {{ CASES = {len(known)} }};", table("translated", ", ".join(f"m_t_{n}" for n in numbers)), "#ifdef BOTH",
                      *(f"u64 t_{n}(u64, u64, u64);" for n in numbers), table("compiled", ", ".join(f"t_{n}" for n in numbers)),
                      f"static const char *const names[] = {{{names}}};", "#endif", ""])


def written(room, known, program=TRANSLATE):
    """Translates the module of the cases in a folder, and puts the driver behind it. Returns what the translator says if it stops."""
    write(f"{room}/cases.ll", cases.module(known))
    said = translate(f"{room}/cases.ll", f"{room}/cases.c", program)
    if said.returncode == 0:
        write(f"{room}/cases.c", read(f"{room}/cases.c") + "\n" + tables(known) + read(f"{TESTS}/driver.c"))
    return said.stderr


def objects(room):
    """Compiles the module of the cases by the kit's clang, as it is and optimised. Returns the objects."""
    clang, made = clang_of_kit(), []
    for level in ("-O0", "-O2") if clang else ():
        made.append(f"{room}/cases{level}.o")
        said = run([clang, "--target=x86_64-unknown-linux-gnu", "--no-default-config", level, "-c", "-x", "ir", f"{room}/cases.ll", "-o", made[-1]])
        if not report_if(f"the kit's clang {level} compiles the module of the cases", said.returncode == 0, said.stderr):
            return []
    return made


def said_by(room, name, compiler, others):
    """Compiles the translation, and runs it with each of clang's objects. Returns what went wrong, or the last line of a run."""
    both = ["-DBOTH"] if others else []
    command, *flags = compiler
    made = run([*command.split(), "-std=c11", *WARNINGS, "-fno-pie", *flags, *both, "-c", f"{room}/cases.c", "-o", f"{room}/{name}.o"])
    if made.returncode:
        return made.stderr[:900]
    last = ""
    for other in others or [None]:
        sanitizers = [flag for flag in flags if flag.startswith("-fsanitize")]
        linked = run([*command.split(), "-no-pie", *sanitizers, f"{room}/{name}.o", *([other] if other else []), "-o", f"{room}/{name}"])
        ran = run([f"{room}/{name}"]) if linked.returncode == 0 else linked
        last = ran.stdout.strip()
        if ran.returncode:
            return (last + ran.stderr)[:900]
    return last


def check_cases(room, others):
    """Compiles the translation in each way, and requires that each case gives what clang's does. Returns the hash of the results."""
    builds = [(tool, flags) for tool, flags in BUILDS + (MORE_BUILDS if IS_FULL else []) if has(tool)]
    with ThreadPoolExecutor(JOBS) as pool:
        said = list(pool.map(lambda it: said_by(room, f"build{it[0]}", [it[1][0], *it[1][1]], others), enumerate(builds)))
    hashes = {line.split()[-1] for line in said if IS_RIGHT in line}
    for (tool, flags), line in zip(builds, said):
        what = "as clang's own" if others else "not compared"
        report_if(f"the translation by {tool} {' '.join(flags)}: {line.partition(', hash')[0]}, {what}" if IS_RIGHT in line else
                  f"the translation by {tool} {' '.join(flags)}", IS_RIGHT in line, line)
    report_if("all compilers make the same of the translation", len(hashes) == 1, " ".join(sorted(hashes)))
    if has("g++"):
        made = run(["g++", "-x", "c++", "-O1", "-c", f"{room}/cases.c", "-o", f"{room}/cpp.o"])
        report_if("g++ compiles the translation", made.returncode == 0, made.stderr[:900])
    return min(hashes, default="")


def check_others(room, wanted):
    """Runs the cases on other processors."""
    if not os.environ.get("ND_TARGETS"):
        return skip("other processors", "ND_TARGETS=1 builds for them, which takes some minutes")
    for compiler, qemu in OTHERS:
        lacking = next((tool for tool in (compiler.split()[0], qemu) if tool and not shutil.which(tool)), None)
        if lacking:
            skip("other processors", f"{compiler}: {lacking} is not there")
            continue
        for flags in (["-O2"], ["-O1", *ISO_C]):
            made = run([*compiler.split(), "-std=c11", "-static", "-w", *flags, f"{room}/cases.c", "-o", f"{room}/other"])
            ran = run([*([qemu] if qemu else []), f"{room}/other"]) if made.returncode == 0 else made
            report_if(f"the translation by {compiler} {' '.join(flags)} gives the same", ran.stdout.endswith(f"hash {wanted}\n"), ran.stdout
                + ran.stderr[:900])
    return None


def refusals(texts):
    """Translates modules in one process. Returns what is said of each, which is nothing if it is translated."""
    ran = run([sys.executable, "-c", REFUSALS.format(translate=TRANSLATE)], input="\0".join(texts))
    return ran.stdout.split("\0")[:-1] if ran.returncode == 0 else [ran.stderr] * len(texts)


def check_refused(room):
    """Requires that each module that is to be refused is refused by its message; a few of them by the command."""
    modules = list(refused.modules())
    said = refusals([text for text, _ in modules])
    wrong = [f"{message}: {each[-300:]}" for (_, message), each in zip(modules, said) if message not in each or "Traceback" in each]
    report_if(f"{len(modules)} modules are refused by their messages", not wrong and len(said) == len(modules), "\n".join(wrong))
    write(f"{room}/refused.ll", modules[0][0])
    files = (("refused.ll", "out.c"), ("none.ll", "out.c"), ("refused.ll", "none/out.c"))
    said = [translate(f"{room}/{source}", f"{room}/{out}") for source, out in files]
    report_if("the command says what it refuses or cannot read, with status 1, and writes nothing",
              all(each.returncode == 1 and each.stderr.startswith("translate: ") for each in said) and not os.path.exists(f"{room}/out.c"),
              "".join(each.stderr for each in said))


def mutilated(draws, text):
    """Returns a text without one of its words, or with two of them exchanged."""
    words = text.split(" ")
    at = draws.randrange(len(words))
    if draws.random() < 0.5:
        return " ".join(words[:at] + words[at + 1:])
    other = draws.randrange(len(words))
    words[at], words[other] = words[other], words[at]
    return " ".join(words)


def check_mutilated(known):
    """Requires that the translator ends by its own message, if it doesn't translate, on modules with a word out of place."""
    draws = random.Random(1)
    texts = [cases.module([draws.choice(known)]) for _ in range(MUTILATED)]
    said = refusals([cases.HEAD + mutilated(draws, text.removeprefix(cases.HEAD)) for text in texts])
    refused_count = sum(each != "" for each in said)
    is_right = len(said) == MUTILATED and not any("Traceback" in each for each in said) and 0 < refused_count < MUTILATED
    what = f"of {MUTILATED} modules with a word out of place {refused_count} are refused, the others translated"
    report_if(what, is_right, "".join(said[:1])[-900:])


REFUSALS = """import sys
sys.dont_write_bytecode = True
sys.path.insert(0, {translate!r})
from cursor import Refused
from module import Module

for text in sys.stdin.read().split("\\0"):
    try:
        Module().translate(text)
        print("", end="\\0")
    except Refused as refused:
        print(refused, refused.place, end="\\0")
"""


def plant(room, number, fault, known, others):
    """Plants a fault in a copy of the translator. Returns why it isn't one, or is not noticed."""
    room = f"{room}/fault{number}"
    shutil.copytree(TRANSLATE, f"{room}/translate", ignore=shutil.ignore_patterns("tests", "__pycache__"))
    path = f"{room}/translate/{fault.file}"
    text = read(path)
    if text.count(fault.old) != 1:
        return f"{fault.file} has the text {text.count(fault.old)} times: {fault.old}"
    write(path, text.replace(fault.old, fault.new))
    if written(room, known, f"{room}/translate"):
        return f"it is not translated: {fault.old} -> {fault.new}" if "Traceback" in written(room, known, f"{room}/translate") else None
    said = said_by(room, "cases", list(fault.compiler), others[-1:])
    shutil.rmtree(room)
    return f"not noticed in {fault.file}: {fault.old} -> {fault.new}" if IS_RIGHT in said else None


def check_faults(room, known, others):
    """Requires that the cases notice faults of the translator."""
    planted = faults.FAULTS if not faults.FAULTS or IS_FULL else faults.FAULTS[::max(1, len(faults.FAULTS) // 4)]
    with ThreadPoolExecutor(JOBS) as pool:
        said = [each for each in pool.map(lambda it: plant(room, it[0], it[1], known, others), enumerate(planted)) if each]
    report_if(f"{len(planted)} of {len(faults.FAULTS)} faults of the translator are planted, and noticed", not said, "\n".join(said))
    return said


def check_translator(room):
    room = f"{room}/translator"
    os.mkdir(room)
    check_refused(room)
    known = cases.all_cases()
    check_mutilated(known)
    said = written(room, known)
    if not report_if(f"{len(known)} functions are translated", not said, said) or not has("gcc"):
        return
    others = objects(room)
    check_others(room, check_cases(room, others))
    if others:
        check_faults(room, known, others)
