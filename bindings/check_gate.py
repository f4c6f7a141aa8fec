"""check_gate: what `check` builds is what `rt ci` proved. In a repository of two crates a library lies there whose source changed while a check built
it. After the gate a program that is linked over that library prints what the source says, and not what the library has."""
import os
import sys

from checking import TOP, has, report, report_if, run

GATE = f"{TOP}/bindings/gate.py"
LOW = """//! A number.
#![tactic(auto)]

ghost use Rattle.std.specs.Prelude.{◌≤◌};

/// Returns a number of at most 8.
pub fn pick() -> u64
    ensures { result ≤ 8 }
{
    %d
}
"""
TOP_CRATE = """//! Prints the number.
#![tactic(auto)]

use low::pick;
use std::io;

fn main(rt: HostRuntime) -> io::Result<()> {
    let number = pick();
    println!(rt; "{number}")
}
"""
# The number of the library that lies there, and that of the source.
BUILT, SAID = 6, 5
FILES = {"HANDLES": "Handles allowed: none.\n", "crates.txt": "low:\ntop: low\n", "crates/low/src/lib.rt": LOW % BUILT,
         "crates/top/src/main.rt": TOP_CRATE, "crates/top/stdout": f"{SAID}\n"}


def write(room, name, text):
    os.makedirs(os.path.dirname(f"{room}/{name}"), exist_ok=True)
    with open(f"{room}/{name}", "w", encoding="utf-8") as file:
        file.write(text)


def check_gate(room):
    what = "the gate: a library of a text that nobody proved"
    if not has("rt"):
        return
    room = f"{room}/gate"
    for name, text in FILES.items():
        write(room, name, text)
    run(["git", "init", "--quiet", room])
    if not report(f"{what} is built", run(["rt", "lib"], cwd=f"{room}/crates/low")):
        return
    # `rt lib` leaves it so if the source changes while it builds: whole, and without the sum of its sources.
    os.remove(f"{room}/crates/low/out/rlib/stamp")
    write(room, "crates/low/src/lib.rt", LOW % SAID)
    ran = run([sys.executable, GATE, room])
    if not report_if(f"{what}: the gate passes", ran.stdout.endswith("\n2 passed, 0 failed\n"), ran.stdout[-2000:] + ran.stderr):
        return
    said = run(["rt", "run"], cwd=f"{room}/crates/top")
    report_if(f"{what}: the program prints what the source says", said.stdout == f"{SAID}\n", said.stdout + said.stderr[-2000:])
