#!/usr/bin/env python3
"""Reads texts that are meant to break a parser: of the greatest height, above it, and with very long lists.

    bench/front/hostile.py [PROGRAM]

PROGRAM is crates/front_bench/out/front_bench, where nothing is given. Each text is read with stacks of 8, 4, 2 and 1 MiB.
The script prints the least of these in which it is read or refused as it should be, and its seconds of processor time
with 8 MiB. It ends with status 1 where one isn't with 8 MiB.
"""
import os
import pathlib
import resource
import subprocess
import sys
import tempfile

STACKS = [8 << 20, 4 << 20, 2 << 20, 1 << 20]

BODY, END = "module m; routine f() ", " end end"
INIT, INIT_END = "module m; class c for t; init() f := ", "; end end end"
FIRST = len(BODY + "x := ")


def body(text):
    """A module with these statements."""
    return BODY + text + END


def nested(count, before, middle, behind):
    """Parts around a middle, each so many times."""
    return before * count + middle + behind * count


# A name, a text, and the byte where it is refused; None where it has a tree.
TEXTS = [
    ("599 parentheses", INIT + nested(599, "(", "1", ")") + INIT_END, None),
    ("600 parentheses", INIT + nested(600, "(", "1", ")") + INIT_END, len(INIT) + 599),
    ("100,000 parentheses", body("x := " + nested(100_000, "(", "1", ")") + ";"), FIRST + 598),
    ("598 `not`", body("x := " + nested(598, "not ", "a", "") + ";"), None),
    ("598 operators", body("x := a" + "+b" * 598 + ";"), None),
    ("599 operators", body("x := a" + "+b" * 599 + ";"), FIRST + 1 + 598 * 2),
    ("598 suffixes", body("x := a" + ".f" * 598 + ";"), None),
    ("598 elements", body("x := a" + nested(598, "[a", "", "]") + ";"), None),
    ("599 calls", body("x := " + nested(599, "f(", "", ")") + ";"), None),
    ("598 method calls", body("x := " + nested(598, "a.m(", "", ")") + ";"), None),
    ("598 new objects", body("x := " + nested(598, "new c(", "", ")") + ";"), None),
    ("598 new arrays", body("x := " + nested(598, "new array[t](1, ", "1", ")") + ";"), None),
    ("600 blocks", body(nested(600, "begin ", "", "except when x do end ")), None),
    ("601 blocks", body(nested(601, "begin ", "", "except when x do end ")), len(BODY) + 600 * 6),
    ("600 handlers", body(nested(600, "begin except when x do ", "", "end ")), None),
    ("599 `if`", body(nested(599, "if a then ", "", "end ")), None),
    ("599 `else`", body(nested(599, "if a then else ", "", "end ")), None),
    ("599 `while`", body(nested(599, "while a do ", "", "end ")), None),
    ("599 `for`", body(nested(599, "for x: t in f() do ", "", "end ")), None),
    ("598 array types", body("var x: " + nested(598, "array[", "int", "]") + " := 1;"), None),
    ("500,000 statements", body("x;" * 500_000), None),
    ("100,000 arguments", body("x := f(1" + ",1" * 99_999 + ");"), None),
    ("100,000 types", body("var x: t[u" + ",u" * 99_999 + "] := 1;"), None),
    ("100,000 `elseif`", body("if a then " + "elseif b then x; " * 100_000 + "end"), None),
    ("100,000 handlers", body("begin except " + "when x do y; " * 100_000 + "end"), None),
    ("100,000 routines", "module m; " + "routine f() end " * 100_000 + "end", None),
    ("100,000 names", body("".join(f"x{k};" for k in range(100_000))), None),
    ("2 MiB of `;`", ";" * (2 << 20), 0),
    ("2 MiB of `(`", "(" * (2 << 20), 0),
    ("2 MiB of statements", body("x;" * (1 << 20)), None),
    ("2 MiB of one name", body("x" * (2 << 20) + ";"), None),
]


def reads(program, file, stack, place):
    """Whether the file is read, or refused at the place, with a stack of so many bytes; and the seconds."""
    def limited():
        resource.setrlimit(resource.RLIMIT_STACK, (stack, stack))
        resource.setrlimit(resource.RLIMIT_CORE, (0, 0))
    process = subprocess.Popen([program, "module", file], preexec_fn=limited,
                               stdout=subprocess.PIPE, stderr=subprocess.STDOUT, text=True)
    answer = process.stdout.read()
    _, status, usage = os.wait4(process.pid, 0)
    if place is None:
        right = status == 0
    else:
        right = f"syntax at byte {place}\n" in answer
    return right, usage.ru_utime + usage.ru_stime


def main():
    here = pathlib.Path(__file__).resolve().parent
    program = (sys.argv[1:] or [str(here.parent.parent / "crates/front_bench/out/front_bench")])[0]
    missed = 0
    with tempfile.TemporaryDirectory() as folder:
        file = os.path.join(folder, "text.tm")
        for name, text, place in TEXTS:
            pathlib.Path(file).write_text(text)
            found = [(stack, *reads(program, file, stack, place)) for stack in STACKS]
            enough = [stack >> 20 for stack, right, _ in found if right]
            _, right, seconds = found[0]
            missed += not right
            print(f"{name:22} {f'{min(enough)} MiB' if enough else 'fails':>6} {seconds:8.3f} s")
    if missed:
        sys.exit(f"{missed} texts fail with 8 MiB")


main()
