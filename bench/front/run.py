#!/usr/bin/env python3
"""Times the reading of long modules: their tokens, and their tokens and tree.

    bench/front/run.py [PROGRAM]

PROGRAM is crates/front_bench/out/front_bench, where nothing is given (`rt run` in crates/front_bench makes it). For each
shape of text and each of 1, 2 and 4 MiB the script prints the bytes a second, by processor time, of the tokens alone
and of the whole, the time of the whole beside that of half the bytes, and the greatest resident memory a byte of
text. It ends with status 1 where a text of 2 MiB takes more than 200 bytes a byte, or one takes more than three times
as long as half of it.
"""
import os
import pathlib
import sys
import tempfile

sys.path.insert(0, str(pathlib.Path(__file__).resolve().parents[1]))
from measure import used
from sample import CODE

MIB = 1 << 20
SIZES = [MIB, 2 * MIB, 4 * MIB]
MOST_BYTES = 200
MOST_RATIO = 3.0

# Of each shape: what stands before, a part, and what stands behind. A part with a % is given its number.
SHAPES = {
    "code": ("module m uses list, shapes;\n", CODE, "end"),
    "statements": ("module m; routine f() ", "x;", "end end"),
    "names": ("module m; routine f() ", "x%d;", "end end"),
    "arguments": ("module m; routine f() f(1", ",1", "); end end"),
    "operators": ("module m; routine f() ", "x:=-a+b*(c-d)<e[f];", "end end"),
    "nested": ("module m; routine f() ", "x:=" + 500 * "(" + "1" + 500 * ")" + ";", "end end"),
    "literals": ("module m; routine f() ", 'x("%d");', "end end"),
    "heads": ("module m; ", "iter f(a:b)yields(c)end ", "end"),
    "classes": ("module m; ", "class c for t;init()end end ", "end"),
    "comments": ("module m; ", "#\n", "end"),
}


def write(file, shape, size):
    """Writes a module of about so many bytes, in small pieces, since a child's memory begins with that of the script."""
    before, part, behind = SHAPES[shape]
    with open(file, "w", encoding="ascii") as out:
        length, count = out.write(before), 0
        while length < size:
            length += out.write(part % count if "%d" in part else part)
            count += 1
        return length + out.write(behind)


def main():
    here = pathlib.Path(__file__).resolve().parent
    program = (sys.argv[1:] or [str(here.parent.parent / "crates/front_bench/out/front_bench")])[0]
    missed = []
    print("shape        MiB   tokens MB/s   whole MB/s   ratio   memory a byte")
    with tempfile.TemporaryDirectory() as folder:
        file = os.path.join(folder, "text.tm")
        for shape in SHAPES:
            before = None
            for size in SIZES:
                length = write(file, shape, size)
                cut, _ = used(program, "tokens", file)
                whole, memory = used(program, "module", file)
                if before and whole / before > MOST_RATIO:  # perhaps the machine was busy
                    whole = min(whole, used(program, "module", file)[0])
                ratio = whole / before if before else None
                a_byte = memory / length
                print(f"{shape:12} {size // MIB:3} {length / cut / 1e6:13.1f} {length / whole / 1e6:12.1f}"
                      f" {ratio or 0:7.2f} {a_byte:15.1f}")
                if size == 2 * MIB and a_byte > MOST_BYTES:
                    missed.append(f"{shape}: {a_byte:.0f} bytes a byte")
                if ratio and ratio > MOST_RATIO:
                    missed.append(f"{shape}: {ratio:.2f} times as long for twice the text")
                before = whole
    if missed:
        sys.exit("\n".join(missed))


main()
