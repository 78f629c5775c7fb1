#!/usr/bin/env python3
"""Times the making of hierarchies, and measures its memory.

    bench/front/types.py [PROGRAM]

PROGRAM is crates/front_bench/out/front_bench, where nothing is given (`rt run` in crates/front_bench makes it). For each
set of interfaces the script prints the seconds of processor time and the greatest resident memory, both of the whole run, the
reading of the texts with it. It ends with status 1 where a set takes more than 2 seconds or 200 MiB, or isn't answered as it
should be.
"""
import os
import pathlib
import sys
import tempfile

sys.path.insert(0, str(pathlib.Path(__file__).resolve().parents[1]))
from measure import answered

MOST_SECONDS = 2.0
MOST_BYTES = 200 << 20


def chains(count, interfaces, depth):
    """So many types in so many interfaces, in chains of so many. Each type but a chain's first has two supertypes, the last
    of its own chain and of the next, writes a method, and takes its argument, in an array, to the supertypes."""
    width = count // interfaces
    uses = ", ".join(f"i{i}" for i in range(interfaces))

    def supertypes(k):
        if k % depth == 0:
            return ""
        others = (k - 1, k - 1 + depth if k - 1 + depth < count else k - 1 - depth)
        return " < " + ", ".join(f"i{j // width}$t{j}[array[a]]" for j in others)

    def interface(i):
        types = [f"type t{k}[a]{supertypes(k)}; m{k}(x: a, y: int) returns (a); end" for k in range(i * width, (i + 1) * width)]
        return f"interface i{i} uses {uses}; {' '.join(types)} end"
    return [interface(i) for i in range(interfaces)]


def one_chain(count, arg):
    """A chain of types, each with the argument in which the parameter is `a`."""
    types = ["type t0[a]; end"] + [f"type t{k}[a] < t{k - 1}[{arg}]; end" for k in range(1, count)]
    return ["interface i; type p[a, b]; end " + " ".join(types) + " end"]


def wide(count):
    """Types that have all the earlier ones as supertypes, with one method each."""
    types = [f"type t{k}{' < ' if k else ''}{', '.join(f't{j}' for j in range(k))}; m{k}(); end" for k in range(count)]
    return ["interface i; " + " ".join(types) + " end"]


def flat(count):
    """Types without supertypes."""
    return ["interface i; " + " ".join(f"type t{k}; m(x: t{k}); end" for k in range(count)) + " end"]


def params(count):
    """A type with many parameters, and a supertype that takes them all."""
    names = ", ".join(f"a{k}" for k in range(count))
    return [f"interface i; type s[{names}]; end type t[{names}] < s[{names}]; end end"]


def methods(count):
    """A type with many methods, and a subtype that writes them again."""
    sigs = " ".join(f"m{k}(x: int);" for k in range(count))
    return [f"interface i; type s; {sigs} end type t < s; {sigs} end end"]


# A name, texts, and what is printed of them.
SETS = [
    ("2,000 types in chains of 12", chains(2000, 40, 12), "40 interfaces, 2000 types"),
    ("50,000 types", flat(50_000), "1 interfaces, 50000 types"),
    ("a chain of 598 with arrays", one_chain(599, "array[a]"), "1 interfaces, 600 types"),
    ("a chain of 599 with arrays", one_chain(600, "array[a]"), "rule 6 at"),
    ("a chain of 16 that doubles", one_chain(17, "p[a, a]"), "1 interfaces, 18 types"),
    ("a chain of 500 that doubles", one_chain(501, "p[a, a]"), "1 interfaces, 502 types"),
    ("a chain of 5,000 that doubles", one_chain(5000, "p[a, a]"), "rule 6 at"),
    ("a chain of 2,000", one_chain(2000, "a"), "1 interfaces, 2001 types"),
    ("200 types below all others", wide(200), "1 interfaces, 200 types"),
    ("50,000 parameters", params(50_000), "1 interfaces, 2 types"),
    ("20,000 methods", methods(20_000), "1 interfaces, 2 types"),
]


def main():
    here = pathlib.Path(__file__).resolve().parent
    program = (sys.argv[1:] or [str(here.parent.parent / "crates/front_bench/out/front_bench")])[0]
    missed = []
    with tempfile.TemporaryDirectory() as folder:
        for name, texts, want in SETS:
            files = []
            for k, text in enumerate(texts):
                files.append(os.path.join(folder, f"i{k}.ti"))
                pathlib.Path(files[-1]).write_text(text)
            answer, seconds, memory = answered(program, "hierarchy", *files)
            size = sum(len(text) for text in texts)
            print(f"{name:32} {size:9} bytes {seconds:8.3f} s {memory / (1 << 20):8.1f} MiB")
            if want not in answer:
                missed.append(f"{name}: {answer[:200]!r}")
            elif seconds > MOST_SECONDS or memory > MOST_BYTES:
                missed.append(f"{name}: too long or too large")
    if missed:
        sys.exit("\n".join(missed))


main()
