#!/usr/bin/env python3
"""Times the acceptance of modules of about 40,000 nodes, the most that a module may have, and measures its memory.

    bench/front/accept.py [PROGRAM]

PROGRAM is crates/front_bench/out/front_bench, where nothing is given (`rt run` in crates/front_bench makes it). For each
program the script prints the seconds of processor time and the greatest resident memory, both of the whole run, the reading of
the files with it. It ends with status 1 where one takes more than 2 seconds, or isn't answered as it should be.
"""
import os
import pathlib
import sys
import tempfile

sys.path.insert(0, str(pathlib.Path(__file__).resolve().parents[1]))
from measure import answered
from sample import CODE

MOST_SECONDS = 2.0
MOST_NODES = 40_000

SHAPES = """interface shapes; type shape; area() returns (int); end end"""
LIST = """interface list; type seq[T]; add(x: T); iter elements() yields (T); end end"""

TYPES = "interface i; exception x(int); type t; m() returns (int); end type u; end end"
FIELDS = """class c%d for i$t; field x: int;
init(v: int) x := v; end
m() returns (int) return self.x; end
end
"""
CHAIN = "class c%d for i$t inherits c%d; init() super(); end end\n"
HIDDEN = "class c%d for i$t inherits c%d; init() super(); end hidden h%d() returns (int) return self.h0(); end end\n"
TEN = "interface i; type t; " + " ".join(f"m{k}() returns (int);" for k in range(10)) + " end end"
FIRST_OF_TEN = "class c0 for i$t; init() end " + " ".join(f"m{k}() returns (int) return 1; end" for k in range(10)) + " end\n"
FIRST = "class c0 for i$t; init() end m() returns (int) return 1; end hidden h0() returns (int) return 1; end end\n"
FIRST_NODES = 17 + 1 + 3 + 3


def repeated(part, nodes, before=0):
    """As many copies of a part as the nodes allow beside those that stand before, each with its number and the one before it."""
    count = (MOST_NODES - before) // nodes
    return "".join(part.replace("%d", "{0}").replace("%e", "{1}").format(k, k - 1) for k in range(1, count + 1)), count


def routines(part, nodes, each):
    """Routines with so many copies of a part each."""
    count = MOST_NODES // (1 + nodes * each)
    return "".join(f"routine f{k}() {part * each} end\n" for k in range(count)), count


def sets():
    """A name, texts, and what is printed of them."""
    text, count = repeated(CODE, 41)
    yield "code", [f"module m uses list, shapes;\n{text}end", SHAPES, LIST], f"1 modules, {count} units"
    text, count = routines("return;", 1, 9_999)
    yield "statements", [f"module m; {text} end"], f"1 modules, {count} units"
    text, count = repeated("routine f%d() f%d(); end\n", 3)
    yield "routines", [f"module m; {text} end"], f"1 modules, {count} units"
    text, count = routines("x := x + 1 * 2 - x; ", 9, 1_000)
    text = text.replace("() ", "(x: int) ")
    yield "sums", [f"module m; {text} end"], f"1 modules, {count} units"
    body = "".join(f"var v{k}: int := {'v%d' % (k - 1) if k else '1'}; " for k in range(390))
    text, count = routines(body, 3 * 390, 1)
    yield "locals", [f"module m; {text} end"], f"1 modules, {count} units"
    text, count = routines("g{int}(1); ", 7, 1_000)
    text = "routine g[a](v: a) where a has less(a) returns (bool) end\n" + text
    yield "where-methods", [f"module m; {text} end"], f"1 modules, {count + 1} units"
    text, count = routines("begin put_int(1); except when i$x(v: int) do put_int(v); when bounds do end ", 8, 390)
    yield "handlers", [f"module m uses i; {text} end", TYPES], f"1 modules, {count} units"
    text, count = routines("if true then elseif false then else return; end ", 5, 1_000)
    yield "branches", [f"module m; {text} end"], f"1 modules, {count} units"
    text, count = repeated(FIELDS, 25)
    yield "classes", [f"module m uses i;\n{text}end", TYPES], f"1 modules, {2 * count} units"
    text, count = repeated(CHAIN.replace("inherits c%d", "inherits c%e"), 19, FIRST_NODES)
    yield "a chain of classes", [f"module m uses i;\n{FIRST}{text}end", TYPES], f"1 modules, {count + 3} units"
    text, count = repeated(CHAIN.replace("inherits c%d", "inherits c%e"), 19, 17 + 1 + 30)
    yield "of ten methods", [f"module m uses i;\n{FIRST_OF_TEN}{text}end", TEN], f"1 modules, {count + 11} units"
    text, count = repeated(HIDDEN.replace("inherits c%d", "inherits c%e"), 23, FIRST_NODES)
    yield "hidden methods", [f"module m uses i;\n{FIRST}{text}end", TYPES], f"1 modules, {2 * count + 3} units"
    text, count = repeated("hidden h%d() self.h%d(); end\n", 4, 18)
    yield "one class", [f"module m uses i; class c for i$u; init() end\n{text}end end", TYPES], f"1 modules, {count + 1} units"
    text, count = repeated("m%d() end\n", 1, 18)
    sigs = "".join(f"m{k}(); " for k in range(1, count + 1))
    wide = f"interface w; type t; {sigs} end end"
    yield "one type", [f"module m uses w; class c for w$t; init() end\n{text}end end", wide], f"1 modules, {count + 1} units"
    listed = ", ".join(f"i$x{k}" for k in range(1_000))
    text = f"routine f() signals ({listed}) end\n" + "".join(f"routine g{k}() signals ({listed}) {'f(); ' * 4_990} end\n" for k in range(4))
    thousand = "interface i; " + "".join(f"exception x{k}; " for k in range(1_000)) + "end"
    yield "1,000 exceptions", [f"module m uses i; {text} end", thousand], "1 modules, 5 units"
    text, count = routines('put_string("' + 1_000 * "a" + '"); ', 2, 480)
    text = "".join(line + "\n" for line in text.splitlines()[:4])  # a text has at most 2 MiB
    yield "literals", [f"module m; {text} end"], "1 modules, 4 units"
    text, count = repeated("routine f%d() f%d(); end\n", 3)
    small = "".join(f"type t{k}; m{k}(x: t{k}); end exception x{k}(t{k}); " for k in range(5_000))
    yield "a large interface", [f"module m uses i; {text} end", f"interface i; {small} end"], f"1 modules, {count} units"
    texts = [f"interface i{k}; {small} end" for k in range(9)]
    uses = ", ".join(f"i{k}" for k in range(9))
    yield "large interfaces", [f"module m uses {uses}; {text} end", *texts], f"1 modules, {count} units"


def main():
    here = pathlib.Path(__file__).resolve().parent
    program = (sys.argv[1:] or [str(here.parent.parent / "crates/front_bench/out/front_bench")])[0]
    missed = []
    with tempfile.TemporaryDirectory() as folder:
        for name, texts, want in sets():
            files = []
            for k, text in enumerate(texts):
                files.append(os.path.join(folder, f"{k}.text"))
                pathlib.Path(files[-1]).write_text(text, encoding="ascii")
            answer, seconds, memory = answered(program, "program", *files)
            size = sum(len(text) for text in texts)
            print(f"{name:20} {size:9} bytes {seconds:8.3f} s {memory / (1 << 20):8.1f} MiB", flush=True)
            if answer.strip() != want:
                missed.append(f"{name}: {answer[:200]!r} and not {want!r}")
            elif seconds > MOST_SECONDS:
                missed.append(f"{name}: too long")
    if missed:
        sys.exit("\n".join(missed))


if __name__ == "__main__":
    main()
