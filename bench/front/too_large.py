#!/usr/bin/env python3
"""Accepts programs that no limit bounds before the rules are judged: their texts are too large, most of about 2 MiB.

Locals in scope, fields, the classes above a class and the exceptions that a unit lists are looked up by walks. Where the limits hold
there are few of most, but the rules are judged first. So the cases of these have as many as a few seconds allow, by a count of the
steps, not by a run: some 4,000 locals, 8,000 where each stands for itself, 4,000 classes, 20,000 fields, 200 calls of 5,000 exceptions.

    bench/front/too_large.py [PROGRAM]

PROGRAM is crates/front_bench/out/front_bench, where nothing is given. The script prints for each program the seconds of processor
time, the greatest resident memory, and how it ended, with a stack of 8 MiB. It ends with status 1 where one takes more than 10
seconds or isn't refused: for its size, and the one with too many arguments by the rule on them. That of 5,000 exceptions is accepted, since
how many exceptions a program has is judged when it is linked.
"""
import os
import pathlib
import resource
import subprocess
import sys
import tempfile

MOST_SECONDS = 10
TYPES = "interface i; type t; m() returns (int); end type u; end end"
SIZE = 2_000_000
TOO_MANY = (1, "are too many at byte")
WANTED = {"arguments": (1, "rule 22 at byte"), "5,000 exceptions": (0, "1 modules, 2 units")}


def many(part, size=SIZE):
    """As many copies of a part as make about so many bytes, each with its number and the one before it."""
    count = size // (len(part) + 4)
    return "".join(part.replace("%d", str(k)).replace("%e", str(k - 1)) for k in range(1, count + 1))


def body(text):
    """A module with a routine of these statements."""
    return f"module m uses i; routine f() {text} end end"


def programs():
    """A name and texts."""
    yield "statements", [body(many("return;")), TYPES]
    yield "calls", [body(many("f();")), TYPES]
    yield "locals", [body("var v0: int := 1; " + many("var v%d: int := v0; ", SIZE // 10)), TYPES]
    yield "the last local", [body(many("var v%d: int := 1; ", SIZE // 20) + "v1 := 1; " * 50_000), TYPES]
    yield "arguments", ["module m uses i; routine f() put_int(g(1" + ",1" * 900_000 + ")); end routine g() returns (int) return 1; end end", TYPES]
    yield "`elseif`", [body("if true then " + many("elseif true then return; ") + "end"), TYPES]
    yield "blocks", [body(many("begin except when bounds do end ")), TYPES]
    yield "routines", ["module m uses i; " + many("routine f%d() end ") + "end", TYPES]
    yield "classes", ["module m uses i; " + many("class c%d for i$u; init() end end ") + "end", TYPES]
    first = "class c0 for i$u; init() end hidden h() end end "
    yield "a chain of classes", ["module m uses i; " + first + many("class c%d for i$u inherits c%e; init() super(); end end ", SIZE // 8) + "end", TYPES]
    chain = many("class c%d for i$u inherits c%e; init() super(); end end ", SIZE // 8)
    last = chain.count("class")
    yield "a call up the chain", [f"module m uses i; {first}{chain}class d for i$u inherits c{last}; init() super(); end hidden k() self.h(); end end end", TYPES]
    typed = "class c0 for i$t; init() end m() returns (int) return 1; end end "
    yield "a method up the chain", ["module m uses i; " + typed + many("class c%d for i$t inherits c%e; init() super(); end end ", SIZE // 8) + "end", TYPES]
    fields = "".join(f"field x{k}: int; " for k in range(20_000))
    values = "".join(f"x{k} := 1; " for k in range(20_000))
    yield "fields", [f"module m uses i; class c for i$u; {fields}init() {values}end end end", TYPES]
    yield "hidden methods", ["module m uses i; class c for i$u; init() end " + many("hidden h%d() self.h1(); end ") + "end end", TYPES]
    names = ", ".join(f"i$x{k}" for k in range(5_000))
    listed = "interface i; " + "".join(f"exception x{k}; " for k in range(5_000)) + "end"
    yield "5,000 exceptions", [f"module m uses i; routine f() signals ({names}) end routine g() signals ({names}) {'f(); ' * 200} end end", listed]


def run(program, files):
    """What is printed of the files, the status, the seconds of processor time, and the greatest resident memory."""
    def limited():
        resource.setrlimit(resource.RLIMIT_STACK, (8 << 20, 8 << 20))
        resource.setrlimit(resource.RLIMIT_CORE, (0, 0))
        resource.setrlimit(resource.RLIMIT_CPU, (120, 120))
    process = subprocess.Popen([program, "program", *files], preexec_fn=limited,
                               stdout=subprocess.PIPE, stderr=subprocess.STDOUT, text=True)
    answer = process.stdout.read()
    _, status, usage = os.wait4(process.pid, 0)
    return answer.strip(), os.waitstatus_to_exitcode(status), usage.ru_utime + usage.ru_stime, usage.ru_maxrss * 1024


def main():
    here = pathlib.Path(__file__).resolve().parent
    program = (sys.argv[1:] or [str(here.parent.parent / "crates/front_bench/out/front_bench")])[0]
    missed = []
    with tempfile.TemporaryDirectory() as folder:
        for name, texts in programs():
            files = []
            for k, text in enumerate(texts):
                files.append(os.path.join(folder, f"{k}.text"))
                pathlib.Path(files[-1]).write_text(text, encoding="ascii")
            answer, status, seconds, memory = run(program, files)
            print(f"{name:22} {len(texts[0]):9} bytes {seconds:8.3f} s {memory / (1 << 20):8.1f} MiB  status {status}: {answer[:70]}", flush=True)
            if [status, WANTED.get(name, TOO_MANY)[1] in answer] != [WANTED.get(name, TOO_MANY)[0], True] or seconds > MOST_SECONDS:
                missed.append(name)
    if missed:
        sys.exit("not as it should be: " + ", ".join(missed))


if __name__ == "__main__":
    main()
