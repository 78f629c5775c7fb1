#!/usr/bin/env python3
"""Times the making of layouts and tables.

    bench/layout/run.py [PROGRAM]

PROGRAM is crates/layout_bench/out/layout_bench, where nothing is given (`rt run` in crates/layout_bench makes it). For
each count of classes over half as many types, both in chains of eight, the script prints the least processor time of
some runs, the time beside that of half the classes, and the greatest resident memory. It ends with status 1 where 1,000
classes over 500 types take two seconds or more, or one count takes more than three times as long as half of it.
"""
import pathlib
import sys

sys.path.insert(0, str(pathlib.Path(__file__).resolve().parents[1]))
from measure import used

COUNTS = [1000, 2000, 4000, 8000]
MOST_SECONDS = 2.0
MOST_RATIO = 3.0


def main():
    here = pathlib.Path(__file__).resolve().parent
    program = (sys.argv[1:] or [str(here.parent.parent / "crates/layout_bench/out/layout_bench")])[0]
    missed = []
    before = None
    print("classes   seconds   ratio   memory MiB")
    for count in COUNTS:
        seconds, memory = used(program, str(count // 2), str(count))
        if before and seconds / before > MOST_RATIO:  # perhaps the machine was busy
            seconds = min(seconds, used(program, str(count // 2), str(count))[0])
        ratio = seconds / before if before else None
        print(f"{count:7} {seconds:9.3f} {ratio or 0:7.2f} {memory / (1 << 20):12.1f}")
        if count == COUNTS[0] and seconds >= MOST_SECONDS:
            missed.append(f"{count} classes: {seconds:.2f} s")
        if ratio and ratio > MOST_RATIO and seconds > 0.1:
            missed.append(f"{count} classes: {ratio:.2f} times as long as half of them")
        before = seconds
    if missed:
        sys.exit("\n".join(missed))


main()
