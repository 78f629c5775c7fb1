#!/usr/bin/env python3
"""Times the interpreter on a loop of sums.

    bench/meaning/run.py [PROGRAM]

PROGRAM is crates/meaning_bench/out/meaning_bench, where nothing is given (`rt run` in crates/meaning_bench makes it). The script
prints the simple statements a second, by processor time, of a loop of two statements. It ends with status 1 where these are
fewer than 5 million.
"""
import pathlib
import sys

sys.path.insert(0, str(pathlib.Path(__file__).resolve().parents[1]))
from measure import used

COUNT = 5_000_000
LEAST = 5_000_000


def main():
    """Prints the rate, and gives the status."""
    top = pathlib.Path(__file__).resolve().parents[2]
    program = sys.argv[1] if len(sys.argv) > 1 else top / "crates/meaning_bench/out/meaning_bench"
    took, _ = used(str(program), str(COUNT))
    rate = 2 * COUNT / took
    print(f"{rate / 1e6:.1f} million simple statements a second")
    return 0 if rate >= LEAST else 1


if __name__ == "__main__":
    sys.exit(main())
