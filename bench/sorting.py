#!/usr/bin/env python3
"""Measures how long the applicable methods of one generic function take to be sorted.

usage: sorting.py PROGRAM

`PROGRAM` is the program of the crate dy_measure, which `rt run` leaves in crates/dy_measure/out. It
sorts 64, 128, 256 and 512 methods, each on a class below the class of the one before it, so that
the most specific one stands last each time: no order of the text takes more comparisons. 512 is the
most that a generic function may have.

The status is 1 where a number is wrong, or where the time grows by more than 2.3 times the square
of the number of methods from one count to the next.
"""

import subprocess
import sys
import time

COUNTS = [64, 128, 256, 512]
RUNS = 5
MOST_GROWTH = 2.3
# Times below this are taken as this: the clock and the machine's other work blur them.
SHORTEST = 0.001


def run(program, count, times):
    """The seconds of the shortest of some runs."""
    best = None
    for _ in range(RUNS):
        start = time.perf_counter()
        words = [program, "sorting", f"{count}x{times}"]
        done = subprocess.run(words, capture_output=True, check=False)
        seconds = time.perf_counter() - start
        wanted = f"{count if times else 0}\n".encode()
        if done.returncode != 0 or done.stdout != wanted:
            sys.exit(f"{count} methods: status {done.returncode}, {done.stdout!r}")
        best = seconds if best is None else min(best, seconds)
    return best


def main():
    if len(sys.argv) != 2:
        sys.exit(__doc__)
    print("| methods | one sort | per pair | growth beyond the square |")
    print("|---|---|---|---|")
    before, status = None, 0
    for count in COUNTS:
        times = 16
        base = run(sys.argv[1], count, 0)
        seconds = max(run(sys.argv[1], count, times) - base, SHORTEST) / times
        pairs = count * (count - 1)
        growth = ""
        if before is not None:
            factor = seconds / before / 4
            growth = f"{factor:.2f}"
            if factor > MOST_GROWTH:
                status = 1
        print(f"| {count} | {seconds * 1e3:.2f} ms | {seconds / pairs * 1e9:.0f} ns | {growth} |")
        before = seconds
    return status


if __name__ == "__main__":
    sys.exit(main())
