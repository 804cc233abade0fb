#!/usr/bin/env python3
"""Measures how fast texts with directives are printed.

usage: texts.py PROGRAM

`PROGRAM` is the program of the crate dy_measure, which `rt run` leaves in crates/dy_measure/out.
Texts of 64 KiB to 1 MiB are made in a temporary folder: words alone, directives among words, and
nothing but directives. What is printed is compared with what Python makes of the same text.

The status is 1 where time grows by more than 1.3 for each doubling, beyond the doubling itself, or
where a text is printed otherwise.
"""

import math
import os
import subprocess
import sys
import tempfile
import time

KIB = 1024
MIB = 1024 * KIB
SIZES = [64 * KIB, 256 * KIB, MIB]
RUNS = 5
MOST_GROWTH = 1.3
# Times below this are taken as this: the clock and the machine's other work blur them.
SHORTEST = 0.005

LINES = {
    "words": b"words alone, without a directive\n",
    "words and directives": b"some %d words and %x; 100%% of them\n",
    "directives": b"%d%o%b%=%s%%\n",
}
LEAST = -(2**63)
PRINTED = {
    b"%d": b"%d" % LEAST,
    b"%x": b"%x" % LEAST,
    b"%o": b"%o" % LEAST,
    b"%b": f"{LEAST:b}".encode("ascii"),
    b"%=": b"%d" % LEAST,
    b"%s": b"%d" % LEAST,
}


class Failed(Exception):
    """A run that is no measurement, or a bound that is not kept."""


def expected(line):
    """What a line prints."""
    pieces = line.split(b"%%")
    for directive, printed in PRINTED.items():
        pieces = [piece.replace(directive, printed) for piece in pieces]
    return b"%".join(pieces)


def shortest(work):
    """The shortest time of several runs, in seconds."""
    best = math.inf
    for _ in range(RUNS):
        begin = time.perf_counter()
        work()
        best = min(best, time.perf_counter() - begin)
    return best


def printed(program, path):
    run = subprocess.run([program, "texts", path], capture_output=True, check=False)
    if run.returncode != 0:
        raise Failed(f"{program} {path}: status {run.returncode}")
    return run.stdout


def measured(program, folder, name, line):
    """Prints a row for each size."""
    path = os.path.join(folder, "text")
    before = None
    for size in SIZES:
        count = size // len(line)
        with open(path, "wb") as file:
            file.write(line * count)
        if printed(program, path) != expected(line) * count:
            raise Failed(f"{name}, {size} bytes: other text")
        taken = max(shortest(lambda: printed(program, path)), SHORTEST)
        factor = None if before is None else (taken / before / 4) ** 0.5
        shown = f"{size // MIB} MiB" if size >= MIB else f"{size // KIB} KiB"
        last = "" if factor is None else f"{factor:.2f}"
        print(f"| {name} | {shown} | {taken:.3f} s | {taken / size * 1e9:.0f} ns | {last} |", flush=True)
        if factor is not None and factor > MOST_GROWTH:
            raise Failed(f"{name}: the time up to {size} bytes grows by {factor:.2f} a doubling")
        before = taken


def main():
    if len(sys.argv) != 2:
        print(__doc__.strip().splitlines()[2], file=sys.stderr)
        return 3
    try:
        with tempfile.TemporaryDirectory() as folder:
            print("| text | size | time | per byte | growth |\n|---|---|---|---|---|")
            for name, line in LINES.items():
                measured(os.path.abspath(sys.argv[1]), folder, name, line)
    except (Failed, OSError) as error:
        print(f"texts.py: {error}", file=sys.stderr)
        return 1
    return 0


if __name__ == "__main__":
    sys.exit(main())
