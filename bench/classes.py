#!/usr/bin/env python3
"""Measures how long the class precedence lists of large graphs of classes take.

usage: classes.py PROGRAM

`PROGRAM` is the program of the crate dy_measure, which `rt run` leaves in crates/dy_measure/out. It
orders the classes of a chain, in which each class has the one before it as its superclass, and of a
lattice, whose classes have eight superclasses each, and prints the sum of the lengths of the orders.
A call reads the order of each direct superclass once: the elements that are read are what a time is
divided by.

The status is 1 where time grows by more than 1.3 for each doubling of the elements, beyond the
doubling itself, or where another sum is printed than the graph has.
"""

import math
import resource
import subprocess
import sys

CHAINS = [256, 512, 1024, 2048]
LATTICES = [513, 1025, 2049, 4097]
WIDTH = 8
RUNS = 3
MOST_GROWTH = 1.3
# Times below this are taken as this: the clock and the machine's other work blur them.
SHORTEST = 0.005


def chain(count):
    """The sum of the lengths of the orders, and how many elements of orders are read."""
    lengths = range(1, count + 1)
    return sum(lengths), sum(range(count))


def lattice(count):
    """The same of a lattice: one class, and below it layers of eight."""
    total = read = 0
    for row in range(count):
        layer = 0 if row == 0 else (row - 1) // WIDTH + 1
        length = lambda at: 1 if at == 0 else 2 + WIDTH * (at - 1)
        total += length(layer)
        if layer > 0:
            read += length(layer - 1) * (1 if layer == 1 else WIDTH)
    return total, read


def seconds(program, graph, count, total):
    """The shortest time of the processor of some runs."""
    times = []
    for _ in range(RUNS):
        before = resource.getrusage(resource.RUSAGE_CHILDREN)
        run = subprocess.run([program, graph, str(count)], capture_output=True, text=True)
        after = resource.getrusage(resource.RUSAGE_CHILDREN)
        if run.stdout != f"{total}\n":
            sys.exit(f"{graph} {count}: status {run.returncode}, printed {run.stdout!r}, not {total}")
        times.append(after.ru_utime + after.ru_stime - before.ru_utime - before.ru_stime)
    return min(times)


def measure(program, graph, counts, shape):
    """A table of one graph; whether its time grows too fast."""
    print(f"\n{graph}\n\n| classes | elements read | processor | per element | growth |")
    print("|---|---|---|---|---|")
    too_fast = False
    last = None
    for count in counts:
        total, read = shape(count)
        time = seconds(program, graph, count, total)
        growth = ""
        if last is not None:
            ratio = read / last[0]
            factor = max(time, SHORTEST) / max(last[1], SHORTEST) / ratio
            factor **= 1 / math.log2(ratio)
            growth = f"{factor:.2f}"
            too_fast = too_fast or factor > MOST_GROWTH
        print(f"| {count} | {read:,} | {time:.3f} s | {time / read * 1e9:.0f} ns | {growth} |")
        last = (read, time)
    return too_fast


def main():
    if len(sys.argv) != 2:
        sys.exit(__doc__.split("\n\n")[1])
    too_fast = measure(sys.argv[1], "chain", CHAINS, chain)
    too_fast = measure(sys.argv[1], "lattice", LATTICES, lattice) or too_fast
    sys.exit(1 if too_fast else 0)


if __name__ == "__main__":
    main()
