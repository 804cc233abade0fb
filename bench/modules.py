#!/usr/bin/env python3
"""Measures what the table of a library's modules costs.

usage: modules.py PROGRAM

`PROGRAM` is the program of the crate dy_measure, which `rt run` leaves in crates/dy_measure/out.
Files of forms of modules are made in a temporary folder:

- wide: modules that export names of their own, which one more module uses with a prefix for each;
- chain: modules of which each exports again, under the same names, what the one before it exports.

Of each kind there are 12, 25, 50 and 100 modules of 1,000 names each.

Seconds are those of the processor: other work of the machine blurs those of the clock, which stand
beside them. The status is 1 where they grow by more than 1.3 for each doubling, beyond the doubling
itself, where 100 modules take a second, or where a table is refused.
"""

import math
import os
import subprocess
import sys
import tempfile
import time

SIZES = [12, 25, 50, 100]
NAMES = 1000
RUNS = 5
MOST_GROWTH = 1.3
MOST_TIME = 1.0
# Times below this are taken as this: the clock and the machine's other work blur them.
SHORTEST = 0.005

HEADER = "module: dylan-user\n\ndefine library l end;\n"


class Failed(Exception):
    """A run that is no measurement, or a bound that is not kept."""


def wide(modules):
    """Modules with names of their own, and one that uses all of them."""
    forms = []
    for module in range(modules):
        names = ", ".join(f"name-{module}-{name}" for name in range(NAMES))
        forms.append(f"define module m{module}\n  export {names};\nend;\n")
    uses = "".join(f'  use m{module}, prefix: "m{module}-";\n' for module in range(modules))
    return HEADER + "".join(forms) + f"define module all\n{uses}end;\n"


def chain(modules):
    """Modules of which each exports again what the one before exports."""
    names = ", ".join(f"a-name-{name}" for name in range(NAMES))
    forms = [f"define module m0\n  export {names};\nend;\n"]
    for module in range(1, modules):
        forms.append(f"define module m{module}\n  use m{module - 1}, export: all;\nend;\n")
    return HEADER + "".join(forms)


def seconds(program, path):
    """The least seconds of some runs on a file: those of the processor, and those of the clock."""
    best = (math.inf, math.inf)
    for _ in range(RUNS):
        begun = time.perf_counter()
        child = subprocess.Popen([program, "modules", path], stdout=subprocess.DEVNULL)
        _, status, usage = os.wait4(child.pid, 0)
        elapsed = time.perf_counter() - begun
        child.returncode = os.waitstatus_to_exitcode(status)
        if child.returncode != 0:
            raise Failed(f"{path}: status {child.returncode}")
        best = (min(best[0], usage.ru_utime + usage.ru_stime), min(best[1], elapsed))
    return best


def measure(program, folder, title, text_of):
    """Prints a table of times, and gives the bounds that are not kept."""
    print(f"\n{title}\n")
    print("| modules | names | elapsed | processor | per name | growth |")
    print("|---|---|---|---|---|---|")
    before = None
    broken = []
    for modules in SIZES:
        path = os.path.join(folder, f"{title}-{modules}.dylan")
        with open(path, "w", encoding="ascii") as file:
            file.write(text_of(modules))
        taken, elapsed = seconds(program, path)
        names = modules * NAMES
        growth = ""
        if before is not None:
            doublings = math.log2(modules / before[0])
            rate = max(taken, SHORTEST) / max(before[1], SHORTEST) / (modules / before[0])
            factor = rate ** (1 / doublings)
            growth = f"{factor:.2f}"
            if factor > MOST_GROWTH:
                broken.append(f"{title}: growth {factor:.2f} at {modules} modules")
        if modules == SIZES[-1] and taken >= MOST_TIME:
            broken.append(f"{title}: {taken:.3f} s for {modules} modules")
        per_name = taken / names * 1e9
        row = [modules, names, f"{elapsed:.3f} s", f"{taken:.3f} s", f"{per_name:.0f} ns", growth]
        print(f"| {' | '.join(map(str, row))} |")
        before = (modules, taken)
    return broken


def main(words):
    """Measures both kinds of libraries."""
    if len(words) != 1:
        print(__doc__, file=sys.stderr)
        return 2
    program = os.path.abspath(words[0])
    with tempfile.TemporaryDirectory() as folder:
        try:
            broken = measure(program, folder, "wide", wide)
            broken += measure(program, folder, "chain", chain)
        except Failed as failed:
            broken = [str(failed)]
    for line in broken:
        print(line, file=sys.stderr)
    return 1 if broken else 0


if __name__ == "__main__":
    sys.exit(main(sys.argv[1:]))
