#!/usr/bin/env python3
"""Measures how `build` grows with forms of each kind.

usage: forms.py [COMMAND ..]

Builds libraries of one file of forms, made in a temporary folder, by `COMMAND .. build LID`. With
no COMMAND it is the script banthruy beside this folder. They print nothing:

- deep: bodies nested 190 deep, each with a local of its own that the next one reads;
- names: constants, each of which reads the one before it;
- locals: one body with that many locals, each of which reads the one before it;
- calls: functions that call each other;
- bodies: bodies nested 100 deep, each with a local of its own that the next one reads;
- loops: `while` and `for` in each other, with clauses of each kind;
- closures: functions with variables that are shared by closures, which assign them;
- long: one function, all of whose lines are statements;
- arms: one `select` with that many arms.

`names` and `locals` have 12,500 to 100,000 names, `deep` 1/8 to 1 MiB, and the others 1/2 to 4 MiB,
which is the most that one file may have.

Seconds are those of the processor: other work of the machine blurs those of the clock, which stand
beside them. The status is 1 where they grow by more than 1.3 for each doubling, beyond the doubling
itself, or where a library is refused or prints something.
"""

import math
import os
import subprocess
import sys
import tempfile
import time

DEEP_BYTES = [131072, 262144, 524288, 1048576]
BYTES = [524288, 1048576, 2097152, 4194304]
NAMES = [12500, 25000, 50000, 100000]
DEEP = 190
NESTED = 100
RUNS = 5
MOST_GROWTH = 1.3
# Times below this are taken as this: the clock and the machine's other work blur them.
SHORTEST = 0.005

LID = "library: forms\nfiles: library\n forms\n"
LIBRARY = (
    "module: dylan-user\n\n"
    "define library forms use dylan; use io; end;\n"
    "define module forms use dylan; use format-out; end;\n"
)
HEADER = "module: forms\n\n"


class Failed(Exception):
    """A run that is no measurement, or a bound that is not kept."""


def nested(depth):
    """A form of bodies nested this deep."""
    begun = "".join(f"begin let v{n + 1} = v{n}; " for n in range(1, depth))
    return f"begin let v1 = 0; {begun}v{depth}{' end' * depth};\n"


def deep(size):
    """Bodies nested deep, of this many bytes together."""
    form = nested(DEEP)
    return form * (size // len(form))


def names(count):
    """Constants, each of which reads the one before it."""
    rest = "".join(f"define constant name-{n} = name-{n - 1};\n" for n in range(1, count))
    return "define constant name-0 = 0;\n" + rest


def local_names(count):
    """One body with locals, each of which reads the one before it."""
    rest = "".join(f"  let name-{n} = name-{n - 1};\n" for n in range(1, count))
    return f"begin\n  let name-0 = 0;\n{rest}  name-{count - 1}\nend;\n"


def repeated(size, form_of):
    """Forms by their numbers, of this many bytes together at most."""
    forms = []
    total = 0
    while True:
        form = form_of(len(forms))
        total += len(form)
        if total > size:
            return "".join(forms)
        forms.append(form)


def calls(size):
    """Methods that call each other."""
    return repeated(size - len(HEADER), lambda n: (
        f"define function call-{n} (a, b)\n"
        f"  call-{max(n - 1, 0)}(a + {n}, if (a < b) b else a end)\nend;\n"
    ))


def bodies(size):
    """Bodies nested deep."""
    form = nested(NESTED)
    return repeated(size - len(HEADER), lambda n: form)


def loops(size):
    """Loops in each other."""
    return repeated(size - len(HEADER), lambda n: (
        f"define function loop-{n} (m)\n"
        "  for (i from 1 to m, j from m to 1 by -1, k = 0 then k + i, until: 100 < k)\n"
        "    for (l from 0 below 9) while (m < l) m := m + 1 end end\n"
        "  finally k\n"
        "  end\nend;\n"
    ))


def closures(size):
    """Variables that closures share."""
    return repeated(size - len(HEADER), lambda n: (
        f"define function shared-{n} (a)\n"
        "  let b = a;\n"
        "  local method one () b := b + a end, method two () one(); method () two() end end;\n"
        "  two\nend;\n"
    ))


def long(size):
    """One method of many lines."""
    lines = repeated(size - 80, lambda n: f"  a := a + {n};\n")
    return f"define function long (a)\n{lines}  a\nend;\n"


def arms(size):
    """One `select` with many arms."""
    lines = repeated(size - 100, lambda n: f"    {2 * n}, {2 * n + 1} => a + {n};\n")
    return f"define function choose (a)\n  select (a)\n{lines}    otherwise => 0;\n  end\nend;\n"


def write(folder, name, text):
    with open(os.path.join(folder, name), "w", encoding="ascii", newline="") as file:
        file.write(text)


def seconds(command, folder):
    """The least seconds of some builds: those of the processor, and those of the clock."""
    best = (math.inf, math.inf)
    for _ in range(RUNS):
        begun = time.perf_counter()
        words = [*command, "build", "forms.lid"]
        child = subprocess.Popen(words, cwd=folder, stdout=subprocess.PIPE)
        printed = child.stdout.read()
        _, status, usage = os.wait4(child.pid, 0)
        elapsed = time.perf_counter() - begun
        child.returncode = os.waitstatus_to_exitcode(status)
        child.stdout.close()
        if child.returncode != 0 or printed:
            raise Failed(f"status {child.returncode}, and {len(printed)} bytes printed")
        best = (min(best[0], usage.ru_utime + usage.ru_stime), min(best[1], elapsed))
    return best


def measure(command, folder, title, sizes, text_of):
    """Prints a table of times, and gives the bounds that are not kept."""
    print(f"\n{title}\n")
    print("| size | bytes | elapsed | processor | per byte | growth |")
    print("|---|---|---|---|---|---|")
    before = None
    broken = []
    for size in sizes:
        text = HEADER + text_of(size)
        write(folder, "forms.dylan", text)
        try:
            taken, elapsed = seconds(command, folder)
        except Failed as failed:
            return [*broken, f"{title} of {size}: {failed}"]
        growth = ""
        if before is not None:
            doublings = math.log2(size / before[0])
            rate = max(taken, SHORTEST) / max(before[1], SHORTEST) / (size / before[0])
            factor = rate ** (1 / doublings)
            growth = f"{factor:.2f}"
            if factor > MOST_GROWTH:
                broken.append(f"{title}: growth {factor:.2f} at {size}")
        per_byte = taken / len(text) * 1e9
        row = [size, len(text), f"{elapsed:.3f} s", f"{taken:.3f} s", f"{per_byte:.0f} ns", growth]
        print(f"| {' | '.join(map(str, row))} |", flush=True)
        before = (size, taken)
    return broken


KINDS = [
    ("deep", DEEP_BYTES, deep),
    ("names", NAMES, names),
    ("locals", NAMES, local_names),
    *((kind.__name__, BYTES, kind) for kind in (calls, bodies, loops, closures, long, arms)),
]


def main():
    beside = os.path.join(os.path.dirname(os.path.dirname(os.path.realpath(__file__))), "banthruy")
    command = sys.argv[1:] or [beside]
    if "/" in command[0]:
        command[0] = os.path.abspath(command[0])
    with tempfile.TemporaryDirectory() as folder:
        write(folder, "forms.lid", LID)
        write(folder, "library.dylan", LIBRARY)
        broken = [fault for kind in KINDS for fault in measure(command, folder, *kind)]
    for line in broken:
        print(f"forms.py: {line}", file=sys.stderr)
    return 1 if broken else 0


if __name__ == "__main__":
    sys.exit(main())
