#!/usr/bin/env python3
"""Measures how the time and the memory of `build` grow with the size of a library.

usage: growth.py [COMMAND ..]

Builds libraries of 64 KiB, 256 KiB, 1 MiB and 4 MiB, made in a temporary folder, by
`COMMAND .. build LID`: of lines that print sums, and of methods and lines that call them, in one
file of one module each; and of methods and calls of them in 64 files of 100 modules, each of which
uses another. And it builds 8, 16, 32 and 64 libraries of 100 modules, each of which uses another.
With no COMMAND it is the script banthruy beside this folder.

The status is 1 where a library is not built or prints something else, where time or memory grows
by more than 1.3 for each doubling, beyond the doubling itself, or where the largest library takes
more than 1 GiB.
"""

import filecmp
import itertools
import math
import os
import subprocess
import sys
import tempfile
import time

KIB = 1024
MIB = 1024 * KIB
SIZES = [64 * KIB, 256 * KIB, MIB, 4 * MIB]
# Each library is built so often. The shortest time counts, and the highest peak.
RUNS = 3
MOST_GROWTH = 1.3
MOST_MEMORY = 1024 * MIB
# Times below this are taken as this: the clock and the machine's other work blur them.
SHORTEST = 0.01

LIBRARY = "module: dylan-user\n\ndefine library growth use dylan; use io; end;\n"
HEADER = "module: growth\n\n"
FILES = 63
MODULES = 100
# So many libraries, each of which defines so many methods.
LIBRARIES = [8, 16, 32, 64]
METHODS = 10 * FILES


class Failed(Exception):
    """A run that is no measurement, or a bound that is not kept."""


def sums():
    """Lines that print sums, each with what it prints."""
    for number in itertools.count():
        a, b, c, d = number % 1000, number % 97, number % 31, number % 7
        yield f'format-out("%d\\n", ({a} + {b}) * {c} - {d});\n', f"{(a + b) * c - d}\n"


def methods():
    """Lines of which each defines a method, and prints what an earlier one gives."""
    for number in itertools.count():
        called, a, b = number // 2, number % 97, number % 1000
        printed = b * 2 + called % 97
        yield (
            f'define method f{number} (n) n + n + {a} end; format-out("%d\\n", f{called}({b}));\n',
            f"{printed}\n",
        )


KINDS = {"lines that print sums": sums, "methods and calls of them": methods}
IN_MODULES = "methods and calls of them in modules"
IN_LIBRARIES = "libraries of 100 modules"


def write_lid(folder, names, library="growth"):
    with open_text(folder, f"{library}.lid") as file:
        file.write(f"library: {library}\nfiles: " + "\n ".join(names) + "\n")


def write_one_module(folder, size, kind):
    """Writes a library of one module and one file of this size, and beside it what the program
    prints. Lines go out one by one: a child's peak counts from what this process holds when it
    starts the child."""
    write_lid(folder, ["library", "growth"])
    with open_text(folder, "library.dylan") as file:
        file.write(LIBRARY + "define module growth use dylan; use format-out; end;\n")
    left = size - len(HEADER)
    with open_text(folder, "growth.dylan") as file, open_text(folder, "printed") as printed:
        file.write(HEADER)
        for line, line_printed in KINDS[kind]():
            if len(line) > left:
                break
            file.write(line)
            printed.write(line_printed)
            left -= len(line)
        file.write("\n" * left)


def exported(module, count):
    """The numbers of the methods that a module of the first ones defines, of so many in all."""
    return range(module, count, FILES)


def module_form(module, count):
    """The form of a module: those that define nothing export what the one that they use exports."""
    used = module // 2
    clauses = ["use dylan;", "use format-out;"]
    if module >= FILES:
        clauses.append(f"use m{used % FILES}, export: all;")
    else:
        clauses += [f"use m{used}, prefix: \"p-\";"] if module > 0 else []
        names = ", ".join(f"f{number}" for number in exported(module, count))
        clauses.append(f"export {names};")
    return f"define module m{module} {' '.join(clauses)} end;\n"


def method_line(number, module, count):
    """A line of a module that defines a method, and prints what one of the module that it uses
    gives, with what is printed."""
    there = exported(module // 2, count)
    called = there[number // FILES % len(there)]
    name = f"p-f{called}" if module > 0 else f"f{called}"
    a, b = number % 97, number % 1000
    return (
        f'define method f{number} (n) n + n + {a} end; format-out("%d\\n", {name}({b}));\n',
        f"{b * 2 + called % 97}\n",
    )


def write_modules(folder, size, kind):
    """Writes a library of many modules and files, of about this size in all."""
    count = max(size // 100, FILES)
    write_lid(folder, ["library"] + [f"m{module}" for module in range(FILES)])
    with open_text(folder, "library.dylan") as file:
        file.write(LIBRARY)
        for module in range(MODULES):
            file.write(module_form(module, count))
    with open_text(folder, "printed") as printed:
        for module in range(FILES):
            with open_text(folder, f"m{module}.dylan") as file:
                file.write(f"module: m{module}\n\n")
                for number in exported(module, count):
                    line, line_printed = method_line(number, module, count)
                    file.write(line)
                    printed.write(line_printed)


def library_form(number, count):
    """The form of a library: it sees one of those before it, and the last one uses all."""
    clauses = ["use dylan;", "use io;"]
    if number == count - 1:
        clauses += [f"use l{other}, import: {{}};" for other in range(number)]
    clauses += [f"use l{number // 2}, prefix: \"l-\";"] if number > 0 else []
    names = ", ".join(f"m{module}" for module in range(MODULES))
    return f"define library l{number} {' '.join(clauses)} export {names}; end;\n"


def library_line(number):
    """A line of the first module that prints what a method of the library seen gives, with what is
    printed."""
    return f'format-out("%d\\n", l-f0({number}));\n', f"{2 * number}\n"


def write_one_library(folder, number, count, printed):
    """Writes a library of many modules, and what it prints."""
    modules = [f"l{number}-m{module}" for module in range(FILES)]
    write_lid(folder, [f"l{number}-library"] + modules, f"l{number}")
    with open_text(folder, f"l{number}-library.dylan") as file:
        file.write("module: dylan-user\n\n" + library_form(number, count))
        for module in range(MODULES):
            form = module_form(module, METHODS)
            seen = 'use dylan; use l-m0, prefix: "l-";' if number > 0 and module == 0 else "use dylan;"
            file.write(form.replace("use dylan;", seen))
    for module in range(FILES):
        with open_text(folder, f"l{number}-m{module}.dylan") as file:
            file.write(f"module: m{module}\n\n")
            lines = [method_line(method, module, METHODS) for method in exported(module, METHODS)]
            lines += [library_line(number)] if number > 0 and module == 0 else []
            for line, line_printed in lines:
                file.write(line)
                printed.write(line_printed)


def write_libraries(folder, count, kind):
    """Writes so many libraries, of which the last one uses all."""
    with open_text(folder, "printed") as printed:
        for number in range(count):
            write_one_library(folder, number, count, printed)
    return [f"l{number}.lid" for number in range(count)]


def write_library(folder, size, kind):
    """Writes what is to be built, and gives the words for it."""
    if kind == IN_LIBRARIES:
        return write_libraries(folder, size, kind)
    (write_modules if kind == IN_MODULES else write_one_module)(folder, size, kind)
    return ["growth.lid"]


def size_of(folder):
    """The bytes of a library's files."""
    return sum(
        os.path.getsize(os.path.join(folder, name)) for name in os.listdir(folder) if name.endswith(".dylan")
    )


def open_text(folder, name):
    return open(os.path.join(folder, name), "w", encoding="ascii", newline="")


class Measure:
    """What one run took: seconds on the clock and of the processor, and bytes at its peak."""

    def __init__(self, elapsed, processor, peak):
        self.elapsed, self.processor, self.peak = elapsed, processor, peak

    def best(self, other):
        return Measure(
            min(self.elapsed, other.elapsed),
            min(self.processor, other.processor),
            max(self.peak, other.peak),
        )


def run(command, folder, lids):
    """Builds the libraries in the folder once: the measure, and the status."""
    with open(os.path.join(folder, "out"), "wb") as out, open(os.path.join(folder, "err"), "wb") as err:
        begin = time.perf_counter()
        child = subprocess.Popen(
            [*command, "build", *lids], cwd=folder, stdin=subprocess.DEVNULL, stdout=out, stderr=err
        )
        _, status, usage = os.wait4(child.pid, 0)
        elapsed = time.perf_counter() - begin
    child.returncode = os.waitstatus_to_exitcode(status)
    # Linux counts the peak in KiB, and macOS in bytes.
    unit = 1 if sys.platform == "darwin" else KIB
    return Measure(elapsed, usage.ru_utime + usage.ru_stime, usage.ru_maxrss * unit), child.returncode


def check(folder, size, status):
    """Stops where a run did not print what it was to print."""
    if status != 0:
        with open(os.path.join(folder, "err"), encoding="utf-8", errors="replace") as err:
            last = err.read().strip().splitlines()[-1:]
        raise Failed(f"a library of {size} bytes: status {status}: {' '.join(last)}")
    if not filecmp.cmp(os.path.join(folder, "out"), os.path.join(folder, "printed"), shallow=False):
        raise Failed(f"a library of {size} bytes: it printed something else than it was to print")


def measure(command, folder, size, kind, runs):
    """The best of several builds of a library of this size and kind."""
    lids = write_library(folder, size, kind)
    best = None
    for _ in range(runs):
        one, status = run(command, folder, lids)
        check(folder, size, status)
        best = one if best is None else best.best(one)
    return best


def growth(larger, smaller, ratio):
    """How a quantity grows for each doubling of the size, beyond the doubling itself."""
    return (larger / smaller / ratio) ** (1 / math.log2(ratio))


def named(size):
    return f"{size / MIB:.1f} MiB" if size >= MIB else f"{size / KIB:.0f} KiB"


def table(command, folder, kind):
    """Prints a row for each size, and gives the bounds that are not kept."""
    # A library of one line shows what every run takes. The first run is not counted: it may build the program.
    least = 1 if kind == IN_LIBRARIES else len(HEADER) + 80
    measure(command, folder, least, kind, 1)
    base = measure(command, folder, least, kind, RUNS)
    print(f"{kind}; one line: {base.elapsed:.3f} s, {base.processor:.3f} s of the processor, peak {base.peak / MIB:.1f} MiB")
    print("| size | elapsed | processor | per byte | growth | peak memory | per byte | growth |")
    print("|---|---|---|---|---|---|---|---|")
    before, faults = None, []
    for size in LIBRARIES if kind == IN_LIBRARIES else SIZES:
        it = measure(command, folder, size, kind, RUNS)
        size = size_of(folder)
        taken = max(it.processor - base.processor, SHORTEST)
        row = [named(size), f"{it.elapsed:.3f} s", f"{it.processor:.3f} s", f"{taken / size * 1e9:.0f} ns"]
        memory = [f"{it.peak / MIB:.1f} MiB", f"{it.peak / size:.0f}"]
        if before is None:
            row += ["", *memory, ""]
        else:
            ratio = size / before[0]
            factors = [growth(taken, before[1], ratio), growth(it.peak, before[2], ratio)]
            row += [f"{factors[0]:.2f}", *memory, f"{factors[1]:.2f}"]
            for what, factor in zip(["time", "memory"], factors):
                if factor > MOST_GROWTH:
                    faults.append(f"{kind}: {what} up to {named(size)} grows by {factor:.2f} a doubling, beyond the doubling")
        print(f"| {' | '.join(row)} |", flush=True)
        before = (size, taken, it.peak)
    if it.peak > MOST_MEMORY:
        faults.append(f"{kind}: the peak at {named(size)} is {it.peak / MIB:.0f} MiB")
    return faults


def main():
    beside = os.path.join(os.path.dirname(os.path.dirname(os.path.realpath(__file__))), "banthruy")
    command = sys.argv[1:] or [beside]
    if "/" in command[0]:
        command[0] = os.path.abspath(command[0])
    try:
        with tempfile.TemporaryDirectory() as folder:
            faults = []
            for kind in [*KINDS, IN_MODULES, IN_LIBRARIES]:
                with tempfile.TemporaryDirectory(dir=folder) as place:
                    faults += table(command, place, kind)
    except (Failed, OSError) as error:
        faults = [str(error)]
    for fault in faults:
        print(f"growth.py: {fault}", file=sys.stderr)
    return 1 if faults else 0


if __name__ == "__main__":
    sys.exit(main())
