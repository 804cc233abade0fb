#!/usr/bin/env python3
"""Measures what calls of methods cost, beside the same programs in other languages on this machine.

usage: calls.py PROGRAM

`PROGRAM` is the program of the crate dy_main, which `rt run` leaves in crates/dy_main/out. Three
programs are made in a temporary folder: a recursion by tail that enters a million bodies, a doubly
recursive function of about a million calls, and a million bodies that nest. CPython, Perl and Tcl
run the same programs, where they are installed; each prints what the program is to print. Where
valgrind is installed, its tool callgrind counts the instructions of a body.

The status is 1 where a program prints something else, or where a million nested bodies take 256 MiB.
"""

import os
import re
import shutil
import subprocess
import sys
import tempfile
import time

MIB = 1024 * 1024
RUNS = 5
MOST_MEMORY = 256 * MIB
MILLION = 1_000_000

LID = "library: calls\nfiles: library\n calls\n"
LIBRARY = (
    "module: dylan-user\n\n"
    "define library calls use dylan; use io; end;\n"
    "define module calls use dylan; use format-out; end;\n"
)
DYLAN = 'module: calls\n\ndefine method f (n) {body} end;\nformat-out("%d\\n", f({argument}));\n'
PYTHON = (
    "import sys\nsys.setrecursionlimit(10 ** 7)\n"
    "def f(n):\n    {body}\nprint(f({argument}))\n"
)
PERL = "no warnings 'recursion';\nsub f {{ my ($n) = @_; {body} }}\nprint f({argument}), \"\\n\";\n"
TCL = "interp recursionlimit {{}} 10000000\nproc f {{n}} {{ {body} }}\nputs [f {argument}]\n"


def fibonacci(number):
    """The Fibonacci number, and how many calls compute it by the doubly recursive definition."""
    a, b = 0, 1
    for _ in range(number):
        a, b = b, a + b
    return a, 2 * b - 1


class Program:
    """A program in each language: its name, what its method does, its argument, what it prints and
    how many bodies it enters."""

    def __init__(self, name, argument, printed, bodies, dylan, python, perl, tcl):
        self.name = name
        self.printed = f"{printed}\n"
        self.bodies = bodies
        self.texts = {
            "Dylan": DYLAN.format(body=dylan, argument=argument),
            "CPython": PYTHON.format(body=python, argument=argument),
            "Perl": PERL.format(body=perl, argument=argument),
            "Tcl": TCL.format(body=tcl, argument=argument),
        }


def tail(count):
    return Program(
        "recursion by tail", count, 0, count + 1,
        "if (n < 1) 0 else f(n - 1) end",
        "return 0 if n < 1 else f(n - 1)",
        "$n < 1 ? 0 : f($n - 1)",
        "if {$n < 1} {return 0}; return [f [expr {$n - 1}]]",
    )


def double(number):
    printed, bodies = fibonacci(number)
    return Program(
        "double recursion", number, printed, bodies,
        "if (n < 2) n else f(n - 1) + f(n - 2) end",
        "return n if n < 2 else f(n - 1) + f(n - 2)",
        "$n < 2 ? $n : f($n - 1) + f($n - 2)",
        "if {$n < 2} {return $n}; return [expr {[f [expr {$n - 1}]] + [f [expr {$n - 2}]]}]",
    )


def nested(count):
    return Program(
        "nested bodies", count, count, count + 1,
        "if (n < 1) 0 else 1 + f(n - 1) end",
        "return 0 if n < 1 else 1 + f(n - 1)",
        "$n < 1 ? 0 : 1 + f($n - 1)",
        "if {$n < 1} {return 0}; return [expr {1 + [f [expr {$n - 1}]]}]",
    )


class Failed(Exception):
    """A run that is no measurement, or a bound that is not kept."""


def commands(program):
    """How each language that is installed runs a program."""
    found = {"Dylan": [program, "build", "calls.lid"]}
    if sys.executable:
        found["CPython"] = [sys.executable, "calls.py"]
    if shutil.which("perl"):
        found["Perl"] = ["perl", "calls.pl"]
    if shutil.which("tclsh"):
        found["Tcl"] = ["tclsh", "calls.tcl"]
    return found


def write(folder, program):
    names = {"Dylan": "calls.dylan", "CPython": "calls.py", "Perl": "calls.pl", "Tcl": "calls.tcl"}
    files = {names[language]: text for language, text in program.texts.items()}
    files.update({"calls.lid": LID, "library.dylan": LIBRARY})
    for name, text in files.items():
        with open(os.path.join(folder, name), "w", encoding="utf-8") as file:
            file.write(text)


def once(command, folder, printed):
    """The seconds and the peak memory of a run, or None where it ends otherwise."""
    with open(os.path.join(folder, "out"), "w+b") as out:
        begin = time.perf_counter()
        child = subprocess.Popen(command, cwd=folder, stdout=out, stderr=subprocess.DEVNULL)
        _, status, usage = os.wait4(child.pid, 0)
        seconds = time.perf_counter() - begin
        child.returncode = os.waitstatus_to_exitcode(status)
        out.seek(0)
        if child.returncode != 0 or out.read().decode() != printed:
            return None
    return seconds, usage.ru_maxrss * 1024


def measure(program, folder, found):
    """For each language the shortest time and the highest peak of its runs."""
    write(folder, program)
    measured = {}
    for language, command in found.items():
        runs = [once(command, folder, program.printed) for _ in range(RUNS)]
        if all(runs):
            measured[language] = (min(run[0] for run in runs), max(run[1] for run in runs))
        elif language == "Dylan":
            raise Failed(f"{program.name}: the program does not print {program.printed.strip()}")
    return measured


def print_row(program, measured):
    ours, _ = measured["Dylan"]
    for language, (seconds, peak) in measured.items():
        print(
            f"| {program.name} | {language} | {seconds:.3f} s "
            f"| {seconds / program.bodies * 1e9:.0f} ns | {ours / seconds:.2f} | {peak / MIB:.0f} MiB |"
        )


def instructions(command, folder, program):
    """How many instructions a run performs, by callgrind."""
    write(folder, program)
    counted = ["valgrind", "--tool=callgrind", "--callgrind-out-file=/dev/null", *command]
    done = subprocess.run(counted, cwd=folder, capture_output=True, text=True, check=False)
    found = re.search(r"Collected : (\d+)", done.stderr)
    if done.returncode != 0 or done.stdout != program.printed or not found:
        raise Failed(f"{program.name}: callgrind counts nothing")
    return int(found.group(1))


def print_instructions(command, folder, make, less, more):
    """The instructions of a body: what a larger program needs more than a smaller one."""
    first, second = make(less), make(more)
    count = instructions(command, folder, second) - instructions(command, folder, first)
    print(f"| {first.name} | {count / (second.bodies - first.bodies):.0f} |")


def main():
    if len(sys.argv) != 2:
        sys.exit(__doc__)
    found = commands(os.path.abspath(sys.argv[1]))
    with tempfile.TemporaryDirectory() as folder:
        print("| program | language | time | per body | our time to its | peak memory |")
        print("|---|---|---|---|---|---|")
        for program in (tail(MILLION), double(28), nested(MILLION)):
            measured = measure(program, folder, found)
            print_row(program, measured)
            if measured["Dylan"][1] >= MOST_MEMORY:
                raise Failed(f"{program.name}: the peak of memory is not below 256 MiB")
        if shutil.which("valgrind"):
            print("\n| program | instructions of the machine for a body |\n|---|---|")
            print_instructions(found["Dylan"], folder, tail, 1000, 2000)
            print_instructions(found["Dylan"], folder, double, 10, 15)
            print_instructions(found["Dylan"], folder, nested, 1000, 2000)


if __name__ == "__main__":
    try:
        main()
    except Failed as failed:
        sys.exit(str(failed))
