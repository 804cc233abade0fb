#!/usr/bin/env python3
"""Measures how fast the machine runs programs, beside the same programs in other languages.

usage: machine.py PROGRAM [NAME ..]

`PROGRAM` is the program of the crate dy_main, which `rt run` leaves in crates/dy_main/out. The
programs lie in bench/machine, each as a user of the language would write it: a double recursion, a
deep recursion, a counted loop, a closure that is called, a function of several values, a list made
of closures, and numbers that are printed, one or ten a call. CPython, Lua and Guile run them too,
where they are installed. All run turn by turn, so that what else the machine does falls on each of
them alike. Times are of the processor, the shortest of all rounds, without that of a program with
next to nothing to do (which is told apart, as the start).

Where valgrind is installed, its tool callgrind counts the processor's instructions that a larger
argument needs beyond a smaller one, for each instruction of the code. How many of those a program
performs is told by its listing (`dy_show_code`), and stands in the table below.

The status is 1 where a program prints something else, or where a bound is not kept: the times of
`MOST`, 25 instructions of the processor for one of the code, 96 MiB for 1,000,000 nested bodies,
and 5 ms for a start.
"""

import os
import re
import shutil
import subprocess
import sys
import tempfile

HERE = os.path.join(os.path.dirname(os.path.abspath(__file__)), "machine")
ROUNDS = 9
MIB = 1024 * 1024
MILLION = 1_000_000
MOST_FUEL = "1000000000"
MOST_INSTRUCTIONS = 25
MOST_MEMORY = 96 * MIB
MOST_START = 0.005
LID = "library: machine\nfiles: library\n {name}\n"


def fibonacci(number):
    a, b = 0, 1
    for _ in range(number):
        a, b = b, a + b
    return a


def bodies(number):
    """How many bodies the double recursion enters, and how many of them are leaves."""
    leaves = fibonacci(number + 1)
    return 2 * leaves - 1, leaves


def double_code(number):
    entered, leaves = bodies(number)
    return 25 * (entered - leaves) + 9 * leaves


class Program:
    """A program: its name, its argument, what it prints, two small arguments for callgrind and how
    many instructions of the code an argument needs (or None), and the most of CPython's time."""

    def __init__(self, name, argument, printed, small=None, code=None, most=1.0):
        self.name = name
        self.argument = argument
        self.printed = printed
        self.small = small
        self.code = code
        self.most = most


def line(number):
    return f"{number}\n"


def lines(count):
    return "".join(f"{number}\n" for number in range(count))


def tens(count):
    return "".join(
        " ".join(str(number + k) for k in range(10)) + "\n" for number in range(0, count, 10)
    )


PROGRAMS = [
    Program("double", 28, lambda n: line(fibonacci(n)), (15, 18), double_code, 0.7),
    Program("deep", MILLION, line, (8000, 16_000), lambda n: 19 * n, 0.4),
    Program("count", 10 * MILLION, line, (1000, 2000), lambda n: 14 * n, 0.6),
    Program("closure", MILLION, lambda n: line(n + 1), (1000, 2000), lambda n: 25 * n, 0.5),
    Program("several", MILLION, lambda n: line(2 * n), (1000, 2000)),
    Program("list", 100_000, lambda n: line(n * (n + 1) // 2), (1000, 2000)),
    Program("print", MILLION, lines, (1000, 2000)),
    Program("print-ten", MILLION, tens, (1000, 2000)),
]


class Failed(Exception):
    """A run that is no measurement, or a bound that is not kept."""


def peers():
    """The other languages that are installed, with the command and the ending of their files."""
    found = {"CPython": ([sys.executable], "py")}
    for command in ("lua5.4", "lua"):
        if shutil.which(command):
            found["Lua"] = ([command], "lua")
            break
    if shutil.which("guile"):
        found["Guile"] = (["guile", "--no-auto-compile"], "scm")
        if shutil.which("guild"):
            found["Guile"] = (["guile"], "scm")
    return found


def write(folder, name, argument):
    """Our program with this argument."""
    with open(os.path.join(HERE, f"{name}.dylan"), encoding="utf-8") as file:
        text = file.read()
    changed = text.replace("f(1000)", f"f({argument})")
    if changed == text and argument != 1000:
        raise Failed(f"{name}: no argument stands in the program")
    files = {f"{name}.dylan": changed, f"{name}.lid": LID.format(name=name)}
    for file_name, content in files.items():
        with open(os.path.join(folder, file_name), "w", encoding="utf-8") as file:
            file.write(content)
    shutil.copy(os.path.join(HERE, "library.dylan"), folder)


def ours(program, name):
    return [program, "build", "--fuel", MOST_FUEL, f"{name}.lid"]


def once(command, folder, printed):
    """The processor's seconds and the peak memory of a run, or None where it prints another text."""
    with open(os.path.join(folder, "out"), "w+b") as out:
        child = subprocess.Popen(command, cwd=folder, stdout=out, stderr=subprocess.DEVNULL)
        _, status, usage = os.wait4(child.pid, 0)
        child.returncode = os.waitstatus_to_exitcode(status)
        out.seek(0)
        if child.returncode != 0 or out.read().decode() != printed:
            return None
    return usage.ru_utime + usage.ru_stime, usage.ru_maxrss * 1024


def command_of(language, program, path, argument, found):
    if language == "Dylan":
        return ours(path, program.name)
    command, ending = found[language]
    return [*command, os.path.join(HERE, f"{program.name}.{ending}"), str(argument)]


def rounds(program, argument, path, folder, found):
    """For each language the shortest time and the highest peak, turn by turn."""
    write(folder, program.name, argument)
    best = {}
    for _ in range(ROUNDS):
        for language in ["Dylan", *found]:
            command = command_of(language, program, path, argument, found)
            run = once(command, folder, program.printed(argument))
            if run is None:
                if language == "Dylan":
                    raise Failed(f"{program.name}: the program prints something else")
                continue
            seconds, peak = best.get(language, (run[0], 0))
            best[language] = (min(seconds, run[0]), max(peak, run[1]))
    return best


def print_times(program, path, folder, found):
    """A row for each language, and what is not kept."""
    start = rounds(program, 10, path, folder, found)
    best = rounds(program, program.argument, path, folder, found)
    net = {name: max(best[name][0] - start[name][0], 1e-6) for name in best if name in start}
    for language, seconds in net.items():
        ratio = net["Dylan"] / seconds
        print(f"| {program.name} | {language} | {start[language][0]:.4f} s | {seconds:.3f} s "
              f"| {ratio:.2f} | {best[language][1] / MIB:.0f} MiB |", flush=True)
    broken = []
    if "CPython" in net and net["Dylan"] / net["CPython"] > program.most:
        broken.append(f"{program.name}: more than {program.most} of CPython's time")
    if program.name == "deep" and best["Dylan"][1] >= MOST_MEMORY:
        broken.append("deep: 96 MiB or more")
    if start["Dylan"][0] >= MOST_START:
        broken.append(f"{program.name}: a start of 5 ms or more")
    return broken


def instructions(program, argument, path, folder):
    """How many instructions the processor performs, by callgrind."""
    write(folder, program.name, argument)
    command = ["valgrind", "--tool=callgrind", "--callgrind-out-file=/dev/null",
               *ours(path, program.name)]
    done = subprocess.run(command, cwd=folder, capture_output=True, text=True, check=False)
    found = re.search(r"Collected : (\d+)", done.stderr)
    if done.returncode != 0 or done.stdout != program.printed(argument) or not found:
        raise Failed(f"{program.name}: callgrind counts nothing")
    return int(found.group(1))


def print_instructions(program, path, folder):
    less, more = program.small
    count = instructions(program, more, path, folder) - instructions(program, less, path, folder)
    if program.code is None:
        print(f"| {program.name} | {count / (more - less):.0f} for one of its argument |")
        return []
    each = count / (program.code(more) - program.code(less))
    print(f"| {program.name} | {each:.1f} |", flush=True)
    return [f"{program.name}: more than {MOST_INSTRUCTIONS} instructions"] * (
        each > MOST_INSTRUCTIONS)


def main():
    if len(sys.argv) < 2:
        sys.exit(__doc__)
    path = os.path.abspath(sys.argv[1])
    names = sys.argv[2:] or [program.name for program in PROGRAMS]
    chosen = [program for program in PROGRAMS if program.name in names]
    broken = []
    with tempfile.TemporaryDirectory() as folder:
        print("| program | language | start | time beyond it | our time to its | peak memory |")
        print("|---|---|---|---|---|---|")
        for program in chosen:
            broken += print_times(program, path, folder, peers())
        if shutil.which("valgrind"):
            print("\n| program | instructions of the processor for one of the code |\n|---|---|")
            for program in chosen:
                broken += print_instructions(program, path, folder)
    if broken:
        raise Failed("\n".join(broken))


if __name__ == "__main__":
    try:
        main()
    except Failed as failed:
        sys.exit(str(failed))
