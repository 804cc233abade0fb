#!/usr/bin/env python3
"""Measures how fast source files are read as tokens, beside other lexers on the same machine.

usage: tokens.py PROGRAM

`PROGRAM` is the program of the crate dy_measure, which `rt run` leaves in crates/dy_measure/out.
Texts of 64 KiB to 4 MiB are made in a temporary folder: definitions of classes, generic functions,
methods and macros with comments. Beside it stand Python's tokenize on the same program in Python's
syntax, a lexer of one regular expression for Dylan's token table in Python's re, and the lexer of
clang, where it is installed, on the program in C's syntax.

The status is 1 where time grows by more than 1.3 for each doubling, beyond the doubling itself, or
where a text has other tokens than it was made with.
"""

import math
import os
import re
import shutil
import subprocess
import sys
import tempfile
import time
import tokenize

KIB = 1024
MIB = 1024 * KIB
SIZES = [64 * KIB, 256 * KIB, MIB, 4 * MIB]
RUNS = 5
MOST_GROWTH = 1.3
# Times below this are taken as this: the clock and the machine's other work blur them.
SHORTEST = 0.005

HEADER = "module: shapes\n\n"
DYLAN = '''// Shapes, number {n}.
define open class <shape-{n}> (<object>)
  constant slot name :: <string>, required-init-keyword: name:;
  slot width :: <integer> = {n}, init-keyword: width:; /* in points /* of a screen */ */
end class <shape-{n}>;

define sealed generic area (shape :: <shape-{n}>, #key scale, #all-keys) => (area :: <integer>);

define method area (shape :: <shape-{n}>, #rest all, #key scale = #x1F) => (area :: <integer>)
  let total = 0;
  for (i from 0 below shape.width, until: total >= 1{n})
    total := total + i * scale - (i ^ 2);
  end for;
  if (total = 0 & ~empty?(all))
    error("no area of %s\\n", shape.name);
  else
    total
  end if
end method area;

define macro twice-{n}
  {{ twice-{n} ?body:body end }} => {{ begin ?body; ?body end }}
end macro;

'''
PYTHON = '''# Shapes, number {n}.
class Shape{n}(object):
    name: str = required()
    width: int = initial({n})  # in points of a screen

def area{n}(shape: Shape{n}, *rest, scale=0x1F, **others) -> int:
    total = 0
    for i in range(0, shape.width, until(total >= 1{n})):
        total = total + i * scale - (i ** 2)
    if total == 0 and not empty(all):
        error("no area of %s\\n", shape.name)
    else:
        return total

'''
C = '''// Shapes, number {n}.
struct shape_{n} {{
  const char *name;
  int width; /* in points of a screen */
}};

int area_{n}(const struct shape_{n} *shape, int scale, ...);

int area_{n}(const struct shape_{n} *shape, int scale, ...) {{
  int total = 0;
  for (int i = 0; i < shape->width && total < 1{n}; i++) {{
    total = total + i * scale - (i ^ 2);
  }}
  if (total == 0 && !empty(all)) {{
    error("no area of %s\\n", shape->name);
  }} else {{
    return total;
  }}
}}

'''
NAME = rb"[!&*<>|^$%@_]*[A-Za-z][A-Za-z0-9!&*<>|^$%@_\-+~?/=]*"
FORMS = re.compile(
    rb"//[^\n]*|/\*|[ \t\f\r\n]+|" + NAME + rb":(?![:=])|" + NAME + rb"|#\"(?:[^\"\\\n]|\\.)*\"|#[bB][01]+|#[oO][0-7]+"
    rb"|#[xX][0-9a-fA-F]+|[0-9]+|'(?:[^'\\\n]|\\.)+'|\"(?:[^\"\\\n]|\\.)*\"|#(?:t|f|next|rest|key|all-keys)"
    rb"|\?=" + NAME + rb"|\?(?:" + NAME + rb")?(?::(?:name|token|variable|expression|body|case-body|\*))?"
    rb"|\\(?:" + NAME + rb"|[-+*/^=<>~]+)|~==|\.\.\.|:=|::|=>|==|~=|<=|>=|#\(|#\[|[-+*/^=<>&|~()\[\]{},;.:]"
)
BLANKS = frozenset(b" \t\f\r\n")
COMMENT = re.compile(rb"/\*|\*/")


class Failed(Exception):
    """A run that is no measurement, or a bound that is not kept."""


def text_of(template, size, header=""):
    """As many numbered copies of the template as there is room for."""
    parts, left, number = [header], size - len(header), 0
    while True:
        part = template.format(n=number)
        if len(part) > left:
            return "".join(parts) + "\n" * left, number
        parts.append(part)
        left -= len(part)
        number += 1


def by_expression(text):
    """The number of tokens, by the regular expression. Block comments nest."""
    at, count = len(HEADER), 0
    while at < len(text):
        found = FORMS.match(text, at)
        if found is None:
            raise Failed(f"no token at byte {at}")
        first, at = text[at], found.end()
        if found.group() == b"/*":
            depth = 1
            while depth:
                mark = COMMENT.search(text, at)
                depth += 1 if mark.group() == b"/*" else -1
                at = mark.end()
        elif first not in BLANKS and not found.group().startswith(b"//"):
            count += 1
    return count


def shortest(work):
    """The shortest time of several runs, in seconds."""
    best = math.inf
    for _ in range(RUNS):
        begin = time.perf_counter()
        work()
        best = min(best, time.perf_counter() - begin)
    return best


def counted(program, path):
    run = subprocess.run([program, "tokens", path], capture_output=True, check=False)
    if run.returncode != 0:
        raise Failed(f"{program} {path}: status {run.returncode}")
    return int(run.stdout)


def python_tokens(path):
    with open(path, "rb") as file:
        return sum(1 for _ in tokenize.tokenize(file.readline))


def written(folder, name, text):
    path = os.path.join(folder, name)
    with open(path, "w", encoding="ascii", newline="") as file:
        file.write(text)
    return path


def measured(program, folder):
    """Prints a row for each size, and gives the time at the largest, beyond that of a short file."""
    tiny = written(folder, "tiny.dylan", HEADER)
    base = shortest(lambda: counted(program, tiny))
    print("| lexer | text | time | per byte | growth |\n|---|---|---|---|---|")
    before = None
    for size in SIZES:
        text, _ = text_of(DYLAN, size, HEADER)
        path = written(folder, "text.dylan", text)
        if counted(program, path) != by_expression(text.encode("ascii")):
            raise Failed(f"a text of {size} bytes has other tokens than it was made with")
        taken = max(shortest(lambda: counted(program, path)) - base, SHORTEST)
        factor = "" if before is None else (taken / before / 4) ** 0.5
        print(row("lex", size, taken, "" if before is None else f"{factor:.2f}"), flush=True)
        if before is not None and factor > MOST_GROWTH:
            raise Failed(f"the time up to {size} bytes grows by {factor:.2f} a doubling, beyond the doubling")
        before = taken
    return taken


def row(name, size, taken, last):
    shown = f"{size // MIB} MiB" if size >= MIB else f"{size // KIB} KiB"
    return f"| {name} | {shown} | {taken:.3f} s | {taken / size * 1e9:.0f} ns | {last} |"


def beside(folder, own):
    """Prints a row for each other lexer at the largest size, with its time as a ratio to the own one."""
    size = SIZES[-1]
    dylan = text_of(DYLAN, size, HEADER)[0].encode("ascii")
    python = written(folder, "text.py", text_of(PYTHON, size)[0])
    rows = [
        ("Python re, Dylan's table", shortest(lambda: by_expression(dylan))),
        ("Python tokenize", shortest(lambda: python_tokens(python))),
    ]
    if shutil.which("clang"):
        paths = [written(folder, f"{name}.c", text) for name, text in (("tiny", ""), ("text", text_of(C, size)[0]))]
        empty, full = (
            shortest(lambda: subprocess.run(["clang", "-cc1", "-Eonly", path], check=True)) for path in paths
        )
        rows.append(("clang -cc1 -Eonly", full - empty))
    for name, taken in rows:
        print(row(name, size, taken, f"{taken / own:.2f} times ours"), flush=True)


def main():
    if len(sys.argv) != 2:
        print(__doc__.strip().splitlines()[2], file=sys.stderr)
        return 3
    try:
        with tempfile.TemporaryDirectory() as folder:
            own = measured(os.path.abspath(sys.argv[1]), folder)
            beside(folder, own)
    except (Failed, OSError, subprocess.CalledProcessError) as error:
        print(f"tokens.py: {error}", file=sys.stderr)
        return 1
    return 0


if __name__ == "__main__":
    sys.exit(main())
