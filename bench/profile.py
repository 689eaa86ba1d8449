#!/usr/bin/env python3
"""Says which functions of a built program take the instructions of a run, by shape.

usage: profile.py PROGRAM [--only NAMES] [--commands NAMES] [--most N] [--write FILE]

The runs are those of run.py on a tenth of each shape, under valgrind's callgrind, and each answer is held against what
the domain says that it has to be. Of each run stand the N functions (12, if not given) that take most by themselves,
with what they take of the whole and of a line of the input. What the compiler puts into its caller counts there. A
byte that memset writes counts as an instruction, so that it looks larger than it is.

--only      the names of shapes, with commas between (all ten, if not given)
--commands  the commands, with commas between (check and audit, if not given)
--write     writes the page into this file too
"""
import argparse
import os
import re
import shutil
import subprocess
import sys
import time

sys.dont_write_bytecode = True
import commands
import counts
import results
import shapes

LINE = re.compile(r" *([\d,]+) +\( *[\d.]+%\) +[^:]*:(.+?)(?: \[[^\]]*\])?$")
TOTAL = re.compile(r" *([\d,]+) +\(100(?:\.0)?%\) +PROGRAM TOTALS")
HASH = re.compile(r"::<#\w+>|'\d+$")
HEAD = """# Where the instructions go

Written by `python3 bench/profile.py`, which says at its head what is counted: {day}, on a tenth of each shape.
"""


def profile_of(program, case, folder):
    """The instructions of a run, and those of each function by itself, the most first."""
    words = ["env", "-i", "LC_ALL=C", "valgrind", "--tool=callgrind", f"--callgrind-out-file={folder}/callgrind",
             f"--log-file={folder}/log", program]
    commands.run_once(words, case, folder, False)
    done = subprocess.run(["callgrind_annotate", "--threshold=100", "--auto=no", f"{folder}/callgrind"],
                          stdout=subprocess.PIPE, text=True, errors="replace", check=True)
    total, functions = 0, {}
    for line in done.stdout.splitlines():
        if found := TOTAL.match(line):
            total = int(found[1].replace(",", ""))
        elif total and (found := LINE.match(line)):
            name = HASH.sub("", found[2])
            functions[name] = functions.get(name, 0) + int(found[1].replace(",", ""))
    return total, sorted(functions.items(), key=lambda it: -it[1])


def section_of(title, total, functions, lines, most):
    """The table of a run."""
    rows = [[f"`{name}`", results.shown(taken / total, ".1%"), results.shown(taken / lines, ",.1f")]
            for name, taken in functions[:most]]
    rest = total - sum(taken for _, taken in functions[:most])
    rows.append(["all others", results.shown(rest / total, ".1%"), results.shown(rest / lines, ",.1f")])
    head = f"## {title}\n\n{total:,} instructions, {total / lines:,.0f} a line of the input\n"
    return f"{head}\n{results.table(['function', 'of all', 'a line'], rows)}"


def arguments():
    """The words of the command line."""
    parser = argparse.ArgumentParser(description=__doc__.splitlines()[0], allow_abbrev=False)
    parser.add_argument("program")
    parser.add_argument("--only", default=",".join(shapes.SHAPES))
    parser.add_argument("--commands", default="check,audit")
    parser.add_argument("--most", type=int, default=12)
    parser.add_argument("--write")
    return parser.parse_args()


def main():
    """Prints the page. Returns the status."""
    words = arguments()
    if not shutil.which("callgrind_annotate"):
        print("profile.py: there is no valgrind; Debian's package `valgrind` has it", file=sys.stderr)
        return 2
    page = [HEAD.format(day=time.strftime("%Y-%m-%d"))]
    for name in words.only.split(","):
        with commands.in_memory() as folder:
            cases = commands.make_domain(name, counts.SHARE, f"{folder}/0")
            for command in words.commands.split(","):
                case = cases[command]
                _, lines = commands.extent_of(case.path)
                total, functions = profile_of(os.path.abspath(words.program), case, folder)
                page.append(section_of(f"{name}, `{command}`", total, functions, lines, words.most))
    text = "\n".join(page)
    print(text, end="")
    if words.write:
        with open(words.write, "w", encoding="utf-8") as file:
            file.write(text)
    return 0


if __name__ == "__main__":
    sys.exit(main())
