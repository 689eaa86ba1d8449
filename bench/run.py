#!/usr/bin/env python3
"""Runs a built program on the domains of shapes.py, and says what that took: processor time, memory, growth, and what a
byte and a line cost.

usage: run.py PROGRAM [BEFORE] [--only NAMES] [--runs N] [--write FILE] [--commit WORD] [--before-commit WORD]
              [--bounds NAMES]

PROGRAM and BEFORE are two builds of mcaudit, which run in turn on the same files. The files lie in memory. Each answer
is held against what the domain says that it has to be (texts.py), and another one ends the run; of an earlier build's
audit, whose words change, only the status and the last line count. What is told is the best of N runs (3, if not given,
and some more of short ones) in processor time, of user and system, and the most memory of any. At the end stands what
a byte and a line cost of that time, and how many instructions, which valgrind counts where it is there, once for each
command on a tenth of each shape (counts.py).

--only    the names of shapes, with commas between; `unkind` means all tables of unkind rows, and `forms` the forms of
          a certificate; `faulty` has faults, which audit explains
--write   writes the tables into this file too, as bench/RESULTS.md has them
--bounds  ends with status 1 where something misses one of these bounds, or nothing was measured that has it: `growth`,
          `memory`, `forms`, `forms-memory`, `explaining` (which needs BEFORE), `explaining-memory`, or some with commas
          between (results.py, BOUNDS)
"""
import argparse
import os
import signal
import sys
import tempfile

sys.dont_write_bytecode = True
import commands
import costs
import counts
import results
import shapes
from commands import COMMANDS

FEW = ("check", "audit")
SIZES = [(share, COMMANDS) for share in (0.25, 0.5, 1)]
SIZES_OF = {"campus": [(0.2706, COMMANDS), (0.5412, COMMANDS), (1, COMMANDS), (1.0776, FEW)]}  # 64, 128 and 256 MiB
UNKIND_SIZES = [(share, FEW) for share in (0.25, 0.5, 1)]
FORMS = 0.75  # the share of the shape whose certificate has 12 MB as make writes it
SHORT = 0.5  # seconds of all runs of a case, below which it runs more often, MORE times as often at the most
MORE = 5


class Taken:
    """What the runs of one case took so far: of each program, and of `wc -l` over the same bytes."""

    def __init__(self, case, folder, programs):
        self.case = case
        self.folder = folder
        self.programs = programs
        self.runs = [[] for _ in programs]
        self.counting = []

    def is_enough(self, runs):
        """Whether it was run as often as asked for, and, where that is short, some more."""
        took = sum(seconds for seconds, _ in self.runs[0])
        return len(self.counting) >= runs and (took >= SHORT or len(self.counting) >= MORE * runs)

    def run(self):
        """Runs it once more."""
        words = ["wc", "-l", *commands.files_of(self.case.path)]
        self.counting.append(commands.spawn(words, "/dev/null", self.folder)[1])
        for number, (program, runs) in enumerate(zip(self.programs, self.runs)):
            runs.append(commands.run_once([program], self.case, self.folder, number > 0))

    def best(self):
        """The least time and the most memory."""
        seconds = [min(seconds for seconds, _ in runs) for runs in self.runs]
        memory = [max(kib for _, kib in runs) for runs in self.runs]
        return results.Measure(*commands.extent_of(self.case.path), min(self.counting), seconds, memory)


def measure_together(programs, domains, runs):
    """What the commands took on some domains, each a name, a share and commands.

    All are made first, and run by turns, so that another load of the machine falls on all alike."""
    with commands.in_memory() as folder:
        rooms = [f"{folder}/{number}" for number in range(len(domains))]
        cases = [commands.make_domain(name, share, room) for (name, share, _), room in zip(domains, rooms)]
        taken = [{} for _ in domains]
        for command in COMMANDS:
            here = [n for n, (_, _, asked) in enumerate(domains) if command in asked]
            for number in here:
                taken[number][command] = Taken(cases[number][command], folder, programs)
            waiting = [(domains[number], taken[number][command]) for number in here]
            while waiting:
                for domain, one in waiting:
                    try:
                        one.run()
                    except commands.Unexpected as fault:
                        sys.exit(f"run.py: {domain[0]} at {domain[1]}: {fault}")
                waiting = [(domain, one) for domain, one in waiting if not one.is_enough(runs)]
        return [{command: one.best() for command, one in all_of_it.items()} for all_of_it in taken]


def measure_shape(programs, name, sizes, runs):
    """The measures of each command at its sizes, the smallest first."""
    taken = measure_together(programs, [(name, share, asked) for share, asked in sizes], runs)
    return {command: [size[command] for size in taken if command in size] for command in taken[0]}


def measure_forms(programs, runs):
    """The measures of a check with a certificate in each form, and of a replay without it."""
    asked = ["check", "replay"]
    taken = measure_together(programs, [(name, FORMS, asked) for name in shapes.FORMS], runs)
    return {name: {each: [one[each]] for each in asked} for name, one in zip(shapes.FORMS, taken)}


def measure_all(programs, only, runs):
    """The measures of all that is asked for, by the names of shapes."""
    taken = {}
    for name in asked_for(only):
        if name == "forms":
            measured = measure_forms(programs, runs)
        elif name in shapes.FAULTY:
            measured = {name: measure_shape(programs, name, [(1, ["audit"])], runs)}
        elif name in shapes.UNKIND:
            measured = {name: measure_shape(programs, name, UNKIND_SIZES, runs)}
        else:
            measured = {name: measure_shape(programs, name, SIZES_OF.get(name, SIZES), runs)}
        for shape, all_of_it in measured.items():
            print(results.line_of(shape, all_of_it), file=sys.stderr, flush=True)
        taken |= measured
    return taken


def count_all(programs, taken):
    """The counts of all that was measured, by the names of shapes, and a line for each program that has none."""
    counter = counts.Counter(programs)
    counted = {name: counter.counts_of(name, FORMS if name in shapes.FORMS else 1, taken[name]) for name in taken}
    for line in counter.notes():
        print(line, file=sys.stderr, flush=True)
    return counted, counter.notes()


def asked_for(only):
    """The names of what is measured."""
    known = [*shapes.SHAPES, *shapes.UNKIND, "forms", *shapes.FAULTY]
    groups = {"unkind": list(shapes.UNKIND)}
    names = [name for word in only.split(",") for name in groups.get(word, [word])] if only else known
    for name in names:
        if name not in known:
            sys.exit(f"run.py: no shape is named {name}: there are {', '.join([*known, *groups])}")
    return names


def words_of_command():
    """What is asked for; wrong words end the run."""
    parser = argparse.ArgumentParser(description="Measures a built program on domains of ten shapes and more.")
    parser.add_argument("program")
    parser.add_argument("before", nargs="?", help="an earlier build, to be measured beside it")
    parser.add_argument("--only", metavar="NAMES", default="", help="names of shapes, with commas between")
    parser.add_argument("--runs", metavar="N", type=int, default=3, help="the best of so many runs")
    parser.add_argument("--write", metavar="FILE", help="writes the tables into this file too")
    parser.add_argument("--commit", metavar="WORD", help="what the program was built of")
    parser.add_argument("--before-commit", metavar="WORD", help="what the earlier one was built of")
    parser.add_argument("--bounds", metavar="NAMES", default="", help="fails where one of these bounds is missed")
    asked = parser.parse_args()
    if asked.runs < 1:
        parser.error("at least one run has to be made")
    asked.bounds = [name for name in asked.bounds.split(",") if name]
    for name in asked.bounds:
        if name not in results.BOUNDS:
            parser.error(f"no bound is named {name}: there are {', '.join(results.BOUNDS)}")
    asked.programs = [os.path.abspath(path) for path in (asked.program, asked.before) if path]
    for program in asked.programs:
        if not os.access(program, os.X_OK):
            parser.error(f"{program} can't be run")
    return asked


def main():
    asked = words_of_command()
    signal.signal(signal.SIGTERM, lambda number, _: sys.exit(128 + number))  # so that its files go
    programs = asked.programs
    commits = [asked.commit or results.commit_here(commands.HERE), asked.before_commit or "an earlier build"]
    with tempfile.TemporaryDirectory() as folder:
        floor = commands.spawn(["true"], "/dev/null", folder)[2]
    taken = measure_all(programs, asked.only, asked.runs)
    page = results.page_of(taken, commits[: len(programs)], asked.runs, floor)
    page += "\n" + costs.page_of(taken, *count_all(programs, taken), len(programs))
    print(page)
    if asked.write:
        with open(asked.write, "w", encoding="utf-8") as file:
            file.write(page)
    missed = results.missed_bounds(taken, asked.bounds)
    if missed:
        sys.exit("\n".join(f"run.py: {line}" for line in missed))


if __name__ == "__main__":
    main()
