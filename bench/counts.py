"""Counts the instructions that the commands take on a tenth of each shape, by valgrind.

A program's count is the same in each run, whatever else the machine does, so two builds are told apart by it where
their times aren't. (It rests on the C library, and on the vectors of the processor that this uses.)
"""
import re
import shutil
import sys
from typing import NamedTuple

import commands

SHARE = 0.1  # of the share that is measured
COUNTED = re.compile(r"I +refs: +([\d,]+)")
WORDS = ["--tool=cachegrind", "--cache-sim=no", "--cachegrind-out-file=/dev/null"]


class Count(NamedTuple):
    """The bytes and the lines that a command read, and of each program the instructions, if they could be counted."""

    size: int
    lines: int
    instructions: list


class Counter:
    """Counts for the program and an earlier one, if that is given, but for one that valgrind can't run."""

    def __init__(self, programs):
        self.programs = programs
        self.valgrind = shutil.which("valgrind")
        self.is_left_out = [self.valgrind is None for _ in programs]

    def count(self, number, case, folder):
        """The instructions of a run of the program with this number, where nothing of the environment is told to it."""
        if self.is_left_out[number]:
            return None
        log = f"{folder}/log"
        words = ["env", "-i", "LC_ALL=C", self.valgrind, *WORDS, f"--log-file={log}", self.programs[number]]
        fault = None
        try:
            commands.run_once(words, case, folder, number > 0)
        except commands.Unexpected as unexpected:
            fault = unexpected
        with open(log, encoding="utf-8", errors="replace") as file:
            said = file.read()
        found = COUNTED.search(said)
        if found and not fault:
            return int(found[1].replace(",", ""))
        self.is_left_out[number] = True
        print(f"counts.py: {fault or 'no count'}; what valgrind says:\n{said}", file=sys.stderr, flush=True)
        return None

    def counts_of(self, name, share, asked):
        """The counts of these commands on a tenth of this share of a shape."""
        if all(self.is_left_out):
            return {}
        with commands.in_memory() as folder:
            cases = commands.make_domain(name, SHARE * share, f"{folder}/0")
            found = {}
            for command in asked:
                case = cases[command]
                instructions = [self.count(number, case, folder) for number in range(len(self.programs))]
                found[command] = Count(*commands.extent_of(case.path), instructions)
        print(f"{name}: counted", file=sys.stderr, flush=True)
        return found

    def notes(self):
        """A line for each program that wasn't counted."""
        if not self.valgrind:
            return ["Not counted, since there is no valgrind; Debian's package `valgrind` has it."]
        names = ["the program", "the earlier build"]
        left_out = [name for name, is_one in zip(names, self.is_left_out) if is_one]
        return [f"Not counted: {name}, since valgrind can't run it." for name in left_out]
