#!/usr/bin/env python3
"""Refuses the built program each request for memory, each file, each read and each write in turn.

  python3 tests/refusals/run.py PROGRAM [TESTS..]

A library that is loaded before the program does it (refuse.c, compiled with cc). Each run of the
program has one refusal, on the examples and on a few cases, and what may come of it is:

  memory    status 4, `no memory` and no output; or the answer of the run that nothing disturbed, where
            what was refused wasn't needed
  a file    status 3, `failed: read` and no output
  a read    the same, whatever stands before it; but where the framing of a bundle is wrong and the bytes up to
            where that is met were read, that it is so
  a write   status 3, `failed: write`, and exactly what the output had taken

Devices that give or take a few bytes at a time change nothing, and so doesn't a cut at any place of what they give.

TESTS are programs that `rt ci` built of tests. Each of their tests that is about memory, as its module's name or its own
says, is run with each request for memory refused in turn: it makes the refused call again and passes, or gives up with
lack of memory where it prepares what it calls. A test may write `calls` on a line before each call that it is about, and
`Memory` after one that answers so. From the first of these lines on it has to pass whatever is refused, with the same
answers but for one `Memory`; and where the first request of its first call is refused, that has to answer `Memory`.

The last line counts the runs: `N passed, M failed`. The status is 0 if none failed and one was run.
"""
import collections
import os
import re
import subprocess
import sys
import tempfile
from concurrent.futures import ThreadPoolExecutor

TOP = os.path.dirname(os.path.dirname(os.path.dirname(os.path.abspath(__file__))))
sys.dont_write_bytecode = True
sys.path += [f"{TOP}/tests", f"{TOP}/tests/audited", f"{TOP}/tests/cli"]
import case_files
import random_domains
from ended import status_of
from made import alone

PIECES = (1, 2, 3, 7, 64, 4096)
MOST_STOPS = 400  # of a long text not every place is tried, but so many, evenly
ALL_STOPS = 2000  # of the input of the first run every place is
FILE_CUTS = 500  # no file of the folders that are tried has so many bytes, but for the lists of `many`
NO_MEMORY = (4, b"", b"no memory\n")
READ_FAILED = (3, b"", b"failed: read\n")
GAVE_UP = re.compile(rb"error: .*(Memory|AllocError|AllocFailed).*\nthe test failed: its result gives status 1\n\Z")
REFUSED_FILES = "tests/cli/cases/audit_file_before_the_next_one.case"
CALLS, MEMORY = b"calls\n", b"Memory\n"  # what a test writes before a call, and of one without memory
ABOUT_MEMORY = re.compile(r"\b(memory|pieces)::|refused_growth|failed_allocation")  # what the tests that are run are called


class Tried:
    """A run of the program, and what comes of it undisturbed."""

    def __init__(self, program, library, words, given, met=None, stops=MOST_STOPS):
        self.whole = [program, *words]
        self.library, self.given = library, given
        # after how many bytes of the input it is met that the framing is wrong, and how many places are tried
        self.met, self.stops = met, stops
        with tempfile.NamedTemporaryFile() as count:
            self.answer = self.run("COUNT", count.name)
            self.growths, self.files, self.reads, self.growths_before_output = map(int, count.read().split())

    def run(self, name, value):
        """Runs the program with one line of the environment. Returns its status, output and errors."""
        env = {**os.environ, "LD_PRELOAD": self.library, name: str(value)}
        done = subprocess.run(self.whole, input=self.given or b"", capture_output=True, env=env, timeout=60, check=False)
        return done.returncode, done.stdout, done.stderr

    def refusals(self):
        """Yields each line of the environment, and the answers that may come of it."""
        for name in ("REFUSE_GROWTH", "REFUSE_FROM"):
            for growth in range(1, self.growths + 1):
                yield name, growth, (self.answer, NO_MEMORY)
        for number in range(1, self.files + 1):
            yield "OPEN_FAILS", number, (READ_FAILED,)
        for number in range(1, self.reads + 1):
            yield "READ_FAILS", number, (READ_FAILED,)
        for end in self.ends():
            is_met = self.met is not None and end >= self.met
            yield "INPUT_ENDS", end, (self.answer if is_met else READ_FAILED,)
        output = self.answer[1]
        for end in places(len(output)):
            yield "OUTPUT_ENDS", end, ((3, output[:end], b"failed: write\n"),)
            yield "OUTPUT_STOPS", end, ((3, output[:end], b"failed: write\n"),)
        for piece in PIECES:
            yield "INPUT_PIECE", piece, (self.answer,)
            yield "FILE_PIECE", piece, (self.answer,)
            yield "OUTPUT_PIECE", piece, (self.answer,)
        for cut in places(len(self.given or b""), self.stops):
            yield "INPUT_CUT", cut, (self.answer,)
        for cut in range(1, FILE_CUTS if self.files else 0):
            yield "FILE_CUT", cut, (self.answer,)

    def ends(self):
        """Returns the places of the input, and its end, where it fails."""
        if self.given is None:
            return []
        around = () if self.met is None else (self.met - 1, self.met, self.met + 1)
        return sorted({*places(len(self.given) + 1, self.stops), len(self.given), *around})

    def is_allowed(self, found, allowed):
        """Whether an answer is one of those that may come."""
        return found in allowed

    def fault_of(self, refusal):
        """What is wrong with the answer to a refusal, or nothing."""
        name, value, allowed = refusal
        found = self.run(name, value)
        if self.is_allowed(found, allowed):
            return None
        return f"{' '.join(self.whole[1:])}: {name}={value}: {found[0]} {found[1][:80]} {found[2][:80]}"


class TriedRefusal(Tried):
    """A run that refuses files: without memory it may tell less of them, or that it has none."""

    def refusals(self):
        status, _, error = self.answer
        first = error[: error.index(b"\n") + 1]
        for name in ("REFUSE_GROWTH", "REFUSE_FROM"):
            for growth in range(1, self.growths + 1):
                yield name, growth, (self.answer, NO_MEMORY, (status, b"", first))


class TriedTest(Tried):
    """A test, which has to pass whichever request for memory is refused, or to give up with lack of memory."""

    def __init__(self, program, library, name):
        super().__init__(program, library, [name], None)

    def refusals(self):
        for growth in range(1, self.growths + 1):
            yield "REFUSE_GROWTH", growth, self.allowed_after(growth)

    def allowed_after(self, growth):
        """The answers that may come where this request is refused. Before its calls the test may give up, too."""
        status, output, error = self.answer
        before, *calls = output.split(CALLS)
        refused = [(status, CALLS.join((before, *calls[:place], MEMORY + calls[place], *calls[place + 1:])), error)
                   for place in range(len(calls))]
        number = growth - self.growths_before_output  # among the requests of the calls
        if status:
            return ()
        if number < 1:
            return (self.answer,)
        return refused[:1] if calls and number == 1 else (self.answer, *refused)

    def is_allowed(self, found, allowed):
        status, output, error = found
        return super().is_allowed(found, allowed) or (status == 101 and not output and bool(GAVE_UP.match(error)))


def tests_about_memory(program, library):
    """Yields the tests of a program of tests that are about memory."""
    listed = subprocess.run([program, "--list"], stdout=subprocess.PIPE, text=True, check=True).stdout
    for line in listed.splitlines():
        name, is_test, _ = line.partition(": test")
        if is_test and ABOUT_MEMORY.search(name):
            yield TriedTest(program, library, name)


def places(length, stops=MOST_STOPS):
    """Returns the places of a text of so many bytes that are tried."""
    return range(0, length, max(1, length // stops))


def text_of(path):
    with open(f"{TOP}/{path}", "rb") as file:
        return file.read()


def wrong_framings(bundle):
    """Yields texts that are no bundle, and how many of their bytes show it, counted by hand."""
    first, rest = bundle[:17], bundle[17:]
    line = rest.index(b"\n") + 1  # of the first part
    size = int(rest[:line].split()[2])
    part = 17 + line + size  # where the line feed after the first part stands
    yield b"mcaudit bundle 2\n" + rest, 17
    yield first + b"part topology 01\n" + rest[line:], 17 + 17  # at the line's end
    yield first + b"x" * 200, 17 + 96  # at the last byte that a line may have
    yield first + b"part topology 16777217\n" + rest[line:], 17 + 23
    yield bundle[:part] + b"x" + bundle[part + 1:], part + 1  # at that byte
    yield bundle + b"x" + bundle, len(bundle) + 1


def runs_of(program):
    """Returns the words and the input of each run that is tried, and what `Tried` takes beside them."""
    bundle, faulty, reports = map(text_of, ("examples/network.bundle", "examples/second-router.bundle", "examples/reports"))
    made = text_of("examples/steps/pack-certified.stdout")  # its certificate is as `make` writes it
    folders = f"{TOP}/examples/network", f"{TOP}/examples/second-router"
    unlisted = f"{TOP}/examples/faults/a-flow-that-is-not-listed"
    dotted = alone(b"", "dotted", 400)[0]
    plain, other = (subprocess.run([program, "pack", it], stdout=subprocess.PIPE, check=True).stdout for it in folders)
    return [
        (["check"], bundle, None, ALL_STOPS),
        *((["check"], text, met) for text, met in wrong_framings(bundle)),
        (["check"], faulty),
        (["check"], made),
        (["check"], bundle[:700]),
        (["check"], dotted),
        (["make"], plain),
        (["make"], other),
        (["replay", "1", "3"], plain),
        (["replay", "1", "255", "--order", "last"], other),
        (["wants", "239.1.2.3", "10.0.0.5"], reports),
        (["wants", "239.1.2.3", "10.0.0.5"], b""),
        (["--version"], None),
        (["audit", folders[0]], None),
        (["audit", folders[1], "--travel"], None),
        (["audit", folders[1], "--travel", "--json"], None),
        (["audit", unlisted, "--unlisted", "--json"], None),
        (["audit", unlisted, "--without=r2", "--unlisted"], None),
        (["audit", folders[0], "--without", "r2", "--json"], None),
        (["audit", folders[0], "--without", "r3"], None),
        (["pack", folders[0], "--certificate"], None),
        (["replay", "0", "3"], None),
        (["--help"], None),
    ]


def tries(program, programs_of_tests, library, room):
    """Yields each run that is tried, of the program and of its tests."""
    for run in runs_of(program):
        yield Tried(program, library, *run)
    case_files.write_folder(case_files.load(REFUSED_FILES), "folder", f"{room}/refused")
    yield TriedRefusal(program, library, ["audit", f"{room}/refused"], None)
    os.mkdir(f"{room}/many")
    random_domains.ManyWants(0, 3_000, False).write(f"{room}/many")  # more than are kept with all their repeats
    yield Tried(program, library, ["audit", f"{room}/many"], None)
    for tests in programs_of_tests:
        yield from tests_about_memory(tests, library)


def main():
    program, *tests = map(os.path.abspath, sys.argv[1:])
    counts = collections.Counter()
    with tempfile.TemporaryDirectory() as room, ThreadPoolExecutor(os.cpu_count()) as pool:
        library = f"{room}/refuse.so"
        source = f"{TOP}/tests/refusals/refuse.c"
        subprocess.run(["cc", "-O1", "-shared", "-fPIC", "-o", library, source, "-ldl"], check=True)
        for tried in tries(program, tests, library, room):
            for fault in pool.map(tried.fault_of, tried.refusals()):
                counts[fault is None] += 1
                if fault:
                    print(fault)
            if not tried.growths:
                counts[False] += 1
                print(f"{tried.whole[1]}: no request for memory was seen")
    return status_of(counts[True], counts[False])


if __name__ == "__main__":
    sys.exit(main())
