#!/usr/bin/env python3
"""Leads the link to a set elsewhere while the program reads the set: all files have to come from the one set.

  python3 tests/swapped_set.py PROGRAM

In each case `site` is a link to the set A. While the program has the long cache of r1 open, the link is led to the set
B, or A is taken away besides. What the program answers has to be what it answers of A alone, to the byte, or that a
file of A isn't there. In the first case both sets are `verdict no`, and what r1 has in A and r2 has in B would be
`verdict yes`.

A case is tried again where the program was through with the cache before the link was led elsewhere. The last line
counts the cases: `N passed, M failed`. The status is 0 if none failed.
"""
import os
import shutil
import subprocess
import sys
import tempfile
import time

from ended import status_of

NETWORK = os.path.join(os.path.dirname(os.path.dirname(os.path.abspath(__file__))), "examples/network")
HELD = "cache-r1"  # the file in whose reading the link changes, which is so long that it takes a while
# rows of groups that no flow has, with many spaces behind each
OTHERS = b"".join(b"%02X%02X09EF 0500000A 0 0 0 0 1:1%200s\n" % (it & 255, it >> 8, b"") for it in range(60_000))
TRIES = 20
PATIENCE = 60  # seconds
NO_ROUTE, FAULTY = b"Group\n", b"Group\nno row\n"  # in place of a cache of the example


def make_set(path, **files):
    """Makes a set of the example's files, in which these have other bytes, and r1 many rows more."""
    shutil.copytree(NETWORK, path)
    for name, text in files.items():
        with open(f"{path}/{name.replace('_', '-')}", "wb") as file:
            file.write(text)
    with open(f"{path}/{HELD}", "ab") as file:
        file.write(OTHERS)


def has_open(process, name):
    """Whether the process has a file with this name open, which may be deleted meanwhile."""
    folder = f"/proc/{process.pid}/fd"
    try:
        return any(f"/{name}" in os.readlink(f"{folder}/{it}") for it in os.listdir(folder))
    except OSError:
        return False


def answer_of(words, meanwhile=None):
    """The program's status and what it writes; none if `meanwhile` couldn't be done while the file was open."""
    with tempfile.TemporaryFile() as output, tempfile.TemporaryFile() as errors:
        with subprocess.Popen(words, stdin=subprocess.DEVNULL, stdout=output, stderr=errors) as process:
            done = meanwhile is None or did_while_open(process, meanwhile)
            process.wait(PATIENCE)
        output.seek(0)
        errors.seek(0)
        return (process.returncode, output.read(), errors.read()) if done else None


def did_while_open(process, meanwhile):
    """Does something as soon as the file is open, and returns whether it still was afterwards."""
    end = time.monotonic() + PATIENCE
    while process.poll() is None and time.monotonic() < end:
        if has_open(process, HELD):
            meanwhile()
            return has_open(process, HELD)
    return False


def lead(link, there):
    """Leads the link to another set, in one step."""
    os.symlink(there, f"{link}.new")
    os.rename(f"{link}.new", link)


class Case:
    """Two sets and the words of the program, which end with the link."""

    def __init__(self, name, words, first, second, is_taken_away=False):
        self.name, self.words, self.first, self.second, self.is_taken_away = name, words, first, second, is_taken_away

    def fault(self, program, room):
        """What is wrong with the answer, or nothing."""
        link, one, two = (f"{room}/{it}" for it in ("site", "sets/A", "sets/B"))
        make_set(two, **self.second)
        make_set(one, **self.first)
        wanted = answer_of([program, *self.words, one])
        if self.is_taken_away:
            wanted = 3, b"", b"failed: read\n"
        for _ in range(TRIES):
            if not os.path.isdir(one):
                make_set(one, **self.first)
            lead(link, one)
            found = answer_of([program, *self.words, link], lambda: self.swap(link, one, two))
            if found is not None:
                return None if is_answer(found, wanted) else f"{shown(found)}, wanted {shown(wanted)}"
        return f"the program was never seen to read {HELD}"

    def swap(self, link, one, two):
        lead(link, two)
        if self.is_taken_away:
            shutil.rmtree(one)


def is_answer(found, wanted):
    """Whether this is the answer. The refused files may follow its first line, where it is that a read failed."""
    if wanted[0] != 3:
        return found == wanted
    return found[:2] == wanted[:2] and found[2].startswith(wanted[2])


def shown(answer):
    status, output, errors = answer
    return f"status {status}, output {len(output)} bytes ..{output[-40:]}, errors {errors[:200]}"


CASES = (
    Case("audit", ["audit"], {"cache_r2": NO_ROUTE}, {"cache_r1": NO_ROUTE}),
    Case("audit of a faulty set", ["audit"], {"cache_r2": FAULTY}, {}),
    Case("audit before a faulty set", ["audit"], {}, {"cache_r2": FAULTY}),
    Case("audit of a set that is taken away", ["audit"], {}, {}, is_taken_away=True),
    Case("pack", ["pack", "--certificate"], {"cache_r2": NO_ROUTE}, {}),
    Case("pack of a set that is taken away", ["pack"], {}, {}, is_taken_away=True),
)


def main():
    program = os.path.abspath(sys.argv[1])
    failed = 0
    for case in CASES:
        with tempfile.TemporaryDirectory() as room:
            os.mkdir(f"{room}/sets")
            fault = case.fault(program, room)
        if fault:
            failed += 1
            print(f"{case.name}: {fault}")
    return status_of(len(CASES) - failed, failed)


if __name__ == "__main__":
    sys.exit(main())
