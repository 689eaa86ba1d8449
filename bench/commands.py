"""The commands that are measured: what each reads, and what it has to write, and one run of it.

The files lie in memory. Each answer is held against what the domain says that it has to be (texts.py).
"""
import json
import os
import subprocess
import sys
import tempfile
from typing import NamedTuple

import shapes

MEMORY = "/dev/shm"  # where files lie in memory
HERE = os.path.dirname(os.path.abspath(__file__))
COMMANDS = ("check", "make", "replay", "audit", "wants")


class Case(NamedTuple):
    """The words of a command, the file or folder that it reads, the file of what it must write, and its status; and
    whether only the last line of that counts for an earlier build."""

    words: list
    path: str
    wanted: str
    status: int
    is_reworded: bool = False


class Unexpected(Exception):
    """A program gave another answer than the domain says."""


def in_memory():
    """A folder for a while."""
    return tempfile.TemporaryDirectory(dir=MEMORY if os.path.isdir(MEMORY) else None)


def spawn(words, source, folder):
    """Runs a command with a file as its input; its status, processor seconds and most memory in KiB."""
    how = [sys.executable, "-I", "-S", f"{HERE}/spawn.py", source, f"{folder}/stdout", f"{folder}/stderr", *words]
    told = subprocess.run(how, stdout=subprocess.PIPE, check=True).stdout.split()
    return int(told[0]), float(told[1]), int(told[2])


def first_difference(path, wanted):
    """The first line in which two files differ, as a pair, if they do."""
    with open(path, "rb") as is_there, open(wanted, "rb") as is_wanted:
        while True:
            lines = is_there.readline(4096), is_wanted.readline(4096)
            if lines[0] != lines[1]:
                return lines
            if not lines[0]:
                return None


def last_line(path):
    """The last line of a file, or its end, where that is very long."""
    with open(path, "rb") as file:
        file.seek(max(0, os.path.getsize(path) - 4096))
        return (file.read().splitlines() or [b""])[-1]


def difference_of(case, path, is_before):
    """The first other line and the one that was wanted, if the program, an earlier one or not, has written any."""
    if is_before and case.is_reworded:
        lines = last_line(path), last_line(case.wanted)
        return lines if lines[0] != lines[1] else None
    return first_difference(path, case.wanted)


def files_of(path):
    """The file, or all files of a folder."""
    return sorted(entry.path for entry in os.scandir(path)) if os.path.isdir(path) else [path]


def extent_of(path):
    """The bytes and the lines of a file, or of all files of a folder."""
    size = lines = 0
    for name in files_of(path):
        with open(name, "rb") as file:
            while piece := file.read(1 << 20):
                size += len(piece)
                lines += piece.count(b"\n")
    return size, lines


def audit_of(folder, status):
    """The case of audit, which has said more from build to build, and in other words."""
    return Case(["audit", f"{folder}/files"], f"{folder}/files", f"{folder}/audited", status, is_reworded=True)


def cases_of(folder, name):
    """The case of each command that the shape with this name is for."""
    if name in shapes.FAULTY:
        return {"audit": audit_of(folder, 1)}
    with open(f"{folder}/facts", encoding="ascii") as file:
        facts = json.load(file)
    with open(f"{folder}/answer", "w", encoding="ascii") as file:
        file.write(facts["answer"])
    unwanted = int(facts["answer"] != "wanted\n")
    return {
        "check": Case(["check"], f"{folder}/certified", f"{folder}/verdicts", 0),
        "make": Case(["make"], f"{folder}/bundle", f"{folder}/certificate", 0),
        "replay": Case(["replay", "1", str(facts["ttl"])], f"{folder}/bundle", f"{folder}/travel", 0),
        "audit": audit_of(folder, 0),
        "wants": Case(["wants", *facts["words"]], f"{folder}/files/{facts['list']}", f"{folder}/answer", unwanted),
    }


def make_domain(name, share, folder):
    """Writes the texts of a domain, by a process of its own. Returns the case of each command."""
    os.mkdir(folder)
    subprocess.run([sys.executable, f"{HERE}/shapes.py", name, str(share), folder], check=True)
    return cases_of(folder, name)


def run_once(program, case, folder, is_before):
    """What one run took, if it answered as it must. The program is the words that begin it."""
    source = "/dev/null" if os.path.isdir(case.path) else case.path
    status, seconds, kib = spawn([*program, *case.words], source, folder)
    difference = difference_of(case, f"{folder}/stdout", is_before)
    if status != case.status or difference:
        with open(f"{folder}/stderr", encoding="utf-8", errors="replace") as file:
            said = file.read(400)
        raise Unexpected(
            f"{' '.join([*program, *case.words])}: status {status}, not {case.status}; its first other line, and the"
            f" one that was wanted: {difference}; on standard error: {said!r}"
        )
    return seconds, kib
