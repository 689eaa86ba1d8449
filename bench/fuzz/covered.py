"""Counts for each crate how many of its functions and edges were reached: by what llvm-bolt records of its counters, and
by the maps of afl-fuzz, where a counter that was never reached is 255.

The section .bolt.instr.tables is a note whose text has three tables, each behind its length: of indirect calls, of
their targets, and of functions. A function has four lists, each behind its number of items: leaves (node, counter),
edges (function, offset, node, function, offset, node, counter), calls (function, offset, node, function, offset,
counter, and the target's address), and entries (node and address, 8 bytes each). A function is told by the place of its
name in what follows.
"""
import re
import struct
import subprocess
from typing import NamedTuple

NO_COUNTER = 0xFFFFFFFF
CRATE = re.compile(r"[a-z_0-9]+")


class Function(NamedTuple):
    name: str
    counters: set


class Reader:
    """What is left of a text of numbers of 4 bytes."""

    def __init__(self, text):
        self.text, self.at = text, 0

    def numbers(self, count):
        self.at += 4 * count
        return struct.unpack_from(f"<{count}I", self.text, self.at - 4 * count)

    def items(self, size):
        """Yields the items of a list, each of so many numbers."""
        for _ in range(self.numbers(1)[0]):
            yield self.numbers(size)

    def table(self):
        return self.numbers(self.numbers(1)[0] // 4)


def note_of(program):
    """Returns the text of the note of counters."""
    listed = subprocess.run(["readelf", "-SW", program], capture_output=True, text=True, check=True).stdout
    words = re.search(r"\] \.bolt\.instr\.tables +NOTE +(.*)", listed)[1].split()
    with open(program, "rb") as file:
        file.seek(int(words[1], 16))
        section = file.read(int(words[2], 16))
    of_name, of_text, _ = struct.unpack_from("<III", section)
    start = 12 + (of_name + 3) // 4 * 4
    return section[start:start + of_text]


def functions_of(program):
    """Returns the functions that have counters, each with those."""
    reader = Reader(note_of(program))
    reader.table()
    reader.table()
    end = reader.numbers(1)[0] + reader.at
    names, found = reader.text[end:], []
    while reader.at < end:
        counters = {leaf[1] for leaf in reader.items(2)}
        edges, calls = list(reader.items(7)), list(reader.items(8))
        list(reader.items(4))
        counters |= {edge[6] for edge in edges} | {call[5] for call in calls}
        named = [item[0] for item in edges + calls]
        if named:
            name = names[named[0]:names.index(b"\0", named[0])].decode(errors="replace")
            found.append(Function(name, counters - {NO_COUNTER}))
    return found


def met_by(paths):
    """Returns the counters that some run of these maps met; the map's first byte is no counter."""
    met = set()
    for path in paths:
        with open(path, "rb") as file:
            met |= {place - 1 for place, byte in enumerate(file.read()) if byte != 255}
    return met


def table(program, paths, crates):
    """Returns the table, in Markdown, of these crates, and of all others together."""
    met, sums = met_by(paths), {}
    for name, counters in functions_of(program):
        crate = CRATE.match(name)
        key = crate[0] if crate and crate[0] in crates else "all else"
        of = sums.setdefault(key, [0, 0, 0, 0])
        taken = len(counters & met)
        for place, more in enumerate((taken > 0, 1, taken, len(counters))):
            of[place] += more
    lines = ["| Crate | Functions reached | of | Edges reached | of | |", "|---|---:|---:|---:|---:|---:|"]
    for name in sorted(sums, key=lambda it: (it == "all else", it)):
        entered, functions, taken, edges = sums[name]
        lines.append(f"| {name} | {entered:,} | {functions:,} | {taken:,} | {edges:,} | {100 * taken / edges:.0f} % |")
    return lines
