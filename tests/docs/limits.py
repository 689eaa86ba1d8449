#!/usr/bin/env python3
"""Looks whether what is read first can be read: README.md has at most 700 words, no cell of a table in docs/GUIDE.md
has more than 300 letters, and each link to a part of a document leads to a heading.

  python3 tests/docs/limits.py        at the top of the repository

Each line that is printed is `FILE:LINE: what is wrong`. The last line counts what was looked at, `N passed, M failed`,
and the status is 0 if none failed.
"""
import glob
import os
import re
import sys

TOP = os.path.join(os.path.dirname(os.path.abspath(__file__)), "..", "..")
sys.path.append(os.path.join(TOP, "tests"))
from ended import status_of  # noqa: E402 pylint: disable=wrong-import-position

MOST_WORDS, MOST_LETTERS = 700, 300
LINK = re.compile(r"\]\(([^)#:\s]*)#([^)\s]+)\)")


def read(path):
    """Returns the text of a file."""
    with open(path, encoding="utf-8") as file:
        return file.read()


def plain_lines(text):
    """Yields the lines outside of blocks, each with its number."""
    is_block = False
    for number, line in enumerate(text.split("\n"), 1):
        if line.startswith("```"):
            is_block = not is_block
        elif not is_block:
            yield number, line


def anchors_of(text):
    """Returns how a link names each heading: small letters, without marks, with a dash for each blank."""
    found = []
    for _, line in plain_lines(text):
        if line.startswith("#"):
            heading = line.lstrip("#").strip().lower()
            found.append(re.sub(r"[^\w\- ]", "", heading).replace(" ", "-"))
    return {it if not found[:at].count(it) else f"{it}-{found[:at].count(it)}" for at, it in enumerate(found)}


def long_cells(text):
    """Yields whether each cell of a table is short enough, with its line and what it begins with."""
    for number, line in plain_lines(text):
        if line.startswith("|"):
            for cell in (it.strip() for it in line.strip("|").split(" | ")):
                yield number, len(cell) <= MOST_LETTERS, f"a cell of {len(cell)} letters: {cell[:40]}"


def links(path, text):
    """Yields whether each link to a part of a document leads to a heading."""
    for number, line in plain_lines(text):
        for name, anchor in LINK.findall(line):
            target = os.path.join(os.path.dirname(path), name) if name else path
            is_there = os.path.exists(target) and anchor in anchors_of(read(target))
            yield number, is_there, f"{name}#{anchor}: no such heading"


def main():
    """Looks at all. Returns the status."""
    count = len(read(os.path.join(TOP, "README.md")).split())
    seen = [("README.md", 1, count <= MOST_WORDS, f"{count} words")]
    seen += [("docs/GUIDE.md", *it) for it in long_cells(read(os.path.join(TOP, "docs", "GUIDE.md")))]
    for path in sorted([*glob.glob(os.path.join(TOP, "*.md")), *glob.glob(os.path.join(TOP, "docs", "*.md"))]):
        seen += [(os.path.relpath(path, TOP), *it) for it in links(path, read(path))]
    for path, number, is_well, what in seen:
        if not is_well:
            print(f"{path}:{number}: {what}")
    failed = sum(not it[2] for it in seen)
    return status_of(len(seen) - failed, failed)


if __name__ == "__main__":
    sys.exit(main())
