#!/usr/bin/env python3
"""Writes Debian's changelog of the versions that CHANGELOG.md has, to standard output.

  python3 -I packaging/debian_changelog.py MAINTAINER TIME

TIME, in Unix seconds, is that of a version that isn't released yet. A version's paragraphs and the lines of its lists
are the entries, each as CHANGELOG.md has it.
"""
import calendar
import os
import re
import sys
import textwrap
import time

TOP = os.path.dirname(os.path.dirname(os.path.abspath(__file__)))
VERSION = re.compile(r"^## ([0-9][0-9.]*), (unreleased|[0-9]{4}-[0-9]{2}-[0-9]{2})\n", re.MULTILINE)
WIDTH = 78


def entries_of(text):
    """Yields the entries of a version: of a list each behind the word above it, as `Added:`."""
    above = ""
    for block in filter(None, map(str.strip, text.split("\n\n"))):
        if block.startswith("- "):
            yield from (above + " ".join(line.split()) for line in block.removeprefix("- ").split("\n- "))
        elif block.isalpha():
            above = f"{block}: "
        else:
            yield " ".join(block.split())


def main():
    """Writes the changelog."""
    maintainer, now = sys.argv[1:]
    with open(os.path.join(TOP, "CHANGELOG.md"), encoding="utf-8") as file:
        _, *parts = VERSION.split(file.read())
    for version, day, text in zip(parts[::3], parts[1::3], parts[2::3]):
        at = int(now) if day == "unreleased" else calendar.timegm(time.strptime(day, "%Y-%m-%d"))
        print(f"mcaudit ({version}) unstable; urgency=medium\n")
        for entry in entries_of(text):
            print(textwrap.fill(entry, WIDTH, initial_indent="  * ", subsequent_indent="    ", break_long_words=False,
                                break_on_hyphens=False))
        print(f"\n -- {maintainer}  {time.strftime('%a, %d %b %Y %H:%M:%S +0000', time.gmtime(at))}\n")


if __name__ == "__main__":
    main()
