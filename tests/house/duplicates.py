#!/usr/bin/env python3
"""Counts what stands twice: windows of 12 lines that are alike but for names, numbers and texts.

  python3 tests/house/duplicates.py KIND [FOLDER]          how many windows of the kind stand again
  python3 tests/house/duplicates.py KIND [FOLDER] --list   the places, the longest first, as `LINES FILE:LINE ~ FILE:LINE`

KIND is code (`.rt` of the crates that don't only test), definitions (`.antt` of specs), proofs (`.antt` of proofs) or tools
(the operators' tools). FOLDER is a tree of the repository, if not this one. Lists of imports, comments, blank lines and
lines that close brackets are left out. A window that stands n times counts n - 1; one that overlaps its own first place
counts nothing.
"""
import os
import re
import sys

WINDOW = 12
TOP = os.path.join(os.path.dirname(os.path.abspath(__file__)), "..", "..")
PLACES = {"code": ("crates", "src", ".rt"), "definitions": ("crates", "specs", ".antt"), "proofs": ("crates", "proofs", ".antt"),
          "tools": ("tools", "", ".py")}
TEXT = re.compile(r'b?"(?:\\.|[^"\\])*"|b?\'(?:\\.|[^\'\\])\'')
COMMENT = re.compile(r"//.*|(?:(?<=\s)|^)(?:--|#(?!\[)).*")
WORD = re.compile(r"[^\W\d][\w'+◌-]*")
NUMBER = re.compile(r"\d[\w.]*")
IMPORT = re.compile(r"\s*(?:pub |ghost )*(?:use|import|from|mod)\b")
# words of the languages: what isn't one of them is a name
KEPT = frozenset("""abbrev as break class const continue data def else ensures enum except false fn for forall ghost if impl in
    inl inr let loop match module mut open pub record refl requires return rw self simp struct sym trait true try type
    unfoldable unfolding use where while with ap None Some Ok Err""".split())


def folded(line):
    """A line in which each name, number and text is one sign."""
    line = COMMENT.sub("", TEXT.sub('"', line))
    line = WORD.sub(lambda it: it[0] if it[0] in KEPT else "x", line)
    return re.sub(r"\s+", " ", NUMBER.sub("0", line)).strip()


def lines_of(path):
    """The lines of a file that count, each with its number."""
    with open(path, encoding="utf-8") as file:
        is_import = False
        for number, line in enumerate(file, 1):
            is_import = is_import or IMPORT.match(line) is not None
            if is_import:
                # an import ends with the line that closes its list
                is_import = line.count("{") + line.count("(") > line.count("}") + line.count(")") or (
                    line.rstrip().endswith(",") or line.rstrip().endswith("{"))
                continue
            short = folded(line)
            if any(it.isalnum() for it in short):
                yield number, short


def files_of(kind, top):
    """The files of a kind, in their order."""
    folder, part, ending = PLACES[kind]
    for place, folders, names in os.walk(os.path.join(top, folder)):
        folders[:] = sorted(it for it in folders if it != "out" and not it.startswith("mc_tests_"))
        below = os.path.relpath(place, top).split(os.sep)
        if part and (len(below) < 3 or below[2] != part):
            continue
        for name in sorted(names):
            path = os.path.join(place, name)
            if name.endswith(ending) or kind == "tools" and name.startswith("mcaudit-") and "." not in name:
                yield path


def repeats_of(kind, top):
    """The runs of windows that stand before: their length in windows, their place, and the place before."""
    first, run = {}, None
    for path in files_of(kind, top):
        lines = list(lines_of(path))
        for at in range(len(lines) - WINDOW + 1):
            window = tuple(short for _, short in lines[at:at + WINDOW])
            before, there = first.setdefault(window, (path, at)), (path, at)
            if before == there or before[0] == path and at - before[1] < WINDOW:
                continue
            if run and run[1] == (path, at - run[0]) and before == (run[2][0], run[2][1] + run[0]):
                run = (run[0] + 1, run[1], run[2])
                continue
            if run:
                yield run
            run = (1, there, before)
    if run:
        yield run


def shown(place, top, kept):
    path, at = place
    if path not in kept:
        kept[path] = list(lines_of(path))
    return f"{os.path.relpath(path, top)}:{kept[path][at][0]}"


def main():
    words = [it for it in sys.argv[1:] if it != "--list"]
    if not 1 <= len(words) <= 2 or words[0] not in PLACES:
        print(__doc__.strip(), file=sys.stderr)
        return 2
    top = words[1] if len(words) > 1 else TOP
    runs = list(repeats_of(words[0], top))
    if "--list" in sys.argv[1:]:
        kept = {}
        for length, there, before in sorted(runs, reverse=True):
            print(f"{length + WINDOW - 1} {shown(there, top, kept)} ~ {shown(before, top, kept)}")
    else:
        print(sum(length for length, _, _ in runs))
    return 0


if __name__ == "__main__":
    sys.exit(main())
