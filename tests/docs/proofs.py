#!/usr/bin/env python3
"""Makes the page that lists each public call of the crates with the clauses that are proved of it.

  python3 tests/docs/proofs.py PATH   writes the page to PATH; `make proofs` writes it to docs/PROOFS.md
  python3 tests/docs/proofs.py        checks that the page has each clause of each public call

A crate is described by the first sentence of its src/lib.rt, a call by that of its documentation, and a clause by its
name and the comment above it. Crates are in the order of crates.txt. The check reads the finished page, and compares it
with the clauses that it finds in the sources by itself, whole texts at a time, where the page is made line by line. Its
last line counts the clauses: `N passed, M failed`, and the status is 0 if none failed and one was found.
"""
import glob
import os
import re
import sys

TOP = os.path.join(os.path.dirname(os.path.abspath(__file__)), "..", "..")
sys.path.append(os.path.join(TOP, "tests"))
from ended import status_of  # noqa: E402 pylint: disable=wrong-import-position

CRATE = re.compile(r"^(mc_\w+):", re.M)
TYPE = re.compile(r"(?:unsafe )?(?:impl|(pub )?trait)(?:<[^{]*?>)? (?:[\w:<>', ]+ for )?(\w+)")
CALL = re.compile(r"(pub )?(?:const )?fn (\w+)")
CLAUSE = re.compile(r"ensures(?: (\w+))? ?\{")
HEAD = """# What is proved

Each public call of the library crates, with the clauses that the prover holds its body to: whatever is handed to it
within its `requires`, it returns, and each clause holds of what it returns. A clause is listed by its name, `·` if it
has none, and by the comment above it. The clauses themselves are in the sources. `docs/PROMISES.md` says what of this
the program promises, and what has to be believed. `make proofs` makes this page of the sources.
"""
# for the check: the heads of functions, the traits that are public, the clauses, and the page's own rows
FUNCTION = re.compile(r"^ *(pub(?:\([^)]*\))? )?(?:const |unsafe )*fn (\w+)", re.M)
TRAIT = re.compile(r"^pub (?:unsafe )?trait\b[^\n]*\{\n(.*?)^\}", re.M | re.S)
ENSURES = re.compile(r"^ *ensures(?: (\w+))? ?\{", re.M)
COMMENT = re.compile(r"^ *//.*$", re.M)
FILE = re.compile(r"^`(crates/[\w/]+\.rt)`$")
ROW = re.compile(r"^\| `(?:\w+::)?(\w+)` \| (?:.*?[^\\])? ?\| (.*) \|$")
LISTED = re.compile(r"(?:^|; )`(\w+|·)`(?=:|;|$)")


class Call:
    """A public call, its documentation and its clauses."""

    def __init__(self, name, about):
        self.name, self.about, self.clauses = name, about, []


def sentence(lines):
    """The first sentence of a documentation."""
    text = " ".join(line.strip() for line in lines).split("# Errors")[0].strip()
    return re.split(r"(?<=[.:])\s+(?=[A-Z`])", text)[0].replace("|", "\\|") if text else ""


class Reader:
    """Reads the calls of a source line by line."""

    def __init__(self):
        self.type, self.calls, self.about, self.comment, self.is_public = "", [], [], [], False
        self.call = None  # the call between whose head and body the line stands
        self.depth = 0  # how many braces of its contract are open

    def read(self, text):
        for line in text.split("\n"):
            self.read_line(line)
        return self.calls

    def read_line(self, line):
        bare = line.strip()
        indent = len(line) - len(line.lstrip())
        if self.call is not None and self.read_contract(bare):
            return
        if bare.startswith("///"):
            self.about.append(bare[3:])
        elif indent == 0 and (found := TYPE.match(bare)):
            self.type, self.is_public = found[2], bool(found[1])
            self.about = []
        elif (found := CALL.match(bare)) and (indent == 0 or self.type):
            self.begin(found, indent, bare)
        elif bare and not bare.startswith(("#[", "//")):
            self.about = []
        if line == "}":
            self.type, self.is_public = "", False

    def begin(self, found, indent, bare):
        """A call begins. One that isn't public is passed over."""
        name = f"{self.type}::{found[2]}" if indent else found[2]
        self.call = Call(name, sentence(self.about)) if found[1] or indent and self.is_public else Call("", "")
        self.about, self.comment, self.depth = [], [], 0
        if bare.endswith((";", "{", "{}")):
            self.end()

    def read_contract(self, bare):
        """Reads a line of the head or the contract. Whether it is one."""
        if bare.startswith("//"):
            self.comment.append(bare[2:])
            return True
        if found := CLAUSE.match(bare):
            about = " ".join(it.strip() for it in self.comment).rstrip(".").replace("|", "\\|")
            self.call.clauses.append((found[1] or "", about))
        is_clause = self.depth > 0 or bare.startswith(("ensures", "requires"))
        if is_clause:
            self.comment = []
        self.depth += bare.count("{") - bare.count("}")
        if bare.endswith(("{", "{}")) and not is_clause or bare.endswith(";") and self.depth == 0:
            self.end()
        return True

    def end(self):
        if self.call is not None and self.call.name and self.call.clauses:
            self.calls.append(self.call)
        self.call = None


def calls_of(crate):
    """The files of a crate that have public calls, each with them."""
    found = []
    for path in sorted(glob.glob(os.path.join(TOP, "crates", crate, "src", "**", "*.rt"), recursive=True)):
        with open(path, encoding="utf-8") as file:
            calls = Reader().read(file.read())
        if calls:
            found.append((os.path.relpath(path, TOP), calls))
    return found


def row(call):
    clauses = "; ".join(f"`{name or '·'}`{': ' + about if about else ''}" for name, about in call.clauses)
    return f"| `{call.name}` | {call.about} | {clauses} |"


def section(crate):
    with open(os.path.join(TOP, "crates", crate, "src", "lib.rt"), encoding="utf-8") as file:
        about = sentence([line[3:] for line in file.read().split("\n") if line.startswith("//!")])
    lines = [f"## `{crate}`", "", about, ""]
    for path, calls in calls_of(crate):
        lines += [f"`{path}`", "", "| Call | What it does | Clauses |", "|---|---|---|", *map(row, calls), ""]
    return lines


def page():
    with open(os.path.join(TOP, "crates.txt"), encoding="utf-8") as file:
        crates = [it for it in CRATE.findall(file.read()) if not it.startswith("mc_tests")]
    lines = [line for crate in crates if calls_of(crate) for line in section(crate)]
    return HEAD + "\n" + "\n".join(lines)


def listed(text):
    """The calls that a page lists, by file, each with the names of its clauses."""
    found, path = {}, ""
    for line in text.split("\n"):
        if file := FILE.match(line):
            path = file[1]
        elif call := ROW.match(line):
            found.setdefault(path, []).append((call[1], LISTED.findall(call[2])))
    return found


def in_source(text):
    """The public calls of a source that have clauses, each with their names."""
    text = COMMENT.sub("", text)
    traits = [it.span(1) for it in TRAIT.finditer(text)]
    heads = list(FUNCTION.finditer(text))
    for head, end in zip(heads, [*(it.start() for it in heads[1:]), len(text)]):
        clauses = [name or "·" for name in ENSURES.findall(text, head.end(), end)]
        if clauses and (head[1] == "pub " or any(first <= head.start() < last for first, last in traits)):
            yield head[2], clauses


def compare(text):
    """Prints each call that the page and the sources don't list alike. Returns how many clauses are listed as the
    sources have them, and how many calls aren't."""
    there, passed, failed = listed(text), 0, 0
    for path in sorted(glob.glob(os.path.join(TOP, "crates", "*", "src", "**", "*.rt"), recursive=True)):
        name = os.path.relpath(path, TOP)
        if name.startswith("crates/mc_tests") or name.startswith("crates/mcaudit/"):
            continue  # they export nothing
        with open(path, encoding="utf-8") as file:
            calls, rows = list(in_source(file.read())), there.pop(name, [])
        wrong = [it for it in calls if it not in rows] + [it for it in rows if it not in calls]
        passed += sum(len(clauses) for call, clauses in calls if (call, clauses) in rows)
        failed += len(wrong)
        for call, clauses in wrong:
            print(f"{name}: {call}: {', '.join(clauses)}: not both in the source and on the page")
    for name in there:
        failed += 1
        print(f"{name}: there is no such file")
    return passed, failed


def main():
    text = page()
    if len(sys.argv) > 1:
        with open(sys.argv[1], "w", encoding="utf-8") as file:
            file.write(text)
        return 0
    passed, failed = compare(text)
    return status_of(passed, failed)


if __name__ == "__main__":
    sys.exit(main())
