#!/usr/bin/env python3
"""Looks whether what the documents name is there.

  python3 tests/docs/check.py        at the top of the repository

Read are *.md, docs/*.md, the manual page, and the page of proofs as `make proofs` would write it. Of what is there
between backticks (or is bold in the manual page) these are names of something, and each has to exist:

  a path, or a file's name          a file of the repository, or one that the Makefile makes
  `make WORD`                       a target of the Makefile
  `mcaudit WORD`, `mcaudit-WORD`    a command of the program, a tool
  `--word`                          an option of the program, of a tool, or of what they call
  `Type::name`, `some_name`, `Name` a word of the code, the definitions, the tests or the tools
  `call`: `clause`, `clause`        in a table's column of clauses: each is the name of a clause, and those of a call
                                    that the crate has are that call's
  [text](path)                      a file that is kept, beside the document or below it

And the program and each tool have the version of the file VERSION, once in its source; and the refusals of each type
have the numbers of fault_numbers.txt, so that none of them moves.

It reads the sources alone, so it takes seconds. Each line that is printed is `FILE:LINE: NAME: what is wrong`. The last
line counts the names, `N passed, M failed`, and the status is 0 if none failed and one was read.
"""
import glob
import os
import re
import sys

import proofs

TOP = os.path.join(os.path.dirname(os.path.abspath(__file__)), "..", "..")
sys.path[:0] = [os.path.join(TOP, "tests", "house"), os.path.join(TOP, "tests")]
from ended import status_of  # noqa: E402 pylint: disable=wrong-import-position
from words import Listed  # noqa: E402 pylint: disable=wrong-import-position

SPAN = re.compile(r"``([^`]+)``|`([^`\n]+)`")
FENCE = re.compile(r"^```", re.M)
PATH = re.compile(r"(?:crates|docs|tests|tools|bench|examples)/[\w./*-]*\w[\w./*-]*|[\w-]+/(?:[\w-]+/)*[\w.*-]+\.(?:rt|antt|py|sh|md)")
FILE = re.compile(r"[\w*-]+\.(?:rt|antt|py|sh|md|edit|bundle|table|txt)|Makefile|HANDLES|packages")
SNAKE = re.compile(r"[a-z][a-z0-9]*(?:_[a-z0-9]+)+")
CAMEL = re.compile(r"[A-Z][a-z0-9]+(?:[A-Z][a-z0-9]*)*")
SIMPLE = re.compile(r"[a-z_]+")
OPTION = re.compile(r"--[a-z][a-z-]+")
LINK = re.compile(r"\]\(([^)#:]+)(?:#[^)]*)?\)")
CLAUSE = re.compile(r"^\s*(?:ensures|requires) ([a-z_]\w*) \{", re.M)
HEAD = re.compile(r"^ *(?:pub(?:\([^)]*\))? )?fn (\w+)", re.M)
VERSION = re.compile(r'^(?:version=|VERSION = "|(?:pub\(crate\) )?const VERSION_LINE: &str = "mcaudit )([\w.-]+)', re.M)
NUMBERED = re.compile(r"^pub enum (\w+)[^{]*\{\n(.*?)^\}", re.M | re.S)
REFUSAL = re.compile(r"((?:^    ///.*\n)+)(?:^    #\[.*\n)*^    (\w+)", re.M)
NUMBER = re.compile(r"^    /// \((\d+)\) ")
# Words that documents show which are another program's, or a network's.
ELSEWHERE = {"RegJ", "RegP", "ip_mr_vif", "ip_mr_cache", "authorized_keys", "known_hosts", "pim_register", "no_memory"}


def read(path):
    with open(path, encoding="utf-8", errors="replace") as file:
        return file.read()


def files_below(*folders):
    for folder in folders:
        for place, folders_here, names in os.walk(os.path.join(TOP, folder)):
            folders_here[:] = [it for it in folders_here if it not in ("out", ".git")]
            for name in names:
                yield os.path.join(place, name)


class Sources:
    """What there is that a document may name."""

    def __init__(self):
        makefile = read(os.path.join(TOP, "Makefile"))
        self.made = set(re.findall(r"^(docs/[\w.-]+):", makefile, re.M))
        self.paths = [os.path.relpath(it, TOP) for it in files_below("")] + sorted(self.made)
        self.words, self.clauses, self.options = set(), {}, set()
        for path in files_below("crates", "tests", "tools", "bench", "examples"):
            if os.path.basename(path) != "check.py" and os.path.getsize(path) < 1_000_000:
                self.words |= set(re.findall(r"\w+", read(path)))
        for path in files_below("crates"):
            if path.endswith(".rt"):
                self.read_clauses(path)
        for path in files_below("crates/mc_cli/src", "tools", "tests", "bench"):
            if os.path.getsize(path) < 1_000_000:
                self.options |= set(re.findall(r"--[a-z][a-z-]+", read(path)))
        command = read(os.path.join(TOP, "crates/mc_cli/src/command.rt"))
        self.commands = {"help"} | set(re.findall(r'bare_command\(\s*alloc,\s*"(\w+)"', command))
        self.options |= {f"--{name}" for name in re.findall(r'(?:flag|option)\(alloc, "(\w+)"', command)}
        self.targets = set(re.findall(r"^([a-z-]+):", makefile, re.M))
        self.tools = {os.path.basename(it) for it in glob.glob(os.path.join(TOP, "tools", "*"))}

    def read_clauses(self, path):
        """The clauses of each function: those between its head and the next one's."""
        text = read(path)
        heads = list(HEAD.finditer(text))
        for head, end in zip(heads, [*(it.start() for it in heads[1:]), len(text)]):
            found = set(CLAUSE.findall(text, head.end(), end))
            self.clauses.setdefault(head[1], set()).update(found)

    def has_path(self, name):
        pattern = re.escape(name.rstrip("/")).replace(r"\*", "[^/]*")
        fits = re.compile(rf"(?:.*/)?{pattern}(?:/.*)?$")
        return any(fits.match(path) for path in self.paths)


def spans_of(text):
    """What is between backticks outside of blocks, each with its line."""
    is_block, spans = False, []
    for number, line in enumerate(text.split("\n"), 1):
        if line.startswith("```"):
            is_block = not is_block
        elif not is_block:
            spans += [(number, found[1] or found[2]) for found in SPAN.finditer(line)]
    return spans


def fault_of(name, sources):
    """What is wrong with a name, None if nothing is, or if it isn't one of something that has to be there."""
    words = name.split()
    if "NAME" in name or name.startswith("mcaudit bundle ") or "/out/" in name:
        return None  # a place for any name, the first line of a bundle, or what is built
    if PATH.fullmatch(name) or FILE.fullmatch(name):
        return None if sources.has_path(name) else "no such file"
    if words[0] == "make" and len(words) > 1 and words[1].islower():
        return None if words[1] in sources.targets else "no such target"
    if words[0] == "mcaudit" and len(words) > 1 and words[1].isalpha():
        return None if words[1] in sources.commands else "no such command"
    if re.fullmatch(r"mcaudit-[a-z]+", words[0]):
        return None if words[0] in sources.tools else "no such tool"
    options = [word for word in words if OPTION.fullmatch(word)]
    if options and (len(words) == 1 or words[0].startswith("mcaudit")):
        wrong = [word for word in options if word not in sources.options]
        return f"no such option: {wrong[0]}" if wrong else None
    parts = name.split("::")
    if all(SNAKE.fullmatch(part) or CAMEL.fullmatch(part) or part.islower() and part.isalpha() for part in parts) and (
            len(parts) > 1 or SNAKE.fullmatch(name) or CAMEL.fullmatch(name)):
        wrong = [part for part in parts if part not in sources.words and part not in ELSEWHERE]
        return f"no such word: {wrong[0]}" if wrong else None
    return None


def names_in(text):
    return [found[1] or found[2] for found in SPAN.finditer(text)]


def clause_faults(cell, sources):
    """The clauses that a cell of a table names, `call`, `call`: `clause`, `clause`: those that are none, and how many."""
    faults, looked = [], 0
    for part in cell.split(";"):
        segments = re.split(r"(?<=`): ", part)
        calls = [name.split("::")[-1] for name in names_in(segments[-2])] if len(segments) > 1 else []
        known = [sources.clauses[name] for name in calls if name in sources.clauses]
        for clause in names_in(segments[-1]) if known else []:
            looked += 1
            if SIMPLE.fullmatch(clause) and clause not in sources.clauses and not any(clause in those for those in known):
                faults.append((clause, f"no clause of {', '.join(calls)}"))
    return faults, looked


def is_kept(link, path, sources):
    """Whether a link of a document leads to a file of the repository, and not to one that has to be made first."""
    place = os.path.relpath(os.path.join(os.path.dirname(path), link), TOP)
    if place in sources.made:
        return os.path.relpath(path, TOP) in Listed().excepted
    return os.path.exists(os.path.join(TOP, place))


def look_at(path, text, sources):
    """What is wrong with the names in a document, each with its line, and how many there are."""
    if path.endswith(".1"):
        text = re.sub(r"^\.B (.*)$", r"`\1`", text.replace(r"\-", "-"), flags=re.M)
    wrong, looked = [], 0
    for number, name in spans_of(text):
        looked += 1
        if fault := fault_of(name, sources):
            wrong.append((number, name, fault))
    for number, line in enumerate(text.split("\n"), 1):
        links = LINK.findall(line)
        looked += len(links)
        wrong += [(number, it, "no such file is kept") for it in links if not is_kept(it, path, sources)]
        cells = [cell.strip() for cell in line.strip("|").split(" | ")]
        if line.startswith("|") and len(cells) > 1:
            faults, passed = clause_faults(cells[-1].rstrip(" |"), sources)
            looked += passed
            wrong += [(number, name, fault) for name, fault in faults]
    return wrong, looked


def version_faults():
    """What the program and the tools say of their version that VERSION doesn't, and how many were looked at."""
    version = read(os.path.join(TOP, "VERSION")).strip()
    paths = [os.path.join(TOP, "crates/mc_run/src/task/task_text.rt"), *sorted(glob.glob(os.path.join(TOP, "tools/mcaudit-*")))]
    found = [(os.path.relpath(path, TOP), VERSION.findall(read(path))) for path in paths]
    return [(path, said) for path, said in found if said != [version]], len(paths)


def numbers_in_sources():
    """The refusals of each type whose documentation numbers them, each with its number, or None where it has none."""
    found = {}
    for path in files_below("crates"):
        for name, body in NUMBERED.findall(read(path)) if path.endswith(".rt") else ():
            numbers = {refusal: NUMBER.match(said) for said, refusal in REFUSAL.findall(body)}
            if any(numbers.values()):
                found[name] = {refusal: number and int(number[1]) for refusal, number in numbers.items()}
    return found


def numbers_listed():
    """What fault_numbers.txt says of each type."""
    lines = read(os.path.join(TOP, "tests/docs/fault_numbers.txt")).splitlines()
    parts = [line.partition(": ") for line in lines]
    return {name: {word.split()[0]: int(word.split()[1]) for word in words.split(", ")} for name, _, words in parts}


def number_faults():
    """The refusals whose number isn't the one that is listed, and how many were looked at."""
    here, listed = numbers_in_sources(), numbers_listed()
    names = sorted({(kind, refusal) for kinds in (here, listed) for kind in kinds for refusal in kinds[kind]})
    pairs = [(name, *(kinds.get(name[0], {}).get(name[1]) for kinds in (here, listed))) for name in names]
    return [pair for pair in pairs if pair[1] is None or pair[1] != pair[2]], len(pairs)


def main():
    sources = Sources()
    wrong, looked = version_faults()
    moved, numbered = number_faults()
    looked += numbered
    failed = len(wrong) + len(moved)
    for path, said in wrong:
        print(f"{path}: says the version {', '.join(said) or 'nowhere'}, and VERSION another")
    for name, here, listed in moved:
        print(f"{'::'.join(name)}: has the number {here}, and fault_numbers.txt says {listed}")
    documents = [it for folder in ("", "docs") for it in sorted(glob.glob(os.path.join(TOP, folder, "*.md")))]
    documents.append(os.path.join(TOP, "docs/mcaudit.1"))
    texts = {it: read(it) for it in documents if os.path.relpath(it, TOP) not in sources.made}
    for path, text in [*texts.items(), (os.path.join(TOP, "docs/PROOFS.md"), proofs.page())]:
        wrong, count = look_at(path, text, sources)
        looked += count
        failed += len(wrong)
        for number, name, fault in wrong:
            print(f"{os.path.relpath(path, TOP)}:{number}: {name}: {fault}")
    return status_of(looked - failed, failed)


if __name__ == "__main__":
    sys.exit(main())
