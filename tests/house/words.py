#!/usr/bin/env python3
"""Names the identifiers of the crates that hold a word which has had several meanings here.

  python3 tests/house/words.py          each such identifier of crates/, as `FILE: NAME`; status 1 if there is any
  python3 tests/house/words.py count    how many different identifiers were read

The words are those of words.txt above its line `texts`. An identifier is a word of code, of a definition, of a lemma,
of an answer or of an edit that must fail, and a file's or folder's name below crates/; it is split at `_`, `-`, `+` and
before capitals. Comments and texts in quotes are prose, and not read here: tests/docs/prose.py reads documents, and
what the program and the tools print, for all words of the list.
"""
import os
import re
import sys

TOP = os.path.join(os.path.dirname(os.path.abspath(__file__)), "..", "..")
LIST = os.path.join(os.path.dirname(os.path.abspath(__file__)), "words.txt")
ENDINGS = (".rt", ".antt", ".edit")

# what isn't an identifier: texts in quotes, one character in quotes, and comments
CODE = re.compile(r"""b?"(?:\\[\s\S]|[^"\\])*"|b?'(?:\\.[^']*|[^'\\])'|//[^\n]*""")
PROOF = re.compile(r'"(?:\\.|[^"\\\n])*"|(?:(?<=\s)|^)--[^\n]*|\bg\.met\b', re.M)  # `g.met` is the prover's own name
NAME = re.compile(r"[^\W\d][\w'+-]*")
PART = re.compile(r"[A-Z]?[a-z]+|[A-Z]+(?![a-z])")
HEAD = re.compile(r"^(?:file|old|new|clause): ", re.M)


class Listed:
    """What words.txt has: each word with what is written instead, and those that identifiers may not hold."""

    def __init__(self):
        self.instead, self.in_names = {}, set()
        names_too = True
        with open(LIST, encoding="utf-8") as file:
            lines = [it for it in file.read().split("\n") if it and not it.startswith("#")]
        for line in lines:
            if line == "texts":
                names_too = False
            else:
                words, _, instead = line.partition(": ")
                self.instead |= dict.fromkeys(words.split(", "), instead)
                self.in_names |= set(words.split(", ") if names_too else ())
        longest_first = sorted(self.instead, key=len, reverse=True)
        either = "|".join(r"\s+".join(map(re.escape, it.split())) for it in longest_first)
        self.pattern = re.compile(rf"\b(?:{either})\b", re.IGNORECASE)

    def in_text(self, text):
        """The listed words of a text, each with its place and what to write instead."""
        found = ((it.start(), " ".join(it[0].lower().split())) for it in self.pattern.finditer(text))
        return [(at, word, self.instead[word]) for at, word in found]


def parts_of(name):
    """The words of a name, in small letters: those of `IsMetBy-way_back` are is, met, by, way and back."""
    return {it.lower() for it in PART.findall(name)}


def names_in(text, path):
    """The identifiers of a file."""
    if path.endswith(".edit"):
        is_proof = re.search(r"^file: .*\.antt$", text, re.M) is not None
        text = HEAD.sub("", text)
    else:
        is_proof = path.endswith(".antt")
    return NAME.findall((PROOF if is_proof else CODE).sub(" ", text))


def files():
    """The files of the crates, and each one's path below crates/."""
    crates = os.path.join(TOP, "crates")
    for place, folders, names in os.walk(crates):
        folders[:] = sorted(it for it in folders if it != "out")
        for name in sorted(names):
            path = os.path.join(place, name)
            if name.endswith(ENDINGS):
                yield path, os.path.relpath(path, crates)


def main():
    banned, read, found = Listed().in_names, set(), []
    for path, below in files():
        with open(path, encoding="utf-8") as file:
            names = set(names_in(file.read(), path)) | set(NAME.findall(below))
        read |= names
        found += [f"crates/{below}: {name}" for name in sorted(names) if parts_of(name) & banned]
    if sys.argv[1:] == ["count"]:
        print(len(read))
        return 0
    print("".join(line + "\n" for line in found), end="")
    return 1 if found else 0


if __name__ == "__main__":
    sys.exit(main())
