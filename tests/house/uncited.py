#!/usr/bin/env python3
"""Names the lemmas and definitions that nothing leads to.

  python3 tests/house/uncited.py [CRATE..]     looks at all crates, and names those of these, or all

Looked at are the lemmas of crates/*/proofs (not what stands in Answers, Invariants and Proof, whose names are the
prover's own) and the definitions of crates/*/specs. One is cited by the code, in a clause, `using(..)` or
`unfolding(..)`, by an answer, or by a lemma or definition that is itself cited. The sentences of Example*.antt
are cited by nobody on purpose, and what they cite is cited.

A name is read with its module: a lemma of the same name in another crate's file is another. Each line that is printed
is `FILE: NAME`. The status is 1 if there is one.
"""
import os
import re
import sys

TOP = os.path.join(os.path.dirname(os.path.abspath(__file__)), "..", "..")
ANSWERS = ("Answers.antt", "Invariants.antt", "Proof.antt")
SENTENCES = re.compile(r"Example\w*\.antt$")

STRING = re.compile(r'"(?:[^"\\\n]|\\.)*"')
IMPORT = re.compile(
    r"^ *(?:pub )?(?:ghost )?use +(?P<module>Rattle\.[^\s{};]+?)"
    r"(?:\.\{(?P<names>[^}]*)\})?(?:\s+as\s+(?P<alias>\w+))?;?$", re.M)
ATTRIBUTE = re.compile(r"\b(crate|\w+)::((?:proofs|specs)(?:::[\w◌'-]+)+)")
SIGNATURE = re.compile(r"(?:(?:abbrev|unfoldable|pub) )*(?:(?:record|data|ruleset) (\S+)|(\S+) :(?: |$))")
WORDS_OF_CODE = re.compile(r"[\s(){}\[\],;.:&!]+")
WORDS = re.compile(r"[\s(){}\[\],;.]+")


def files_of(folder, ending):
    for place, folders, names in os.walk(folder):
        folders.sort()
        for name in sorted(names):
            if name.endswith(ending):
                yield os.path.relpath(os.path.join(place, name), TOP)


def without_comments(text, mark):
    lines = (STRING.sub('""', line) for line in text.split("\n"))
    return "\n".join(line.split(mark)[0].rstrip() for line in lines)


def module_of(path):
    """`Rattle.mc_text.specs.Steps` of `crates/mc_text/specs/Steps.antt`."""
    return "Rattle." + path[len("crates/"):-len(".antt")].replace("/", ".")


def chunks_of(text):
    """The declarations of a file as (name, words): a signature with its equations, or no name and other words."""
    level, chunks = [0], []
    for line in text.split("\n"):
        if not line:
            continue
        indent = len(line) - len(line.lstrip())
        while indent < level[-1]:
            level.pop()
        if indent > level[-1]:
            chunks[-1][1].append(line)
            continue
        line = line.strip()
        named = SIGNATURE.match(line)
        if line.startswith("module ") or line == "mutual":
            chunks.append((None, [line]))
            level.append(indent + 2)
        elif named:
            chunks.append((named[1] or named[2], [line]))
        elif not line.startswith("infix"):
            chunks.append((chunks[-1][0] if chunks else None, [line]))
    return [(name, set(WORDS.split(" ".join(lines)))) for name, lines in chunks]


def parts_of(name):
    """The words by which a text says a name: those between the places of an operator."""
    return [part for part in name.split("◌") if part]


class House:
    """All that is declared, by (module, name), and all that is cited."""

    def __init__(self):
        self.declared = {}  # (module, name) to its file
        self.cites = {}     # (module, name) to what it cites
        self.roots = set()  # what is cited by what is no lemma and no definition
        self.waiting = []   # what is read of each file

    def read(self, path):
        with open(os.path.join(TOP, path), encoding="utf-8") as file:
            text = without_comments(file.read(), "//" if path.endswith(".rt") else "--")
        imports = [(m["module"], m["names"], m["alias"]) for m in IMPORT.finditer(text)]
        rest = IMPORT.sub("", text)
        if path.endswith(".rt"):
            chunks = [(None, set(WORDS_OF_CODE.split(rest)))]
            crate = path.split("/")[1]
            for owner, names in ATTRIBUTE.findall(text):
                module, _, name = names.replace("::", ".").rpartition(".")
                self.roots.add((f"Rattle.{crate if owner == 'crate' else owner}.{module}", name))
        else:
            chunks = chunks_of(rest)
        is_lemma = path.endswith(".antt") and os.path.basename(path) not in ANSWERS
        if is_lemma:
            for name, _ in chunks:
                if name:
                    self.declared[module_of(path), name] = path
        self.waiting.append((path, imports, chunks, is_lemma and not SENTENCES.search(path)))

    def look(self):
        """Finds what each declaration cites."""
        names = {}
        for module, name in self.declared:
            names.setdefault(module, []).append(name)
        for path, imports, chunks, is_lemma in self.waiting:
            here = module_of(path) if path.endswith(".antt") else None
            known = [(name, (here, name)) for name in names.get(here, [])]
            for module, listed, alias in imports:
                if listed is None:
                    known += [(name, (module, name)) for name in names.get(module, []) if alias]
                    continue
                for word in filter(None, (word.strip() for word in listed.split(","))):
                    name, _, other = word.partition(" as ")
                    key = (module, name)
                    known.append((other or name, key))
                    if not any(words.issuperset(parts_of(other or name)) for _, words in chunks):
                        self.roots.add(key)
            for name, words in chunks:
                cited = {key for word, key in known if words.issuperset(parts_of(word))}
                if name and is_lemma:
                    self.cites.setdefault((here, name), set()).update(cited)
                else:
                    self.roots |= cited
            if here and not is_lemma:
                self.roots |= {(here, name) for name in names.get(here, [])}

    def uncited(self):
        found, waiting = set(), list(self.roots)
        while waiting:
            key = waiting.pop()
            if key not in found:
                found.add(key)
                waiting += self.cites.get(key, ())
        return sorted((path, key[1]) for key, path in self.declared.items() if key not in found)


def main():
    house = House()
    crates = os.path.join(TOP, "crates")
    for crate in sorted(os.listdir(crates)):
        for folder, ending in (("src", ".rt"), ("specs", ".antt"), ("proofs", ".antt")):
            for path in files_of(os.path.join(crates, crate, folder), ending):
                house.read(path)
    house.look()
    wanted = sys.argv[1:]
    found = [(path, name) for path, name in house.uncited() if not wanted or path.split("/")[1] in wanted]
    for path, name in found:
        print(f"{path}: {name}")
    sys.exit(1 if found else 0)


main()
