#!/usr/bin/env python3
"""Holds the documents, and what the program and the tools print, to the words and sentences of this project.

  python3 tests/docs/prose.py        at the top of the repository

Refused are

  a word of tests/house/words.txt    in each document, in each text of the program and in each of the tools: their
                                     messages, their help, the page, the completions. What is in backticks, or in a
                                     block, is a name or an example and is passed over, and so are comments and the
                                     documentation of code
  a sentence of more than 40 words   in docs/PROMISES.md, in paragraphs, lists and cells of tables
  a word that is there twice         in the first column of docs/GLOSSARY.md

Each line that is printed is `FILE:LINE: what is wrong`. The last line counts the texts, the sentences and the words
that were read, `N passed, M failed`, and the status is 0 if none failed and each kind was there.
"""
import ast
import glob
import os
import re
import sys

TOP = os.path.join(os.path.dirname(os.path.abspath(__file__)), "..", "..")
sys.path[:0] = [os.path.join(TOP, "tests", "house"), os.path.join(TOP, "tests")]
from ended import status_of  # noqa: E402 pylint: disable=wrong-import-position
from words import Listed  # noqa: E402 pylint: disable=wrong-import-position

DOCUMENTS = ("*.md", "docs/*.md", "docs/*.1", "docs/audit.schema.json", "bench/*.md", "examples/*/*.md",
             "crates/*/*.md")
MADE = "docs/PROOFS.md"  # of the crates' own comments
CODE = re.compile(r"^```.*?^```$|``[^`]+``|`[^`\n]+`|\]\([^)]*\)", re.M | re.S)
SHELL_COMMENT = re.compile(r"(?<!\S)#.*")
SCRIPT_COMMENT = re.compile(r"^\s*//.*|/\*.*?\*/", re.M | re.S)
PROGRAM_TEXT = re.compile(r"//[^\n]*|b?'(?:\\.[^']*|[^'\\])'|b?\"((?:[^\"\\]|\\[\s\S])*)\"")
SCRIPT_TEXT = re.compile(r'"(?:\\.|[^"\\\n])*"|\'(?:\\.|[^\'\\\n])*\'|`(?:\\.|[^`\\])*`')
NAME = re.compile(r"[\w-]*")
SENTENCE_END = re.compile(r"(?<=[.?!])[)*\"]*\s+(?=[A-Z`*(\[])")
MOST_WORDS = 40
TERM = re.compile(r"\*\*(.+?)\*\*")


def read(path):
    """The text of a file of the repository."""
    with open(os.path.join(TOP, path), encoding="utf-8") as file:
        return file.read()


def blanked(pattern, text):
    """The text with blanks in place of what fits, and every line in its place."""
    return pattern.sub(lambda found: re.sub(r"[^\n]", " ", found[0]), text)


def documents():
    """The documents, each with its text without names and examples."""
    for pattern in DOCUMENTS:
        for path in sorted(glob.glob(os.path.join(TOP, pattern))):
            name = os.path.relpath(path, TOP)
            if name != MADE:
                text = read(name)
                yield name, 1, blanked(CODE, text) if name.endswith(".md") else text.replace("\\-", "-")


def python_texts(text):
    """The texts of a source of Python, each with its line: all that is in quotes but names and documentation."""
    tree = ast.parse(text)
    documented = {id(it.body[0].value) for it in ast.walk(tree)
                  if isinstance(it, (ast.Module, ast.ClassDef, ast.FunctionDef))
                  and it.body and isinstance(it.body[0], ast.Expr)}
    for it in ast.walk(tree):
        if isinstance(it, ast.Constant) and isinstance(it.value, str) and id(it) not in documented:
            yield it.lineno, it.value


def script_texts(text):
    """The texts of a source of JavaScript, each with its line."""
    text = blanked(SCRIPT_COMMENT, text)
    return ((text.count("\n", 0, it.start()) + 1, it[0][1:-1]) for it in SCRIPT_TEXT.finditer(text))


def tool_texts():
    """The texts of the tools, each with its file and its line."""
    for folder, _, names in sorted(os.walk(os.path.join(TOP, "tools"))):
        for name in sorted(names):
            path = os.path.relpath(os.path.join(folder, name), TOP)
            if path.endswith((".pyc", ".css")) or "/systemd/" in path:
                continue
            text = read(path)
            if path.endswith(".js"):
                found = script_texts(text)
            elif path.endswith(".py") or text.startswith("#!/usr/bin/env python3\n"):
                found = python_texts(text)
            else:
                found = enumerate(SHELL_COMMENT.sub("", text).split("\n"), 1)
            yield from ((path, line, it) for line, it in found if not NAME.fullmatch(it))


def program_texts():
    """The texts of the program, each with its file and its line. A name in braces stands for what is put there."""
    for path in sorted(glob.glob(os.path.join(TOP, "crates/*/src/**/*.rt"), recursive=True)):
        name = os.path.relpath(path, TOP)
        if not name.startswith("crates/mc_tests_"):
            text = read(name)
            for it in PROGRAM_TEXT.finditer(text):
                inside = re.sub(r"\{\w*[^{}]*\}", " ", it[1] or "")
                if not NAME.fullmatch(inside.strip()):
                    yield name, text.count("\n", 0, it.start()) + 1, inside


def wrong_words(listed):
    """How many texts have no listed word, and what is wrong with the others."""
    passed, wrong = 0, []
    for texts in map(list, (documents(), program_texts(), tool_texts())):
        if not texts:
            wrong.append("there is no text")
        for path, first, text in texts:
            found = listed.in_text(text)
            passed += not found
            wrong += [f"{path}:{first + text.count(chr(10), 0, at)}: {word}: write {instead}"
                      for at, word, instead in found]
    return passed, wrong


def sentences(path):
    """The sentences of a document, each with its line. A code span counts as one word."""
    for number, line in enumerate(blanked(re.compile(r"^```.*?^```$", re.M | re.S), read(path)).split("\n"), 1):
        line = re.sub(r"``[^`]+``|`[^`]+`", "`x`", line.lstrip("#>- "))
        for cell in line.strip("|").split(" | ") if line.startswith("|") else [line]:
            yield from ((number, it) for it in SENTENCE_END.split(cell) if re.search(r"\w", it))


def long_sentences(path):
    """How many sentences of a document are short enough, and what is wrong with the others."""
    counted = [(number, it, len(re.findall(r"[\w`’'/-]*\w[\w`’'/-]*", it))) for number, it in sentences(path)]
    wrong = [f"{path}:{number}: {count} words: {it}" for number, it, count in counted if count > MOST_WORDS]
    return len(counted) - len(wrong), wrong or ([] if counted else [f"{path}: there is no sentence"])


def repeated_terms(path):
    """How many words a glossary explains, and which of them twice."""
    terms = [(number, term) for number, line in enumerate(read(path).split("\n"), 1) if line.startswith("| **")
             for term in TERM.findall(line[:line.index(" | ")])]
    seen, wrong = set(), [] if terms else [f"{path}: there is no word"]
    for number, term in terms:
        if term in seen:
            wrong.append(f"{path}:{number}: {term}: is there twice")
        seen.add(term)
    return len(seen), wrong


def main():
    """Prints what is wrong. Returns the status."""
    counts = [wrong_words(Listed()), long_sentences("docs/PROMISES.md"), repeated_terms("docs/GLOSSARY.md")]
    wrong = [it for _, found in counts for it in found]
    print("".join(f"{it}\n" for it in wrong), end="")
    return status_of(sum(passed for passed, _ in counts), len(wrong))


if __name__ == "__main__":
    sys.exit(main())
