#!/usr/bin/env python3
"""Runs the built program on each row of the tables beside this script, and compares what it answers.

  python3 tests/cli/tables.py PROGRAM [TABLE ..]

A table, tables/NAME.table, begins with lines that begin with `# ` and say what it shows, and then has
these lines, up to an empty one:

  words: check              the program's words; `|` parts two runs, the first one's output being the second
                            one's input, which then answers; FOLDER is a folder of its own
  file: topology            where a row's text stands: this file of FOLDER; without the line, standard input
  others: network           the files that FOLDER has beside it: those of this folder of tables/
  text: network.topology    the file of tables/ that each row changes, or a text of a case, as
                            cases/NAME.case/stdin
  refused: topology:        what stands before a block's answer: `flow 1: BadTtl` says that the program ends
                            with status 2, nothing on standard output, and the one line
                            `refused: topology: flow 1: BadTtl` on standard error
  read: failed: read        the last line that the program writes where a block's answer is `read`;
                            its status is that of the line, and an answer of a verdict is such a line too
  answers: whole            a block's answer is its lines up to the first that begins with `#`, `|` or `words: `:
                            all that the program writes to standard output
  escapes: yes              in the rows' texts `\\n` is a line feed and `\\xFF` a byte
  before: zz\\n              what stands before each row's text
  blocks: lists             the table has the blocks of this other one, and none of its own
  rows: made                a row is words by which a function of made.py makes its text, or many, each a row
  rows: domains             a row tells the files of FOLDER, in the words of domains.py
  rows: missing             a row names the file of the others that FOLDER lacks
  rows: words               a row is the program's words behind those of the table, `''` an empty one, and a block's
                            answer is the status and what the first line begins with, on whichever output

Then come blocks, parted by an empty line and `## `. The first line of a block is its answer; lines of comment
may follow; `@` begins a place of the text, and after it stand the texts that are put into that place, each
after a line feed and `|`, and each is a row. Without a place a row is the whole text. Before the rows a block may
have a line `words: ` of its own.

The last line counts the rows: `N passed, M failed`. The status is 0 if none failed and one was run.
"""
import os
import shutil
import subprocess
import sys
import tempfile
from concurrent.futures import ThreadPoolExecutor

sys.dont_write_bytecode = True
HERE = os.path.dirname(os.path.abspath(__file__))
sys.path.append(os.path.dirname(HERE))
import case_files
import domains
import ended
import made

TABLES = f"{HERE}/tables"
SECONDS = 60
STATUSES = {"refused": 2, "failed": 3, "verdict no": 1, "finding Clean": 0, "finding ": 1, "found ": 1, "not wanted": 1}


class Wrong(Exception):
    """A table that can't be read."""


def unescaped(text):
    return text.encode("latin-1").decode("unicode_escape").encode("latin-1")


def text_of(name):
    if name.startswith("cases/"):
        return case_files.text_at(f"tests/cli/{name}")
    with open(f"{TABLES}/{name}", "rb") as file:
        return file.read()


class Table:
    """What the head of a table says, and its blocks."""

    def __init__(self, name):
        head, _, blocks = text_of(f"{name}.table").decode().partition("\n\n")
        said = dict(line.split(": ", 1) for line in head.rstrip("\n").split("\n") if not line.startswith("#"))
        self.words = said.pop("words", "")
        self.file, self.others = said.pop("file", None), said.pop("others", None)
        self.refused, self.read = said.pop("refused", ""), said.pop("read", "")
        self.to_bytes = unescaped if said.pop("escapes", "") == "yes" else str.encode
        self.before = self.to_bytes(said.pop("before", ""))
        self.rows_are = said.pop("rows", "texts")
        self.are_whole = said.pop("answers", "") == "whole"
        self.base = text_of(said.pop("text")) if "text" in said else b""
        is_own = "blocks" not in said
        self.blocks = blocks.rstrip("\n").split("\n\n## ") if is_own else Table(said.pop("blocks")).blocks
        if said or self.rows_are not in ("texts", "made", "domains", "missing", "words"):
            raise Wrong(f"an unknown line {min(said, default=self.rows_are)}")

    def rows(self):
        """Yields the answer, the words and the whole text of each row."""
        for block in self.blocks:
            front, bar, texts = block.partition("\n|")
            answer, rest = self.parted(front.removeprefix("## "))
            words = next((line[7:] for line in rest.split("\n") if line.startswith("words: ")), self.words)
            _, at, place = rest.partition("@")
            if not answer or not bar:
                raise Wrong(f"a block without rows: {block}")
            if self.rows_are == "words":
                yield from ((answer, f"{words} {row}", b"") for row in texts.split("\n|"))
                continue
            for text in (text for row in texts.split("\n|") for text in self.texts_of(row)):
                yield answer, words, self.before + (self.placed(self.to_bytes(place), text) if at else text)

    def parted(self, front):
        """A block's answer, and what stands between it and the rows."""
        if not self.are_whole:
            return front.partition("\n")[::2]
        lines = front.split("\n")
        behind = next((at for at, line in enumerate(lines) if line.startswith(("#", "words: "))), len(lines))
        return "\n".join(lines[:behind]), "\n".join(lines[behind:])

    def texts_of(self, row):
        if self.rows_are != "made":
            return [self.to_bytes(row)]
        name, *words = row.split(" ")
        return getattr(made, name)(self.base, *words)

    def placed(self, place, text):
        if not place or place not in self.base:
            raise Wrong(f"no such place: {place}")
        return self.base.replace(place, text, 1)

    def line_of(self, answer):
        """The last line that the program writes, for a block's answer."""
        if self.are_whole:
            return answer.rpartition("\n")[2]
        if answer == "read":
            return self.read
        return answer if answer.startswith("verdict ") else " ".join(filter(None, ("refused:", self.refused, answer)))

    def put_files(self, text, folder):
        """Writes the files of a row's text into a folder. Returns the program's standard input."""
        if self.others:
            shutil.copytree(f"{TABLES}/{self.others}", folder, dirs_exist_ok=True)
        if self.rows_are == "missing":
            os.remove(f"{folder}/{text.decode()}")
            return b""
        files = {self.file: text} if self.file else {}
        if self.rows_are == "domains":
            files = {name: file.encode() for name, file in domains.files_of(text.decode()).items()}
        for name, content in files.items():
            with open(f"{folder}/{name}", "wb") as file:
                file.write(content)
        return b"" if files else text


def status_of(line):
    return next((status for words, status in STATUSES.items() if line.startswith(words)), 0)


def run(program, table, words, text):
    """Runs the program on a text. Returns its status and what it wrote."""
    with tempfile.TemporaryDirectory() as folder:
        text = table.put_files(text, folder)
        for each in words.split("|"):
            each = [program, *({"FOLDER": folder, "''": ""}.get(word, word) for word in each.split())]
            done = subprocess.run(each, input=text, capture_output=True, timeout=SECONDS, check=False)
            text = done.stdout
        return done.returncode, done.stdout.decode(), done.stderr.decode()


def is_refusal(error, line, of_files):
    """Whether standard error says the line, and behind it the same of the file, where files were read."""
    first, *more = error.splitlines()
    if not of_files:
        return error == f"{line}\n"
    file, _, fault = line.removeprefix("refused: ").partition(": ")
    told = f"  {file.replace('/', '-')}: {fault}" if line.startswith("refused: ") and file != "bundle" else "  "
    return first == line and bool(more) and more[0].startswith(told) and all(each.startswith("  ") for each in more)


def fault_of(program, table, answer, words, text):
    """What is wrong with the program's answer to a row, or nothing."""
    status, output, error = run(program, table, words, text)
    if table.rows_are == "words":
        return None if f"{status} {output or error}".startswith(answer) else f"{status} {output or error}"
    line = table.line_of(answer)
    if status != status_of(line):
        return f"status {status}, not {status_of(line)}: {error or output}"
    if status in (2, 3):
        is_right = output == "" and is_refusal(error, line, words.startswith("audit "))
    elif table.are_whole:
        is_right = (output, error) == (f"{answer}\n", "")
    else:
        is_right = error == "" and output.endswith("\n") and output.rstrip("\n").rpartition("\n")[2] == line
    return None if is_right else f"{error}{output} and not {answer if table.are_whole else line}"


def run_table(program, name, pool):
    """Runs the rows of a table, some side by side. Returns how many passed and how many failed."""
    passed = failed = 0
    try:
        table = Table(name)
        tried = [(row, pool.submit(fault_of, program, table, *row)) for row in table.rows()]
        for (answer, words, text), found in tried:
            fault = found.result()
            passed, failed = passed + (not fault), failed + bool(fault)
            if fault:
                print(f"{name}, {answer}: {fault.strip()}\n  in {text[:2000]!r} with {words}")
    except (Wrong, KeyError, ValueError, OSError, subprocess.TimeoutExpired) as wrong:
        failed += 1
        print(f"{name}: {wrong}")
    return passed, failed


def main():
    program = os.path.abspath(sys.argv[1])
    names = sys.argv[2:] or sorted(name[:-6] for name in os.listdir(TABLES) if name.endswith(".table"))
    with ThreadPoolExecutor(os.cpu_count()) as pool:
        counts = [run_table(program, name, pool) for name in names]
    passed, failed = map(sum, zip(*counts))
    return ended.status_of(passed, failed)


if __name__ == "__main__":
    sys.exit(main())
