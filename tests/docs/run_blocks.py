#!/usr/bin/env python3
"""Runs the commands that README.md, docs/TOUR.md and docs/GUIDE.md show, and compares what they write with what is shown.

  python3 tests/docs/run_blocks.py PROGRAM

A block that begins with ```console has commands, behind `$ `, each with the lines below it that it writes. The blocks are
run one after the other, each by a shell of its own, in a folder that has copies of what lies in examples/, and that
folder itself. Commands of `make` are not run: they are the gate's own steps.

The guide's blocks show a folder `site` of the reader's own. Each has a line before it: `<!-- site: NAME -->`, and the
folder is a copy of tests/docs/sites/NAME, or, `as above`, what the block before has left; or `<!-- needs routers: NAME
-->`, and tests/lab/guide.py runs it. The last line counts the commands: `N passed, M failed`. The status is 0 if none
failed and one was run.
"""
import os
import re
import shutil
import subprocess
import sys
import tempfile

TOP = os.path.join(os.path.dirname(os.path.abspath(__file__)), "..", "..")
sys.path.append(os.path.join(TOP, "tests"))
from blocks import commands_of  # noqa: E402 pylint: disable=wrong-import-position
from ended import status_of  # noqa: E402 pylint: disable=wrong-import-position

BLOCK = re.compile(r"^```console\n(.*?)^```$", re.M | re.S)
GUIDE_BLOCK = re.compile(r"^(?:<!-- (site: [\w ]+|needs routers: \w+) -->\n)?```console\n(.*?)^```$", re.M | re.S)
SITES = os.path.join(TOP, "tests", "docs", "sites")
MARK = "\x01"
SECONDS = 120


def run(commands, folder, program):
    """What each command writes: a mark parts them, and keeps the status for the next one to ask."""
    script = "".join(f"kept=$?; printf '{MARK}\\n'; (exit $kept)\n{command}\n" for command, _ in commands)
    path = os.pathsep.join((os.path.dirname(program), os.path.join(TOP, "tools"), os.environ["PATH"]))
    done = subprocess.run(["sh", "-c", script], cwd=folder, env=os.environ | {"PATH": path}, stdout=subprocess.PIPE,
                          stderr=subprocess.STDOUT, timeout=SECONDS, check=False)
    return done.stdout.decode().split(MARK + "\n")[1:]


def compare(block, folder, program):
    """How many commands of a block write what is shown, and how many don't, which are told."""
    commands = [it for it in commands_of(block) if not it[0].startswith("make")]
    wrong = 0
    for (command, shown), written in zip(commands, run(commands, folder, program), strict=True):
        if written != shown:
            wrong += 1
            print(f"$ {command}\nshown:\n{shown}written:\n{written}")
    return len(commands) - wrong, wrong


def blocks_of(name):
    with open(os.path.join(TOP, name), encoding="utf-8") as file:
        return (BLOCK if name != "docs/GUIDE.md" else GUIDE_BLOCK).findall(file.read())


def compare_examples(program):
    """The blocks of README and of the tour, which stand on what lies in examples/."""
    with tempfile.TemporaryDirectory(prefix="mcaudit-docs-") as folder:
        shutil.copytree(os.path.join(TOP, "examples"), folder, dirs_exist_ok=True)
        shutil.copytree(os.path.join(TOP, "examples"), os.path.join(folder, "examples"))
        for block in blocks_of("README.md") + blocks_of("docs/TOUR.md"):
            yield compare(block, folder, program)


def compare_guide(program):
    """The blocks of the guide, each by the mark before it."""
    with tempfile.TemporaryDirectory(prefix="mcaudit-docs-") as folder:
        for mark, block in blocks_of("docs/GUIDE.md"):
            name = mark.removeprefix("site: ")
            if not mark:
                print(f"docs/GUIDE.md: this block has no mark:\n{block}")
                yield 0, 1
            elif not mark.startswith("needs routers: "):
                if name != "as above":
                    shutil.rmtree(os.path.join(folder, "site"), ignore_errors=True)
                    shutil.copytree(os.path.join(SITES, name), os.path.join(folder, "site"))
                yield compare(block, folder, program)


def main():
    program = os.path.abspath(sys.argv[1])
    counts = [*compare_examples(program), *compare_guide(program)]
    passed, failed = (sum(it[at] for it in counts) for at in (0, 1))
    return status_of(passed, failed)


if __name__ == "__main__":
    sys.exit(main())
