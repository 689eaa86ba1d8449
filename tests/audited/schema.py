#!/usr/bin/python3
"""Holds the answers of audits in JSON against docs/audit.schema.json, by Debian's python3-jsonschema.

  /usr/bin/python3 tests/audited/schema.py [COUNT]

Each line has to be valid that stands in examples/faults/*.json or in the answers of tests/cli/cases, or that answers.py
works out of the first COUNT (60) domains of random_domains.py, with each set of words of run.py that has `--json`. The
program isn't run here: run.py holds it to the same bytes as answers.py, of the same domains, so what is valid here is
valid there. And each line of the examples has to be refused without one of its keys, whichever, and with one more. The
last line counts: `N passed, M failed`. The status is 0 if none failed and one was looked at.
"""
import copy
import glob
import json
import os
import sys
import tempfile

from jsonschema import Draft202012Validator

sys.dont_write_bytecode = True
import answers
import random_domains
import run

TOP = os.path.join(os.path.dirname(os.path.abspath(__file__)), "..", "..")
sys.path.append(f"{TOP}/tests")
import case_files
from ended import status_of
COUNT = 60


def places_of(value, path=()):
    """The objects in a value, each by the way to it."""
    if isinstance(value, dict):
        yield path
    children = value.items() if isinstance(value, dict) else enumerate(value) if isinstance(value, list) else ()
    for key, child in children:
        yield from places_of(child, (*path, key))


def at(value, path):
    for key in path:
        value = value[key]
    return value


def turned(line):
    """The line without one of its keys, for each, and with one more, in each of its objects."""
    for path in places_of(line):
        for key in at(line, path):
            other = copy.deepcopy(line)
            del at(other, path)[key]
            yield f"without {'.'.join(map(str, (*path, key)))}", other
        other = copy.deepcopy(line)
        at(other, path)["more"] = 1
        yield f"with {'.'.join(map(str, (*path, 'more')))}", other


class Check:
    def __init__(self):
        with open(f"{TOP}/docs/audit.schema.json", encoding="utf-8") as file:
            schema = json.load(file)
        Draft202012Validator.check_schema(schema)
        self.validator = Draft202012Validator(schema)
        self.passed = self.failed = 0

    def look_at(self, name, line, is_valid):
        if self.validator.is_valid(line) == is_valid:
            self.passed += 1
        else:
            self.failed += 1
            print(f"{name}: {'refused' if is_valid else 'taken'}: {json.dumps(line)}")


def look_at_examples(check):
    for path in sorted(glob.glob(f"{TOP}/examples/faults/*.json")):
        with open(path, encoding="utf-8") as file:
            for number, text in enumerate(file, 1):
                name, line = f"{os.path.basename(path)}:{number}", json.loads(text)
                check.look_at(name, line, True)
                for how, other in turned(line):
                    # a travel's events may be there or not
                    if how != "without events":
                        check.look_at(f"{name} {how}", other, False)


def look_at_cases(check):
    for path in sorted(glob.glob(f"{TOP}/tests/cli/cases/audit_*.case")):
        lines = case_files.load(os.path.relpath(path, TOP)).get("stdout", b"").decode().splitlines()
        if lines and lines[0].startswith("{"):
            for text in lines:
                check.look_at(path, json.loads(text), True)


def main():
    check = Check()
    look_at_examples(check)
    look_at_cases(check)
    for number in range(int(sys.argv[1]) if len(sys.argv) > 1 else COUNT):
        with tempfile.TemporaryDirectory(prefix="mcaudit-schema-") as folder:
            random_domains.Made(number).write(folder)
            for words in filter(lambda it: "--json" in it, run.WORDS):
                for text in answers.audit([folder, *run.words_of(words, run.routers_of(folder), number)]).output().splitlines():
                    check.look_at(f"domain {number} {words}", json.loads(text), True)
    return status_of(check.passed, check.failed)


if __name__ == "__main__":
    sys.exit(main())
