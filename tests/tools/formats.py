#!/usr/bin/env python3
"""Compares audits of random domains with what format 1 said of the same domains, and format 2 before some of its keys
were added, as mcaudit-diff does, and as mcaudit-monitor reads them: nothing has changed, and no flow is wrong in one
and unknown in the other.

  python3 tests/tools/formats.py

What audits the domains is tests/audited/answers.py. The last line counts: `N passed, M failed`. The status is 0 if none
failed.
"""
import dataclasses
import io
import json
import os
import sys
import tempfile

sys.dont_write_bytecode = True
TOP = os.path.join(os.path.dirname(os.path.abspath(__file__)), "..", "..")
sys.path += [os.path.join(TOP, "tests"), os.path.join(TOP, "tests", "audited"), os.path.join(TOP, "tools")]
import answers  # noqa: E402 pylint: disable=wrong-import-position
import random_domains  # noqa: E402 pylint: disable=wrong-import-position
from ended import status_of  # noqa: E402 pylint: disable=wrong-import-position
from mcaudit_tools import audit, diff  # noqa: E402 pylint: disable=wrong-import-position
from mcaudit_tools.monitor.judged import judged_of  # noqa: E402 pylint: disable=wrong-import-position

DOMAINS = 400


def without_later_keys(text):
    """Returns what format 2 said before it had wants, what is behind a stray, and the finding at the flow's TTL."""
    lines = []
    for line in map(json.loads, text.splitlines()):
        for key in ("at_ttl", "behind"):
            line.pop(key, None)
        line.get("summary", {}).pop("asked", None)
        if not {"asked", "asked_more", "asked_services"} & set(line):
            lines.append(json.dumps(line) + "\n")
    return "".join(lines)


def as_format_1(text):
    """Returns what format 1 said in place of this answer."""
    found, lines = 0, []
    for line in map(json.loads, without_later_keys(text).splitlines()):
        if "domain" in line:
            line["format"] = 1
            line["domain"]["routers"] = [it["name"] for it in line["domain"]["routers"]]
        elif "finding" in line:
            found += 1
            line["right"] = False
            del line["wanted"], line["shown_from"]
        elif "summary" in line:
            counts = line["summary"]
            del counts["unknown"]
            counts.update(right=counts["flows"] - found, wrong=found)
        for one in line.get("entries", []):
            del one["from_vif"]
        for one in line.get("why", []):
            del one["text"]
        lines.append(json.dumps(line) + "\n")
    return "".join(lines)


def changes_of(folder, words):
    """Returns what has changed from each earlier format to now, and back. What a monitor reads counts as a change, but
    for what hosts ask for."""
    now = answers.audit([folder, "--json", "--unlisted", *words]).output()
    texts = [it.encode() for it in (now, without_later_keys(now), as_format_1(now))]
    new, *older = (diff.audit_of(audit.lines_of(io.BytesIO(it))) for it in texts)
    read, *other = (dataclasses.replace(it, counts={**it.counts, audit.ASKED: None}, wants=None)
                    for it in map(judged_of, texts))
    changes = [it for old in older for it in (*diff.all_changes(old, new), *diff.all_changes(new, old))]
    return [*changes, *(it for it in other if it != read), *diff.all_changes(new, new)]


def main():
    """Compares all. Returns the status."""
    failed = 0
    for number in range(DOMAINS):
        made = random_domains.Made(number)
        with tempfile.TemporaryDirectory(prefix="mcaudit-formats-") as folder:
            made.write(folder)
            changes = changes_of(folder, []) + changes_of(folder, ["--without", made.routers[0]])
        if changes:
            failed += 1
            print(f"domain {number}: {changes}")
    return status_of(DOMAINS - failed, failed)


if __name__ == "__main__":
    sys.exit(main())
