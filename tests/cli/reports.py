#!/usr/bin/env python3
"""Writes a list of reports, each of one record, in hexadecimal.

  python3 tests/cli/reports.py RECORD ..

A RECORD is `KIND:GROUP` and, behind it, sources, each after a comma. KIND is `in`, `ex` or a number, of a report of
version 3 (RFC 3376, section 4.2.12), or `v1` or `v2`, of an older one.
"""
import os
import sys

sys.dont_write_bytecode = True
sys.path.append(os.path.join(os.path.dirname(os.path.abspath(__file__)), "..", "audited"))
from random_domains import older_report_of, report_of

KINDS = {"in": 1, "ex": 2}
OLDER = {"v1": 0x12, "v2": 0x16}


def line_of(record):
    kind, _, rest = record.partition(":")
    group, *sources = rest.split(",")
    if kind in OLDER:
        return older_report_of(OLDER[kind], group)
    return report_of([(KINDS[kind] if kind in KINDS else int(kind), group, sources)])


if __name__ == "__main__":
    for word in sys.argv[1:]:
        print(line_of(word))
