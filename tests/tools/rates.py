#!/usr/bin/env python3
"""Looks at the words of a rate, as mcaudit-draft writes them beside a flow: its number, and the unit chosen for it.

  python3 tests/tools/rates.py

The cases of draft/ leave the rates aside, since they hang on how long a machine took. The last line counts: `N passed,
M failed`. The status is 0 if none failed.
"""
import os
import sys

sys.dont_write_bytecode = True
HERE = os.path.dirname(os.path.abspath(__file__))
sys.path += [os.path.join(HERE, "..", "..", "tools"), os.path.join(HERE, "..")]
from ended import status_of  # noqa: E402 pylint: disable=wrong-import-position
from mcaudit_tools.draft.text import shown_rate  # noqa: E402 pylint: disable=wrong-import-position

RATES = (  # packets and bits a second, and their words
    (None, "rate not known"),
    ((0, 0), "0.0 packets/s, 0.0 bit/s"),
    ((0.25, 9.9), "0.2 packets/s, 9.9 bit/s"),
    ((1, 10), "1.0 packets/s, 10 bit/s"),
    ((9.5, 999), "9.5 packets/s, 999 bit/s"),
    ((10, 1000), "10 packets/s, 1.0 kbit/s"),
    ((12.4, 1024), "12 packets/s, 1.0 kbit/s"),
    ((150, 9_400), "150 packets/s, 9.4 kbit/s"),
    ((999, 999_000), "999 packets/s, 999 kbit/s"),
    ((1000, 1_000_000), "1000 packets/s, 1.0 Mbit/s"),
    ((1250, 1_500_000), "1250 packets/s, 1.5 Mbit/s"),
    ((100_000, 2_500_000_000), "100000 packets/s, 2500 Mbit/s"))


def main():
    """Looks at each rate. Returns the status."""
    failed = 0
    for rate, words in RATES:
        said = shown_rate(rate)
        if said != words:
            failed += 1
            print(f"failed: {rate} is {said!r}, not {words!r}")
    return status_of(len(RATES) - failed, failed)


if __name__ == "__main__":
    sys.exit(main())
