#!/usr/bin/env python3
"""Tries the tools with what hosts, routers, names and other runs may do to them: none of it may end in a false yes, in
a list that isn't the LAN's, in foreign code, in a wait without end, or in something lost.

  python3 tests/tools/hostile.py [CASE ...]

Each case is a function of one of the files hostile_*.py, and runs in a folder of its own. The last line counts: `N
passed, M failed`. The status is 0 if none failed.
"""
import glob
import importlib
import os
import sys

sys.dont_write_bytecode = True
HERE = os.path.dirname(os.path.abspath(__file__))
sys.path.insert(0, HERE)
from place import CASES, run_cases  # noqa: E402 pylint: disable=wrong-import-position

if __name__ == "__main__":
    for path in sorted(glob.glob(os.path.join(HERE, "hostile_*.py"))):
        importlib.import_module(os.path.basename(path).removesuffix(".py"))
    sys.exit(run_cases(CASES))
