#!/usr/bin/env python3
"""Names the sources of the crates that aren't laid out as `rt fmt` does it.

  python3 tests/house/layout.py          at the top of the repository

`rt ci` proves no crate with such a source, nor what stands on it: here that is known in seconds. It works on a copy, in
which `rt fmt` runs. Each line is `FILE: ..`. The last line counts the crates, `N passed, M failed`, and the status is 0 if
none failed and there was one.
"""
import filecmp
import glob
import os
import shutil
import subprocess
import sys
import tempfile
from concurrent.futures import ThreadPoolExecutor

TOP = os.path.realpath(os.path.join(os.path.dirname(os.path.abspath(__file__)), "..", ".."))
PASSED_OVER = shutil.ignore_patterns("out", "must-fail", "__pycache__")


def laid_out(room, crate):
    """What is wrong with the layout of a crate of the copy in `room`."""
    folder = os.path.join(room, "crates", crate)
    done = subprocess.run(["rt", "fmt"], cwd=folder, stdin=subprocess.DEVNULL, stdout=subprocess.PIPE,
                          stderr=subprocess.STDOUT, text=True, errors="replace", check=False)
    if done.returncode:
        return [f"crates/{crate}: rt fmt ends with status {done.returncode}: {done.stdout.strip()}"]
    sources = [os.path.relpath(it, room) for ending in ("rt", "antt")
               for it in sorted(glob.glob(f"{folder}/*/**/*.{ending}", recursive=True))]
    changed = [it for it in sources if not filecmp.cmp(os.path.join(room, it), os.path.join(TOP, it), shallow=False)]
    if not sources:
        return [f"crates/{crate}: no source"]
    return [f"{it}: run rt fmt in the crate's folder" for it in changed]


def main():
    """Prints what is wrong. Returns the status."""
    with tempfile.TemporaryDirectory(prefix="mcaudit-layout-") as room:
        shutil.copytree(os.path.join(TOP, "crates"), os.path.join(room, "crates"), ignore=PASSED_OVER)
        for name in ("crates.txt", "HANDLES"):
            shutil.copy(os.path.join(TOP, name), room)
        crates = sorted(os.path.basename(os.path.dirname(it)) for it in glob.glob(f"{room}/crates/*/src"))
        with ThreadPoolExecutor(len(os.sched_getaffinity(0))) as pool:
            wrong = list(pool.map(lambda it: laid_out(room, it), crates))
    print("".join(f"{line}\n" for it in wrong for line in it), end="")
    failed = sum(map(bool, wrong))
    print(f"{len(crates) - failed} passed, {failed} failed")
    return 1 if failed or not crates else 0


if __name__ == "__main__":
    sys.exit(main())
