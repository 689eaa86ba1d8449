#!/usr/bin/env python3
"""Builds the library of the crate in this folder as `rt lib` does, beside others that stand on the same libraries.

usage: python3 ../beside.py [--keep] WORD..    in the folder of a crate, with words for `rt lib`; it ends with the
                                               process that began it

A library of which no check has kept what it proved is built without its proofs: it has what others can cite of it, and
those that stand on it load only that, which takes each of them up to a minute less. Then nothing is kept, so that after
a change all of it is proved again. One of which something is kept, as `rt check` does, here or in another checkout on
this machine, is built over that, as `rt lib` does it; and with --keep each is, and keeps what it proves.

`rt` locks the folder of a crate and those of all libraries that it stands on against any other `rt`, so that it would
prove two libraries over a third one after the other. But it only reads those below, where they are built. So their
folders are locked here against whoever writes there, and not against others that read. An `rt` that is no script with
such a lock runs as it is.
"""
import ctypes
import fcntl
import importlib.machinery
import importlib.util
import os
import shutil
import signal
import sys

sys.dont_write_bytecode = True
SET_PDEATHSIG = 1  # of prctl(2): which signal the process gets when the one that began it ends


def load_rt():
    """Returns the script `rt` as a module."""
    file = shutil.which("rt")
    if not file:
        sys.exit(f"{os.path.basename(sys.argv[0])}: there is no rt")
    loader = importlib.machinery.SourceFileLoader("rt", os.path.realpath(file))
    module = importlib.util.module_from_spec(importlib.util.spec_from_loader("rt", loader))
    loader.exec_module(module)
    return module


def lock(crates):
    """Locks the folders of libraries as a reader does, and that of the crate above them, the last, against all.

    Returns what keeps them locked. They are taken in the order of their names, as in `rt`, so that no two wait for each
    other."""
    *below, own = crates
    held = []
    for crate in sorted(crates, key=lambda it: os.path.realpath(it.folder)):
        held.append(os.open(crate.folder, os.O_RDONLY))
        fcntl.flock(held[-1], fcntl.LOCK_EX if crate is own else fcntl.LOCK_SH)
    changed = [it.name for it in below if not it.is_built()]  # `rt` would build them, under a lock that isn't for that
    if changed:
        sys.exit(f"changed since it was proved: {', '.join(changed)}")
    return held


def leave_proofs_out(rtlib):
    """Has `rt` build a library without its proofs where nothing is kept of it."""
    build, keeps = rtlib.Crate.build_rlib, rtlib.libraries_keep
    can_leave_out = "--statements" in rtlib.help_of("build")

    def build_rlib(crate, flags, anew):
        leaves_out = can_leave_out and not crate.has_kept()
        rtlib.libraries_keep = lambda: keeps() and not leaves_out  # the prover does one or the other
        return build(crate, [*flags, "--statements"] if leaves_out else flags, anew)

    rtlib.Crate.build_rlib = build_rlib


def main():
    """Runs `rt lib`, and returns its status."""
    ctypes.CDLL(None).prctl(SET_PDEATHSIG, signal.SIGKILL)
    words = [it for it in sys.argv[1:] if it != "--keep"]
    try:
        rt = load_rt()
        rt.rtlib.lock, run = lock, rt.main
        if "--keep" not in sys.argv[1:]:
            leave_proofs_out(rt.rtlib)
    except (SyntaxError, ValueError, AttributeError):
        os.execlp("rt", "rt", "lib", *words)
    return run(["lib", *words])


if __name__ == "__main__":
    sys.exit(main())
