"""Holds what the program says of the domains that afl-fuzz kept against what tests/audited/answers.py says of them."""
import glob
import sys
from typing import NamedTuple

import seeds

sys.path.append(f"{seeds.TOP}/tests/audited")
import answers


class Compared(NamedTuple):
    """How many audits ended with a verdict, of how many answers.py reads the files, and inputs with another answer."""

    judged: int
    worked_out: int
    differing: list


def said_otherwise(words, done):
    """Whether answers.py gives another answer than the run; nothing where it can't read the files.

    It is for files that tomllib takes: the program also takes what TOML 1.1 has beside TOML 1.0."""
    try:
        wanted = answers.audit(words)
    except Exception:
        return None
    return (wanted.status, wanted.output()) != (done.returncode, done.stdout.decode("latin-1"))


def compare(run):
    """Has the program and answers.py audit what was kept of a run of `audit`."""
    judged, worked_out, differing = 0, 0, []
    for path in sorted(glob.glob(f"{run.out}/default/queue/id*")):
        done = run.alone(path)
        if done is None or done.returncode not in (0, 1):
            continue
        judged += 1
        is_other = said_otherwise(run.words[1:], done)
        worked_out += is_other is not None
        differing += [path] if is_other else []
    return Compared(judged, worked_out, differing)
