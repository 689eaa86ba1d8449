#!/usr/bin/env python3
"""Proves the libraries that a crate stands on, each once those that it stands on itself are proved, some at once.

usage: prove.py [--jobs N] [--keep] CRATE      a crate of crates.txt

Each is proved by `rt lib` (beside.py), which knows by checksums what is proved already, and takes moments where nothing
has changed, in the library or below it. So a run that follows one that was ended goes on where that was. N libraries
are proved at once: if not given, as many as there are processors and 4 GB of free memory each, at most 4. Those above
which most is left to prove, one after the other, begin first, and those that are proved beside them have a lower
priority. A check has its share of the processors as jobs, at most 4 and one for 4 GB of free memory, and the one above
which most is left has as many as there may be. With --keep each keeps what it proves, so that after a change only what
it touches is proved again. One that keeps that, or did before, has at most 2 jobs: each loads all that it stands on.

A line says when a library is proved, and what that took. Where one isn't, what `rt` said of it follows on standard
error; then no other begins, those that have begun may end, and the status is 1.
"""
import argparse
import contextlib
import os
import signal
import subprocess
import sys
import tempfile
import time

HERE = os.path.dirname(os.path.abspath(__file__))
LIST = os.path.join(os.path.dirname(HERE), "crates.txt")
CORES = len(os.sched_getaffinity(0))
MOST = 4  # more gain nothing, since most libraries stand on one another
MOST_JOBS = 4  # of one check
MOST_KEEPING = 2  # of one that keeps what it proves
MEMORY_OF_CHECK = 4_000_000_000
NICER = 5  # how much lower the priority is beside each library above which more is left


def free_memory():
    """The bytes of memory that are free, under the limit of a control group too, where there is one."""
    with open("/proc/meminfo", encoding="ascii") as file:
        free = next(int(it.split()[1]) * 1024 for it in file if it.startswith("MemAvailable:"))
    group = "/sys/fs/cgroup/memory."
    with contextlib.suppress(OSError, ValueError):  # without a limit there is no number
        with open(f"{group}max", encoding="ascii") as most, open(f"{group}stat", encoding="ascii") as held:
            free = min(free, int(most.read()) - int(next(it for it in held if it.startswith("anon ")).split()[1]))
    return free


def checks_at_once(most=CORES):
    """How many checks may run at once: one a processor and as many as memory holds, but one in any case."""
    return max(1, min(most, CORES, free_memory() // MEMORY_OF_CHECK))


def most_jobs(keeps):
    """How many jobs memory holds of a check, which keeps what it proves or doesn't: at most as many as it may have."""
    return checks_at_once(MOST_KEEPING if keeps else MOST_JOBS)


def jobs_of(most, libraries, is_first):
    """How many jobs, of so many at the most, a check has where so many libraries are proved at once: its share of the
    processors, rounded up, but for the one above which most is left, which has as many as there may be."""
    return min(most, CORES if is_first else -(-CORES // libraries))


def stands_on():
    """The crates of crates.txt, each with those of them that it stands on."""
    with open(LIST, encoding="utf-8") as file:
        rows = [line.partition("#")[0].partition(":") for line in file]
    named = {head.split()[0]: below.split() for head, _, below in rows if head.split()}
    return {name: [it for it in below if it in named] for name, below in named.items()}


def libraries_of(crate, below):
    """The libraries that a crate stands on, and those that they stand on, each with these."""
    found, waiting = {}, [*below[crate]]
    while waiting:
        name = waiting.pop()
        if name not in found:
            found[name] = below[name]
            waiting += below[name]
    return found


def size_of(name):
    """The bytes of a library's files, but for those that a proof leaves."""
    size = 0
    for folder, folders, names in os.walk(os.path.join(HERE, name)):
        folders[:] = [it for it in folders if it != "out"]
        size += sum(os.lstat(os.path.join(folder, it)).st_size for it in names)
    return size


def in_order(libraries):
    """The names of libraries, first those above which most has to be proved one after the other."""
    above = {name: [it for it, below in libraries.items() if name in below] for name in libraries}
    lengths = {}

    def length(name):
        if name not in lengths:
            lengths[name] = 0  # (a ring ends here; nothing of it is ever begun)
            lengths[name] = size_of(name) + max(map(length, above[name]), default=0)
        return lengths[name]

    return sorted(libraries, key=lambda it: (-length(it), it))


class Run:
    """The libraries that are proved, those that are being proved, and the one that wasn't, if there is one."""

    def __init__(self, libraries, jobs, keeps):
        self.libraries, self.jobs, self.keeps = libraries, jobs, keeps
        self.most_jobs = {it: most_jobs(it) for it in (False, True)}  # by whether it keeps what it proves
        self.waiting, self.running = in_order(libraries), {}
        self.places = {name: place for place, name in enumerate(self.waiting)}
        self.proved, self.failed = set(), []

    def begin(self):
        """Begins with those that can be proved now, if none has failed."""
        can_begin = [it for it in self.waiting if self.proved.issuperset(self.libraries[it]) and not self.failed]
        at_once = min(self.jobs, len(self.running) + len(can_begin))
        for name in can_begin[:self.jobs - len(self.running)]:
            self.waiting.remove(name)
            said = tempfile.TemporaryFile()
            before = self.before(name)
            most = self.most_jobs[self.keeps or os.path.isdir(os.path.join(HERE, name, "out", "incremental"))]
            words = [sys.executable, os.path.join(HERE, "beside.py"), *["--keep"] * self.keeps]
            words += ["--jobs", str(jobs_of(most, at_once, before == 0))]
            how = {"cwd": os.path.join(HERE, name), "stdin": subprocess.DEVNULL}
            process = subprocess.Popen(words, stdout=said, stderr=subprocess.STDOUT, **how)
            os.setpriority(os.PRIO_PROCESS, process.pid, os.nice(0) + NICER * before)
            self.running[process.pid] = name, process, said, time.monotonic()

    def before(self, name):
        """How many are being proved above which more is left than above this one."""
        return sum(self.places[other] < self.places[name] for other, *_ in self.running.values())

    def end(self):
        """Waits until one has ended, and says how."""
        pid, status = os.wait()
        name, process, said, begun = self.running.pop(pid)
        process.returncode = os.waitstatus_to_exitcode(status)
        (self.failed.append if status else self.proved.add)(name)
        place = f"{len(self.proved) + len(self.failed)} of {len(self.libraries)}"
        print(f"{place}: {name} {'not ' if status else ''}proved ({time.monotonic() - begun:.0f} s)", flush=True)
        with said:
            if status:
                said.seek(0)
                sys.stderr.write(said.read().decode(errors="replace"))
                sys.stderr.flush()

    def whole(self):
        """Proves all, and returns the status."""
        self.begin()
        while self.running:
            self.end()
            self.begin()
        if self.failed:
            print(f"prove.py: not proved: {', '.join(self.failed)}; not begun: {len(self.waiting)}", file=sys.stderr)
        elif self.waiting:
            print(f"prove.py: these stand on one another: {', '.join(self.waiting)}", file=sys.stderr)
        return 1 if self.failed or self.waiting else 0


def main():
    """Reads the words, and returns the status."""
    parser = argparse.ArgumentParser(description="Proves the libraries that a crate stands on, some at once.")
    parser.add_argument("crate", help="a crate of crates.txt")
    parser.add_argument("--jobs", metavar="N", type=int, help="so many libraries at once")
    parser.add_argument("--keep", action="store_true", help="keep what is proved, for the next change")
    asked = parser.parse_args()
    below = stands_on()
    if asked.crate not in below:
        parser.error(f"crates.txt names no crate {asked.crate}")
    if asked.jobs is not None and asked.jobs < 1:
        parser.error("at least one library has to be proved at once")
    signal.signal(signal.SIGINT, signal.SIG_DFL)
    return Run(libraries_of(asked.crate, below), asked.jobs or checks_at_once(MOST), asked.keep).whole()


if __name__ == "__main__":
    sys.exit(main())
