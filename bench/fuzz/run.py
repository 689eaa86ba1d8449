#!/usr/bin/env python3
"""Fuzzes the built program with afl++, one command after the other, and says what was covered and found.

usage: run.py PROGRAM [--minutes N] [--only NAMES] [--write FILE] [--keep FOLDER]

The object file of which PROGRAM was linked, PROGRAM.o, is linked once more with its relocations, llvm-bolt puts a
counter onto each edge between its blocks, and server.c, loaded before it, runs it in forks for afl-fuzz, which begins
with the texts of seeds.py and the words of words.dict. It takes one core. What it finds is tried again by PROGRAM, and
what it kept of `audit` is held against a second implementation (compared.py).

--minutes  of all commands together (60), shared out by their weights; where this script is asked to end (SIGINT or
           SIGTERM), it tells what was done until then
--only     the names of targets, with commas between
--write    puts what was done behind the heading `What the last run did` of this file
--keep     leaves the findings in this folder, and beside each what PROGRAM read of it

The status is 1 where PROGRAM itself shows a finding, or the second implementation gives another answer.
"""
import argparse
import glob
import os
import shutil
import signal
import subprocess
import sys
import tempfile
import time
from typing import NamedTuple

sys.dont_write_bytecode = True
import compared
import covered
import seeds

HERE = os.path.dirname(os.path.abspath(__file__))
TOP = seeds.TOP
MEMORY = "/dev/shm"  # where files lie in memory
BOLT = "llvm-bolt-16"
FOLDER = "FOLDER"  # in a target's words, the folder that it reads
CRATES = {*os.listdir(f"{TOP}/crates"), "toml", "toml_parser", "toml_datetime", "serde_json", "json"}  # told apart
SLOW = 1000  # milliseconds after which a run counts as one that doesn't end
MOST_SHOWN = 40
HEADING = "## What the last run did\n"
QUIET = {"AFL_NO_UI": "1", "AFL_SKIP_CPUFREQ": "1", "AFL_NO_AFFINITY": "1", "AFL_SKIP_BIN_CHECK": "1",
         "AFL_I_DONT_CARE_ABOUT_MISSING_CRASHES": "1"}


class Target(NamedTuple):
    """A command that is fuzzed: its words, what an input is (server.c), the texts to begin with, its share of time."""

    words: str
    given_as: str
    texts: object
    weight: int


def certified():
    return seeds.domains(True)


def plain():
    return seeds.domains(False)


TARGETS = {
    "check": Target("check", "parts", certified, 6),
    "make": Target("make", "parts", plain, 4),
    "replay": Target("replay 1 64", "parts", plain, 4),
    "audit": Target("audit FOLDER --travel --unlisted", "folder", plain, 6),
    "without": Target("audit FOLDER --travel --json --without r1", "folder", plain, 4),
    "pack": Target("pack FOLDER --certificate", "folder", certified, 2),
    "wants": Target("wants 239.1.2.3 10.0.0.5", "reports", seeds.reports, 2),
    "framing": Target("check", "bytes", seeds.bundles, 2),
}


def call(*words):
    done = subprocess.run(words, stdout=subprocess.PIPE, stderr=subprocess.STDOUT, text=True, check=False)
    if done.returncode:
        sys.exit(f"{' '.join(words)}: {done.stdout[-2000:]}")


class Built:
    """The program, the program with counters, and the library that serves its runs."""

    def __init__(self, program, room):
        self.program, self.room = program, room
        self.counted, self.server = f"{room}/counted", f"{room}/server.so"
        rt = shutil.which("rt") or sys.exit("the kit's rt is not on the path")
        kit = os.path.dirname(os.path.dirname(os.path.realpath(rt)))
        if not os.path.isfile(f"{program}.o"):
            sys.exit(f"{program}.o, which `make` leaves, is not there")
        libraries = f"{kit}/c/libos_c.a", f"{kit}/c/liblibc_c.a"
        call("cc", "-pie", "-Wl,--emit-relocs", "-o", f"{room}/linked", f"{program}.o", *libraries)
        # (by the path that this name leads to it finds its own library)
        call(os.path.realpath(shutil.which(BOLT)), f"{room}/linked", "-o", self.counted, "-instrument",
             "-conservative-instrumentation", "-instrumentation-file=/dev/null")
        call("cc", "-O2", "-shared", "-fPIC", "-o", self.server, f"{HERE}/server.c", "-ldl")


class Run:
    """A run of afl-fuzz over one target, and what came of it."""

    def __init__(self, built, name):
        self.built, self.name, self.target = built, name, TARGETS[name]
        self.out, self.folder = f"{built.room}/{name}", f"{built.room}/{name}.folder"
        self.words = [self.folder if word == FOLDER else word for word in self.target.words.split()]
        self.told = {**os.environ, "FUZZ_AS": self.target.given_as}
        if FOLDER in self.target.words:
            os.mkdir(self.folder)
            self.told["FUZZ_FOLDER"] = self.folder
        self.texts = seeds.write(self.target.texts(), f"{self.out}.texts")
        self.seconds, self.said, self.compared = 0, {}, compared.Compared(0, 0, [])

    def go(self, seconds):
        """Fuzzes for so many seconds. Returns whether this process wasn't asked to end before."""
        words = ["nice", "-n", "10", "afl-fuzz", "-V", str(seconds), "-t", str(SLOW), "-m", "none"]
        words += ["-x", f"{HERE}/words.dict", "-i", f"{self.out}.texts", "-o", self.out, "--", self.built.counted]
        env = {**self.told, **QUIET, "AFL_PRELOAD": self.built.server}
        begun, is_whole = time.monotonic(), True
        with open(f"{self.out}.log", "wb") as log:
            running = subprocess.Popen(words + self.words, env=env, stdin=subprocess.DEVNULL, stdout=log, stderr=log)
            try:
                running.wait()
            except KeyboardInterrupt:
                running.send_signal(signal.SIGINT)
                running.wait()
                is_whole = False
        self.seconds = time.monotonic() - begun
        self.read_what_was_said()
        return is_whole

    def read_what_was_said(self):
        try:
            with open(f"{self.out}/default/fuzzer_stats", encoding="utf-8") as file:
                lines = [line.partition(":") for line in file]
        except OSError:
            with open(f"{self.out}.log", encoding="utf-8", errors="replace") as file:
                sys.exit(f"{self.name}: {file.read()[-2000:]}")
        self.said = {name.strip(): value.strip() for name, _, value in lines}

    def alone(self, path, keep=os.devnull):
        """Has the program itself run an input, as the server judges it, for a minute at the most; nothing if that isn't
        enough. What it read is left in the target's folder, or in the file `keep`."""
        env = {**self.told, "LD_PRELOAD": self.built.server, "FUZZ_KEEP": keep}
        with open(path, "rb") as given:
            try:
                return subprocess.run([self.built.program, *self.words], env=env, stdin=given, capture_output=True,
                                      timeout=60, check=False)
            except subprocess.TimeoutExpired:
                return None

    def findings(self):
        """Returns what afl-fuzz found, and what the second implementation answers otherwise."""
        paths = sorted(it for kind in ("crashes", "hangs") for it in glob.glob(f"{self.out}/default/{kind}/id*"))
        if self.target.words.startswith("audit"):
            self.compared = compared.compare(self)
        return [Finding(self, path) for path in paths] + [Finding(self, path, True) for path in self.compared.differing]

    def comparison(self):
        """Returns the line that says what the second implementation answers."""
        judged, worked_out, differing = self.compared
        return (f"- `{self.target.words}`: {judged:,} kept inputs have a verdict; of {worked_out:,} that it reads "
                f"`tests/audited/answers.py` gives {len(differing) or 'no'} other answer")

    def row(self):
        """Returns the row of a table that says what this run did."""
        found, of_all, executions = (int(self.said[it]) for it in ("edges_found", "total_edges", "execs_done"))
        return (f"| `{self.target.words}` | {self.target.given_as} | {self.texts} | {self.seconds / 60:.1f} | "
                f"{executions:,} | {executions / max(self.seconds, 1):,.0f} | {int(self.said['corpus_count']):,} | "
                f"{found:,} | {100 * found / of_all:.1f} % | "
                f"{self.said['saved_crashes']} | {self.said['saved_hangs']} |")


class Finding:
    """An input that afl-fuzz found or that has two answers, and what the program itself does with it."""

    def __init__(self, run, path, is_other=False):
        self.run, self.path = run, path
        kind = "other" if is_other else os.path.basename(os.path.dirname(path))
        self.name = f"{run.name}-{kind}-{os.path.basename(path).partition(',')[0].replace(':', '')}"
        self.input = f"{run.built.room}/{self.name}.input"
        begun = time.monotonic()
        done = run.alone(path, self.input)
        self.did, self.is_shown = "doesn't end in a minute", True
        if done is not None:
            end = (done.stdout or done.stderr).decode(errors="replace").strip().rpartition("\n")[2]
            self.did = f"status {done.returncode} in {time.monotonic() - begun:.1f} s, `{end[:80]}`"
            self.is_shown = is_other or done.returncode < 0

    def keep(self, folder):
        os.makedirs(folder, exist_ok=True)
        shutil.copyfile(self.path, f"{folder}/{self.name}")
        shutil.copyfile(self.input, f"{folder}/{self.name}.input")
        if os.path.isdir(self.run.folder):
            self.run.alone(self.path)
            shutil.copytree(self.run.folder, f"{folder}/{self.name}.folder", dirs_exist_ok=True)


def page_of(runs, findings):
    """Returns what the runs did, in Markdown."""
    with open("/proc/cpuinfo", encoding="ascii") as file:
        processor = next(line.partition(": ")[2].strip() for line in file if line.startswith("model name"))
    version = runs[0].said["afl_version"].lstrip("+")
    minutes = sum(run.seconds for run in runs) / 60
    lines = [f"{time.strftime('%Y-%m-%d')}, {processor}, one of {os.cpu_count()} processors; afl++ {version}; "
             f"{minutes:.0f} minutes; {int(runs[0].said['total_edges']):,} counters in the program.", ""]
    lines += ["| Command | Input | Texts | Minutes | Executions | A second | Kept | Edges | Of all | Crashes | Hangs |"]
    lines += ["|---|---|---:|---:|---:|---:|---:|---:|---:|---:|---:|", *(run.row() for run in runs), ""]
    lines += [run.comparison() for run in runs if run.compared.judged]
    shown = sorted(findings, key=lambda it: not it.is_shown)[:MOST_SHOWN]
    lines += [f"- {it.name}: the program itself: {it.did}{'' if it.is_shown else ', which is right'}" for it in shown]
    lines += [f"- and {len(findings) - MOST_SHOWN} more"] if len(findings) > MOST_SHOWN else []
    lines += [] if findings else ["- No crash, no hang and no wrong status was found."]
    maps = [f"{run.out}/default/fuzz_bitmap" for run in runs]
    lines += ["", "All together, where edges of lack of memory, and those of other arguments, can't be reached:", ""]
    lines += covered.table(runs[0].built.counted, maps, CRATES)
    return "\n".join(lines) + "\n"


def write(page, path):
    with open(path, encoding="utf-8") as file:
        before = file.read().partition(HEADING)[0]
    with open(path, "w", encoding="utf-8") as file:
        file.write(f"{before}{HEADING}\n{page}")


def end_early(number, frame):
    raise KeyboardInterrupt


def main():
    parser = argparse.ArgumentParser()
    parser.add_argument("program", metavar="PROGRAM")
    parser.add_argument("--minutes", type=float, default=60)
    parser.add_argument("--only", default=",".join(TARGETS))
    parser.add_argument("--write", metavar="FILE")
    parser.add_argument("--keep", metavar="FOLDER")
    words = parser.parse_args()
    call("sh", f"{TOP}/tests/packages.sh", "fuzz")
    signal.signal(signal.SIGTERM, end_early)
    names = words.only.split(",")
    weights = sum(TARGETS[name].weight for name in names)
    with tempfile.TemporaryDirectory(dir=MEMORY, prefix="mcaudit-fuzz-") as room:
        built, runs = Built(os.path.abspath(words.program), room), []
        for name in names:
            runs.append(Run(built, name))
            is_whole = runs[-1].go(int(words.minutes * 60 * TARGETS[name].weight / weights))
            print(runs[-1].row(), flush=True)
            if not is_whole:
                break
        findings = [it for run in runs for it in run.findings()]
        for finding in findings if words.keep else []:
            finding.keep(words.keep)
        page = page_of(runs, findings)
    print(page, end="")
    if words.write:
        write(page, words.write)
    return 1 if any(it.is_shown for it in findings) else 0


if __name__ == "__main__":
    sys.exit(main())
