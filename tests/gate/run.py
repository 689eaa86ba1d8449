#!/usr/bin/env python3
"""The gate: every proof from nothing, the tests, the programs, the edits that must fail, and the cases.

  python3 tests/gate/run.py [REPORT]

It works on a copy of the repository, in steps:

  packages  tests/packages.sh installs what of the file `packages` is missing; what can't be had ends the gate by name
  house     tests/house checks whether each thing is written once, whether something uses each lemma, whether the sources
            are laid out as `rt fmt` does it, and the subjects of the commits since the last release, where the clone has
            them
  proofs    `rt ci` proves each crate and its tests from nothing, runs the tests, and builds and runs the program
  edits     tests/edits/try.py tries the must-fail edits of the crates, many in one check: the prover must
            refuse each. It begins with a crate as soon as that is proved, beside the proofs that are left, which go
            first. (The copy that `rt ci` sees has none of them: it would try each in a check of its own.)
  cases     tests/prove tries how `make` proves; tests/docs checks whether what the documents name is there, and their
            words, and runs what README, the tour and the guide show; tests/cli has cases of the program that was built;
            tests/audited works out a second time what it answers for random domains, writes topologies and certificates
            in every form, and works out what changes make of the files; tests/refusals refuses it each request for
            memory, each read and each write in turn, and the tests about memory each growth; tests/swapped_set.py
            changes the link to a set while the set is read; tests/tools tries the tools

What of the last step watches no clock runs side by side, and then the link to a set and the tools, one after the other.

Where a package is missing or the proofs fail, it ends there. At the end stands what each step and each crate took in
processor time; with REPORT, a path, the same as a page in Markdown, and no proof that an earlier run passed on this
machine is taken over. The last line counts everything, `N passed, M failed`, and the status is 0 if nothing failed.
"""
import compileall
import contextlib
import os
import re
import shutil
import subprocess
import sys
import tempfile
import threading
import time
from concurrent.futures import ThreadPoolExecutor

sys.dont_write_bytecode = True
sys.path += [os.path.join(os.path.dirname(os.path.abspath(__file__)), "..", *it) for it in (("..", "crates"), ())]
from ended import status_of
from prove import CORES, checks_at_once, free_memory

MARK = "MCAUDIT_GATE"
TESTS = [f"crates/{name}/out/{name}_tests" for name in ("mc_tests_readers", "mc_tests_domain")]  # as `rt ci` builds them
TICK = os.sysconf("SC_CLK_TCK")
COUNTS = re.compile(r"(\d+) passed, (\d+) failed")
PROVED = re.compile(r"rt: (\w+) (?:proved|is kept: .*)\n")  # as `rt ci` says it of a crate
MEMORY_OF_EDIT = 3_000_000_000


class Prover:
    """What the prover took for each crate, seen by looking at its processes every half second.

    They are those with the mark in their environment."""

    def __init__(self, mark):
        self.used = {}
        self.mark = f"{MARK}={mark}".encode()
        self.is_over = False
        self.watch = threading.Thread(target=self.look_often, daemon=True)
        self.watch.start()

    def look_often(self):
        while not self.is_over:
            for process in os.listdir("/proc"):
                if process.isdigit():
                    self.look_at(process)
            time.sleep(0.5)

    def look_at(self, process):
        try:
            with open(f"/proc/{process}/cmdline", "rb") as file:
                words = file.read().decode(errors="replace").split("\0")
            if os.path.basename(words[0]) != "rattle" or "--crate-name" not in words:
                return
            with open(f"/proc/{process}/environ", "rb") as file:
                if self.mark not in file.read().split(b"\0"):
                    return
            with open(f"/proc/{process}/stat", encoding="utf-8") as file:
                fields = file.read().rpartition(")")[2].split()
        except OSError:
            return
        crate = words[words.index("--crate-name") + 1]
        part = "edits" if "--only" in words else "tests" if "--test" in words else "proof"
        self.used[process, fields[19]] = crate, part, (int(fields[11]) + int(fields[12])) / TICK

    def by_crate(self):
        """Returns for each crate what its proof, its edits and its tests took, in seconds."""
        self.is_over = True
        self.watch.join()
        found = {}
        for crate, part, seconds in self.used.values():
            parts = found.setdefault(crate, {"proof": 0.0, "edits": 0.0, "tests": 0.0})
            parts[part] += seconds
        return found


class Step:
    """A command of the gate while it runs: its lines, and what it took.

    `rt ci` runs so many checks beside each other as RT_JOBS says, each in one process: one that has four cores to
    itself ends hardly sooner where others wait for theirs, and takes half as much processor time again."""

    def __init__(self, name, words, room, **more):
        self.name, self.begun = name, time.monotonic()
        self.lines, self.counts = [], None
        marked = {"RT_JOBS": str(checks_at_once()), **os.environ, MARK: room, "PYTHONUNBUFFERED": "1"}
        how = {"stdin": subprocess.DEVNULL, "stdout": subprocess.PIPE, "text": True, "errors": "replace", **more}
        self.running = subprocess.Popen(words, cwd=room, env=marked, **how)

    def read(self, told):
        """Hands each line to `told` as it comes, and waits for the end. The last line that counts is taken."""
        for line in self.running.stdout:
            self.counts = COUNTS.fullmatch(line.strip()) or self.counts
            told(line)
        _, status, used = os.wait4(self.running.pid, 0)
        self.running.returncode = os.waitstatus_to_exitcode(status)
        self.seconds, self.minutes = used.ru_utime + used.ru_stime, (time.monotonic() - self.begun) / 60


def show(line):
    print(line, end="", flush=True)


class EditsBeside:
    """The edits, tried beside the proofs: those of a crate as soon as it is proved."""

    def __init__(self, room, homes):
        jobs = max(1, min(CORES // 2, (free_memory() - checks_at_once() * MEMORY_OF_EDIT) // MEMORY_OF_EDIT))
        words = ["nice", "-n", "10", sys.executable, "tests/edits/try.py", "--as-proved", homes, "--jobs", str(jobs)]
        self.step = Step("edits", words, room, stdin=subprocess.PIPE)
        self.lines = []
        self.reading = threading.Thread(target=self.step.read, args=(self.lines.append,), daemon=True)
        self.reading.start()

    def name_proved(self, line):
        """Shows a line of `rt ci`, and hands on the crate that it says is proved."""
        show(line)
        if found := PROVED.fullmatch(line):
            with contextlib.suppress(BrokenPipeError):  # its status says that it failed
                self.step.running.stdin.write(f"{found[1]}\n")
                self.step.running.stdin.flush()

    def stop(self):
        self.step.running.terminate()
        self.reading.join()

    def end(self):
        """Waits until all are tried."""
        with contextlib.suppress(BrokenPipeError):
            self.step.running.stdin.close()
        self.reading.join()
        return self.step, self.lines


class Gate:
    """The steps, what each took, and how many things passed and failed in them."""

    def __init__(self, room):
        self.room, self.steps, self.passed, self.failed = room, [], 0, 0

    def step(self, name, *words, told=show):
        """Runs a command in the copy, and hands its lines on. Without one that counts, it counts as one thing."""
        print(f"== {name}: {' '.join(words)}", flush=True)
        step = Step(name, words, self.room)
        step.read(told)
        self.add(step)

    def steps_beside(self, steps):
        """Runs commands in the copy beside one another, and shows the lines of each in one piece, in their order."""
        def run(name, words):
            step, lines = Step(name, words, self.room), []
            step.read(lines.append)
            return step, lines

        with ThreadPoolExecutor(CORES) as pool:
            for done in [pool.submit(run, name, words) for name, *words in steps]:
                step, lines = done.result()
                print(f"== {step.name}: {' '.join(step.running.args)}\n", *lines, sep="", end="", flush=True)
                self.add(step)

    def add(self, step):
        """Counts a step that has ended."""
        is_well = step.running.returncode == 0
        passed, failed = (int(step.counts[1]), int(step.counts[2])) if step.counts else (int(is_well), 0)
        self.passed += passed
        self.failed += failed or (0 if is_well else 1)
        self.steps.append((step.name, step.seconds, step.minutes))


def copy_repository(root, room):
    """Copies what git tracks or would track. Returns the folders of must-fail edits, which it leaves out."""
    words = ["git", "ls-files", "-z", "--cached", "--others", "--exclude-standard"]
    listed = subprocess.run(words, cwd=root, stdout=subprocess.PIPE, check=True).stdout.decode().split("\0")
    edits = []
    for path in sorted(set(filter(None, listed))):
        parts = path.split("/")
        if not os.path.lexists(f"{root}/{path}"):
            continue
        if parts[0] == "crates" and parts[2:3] == ["must-fail"]:
            edits.append(path)
            continue
        copy_file(root, room, path)
    return edits


def copy_file(root, room, path):
    os.makedirs(os.path.dirname(f"{room}/{path}") or room, exist_ok=True)
    shutil.copy2(f"{root}/{path}", f"{room}/{path}", follow_symlinks=False)


def keep_program(root, room, begun):
    """Leaves the program that was built and proved where `make` would, as old as the copy that it was built of."""
    there = f"{room}/crates/mcaudit/out/mcaudit"
    if os.path.isfile(there):
        os.makedirs(f"{root}/crates/mcaudit/out", exist_ok=True)
        shutil.copyfile(there, f"{root}/crates/mcaudit/out/mcaudit")
        os.chmod(f"{root}/crates/mcaudit/out/mcaudit", 0o755)
        os.utime(f"{root}/crates/mcaudit/out/mcaudit", (begun, begun))


def report(gate, crates, begun):
    """Returns what was measured, as a page in Markdown."""
    sum_of_steps = sum(it[1] for it in gate.steps)
    lines = ["# What the gate takes", ""]
    day = time.strftime("%Y-%m-%d", time.gmtime(begun))
    lines += [f"`make test` on {day}, {CORES} cores: {sum_of_steps:,.0f} processor-seconds in {(time.time() - begun) / 60:.0f} minutes. The edits run beside the proofs.", ""]
    lines += ["| Step | processor-seconds | minutes |", "|---|---|---|"]
    lines += [f"| {name} | {seconds:,.0f} | {minutes:.1f} |" for name, seconds, minutes in gate.steps]
    lines += ["", "Of these the prover, by crate, in processor-seconds:", "", "| Crate | proof | edits | tests |", "|---|---|---|---|"]
    rows = [(it, *(crates[it][part] for part in ("proof", "edits", "tests"))) for it in sorted(crates)]
    rows.append(("all", *(sum(row[at] for row in rows) for at in (1, 2, 3))))
    lines += [f"| {name} | {proof:,.0f} | {edits:,.0f} | {tests:,.0f} |" for name, proof, edits, tests in rows]
    return "\n".join(lines) + "\n"


def try_program(gate):
    """The steps over what was proved and built; without that they would show nothing."""
    program = "crates/mcaudit/out/mcaudit"
    # (each start of a tool would compile them again where Python is told to write no bytecode)
    compileall.compile_dir(f"{gate.room}/tools/mcaudit_tools", quiet=1)
    gate.steps_beside([
        ("the script for the edits", sys.executable, "tests/edits/try.py", "--selftest"),
        ("how make proves", sys.executable, "tests/prove/run.py"),
        ("what documents name", sys.executable, "tests/docs/check.py"),
        ("how documents read", sys.executable, "tests/docs/limits.py"),
        ("words of documents and tools", sys.executable, "tests/docs/prose.py"),
        ("clauses on the page of proofs", sys.executable, "tests/docs/proofs.py"),
        ("cases of the program", sys.executable, "tests/cases.py", "cli", program),
        ("tables of the program", sys.executable, "tests/cli/tables.py", program),
        ("what README and the tour show", sys.executable, "tests/docs/run_blocks.py", program),
        ("audits worked out a second time", sys.executable, "tests/audited/run.py", program),
        ("topologies in every form", sys.executable, "tests/audited/forms.py", program),
        ("certificates in odd forms", sys.executable, "tests/audited/certificate_forms.py", program),
        ("changes of random domains", sys.executable, "tests/audited/changed.py", program),
        ("plans carried out", sys.executable, "tests/audited/plans.py", program),
        ("the schema of audits", "/usr/bin/python3", "tests/audited/schema.py"),
        ("refusals of memory, reads and writes", sys.executable, "tests/refusals/run.py", program, *TESTS),
    ])
    gate.step("a set that is swapped while it is read", sys.executable, "tests/swapped_set.py", program)
    gate.step("cases of the tools", "sh", "tests/tools/run.sh")


def prove(gate, homes):
    """The proofs, and beside them the edits, which stand in `homes`. Returns whether all is proved."""
    beside = EditsBeside(gate.room, homes)
    anew = ["--anew"] if len(sys.argv) > 1 else []
    gate.step("proofs, tests and programs", "rt", "ci", *anew, told=beside.name_proved)
    if gate.failed:
        beside.stop()
        return False
    step, lines = beside.end()
    print("== edits, of which the last were tried after the proofs", flush=True)
    print(*lines, sep="", end="", flush=True)
    gate.add(step)
    return True


def main():
    root = os.path.dirname(os.path.dirname(os.path.dirname(os.path.abspath(__file__))))
    begun = time.time()
    with tempfile.TemporaryDirectory(prefix="mcaudit-gate-") as room, tempfile.TemporaryDirectory() as homes:
        os.chmod(room, 0o755)
        prover = Prover(room)
        edits = copy_repository(root, room)
        for path in edits:
            copy_file(root, homes, path)
        gate = Gate(room)
        gate.step("packages", "sh", "tests/packages.sh", "gate")
        gate.step("each thing once", "sh", "tests/house/check.sh", f"{homes}/crates")
        gate.step("layout of the sources", sys.executable, "tests/house/layout.py")
        gate.step("subjects of commits", sys.executable, "tests/house/subjects.py", root)
        if not gate.failed and prove(gate, homes):
            for path in edits:
                copy_file(root, room, path)
            try_program(gate)
        keep_program(root, room, begun)
    page = report(gate, prover.by_crate(), begun)
    print(page, end="")
    if len(sys.argv) > 1:
        with open(sys.argv[1], "w", encoding="utf-8") as file:
            file.write(page)
    return status_of(gate.passed, gate.failed)


if __name__ == "__main__":
    sys.exit(main())
