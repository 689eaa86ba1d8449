#!/usr/bin/env python3
"""Tries how `make` proves the libraries, by crates/prove.py, on trees of made-up crates and with a stand-in for `rt`,
the file rt beside this one.

  python3 tests/prove/run.py [NAME ..]      the cases with these names, if not all

The trees lie in a folder with spaces and signs of the shell in its name. The last line counts the cases: `N passed, M
failed`. The status is 0 if none failed and one was run.
"""
import os
import shutil
import signal
import subprocess
import sys
import tempfile
import time
import traceback
from unittest import mock

sys.dont_write_bytecode = True
HERE = os.path.dirname(os.path.abspath(__file__))
TOP = os.path.dirname(os.path.dirname(HERE))
sys.path += [f"{TOP}/crates", f"{TOP}/tests"]
import beside as beside_others  # noqa: E402 pylint: disable=wrong-import-position
import prove  # noqa: E402 pylint: disable=wrong-import-position
from ended import status_of  # noqa: E402 pylint: disable=wrong-import-position

PATIENCE = 60  # seconds that anything may take
QUICK = 10  # seconds that nothing to do may take, of which it needs less than one where nothing else runs
LIST = """# made up
mcaudit: run clap
run: left right alone kit_library
left: low
right: low
low:
alone: # on nothing
mc_tests_run: run
"""
CASES = []


def together(names, count):
    """Texts of so many of the crates with these names, of which each waits for all others of them to begin."""
    return {name: "".join(f"with {it}\n" for it in names[:count]) + "takes 0.3\n" for name in names[:count]}


def case(function):
    """Has a function tried, with an empty tree."""
    CASES.append(function)
    return function


class Tree:
    """A tree of made-up crates: a list as in crates.txt, and the texts of those that say more than nothing."""

    def __init__(self, top):
        self.top, self.log = top, f"{top}/log"
        os.makedirs(f"{top}/crates")
        for name in ("crates/prove.py", "crates/beside.py", "Makefile"):
            shutil.copy(f"{TOP}/{name}", f"{top}/{name}")
        unset = ("MAKEFLAGS", "MFLAGS", "MAKELEVEL", "JOBS")
        self.environment = {name: value for name, value in os.environ.items() if name not in unset}
        self.environment |= {"LOG": self.log, "PATH": f"{HERE}:{os.environ['PATH']}"}

    def make_crates(self, text, **texts):
        """Writes the list and the crates, with nothing that is proved."""
        for name in os.listdir(f"{self.top}/crates"):
            if os.path.isdir(f"{self.top}/crates/{name}"):
                shutil.rmtree(f"{self.top}/crates/{name}")
        self.write_file("crates.txt", text)
        for line in text.splitlines():
            name = line.partition("#")[0].partition(":")[0]
            if name:
                os.makedirs(f"{self.top}/crates/{name}/src")
                self.write(name, texts.get(name, ""))
        if os.path.isdir(f"{self.top}/crates/mcaudit"):
            self.write_file("crates/mcaudit/stdin")

    def write(self, name, text):
        """Writes the text of a crate anew."""
        self.write_file(f"crates/{name}/src/lib.rt", text)

    def write_file(self, path, text=""):
        """Writes a file of the tree."""
        with open(f"{self.top}/{path}", "w", encoding="utf-8") as file:
            file.write(text)

    def read_file(self, path):
        """The text of a file of the tree."""
        with open(f"{self.top}/{path}", encoding="utf-8") as file:
            return file.read()

    def begin(self, *words):
        """Begins a command at the top of the tree, with an empty log."""
        self.write_file("log")
        pipe = subprocess.PIPE
        return subprocess.Popen(words, cwd=self.top, env=self.environment, stdout=pipe, stderr=pipe, text=True)

    def run(self, *words):
        """Runs a command at the top of the tree. Returns its status and what it writes."""
        with self.begin(*words) as process:
            output, errors = process.communicate(timeout=PATIENCE)
        return process.returncode, output, errors

    def prove(self, jobs, crate="mcaudit"):
        """Proves what a crate stands on."""
        return self.run(sys.executable, "crates/prove.py", "--jobs", str(jobs), crate)

    def lines(self):
        """The lines of the log."""
        return self.read_file("log").splitlines()

    def proved(self):
        """The crates that were proved in the last run, and none was begun in vain."""
        begun, ended = ([it.split()[1] for it in self.lines() if it.startswith(word)] for word in ("begin", "end"))
        assert sorted(begun) == sorted(ended), self.lines()
        return sorted(begun)

    def most_at_once(self):
        """How many were being proved at once, at the most."""
        most = count = 0
        for line in self.lines():
            count += 1 if line.startswith("begin") else -1
            most = max(most, count)
        return most

    def words(self, name):
        """The words that the prover had for a library."""
        return self.read_file(f"crates/{name}/out/words").split()

    def jobs(self, name):
        """How many jobs the proof of a library had."""
        words = self.words(name)
        return int(words[words.index("--jobs") + 1])

    def keeps(self, name):
        """Whether what is proved of a library is kept; if not, its proofs are left out of what is built."""
        words = self.words(name)
        assert ("--incremental" in words) != ("--statements" in words), words
        return "--incremental" in words

    def wait_for(self, line):
        """Waits until a line is in the log."""
        until = time.monotonic() + PATIENCE
        while line not in self.lines():
            assert time.monotonic() < until, (line, self.lines())
            time.sleep(0.02)

    def has_ended(self, name):
        """Waits until nobody works in a crate's folder."""
        words = ["flock", "--timeout", "20", f"{self.top}/crates/{name}", "true"]
        subprocess.run(words, check=True)


@case
def levels(tree):
    """Each library is proved once those that it stands on are, and neither the program nor what only tests."""
    tree.make_crates(LIST, low="takes 0.2", left="takes 0.1")
    status, output, errors = tree.prove(3)
    assert (status, errors) == (0, ""), errors
    lines = tree.lines()
    for name, below in {"run": ["left", "right", "alone"], "left": ["low"], "right": ["low"]}.items():
        for other in below:
            assert lines.index(f"end {other}") < lines.index(f"begin {name}"), lines
    assert tree.proved() == ["alone", "left", "low", "right", "run"]
    ended = [line.split()[1] for line in lines if line.startswith("end")]
    told = [line.split() for line in output.splitlines()]
    assert sorted(words[3] for words in told) == sorted(ended), output
    assert [words[:3] + words[4:5] for words in told] == [[f"{n}", "of", "5:", "proved"] for n in range(1, 6)], output
    assert told[-1][3] == "run" and all(int(words[5].strip("(")) < PATIENCE for words in told), output


@case
def beside(tree):
    """Two that stand on the same library are proved at once: each of them waits for the other one to begin."""
    tree.make_crates(LIST, left="with right", right="with left")
    assert tree.prove(2)[0] == 0 and tree.most_at_once() == 2, tree.lines()


@case
def limit(tree):
    """No more are proved at once than asked for, also where more could be."""
    names = [f"side_{n}" for n in range(6)]
    text = f"top: {' '.join(names)}\nlow:\n" + "".join(f"{name}: low\n" for name in names)
    for jobs in (1, 2, 4):
        tree.make_crates(text, **(dict.fromkeys(names, "takes 0.3") | together(names, jobs)))
        assert tree.prove(jobs, "top")[0] == 0 and tree.most_at_once() == jobs, tree.lines()
        assert tree.proved() == ["low", *names]


@case
def longest(tree):
    """Of those that can be proved, one begins first above which most is left."""
    tree.make_crates("top: short far\nfar: near\nnear:\nshort:\n", short="x" * 50, near="x" * 30, far="x" * 30)
    assert tree.prove(1, "top")[0] == 0, tree.lines()
    assert [it for it in tree.lines() if it.startswith("begin")] == ["begin near", "begin short", "begin far"]


@case
def priority(tree):
    """Those that are proved beside one above which more is left have a lower priority, each a lower one."""
    texts = {"far": "x", "near": "with small", "short": f"with small\n{'x' * 20}", "small": "takes 0.1"}
    tree.make_crates("top: far short small\nfar: near\nnear:\nshort:\nsmall:\n", **texts)
    assert tree.prove(3, "top")[0] == 0, tree.lines()
    nice = [int(tree.read_file(f"crates/{name}/out/nice")) - os.nice(0) for name in ("short", "near", "small")]
    assert nice == [0, 5, 10], nice


@case
def share(tree):
    """A check has two jobs where the processors do for that, by how many run beside it and begin with it, or where most
    is left above it."""
    for jobs, shares in {1: (1, 1, 1), 2: (1, 2, 2), 4: (1, 3, 3)}.items():
        tree.make_crates("top: one two three\none: low\ntwo: low\nthree: low\nlow:\n", **{"one": f"takes 0.{jobs}"})
        assert tree.prove(jobs, "top")[0] == 0, tree.lines()
        for name, count in zip(("low", "one", "two"), shares):
            assert tree.jobs(name) == prove.jobs_of(prove.most_jobs(False), count, name != "two"), (jobs, name)
    # processors, GB of memory and libraries, and the jobs of the first, of another, and of these where they keep
    wanted = {(1, 24, 1): (1, 1, 1, 1), (2, 24, 2): (2, 1, 2, 1), (4, 24, 3): (4, 2, 2, 2), (4, 24, 4): (4, 1, 2, 1)}
    wanted |= {(64, 24, 4): (4, 4, 2, 2), (4, 9, 1): (2, 2, 2, 2), (4, 3, 1): (1, 1, 1, 1)}
    for (cores, memory, count), jobs in wanted.items():
        free = mock.patch.object(prove, "free_memory", lambda it=memory: it * 10**9)
        with free, mock.patch.object(prove, "CORES", cores):
            most = prove.most_jobs(False), prove.most_jobs(True)
            found = [prove.jobs_of(it, count, is_first) for it in most for is_first in (True, False)]
            assert found == [*jobs], (cores, memory, count, found)


@case
def keeping(tree):
    """A library is built without its proofs, but where something of it is kept, or what is proved shall be. Then it has
    fewer jobs, also where most is left above it."""
    tree.make_crates(LIST, low="x" * 50)
    os.makedirs(f"{tree.top}/crates/low/out/incremental")
    names = ("low", "left", "right", "alone", "run")
    assert tree.prove(2)[0] == 0 and [it for it in names if tree.keeps(it)] == ["low"]
    assert tree.jobs("low") == prove.most_jobs(True)
    assert tree.run("make", "-j2", "KEEP_PROOFS=1")[0] == 0 and tree.proved() == ["mcaudit"], tree.lines()
    for name in ("low", "alone"):
        tree.write(name, "takes 0")
    status, _, errors = tree.run("make", "-j2", "KEEP_PROOFS=1")
    assert status == 0 and tree.proved() == ["alone", "left", "low", "mcaudit", "right", "run"], errors
    assert tree.jobs("low") == prove.most_jobs(True) and all(tree.keeps(it) for it in names)
    tree.write("low", "takes 0.1")
    assert tree.prove(2)[0] == 0 and [it for it in names if tree.keeps(it)] == [*names]


@case
def failure(tree):
    """One that isn't proved is named, with what was said of it; what has begun may end, and nothing else begins."""
    text = "top: over later\nover: wrong\nlater: slow\nwrong:\nslow:\n"
    tree.make_crates(text, wrong="with slow\nwrong", slow="with wrong\ntakes 0.5")
    status, output, errors = tree.prove(2, "top")
    told = [line.partition(" (")[0] for line in output.splitlines()]
    assert status == 1 and told == ["1 of 4: wrong not proved", "2 of 4: slow proved"], output
    assert "fn wrong::wrong: it is not proved that the answer is 42\n" in errors, errors
    assert errors.endswith("prove.py: not proved: wrong; not begun: 2\n"), errors
    assert sorted(tree.lines()) == ["begin slow", "begin wrong", "end slow"]
    tree.write("wrong", "takes 0")
    assert tree.prove(2, "top")[0] == 0 and tree.proved() == ["later", "over", "wrong"], tree.lines()


@case
def killed(tree):
    """What is being proved ends with a run that is killed, and is proved by the next one; what was proved stays so."""
    for number in (signal.SIGKILL, signal.SIGTERM, signal.SIGINT):
        tree.make_crates(LIST, left=f"until go\n{number}", low=f"{number}", right="", run="", alone="")
        with tree.begin(sys.executable, "crates/prove.py", "--jobs", "2", "mcaudit") as process:
            tree.wait_for("begin left")
            tree.wait_for("end right")
            process.send_signal(number)
            process.communicate(timeout=PATIENCE)
        assert process.returncode == -number
        tree.has_ended("left")
        tree.write_file("go")
        assert "end left" not in tree.lines() and not os.path.exists(f"{tree.top}/crates/left/out/stamp"), tree.lines()
        assert tree.prove(2)[0] == 0 and tree.proved() == ["left", "run"], tree.lines()
        os.remove(f"{tree.top}/go")


@case
def changed(tree):
    """A change has the library and all above it proved again, and nothing else; where nothing changed, all is quick."""
    tree.make_crates(LIST)
    assert tree.prove(2)[0] == 0
    for name, above in {"low": ["left", "low", "right", "run"], "left": ["left", "run"], "run": ["run"]}.items():
        begun = time.monotonic()
        status, output, _ = tree.prove(2)
        assert status == 0 and tree.proved() == [] and time.monotonic() - begun < QUICK
        assert len(output.splitlines()) == 5, output
        tree.write(name, "takes 0")
        assert tree.prove(2)[0] == 0 and tree.proved() == above, tree.lines()


@case
def meanwhile(tree):
    """What changes while others are proved ends those above it that begin later, and is proved by the next run."""
    tree.make_crates("top: over\nover: low slow\nlow:\nslow:\n", slow="until go")
    with tree.begin(sys.executable, "crates/prove.py", "--jobs", "2", "top") as process:
        tree.wait_for("end low")
        tree.write("low", "takes 0")
        tree.write_file("go")
        _, errors = process.communicate(timeout=PATIENCE)
    assert process.returncode == 1 and "changed since it was proved: low\n" in errors, errors
    assert tree.proved() == ["low", "slow"], tree.lines()
    assert tree.prove(2, "top")[0] == 0 and tree.proved() == ["low", "over"], tree.lines()


@case
def ring(tree):
    """Libraries that stand on one another are named, and a crate that isn't there is."""
    tree.make_crates("top: one\none: two\ntwo: one low\nlow:\n")
    status, _, errors = tree.prove(2, "top")
    assert status == 1 and "stand on one another: " in errors and "one" in errors and "two" in errors, errors
    status, _, errors = tree.prove(2, "bottom")
    assert status == 2 and "crates.txt names no crate bottom" in errors, errors


@case
def other_rt(tree):
    """An `rt` that is no script of Python proves all the same; where there is none, that is said."""
    tree.make_crates(LIST)
    os.mkdir(f"{tree.top}/bin")
    tree.write_file("bin/rt", f'#!/bin/sh\nexec "{HERE}/rt" "$@"\n')
    os.chmod(f"{tree.top}/bin/rt", 0o755)
    tree.environment["PATH"] = f"{tree.top}/bin:{os.environ['PATH']}"
    assert tree.prove(2)[0] == 0 and len(tree.proved()) == 5, tree.lines()
    tree.environment["PATH"] = "/nowhere"
    status, output, errors = tree.prove(2)
    assert status == 1 and "not proved" in output and "there is no rt" in errors, (output, errors)


@case
def kit(_):
    """The kit's own `rt lib` asks for its lock, and whether the prover keeps something, where beside.py answers."""
    rt = beside_others.load_rt()
    assert "lock" in rt.rtlib.one.__code__.co_names and callable(rt.rtlib.lock) and callable(rt.main)
    asked = rt.rtlib.Crate.build_rlib.__code__.co_names
    assert "libraries_keep" in asked and rt.rtlib.libraries_keep() and callable(rt.rtlib.Crate.has_kept), asked
    assert "--statements" in rt.rtlib.help_of("build")


@case
def many(_):
    """How many are proved at once, by the processors and the memory that are free."""
    wanted = {(1, 64): 1, (4, 3): 1, (4, 7): 1, (4, 9): 2, (2, 24): 2, (4, 24): 4, (64, 200): 4}
    for (cores, memory), count in wanted.items():
        free = mock.patch.object(prove, "free_memory", lambda it=memory: it * 10**9)
        with free, mock.patch.object(prove, "CORES", cores):
            assert prove.checks_at_once(prove.MOST) == count, (cores, memory)
    assert 10**8 < prove.free_memory() < 10**14


@case
def made(tree):
    """`make` builds the program: so many at once as -j or JOBS says, also below another make; nothing twice."""
    names = [f"side_{n}" for n in range(4)]
    text = f"mcaudit: {' '.join(names)}\n" + "".join(f"{name}:\n" for name in names)
    tree.make_crates(text)
    tree.write_file("above.mk", "all:\n\t$(MAKE) -C .\n")
    ways = {"-j1": 1, "-j2": 2, "-j3": 3, "JOBS=1": 1, "JOBS=2": 2, "-f above.mk -j2": 2, "-f above.mk JOBS=3": 3}
    for way, count in ways.items():
        for name, crate_text in (dict.fromkeys(names, "takes 0.3\n") | together(names, count)).items():
            tree.write(name, f"{crate_text}{way}")
        status, output, errors = tree.run("make", *way.split())
        assert status == 0 and not errors and tree.most_at_once() == count, (way, output, errors, tree.lines())
        assert tree.proved() == ["mcaudit", *names] and "4 of 4: " in output, output
        assert os.access(f"{tree.top}/crates/mcaudit/out/mcaudit", os.X_OK)
        assert tree.run("make", *way.split())[0] == 0 and tree.proved() == []
    tree.write("side_0", "takes 0")
    status, output, errors = tree.run("make", "-j")
    assert status == 0 and tree.proved() == ["mcaudit", "side_0"], (output, errors)


@case
def made_wrong(tree):
    """Where a library isn't proved, or `make` is ended, there is no program, also not one of before."""
    tree.make_crates(LIST)
    assert tree.run("make")[0] == 0 and tree.proved() == ["alone", "left", "low", "mcaudit", "right", "run"]
    tree.write("left", "wrong")
    status, output, errors = tree.run("make", "-j1")  # beside another one, what has begun by then hangs on the clock
    assert status == 2 and "left not proved" in output and "prove.py: not proved: left; not begun: 3" in errors, errors
    status, output, errors = tree.run("make", "-j2")
    assert status == 2 and "left not proved" in output and "begin run" not in tree.lines(), (errors, tree.lines())
    assert "prove.py: not proved: left; not begun: " in errors, errors
    assert not os.path.exists(f"{tree.top}/crates/mcaudit/out/mcaudit")
    tree.write("left", "until go")
    with tree.begin("make") as process:
        tree.wait_for("begin left")
        process.terminate()
        process.communicate(timeout=PATIENCE)
    assert process.returncode != 0
    tree.has_ended("left")
    assert not os.path.exists(f"{tree.top}/crates/mcaudit/out/mcaudit") and "end left" not in tree.lines()
    tree.write("left", "takes 0")
    assert tree.run("make")[0] == 0 and tree.proved() == ["left", "mcaudit", "run"], tree.lines()


def main():
    """Tries the cases, and returns the status."""
    passed = failed = 0
    for function in [it for it in CASES if it.__name__ in sys.argv[1:] or not sys.argv[1:]]:
        with tempfile.TemporaryDirectory() as room:
            try:
                function(Tree(f"{room}/a tree; it's $HOME"))
                passed += 1
            except (AssertionError, OSError, LookupError, ValueError, subprocess.SubprocessError):
                failed += 1
                print(f"failed: {function.__name__}\n{traceback.format_exc()}")
    return status_of(passed, failed)


if __name__ == "__main__":
    sys.exit(main())
