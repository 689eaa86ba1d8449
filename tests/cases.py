"""Runs the cases of tests/cli or tests/tools. case_files.py describes their files.

  python3 tests/cases.py cli PROGRAM [--jobs N] [CASE ...]    cases of the built program
  python3 tests/cases.py tools [--jobs N] [CASE ...]          cases of the tools, CASE as in collect/unreachable

A case of a tool runs in its own folder, with the system's python3 and with the one on the PATH, where sh on the
routers is dash; collect and reports also run with bash, and with busybox and its commands; and tools that need no
Python that reads TOML also run with python3.9 or python3.10, if it is on the PATH. The stand-ins in
tests/tools/commands replace ssh, tcpdump and what else reaches a router. The program is crates/mcaudit/out/mcaudit, or
the value of PROGRAM. Each process whose id a stand-in writes to the file `pids` must end with the tool, and no case may
take 120 s.

The last line counts: N passed, M failed. The status is 0 if none failed and at least one ran.
"""
import argparse
import concurrent.futures
import contextlib
import difflib
import fcntl
import glob
import itertools
import os
import re
import shutil
import stat
import subprocess
import sys
import tempfile
import time

sys.dont_write_bytecode = True
from case_files import CLI, TOOLS, TOP, Fault, lines_of, load_known  # noqa: E402
from ended import status_of  # noqa: E402
from case_files import make_links, read, value_of, without_times, write, write_folder  # noqa: E402

PROGRAM = os.environ.get("PROGRAM", f"{TOP}/crates/mcaudit/out/mcaudit")
ASKING = ("collect", "reports")  # the tools that need only a shell on the routers
OLD = ("collect", "diff", "monitor", "page", "plan", "premises", "query", "reports", "try")  # run with a Python of 3.9
NO_TOML = b"a topology is read by python3 of 3.11 or later"
ALL = (*ASKING, "diff", "draft", "monitor", "page", "plan", "premises", "query", "site", "try")
APPLETS = ("cp date grep ln ls mkdir mkfifo mktemp mv od readlink rm rmdir sed setsid sh sleep sync tail timeout tr "
           "wc").split()
FIRST = "20260101T000000Z"  # the set that exists at first
PATIENCE = 120  # seconds
MOST_LINES = 200  # printed of one difference


def shown(data):
    """Returns bytes as text."""
    return data.decode(errors="backslashreplace")


def differences(name, expected, actual):
    """Yields a line for each difference between two texts."""
    if expected != actual:
        yield f"{name} differs:"
        texts = [shown(text).splitlines(True) for text in (expected, actual)]
        for line in itertools.islice(difflib.unified_diff(*texts, "expected", "actual", n=1), MOST_LINES):
            yield line.removesuffix("\n") + ("" if line.endswith("\n") else " (no line feed)")


def output_differences(texts, name, actual, in_order=True):
    """Yields a line for each difference between an output and the sections about it."""
    has, both = f"{name}.has", [texts.get(name, b""), actual]
    if has not in texts:
        yield from differences(name, *(both if in_order else (b"\n".join(sorted(it.split(b"\n"))) for it in both)))
    elif not lines_of(texts, has):
        yield f"{has} is empty"
    for text in lines_of(texts, has):
        if not any(text in line for line in actual.split(b"\n")):
            yield f"no {shown(text)!r} in {name}:\n{shown(actual)}"


def status_differences(texts, status):
    """Yields a line if the status is not the expected one. Signals count as in a shell."""
    status = status if status >= 0 else 128 - status
    if status != int(value_of(texts, "status", "0")):
        yield f"status {status}, not {value_of(texts, 'status', '0')}"


def run_program(texts, program, words, room):
    """Runs the program with the input and the limits of the case. Returns its status."""
    limits = "".join(f"ulimit -{letter} {value_of(texts, name)} && "
                     for name, letter in (("memory", "v"), ("stack", "s"), ("seconds", "t")) if name in texts)
    command = ["sh", "-c", limits + 'exec "$@"', "sh", program, *words]
    with contextlib.ExitStack() as stack:
        def opened(path, how):
            """Opens a path, perhaps of a folder or a device."""
            number = os.open(os.path.join(TOP, path), how, 0o644)
            stack.callback(os.close, number)
            return number
        anew = os.O_WRONLY | os.O_CREAT | os.O_TRUNC
        outputs = {"stdout": opened(value_of(texts, "stdout.path", f"{room}/stdout"), anew),
                   "stderr": opened(f"{room}/stderr", anew)}
        if "stdin.pipe" in texts:
            with subprocess.Popen(["sh", write(texts, "stdin.pipe", room)], cwd=TOP, stdout=subprocess.PIPE) as writer:
                with subprocess.Popen(command, cwd=TOP, stdin=writer.stdout, **outputs) as process:
                    writer.stdout.close()
            return process.returncode
        path = value_of(texts, "stdin.path") if "stdin.path" in texts else write(texts, "stdin", room)
        return subprocess.run(command, cwd=TOP, stdin=opened(path, os.O_RDONLY), **outputs, check=False).returncode


def run_cli(path, program, room):
    """Runs a case of the program. Yields a line for each difference."""
    texts, folder = load_known(path, CLI), f"{room}/folder"
    os.makedirs(folder)
    has_folder = write_folder(texts, "folder", folder) or "links" in texts or "folder.sh" in texts
    make_links(texts, folder)
    if "folder.sh" in texts:
        subprocess.run(["sh", write(texts, "folder.sh", room), folder], cwd=TOP, stdin=subprocess.DEVNULL, check=True)
    words = [folder if has_folder and word == b"FOLDER" else word for word in lines_of(texts, "args")]
    yield from status_differences(texts, run_program(texts, program, words, room))
    if "stdout.path" not in texts:
        yield from output_differences(texts, "stdout", read(f"{room}/stdout"))
    yield from output_differences(texts, "stderr", read(f"{room}/stderr"))


def text_in(path):
    """Returns the text of what lies in a folder that is compared: of a link where it leads, which may have no end, as
    may what is no regular file."""
    kind = os.lstat(path).st_mode
    if stat.S_ISLNK(kind):
        return f"link to {os.readlink(path)}\n".encode()
    if not stat.S_ISREG(kind):
        raise Fault(f"{path} is not a regular file")
    return read(path)


def folder_differences(texts, name, folder, is_new=False):
    """Yields a line for each difference between a folder and the sections under a name. In a new one, times are
    replaced, and locks and the notes on the set before are left out."""
    wanted = {it.removeprefix(f"{name}/"): text for it, text in texts.items() if it.startswith(f"{name}/")}
    for it in list(wanted):
        wanted.update({it[:at.start()] + "/": b"" for at in re.finditer("/", it)})
    found = {}
    for root, folders, files in os.walk(folder):
        inside = os.path.relpath(root, folder) + "/" if root != folder else ""
        links = [it for it in folders if os.path.islink(f"{root}/{it}")]
        found.update({f"{inside}{it}/": b"" for it in folders if it not in links})
        for it in files + links:
            if not is_new or not (it.endswith(".write.lock") or it == ".carried"):
                text = text_in(f"{root}/{it}")
                has_times = is_new and it in ("collected.json", "topology")
                found[inside + it] = without_times(text) if has_times else text
    for it in sorted(wanted.keys() ^ found.keys()):
        yield f"there is {'no' if it in wanted else 'a'} {folder}/{it}"
    for it in sorted(wanted.keys() & found.keys()):
        yield from differences(f"{name}/{it}", wanted[it], found[it])


class ToolCase:
    """A case of a tool, in its own folder."""

    def __init__(self, name, path, way, room):
        self.kind, self.texts, self.room = name.split("/")[0], load_known(path, TOOLS), room
        self.python, self.commands = way
        self.place = f"{room}/place"
        self.site = f"{self.place}/{'disk/' * ('disk.size' in self.texts)}site"

    def has(self, folder):
        """Whether there are sections under this name."""
        return any(it.startswith(f"{folder}/") for it in self.texts)

    def value(self, name, otherwise=""):
        """The line of a section with only one."""
        return value_of(self.texts, name, otherwise)

    def prepare(self):
        """Creates the folder in which the tool runs."""
        disk = f"{self.place}/disk"
        os.makedirs(disk)
        if "disk.size" in self.texts:
            subprocess.run(["mount", "-t", "tmpfs", "-o", f"size={self.value('disk.size')}", "tmpfs", disk], check=True)
        write_folder(self.texts, "routers", f"{self.place}/routers")
        write_folder(self.texts, "place", self.place)
        make_links(self.texts, self.place)
        if not write_folder(self.texts, "plain", self.site) and self.has("before"):
            write_folder(self.texts, "before", f"{self.site}.sets/{FIRST}")
            os.symlink(f"site.sets/{FIRST}", self.site)
        for line in lines_of(self.texts, "times"):
            name, written = line.decode().split()
            subprocess.run(["touch", "-t", written, name], cwd=self.place, env={**os.environ, "TZ": "UTC0"}, check=True)
        if "disk.size" in self.texts:
            subprocess.run(["dd", "if=/dev/zero", f"of={disk}/filler", "bs=1k", f"count={self.value('disk.filled')}"],
                           stderr=subprocess.DEVNULL, check=False)

    def begin(self, given, told, error):
        """Starts the tool with the limits of the case and these open files."""
        limits = [f"trap '' XFSZ; ulimit -f {self.value('limit')}; " * ("limit" in self.texts),
                  f"umask {self.value('umask')}; " * ("umask" in self.texts),
                  "exec >&-; " * (self.value("output") == "closed"), 'exec "$@"']
        tool = f"{TOP}/tools/mcaudit-{self.kind}"
        command = ["/bin/sh", "-c", "".join(limits), "sh", self.python, tool, *lines_of(self.texts, "args")]
        search = self.value("path", f"{self.commands}:{self.commands}.below:{os.environ['PATH']}")
        environment = {**os.environ, "PATH": search, "ROUTER": "routers/here", "PROGRAM": PROGRAM,
                       "PYTHONPATH": f"{self.commands}/python", "TOOLS": f"{TOP}/tools"}
        return subprocess.Popen(command, cwd=self.place, stdin=given, stdout=told, stderr=error, env=environment)

    def wait_for_term(self):
        """Waits until all files of `term` have content, at most 40 s."""
        until = time.monotonic() + 40
        for path in (f"{self.place}/{name}" for name in self.value("term").split()):
            while time.monotonic() < until and not (os.path.exists(path) and os.path.getsize(path)):
                time.sleep(0.1)

    def run_tool(self):
        """Runs the tool. Returns its status, or None if it took too long."""
        output = self.value("output", "stdout").replace("closed", "stdout")
        with open(write(self.texts, "stdin", self.room), "rb") as given, open(f"{self.place}/stderr", "wb") as error, \
                open(os.path.join(self.place, output), "wb") as told, self.begin(given, told, error) as process:
            if "term" in self.texts:
                self.wait_for_term()
                process.terminate()
            try:
                return process.wait(PATIENCE)
            except subprocess.TimeoutExpired:
                process.kill()
                return None

    def run(self):
        """Runs the case. Yields a line for each difference."""
        try:
            self.prepare()
            status = self.run_tool()
            with contextlib.suppress(FileNotFoundError):
                os.remove(f"{self.place}/disk/filler")
            yield from [f"it took {PATIENCE} s"] if status is None else self.judge(status)
        finally:
            if os.path.ismount(f"{self.place}/disk"):
                subprocess.run(["umount", f"{self.place}/disk"], check=False)

    def judge(self, status):
        """Yields a line for each difference after the tool has ended."""
        if self.is_without_toml(status):
            return
        yield from status_differences(self.texts, status)
        in_order = self.kind != "collect" and "any.order" not in self.texts
        for name in ("stdout", "stderr"):
            actual = read(f"{self.place}/{name}") if os.path.exists(f"{self.place}/{name}") else b""
            yield from output_differences(self.texts, name, without_times(actual), in_order)
        if "ssh.words" in self.texts:
            yield from output_differences(self.texts, "ssh.words", read(f"{self.place}/ssh.words"), False)
        for name in (it.removeprefix("left/") for it in self.texts if it.startswith("left/")):
            yield from differences(name, self.texts[f"left/{name}"], without_times(read(f"{self.place}/{name}")))
        for name in lines_of(self.texts, "gone"):
            if os.path.exists(f"{self.place}/{name.decode()}"):
                yield f"there is a {name.decode()}"
        yield from self.judge_processes()
        yield from self.judge_metrics()
        if self.kind in ("collect", "monitor") or self.kind == "try" and not self.has("after"):
            yield from self.judge_site()
        elif self.has("after"):
            inside = "disk/site" if self.kind in ("draft", "site") else "disk"
            yield from folder_differences(self.texts, "after", f"{self.place}/{inside}", True)

    def is_without_toml(self, status):
        """Leaves out what a Python that reads no TOML says of that. Returns whether it couldn't do what is compared."""
        if self.python.endswith(("3.9", "3.10")) and os.path.exists(f"{self.place}/stdout"):
            text = re.sub(rb"; mcaudit-collect: whether the topol[^|\n]*", b"", read(f"{self.place}/stdout"))
            with open(f"{self.place}/stdout", "wb") as file:
                file.write(text)
        lines = read(f"{self.place}/stderr").splitlines(True)
        others = [it for it in lines if NO_TOML not in it]
        if len(others) < len(lines):
            with open(f"{self.place}/stderr", "wb") as file:
                file.writelines(others)
        return len(others) < len(lines) and (status == 3 or b"not in the topology" in self.texts.get("stderr", b""))

    def judge_processes(self):
        """Yields a line for each process that is still alive, and for a lock that is still held."""
        for number in read(f"{self.place}/pids").decode().split() if os.path.exists(f"{self.place}/pids") else []:
            if is_alive(number):
                os.kill(int(number), 15)
                yield f"a command lives on: {number}"
        if os.path.isfile(f"{self.site}.lock"):
            with open(f"{self.site}.lock", "rb") as file:
                try:
                    fcntl.flock(file, fcntl.LOCK_EX | fcntl.LOCK_NB)
                except BlockingIOError:
                    yield f"{self.site}.lock is held"

    def judge_metrics(self):
        """Yields a line if not everybody may read mcaudit.prom, or if promtool, where installed, rejects it."""
        path = f"{self.place}/mcaudit.prom"
        if not os.path.isfile(path):
            return
        if stat.S_IMODE(os.stat(path).st_mode) != 0o644:
            yield f"mcaudit.prom has the rights {os.stat(path).st_mode:o}"
        if shutil.which("promtool"):
            done = subprocess.run(["promtool", "check", "metrics"], input=read(path), capture_output=True, check=False)
            yield from [f"promtool: {done.stdout!r} {done.stderr!r}"] * (done.returncode != 0)

    def judge_site(self):
        """Yields a line for each difference in the site and its sets."""
        target = os.readlink(self.site) if os.path.islink(self.site) else None
        links = dict(line.decode().split(" ", 1) for line in lines_of(self.texts, "links"))
        first, sets = f"site.sets/{FIRST}", f"{self.site}.sets"
        if self.has("after"):
            if target in (None, first):
                yield f"there is no new set: {target}"
            yield from folder_differences(self.texts, "after", self.site, True)
        elif self.has("before") or "site" in links:
            if target != (first if self.has("before") else links["site"]):
                yield f"{self.site} has changed: {target}"
        elif self.has("plain"):
            if target:
                yield f"{self.site} is a link"
            yield from folder_differences(self.texts, "plain", self.site)
        elif os.path.lexists(self.site):
            yield f"there is a {self.site}"
        if self.has("before") and first.encode() not in lines_of(self.texts, "gone"):
            yield from folder_differences(self.texts, "before", f"{sets}/{FIRST}")
        there = os.listdir(sets) if os.path.isdir(sets) else []
        if len(there) != int(self.value("sets", str(self.has("after") + self.has("before")))):
            yield f"another number of sets: {there}"


def is_alive(number):
    """Whether a process still runs after a second; one that only waits for its parent doesn't."""
    for _ in range(10):
        try:
            if read(f"/proc/{number}/stat").rpartition(b") ")[2].startswith(b"Z"):
                return False
        except OSError:
            return False
        time.sleep(0.1)
    return True


def python_of(path):
    """Returns the path of the interpreter that a command runs."""
    words = [path, "-c", "import sys; print(sys.executable)"]
    return subprocess.check_output(words, stderr=subprocess.DEVNULL, text=True).strip()


def old_pythons():
    """Returns the path of the oldest Python on the PATH that tools run with, or nothing."""
    for name in ("python3.9", "python3.10"):
        with contextlib.suppress(OSError, subprocess.SubprocessError):
            return [python_of(name)]
    return []


def path_of(command):
    """Returns the path of a command, and ends without it."""
    return shutil.which(command) or sys.exit(f"there is no {command}\n0 passed, 1 failed")


def make_commands(folder, python, shell):
    """Creates a folder of stand-ins, which come first in the PATH of a tool, and FOLDER.below, which comes next: with
    python3 and the shell as sh, or all commands of busybox."""
    shutil.copytree(f"{TOP}/tests/tools/commands", folder)
    os.makedirs(f"{folder}.below")
    for name in APPLETS if shell == "busybox" else ["sh"]:
        os.symlink(path_of(shell), f"{folder}.below/{name}")
    os.symlink(python, f"{folder}.below/python3")
    subprocess.run([python, "-m", "compileall", "-q", f"{folder}/python"], check=True)  # each run of a tool imports it


def ways(room):
    """Yields each combination of Python and shell once: the tools for it, its name, the Python, and its commands."""
    told, own = set(), python_of("python3")
    for kinds, python, shell in [(ALL, path, "dash") for path in (python_of("/usr/bin/python3"), own)] + \
            [(ASKING, own, shell) for shell in ("bash", "busybox")] + [(OLD, path, "dash") for path in old_pythons()]:
        same = kinds, os.path.realpath(python), os.path.realpath(path_of(shell))
        if same not in told:
            told.add(same)
            commands = f"{room}/commands{len(told)}"
            make_commands(commands, python, shell)
            yield kinds, f"by {python} with {shell}", (python, commands)


def runs_of_tools(cases, room):
    """Returns a name and a function for each case and combination."""
    return [(f"{name} {told}", lambda place, name=name, path=path, way=way: ToolCase(name, path, way, place).run())
            for kinds, told, way in ways(room) for name, path in cases.items() if name.split("/")[0] in kinds]


def outcome(run, room):
    """Runs a case in a new folder. Returns a line for each difference."""
    os.makedirs(room)
    try:
        return list(run(room))
    except (Fault, OSError, ValueError, KeyError, subprocess.SubprocessError) as error:
        return [f"{type(error).__name__}: {error}"]


def run_all(runs, jobs, room):
    """Runs cases, several at once, and prints those that fail. Returns the exit status."""
    failed = 0
    with concurrent.futures.ThreadPoolExecutor(jobs) as pool:
        begun = [(name, pool.submit(outcome, run, f"{room}/{number}")) for number, (name, run) in enumerate(runs)]
        for name, future in begun:
            if future.result():
                failed += 1
                print(f"failed: {name}", *future.result(), sep="\n", flush=True)
    return status_of(len(runs) - failed, failed)


def cases_of(folder, pattern, wanted):
    """Returns the paths of the wanted cases, or of all, by name."""
    paths = [os.path.relpath(path, f"{TOP}/{folder}") for path in sorted(glob.glob(f"{TOP}/{folder}/{pattern}.case"))]
    names = {path.removesuffix(".case"): f"{folder}/{path}" for path in paths}
    for name in wanted:
        if name not in names:
            sys.exit(f"there is no case {name}\n0 passed, 1 failed")
    return {name: path for name, path in names.items() if name in wanted or not wanted}


def main():
    """Runs a suite."""
    parser = argparse.ArgumentParser(description="runs the cases of the program or of its tools")
    parser.add_argument("suite", choices=["cli", "tools"])
    parser.add_argument("words", nargs="*", metavar="PROGRAM or CASE")
    parser.add_argument("--jobs", type=int, help="how many cases run at once")
    words = parser.parse_intermixed_args()
    if words.suite == "cli" and not words.words:
        parser.error("cli needs the PROGRAM")
    with tempfile.TemporaryDirectory(prefix="mcaudit-cases-") as room:
        if words.suite == "tools":
            runs = runs_of_tools(cases_of("tests/tools", "*/*", words.words), room)
            return run_all(runs, words.jobs or 6 * (os.cpu_count() or 1), room)
        program = os.path.abspath(words.words[0])
        runs = [(name, lambda place, path=path: run_cli(path, program, place))
                for name, path in cases_of("tests/cli/cases", "*", words.words[1:]).items()]
        return run_all(runs, words.jobs or os.cpu_count(), room)


if __name__ == "__main__":
    sys.exit(main())
