"""The folder in which a case runs, and what cases of hosts, routers, names and other runs have in common.

A file of such cases names them by `case`, and hostile.py runs those of all files.
"""
import concurrent.futures
import glob
import json
import os
import shutil
import subprocess
import sys
import tempfile
import time

HERE = os.path.dirname(os.path.abspath(__file__))
TOP = os.path.dirname(os.path.dirname(HERE))
sys.path.append(os.path.join(TOP, "tests"))
import packets as p  # noqa: E402 pylint: disable=wrong-import-position
from ended import status_of  # noqa: E402 pylint: disable=wrong-import-position

TOOLS = os.path.join(TOP, "tools")
NETWORK = os.path.join(TOP, "examples", "network")
PROGRAM = os.environ.get("PROGRAM", os.path.join(TOP, "crates", "mcaudit", "out", "mcaudit"))
TABLES = """case $1 in
    /proc/net/ip_mr_*) exec /bin/cat "${R-.}/${1##*/}" ;;
    /proc/sys/kernel/random/boot_id) echo "${R-nobody}"; exit ;;
esac
exec /bin/cat "$@"
"""
CASES = []


def case(function):
    """Makes the function a case."""
    CASES.append(function)
    return function


class Place:
    """The folder in which a case runs."""

    def __init__(self, folder):
        """Takes the folder."""
        self.folder = folder
        os.mkdir(self.at("bin"))
        self.script("cat", TABLES)
        os.symlink(sys.executable, self.at("bin", "python3"))  # for tools that another tool runs
        path = os.pathsep.join((self.at("bin"), os.path.dirname(PROGRAM), os.environ["PATH"]))
        self.environment = {**os.environ, "PATH": path, "PYTHONDONTWRITEBYTECODE": "1"}

    def at(self, *names):
        """Returns a path in the folder."""
        return os.path.join(self.folder, *names)

    def write(self, name, data):
        """Writes a file."""
        os.makedirs(os.path.dirname(self.at(name)), exist_ok=True)
        with open(self.at(name), "wb") as file:
            file.write(data if isinstance(data, bytes) else data.encode())

    def read(self, name):
        """Returns a file's text."""
        with open(self.at(name), encoding="utf-8") as file:
            return file.read()

    def script(self, name, text):
        """Writes a command that stands for another."""
        self.write(f"bin/{name}", f"#!/bin/sh\n{text}\n")
        os.chmod(self.at("bin", name), 0o755)

    def begin(self, tool, *words, **how):
        """Begins a tool."""
        return subprocess.Popen([sys.executable, os.path.join(TOOLS, f"mcaudit-{tool}"), *words], cwd=self.folder,
                                env=self.environment, stdout=subprocess.PIPE, stderr=subprocess.STDOUT, **how)

    def run(self, tool, *words, text=b"", limit=90):
        """Runs a tool. Returns its status, and keeps what it said."""
        with self.begin(tool, *words, stdin=subprocess.PIPE) as running:
            try:
                self.said = running.communicate(text, limit)[0].decode(errors="replace")
            except subprocess.TimeoutExpired:
                running.kill()
                raise
        assert "Traceback" not in self.said, self.said
        return running.returncode

    def run_measured(self, *words):
        """Runs a tool, as `run` does. Returns its status and how many bytes of memory it took at most, itself alone."""
        code = ("import os, resource, sys\nnumber = os.spawnvp(os.P_WAIT, sys.argv[1], sys.argv[1:])\n"
                "print(number, resource.getrusage(resource.RUSAGE_CHILDREN).ru_maxrss)")
        tool = os.path.join(TOOLS, f"mcaudit-{words[0]}")
        done = subprocess.run([sys.executable, "-c", code, sys.executable, tool, *words[1:]], cwd=self.folder,
                              env=self.environment, capture_output=True, check=False, timeout=120)
        self.said = (done.stdout + done.stderr).decode(errors="replace")
        status, most = done.stdout.split(b"\n")[-2].split()
        return int(status), int(most) << 10

    def await_file(self, name):
        """Waits until a file is there that a stand-in makes, and takes it away."""
        until = time.monotonic() + 60
        while not os.path.exists(self.at(name)) and time.monotonic() < until:
            time.sleep(0.05)
        os.unlink(self.at(name))

    def reports(self, *words, text=b""):
        """Runs mcaudit-reports into the file `list`. Returns its status and the list's lines, None without a file."""
        status = self.run("reports", "-o", "list", *words, text=text)
        lines = self.read("list").splitlines() if os.path.exists(self.at("list")) else None
        return status, lines

    def captured(self, frames, *words, file=None):
        """Gathers from a capture file. Returns as `reports`."""
        self.write("l1.pcap", p.pcap(frames) if file is None else file)
        return self.reports("--capture", "l1.pcap", *words)

    def routers(self, *names):
        """Writes the tables of routers, of the example, and returns their ways."""
        for name in names:
            self.write(f"{name}/ip_mr_vif", open(f"{NETWORK}/vif-{name}", "rb").read())
            self.write(f"{name}/ip_mr_cache", open(f"{NETWORK}/cache-{name}", "rb").read())
        return [f"{name}=!env R={name}" for name in names]

    def site(self, *lost):
        """Makes the example's folder a set to which `site` leads; the routers that are named have lost their row."""
        shutil.copytree(NETWORK, self.at("site.sets", "20260101T000000Z"))
        for name in lost:
            path = self.at("site.sets", "20260101T000000Z", f"cache-{name}")
            self.write(path, "".join(open(path, encoding="ascii").readlines()[:1]))
        os.symlink("site.sets/20260101T000000Z", self.at("site"))

    def audited(self, *words):
        """Returns what an audit with these words answers."""
        done = subprocess.run([PROGRAM, "audit", *words], cwd=self.folder, capture_output=True, check=False)
        return done.stdout.decode()

    def verdict(self):
        """Returns the last line of an audit of `site`."""
        return self.audited("site").splitlines()[-1]


def framed(*pairs):
    """Returns the packets in frames."""
    return [(at, p.frame(it)) for at, it in pairs]


GOOD = ((0, p.asked()), (1, p.wanted("10.0.1.5", "239.1.1.1")), (13, p.later()))
LISTED = [p.wants("239.1.1.1").hex()]


def collected(place, ways):
    """Makes a set of these routers. Returns the path of the set before it."""
    before = os.path.realpath(place.at("site"))
    assert place.run("collect", "--pause", "0", "site", *ways) == 0, place.said
    assert os.path.realpath(place.at("site")) != before
    return before


# What 0.2.0 wrote

LAST = "20251128T014025Z"  # the set that its monitor judged last
TOLD = 1764294024  # when that set's tables were read


def kept(place):
    """Writes the site that the monitor of 0.2.0 left: four sets, three of which it judged, yes, no and yes."""
    with open(os.path.join(HERE, "kept_by_0.2.0.json"), encoding="utf-8") as file:
        for name, one in json.load(file).items():
            if "link" in one:
                os.symlink(one["link"], place.at(name))
            else:
                place.write(name, one["text"])
                os.utime(place.at(name), (one["time"], one["time"]))
    for folder in glob.glob(place.at("site.sets/*")):
        os.utime(folder, (TOLD, TOLD))


def tried(function):
    """Runs a case. Returns what is wrong, or None."""
    with tempfile.TemporaryDirectory(prefix="mcaudit-hostile-") as folder:
        try:
            function(Place(folder))
            return None
        except Exception as fault:  # pylint: disable=broad-exception-caught
            return f"{type(fault).__name__}: {fault}"


def run_cases(cases):
    """Runs the cases, four side by side. Returns the status."""
    chosen = [it for it in cases if not sys.argv[1:] or it.__name__ in sys.argv[1:]]
    with concurrent.futures.ThreadPoolExecutor(4) as pool:
        faults = list(pool.map(tried, chosen))
    for function, fault in zip(chosen, faults):
        if fault is not None:
            print(f"failed: {function.__name__}: {fault}")
    failed = sum(it is not None for it in faults)
    return status_of(len(chosen) - failed, failed)
