"""mcaudit-monitor: collects a domain, audits it, and says what changed since last time; for a timer or a monitor.

It runs mcaudit-collect, `mcaudit audit` and mcaudit-diff, each by its own words. Beside SITE it keeps SITE.lock,
which one run at a time holds, and SITE.monitor.json: when it last judged, which set that was, and in which order the
sets came, whatever the clock says. Each judged set has its audit.json. Whatever is written is written beside its
place, put on the disk and then renamed.
"""
import contextlib
import json
import os
import re
import sys
import time

from mcaudit_tools import audit as audits
from mcaudit_tools import locks, origins
from mcaudit_tools.ages import Ages
from mcaudit_tools.common import Failed, Refused, clean, find_tool, is_set_name
from mcaudit_tools.files import failing, printing, read_json, write_beside
from mcaudit_tools.monitor import metrics, plugin
from mcaudit_tools.monitor.judged import judged_of
from mcaudit_tools.monitor.words import read_arguments
from mcaudit_tools.premises import beside
from mcaudit_tools.programs import RUNNING, run

MOST_TEXT = 1 << 20  # bytes of what mcaudit-collect prints, and of what is kept of what mcaudit-diff does
MOST_CHANGES = 1 << 30  # bytes of what mcaudit-diff prints
MOST_STATE = 1 << 20  # bytes of what is kept
GRACE = 5  # seconds that what it runs has to end what that began
YOUNG = 600  # seconds in which no set is removed
NEWEST = 4  # sets that are never removed: of so many the counters say whether packets flow
FAULT_CHANGE = r"flow \S+ \S+: (new fault: |fault gone: |fault .*, was )"  # as mcaudit-diff tells it


class Busy(Failed):
    """Another run is at work."""


class Head:
    """Keeps the first of what is printed, and counts the lines of all."""

    def __init__(self):
        """Begins with nothing."""
        self.kept, self.count = bytearray(), 0

    def write(self, piece):
        """Takes a piece."""
        self.count += piece.count(b"\n")
        self.kept += piece[:MOST_TEXT - len(self.kept)]

    def lines(self):
        """Returns those lines that are kept whole."""
        return self.kept.decode(errors="replace").splitlines()[:bytes(self.kept).count(b"\n")]


# One run

class Run:
    """One run on a site: what was asked for, what is known from last time, and what came of it."""

    def __init__(self, words):
        """Takes the words."""
        self.words, self.site = words, words.site
        self.state, self.folder, self.is_locked = {}, None, False
        self.judged, self.text, self.changes, self.count, self.faults = None, None, None, 0, []
        self.origins, self.origins_fault, self.known_ages, self.is_comparing = {}, None, None, True
        self.beside = None  # what stands beside the verdict

    def is_answered(self):
        """Whether there is an answer: nothing failed, or the verdict is no in spite of what failed behind it."""
        return self.judged is not None and not (self.faults and self.judged.is_right)

    def command(self, words, most, text=b"", limit=None, into=None):
        """Runs a command to its end. Returns its status, what it printed, unless that goes into a file, and, for a
        plugin, what it said; else that is seen."""
        came = run(words, text, limit, most, into, keeps_words=self.words.plugin, grace=GRACE)
        if came.is_late:
            raise Failed(f"{os.path.basename(words[0])} took more than {limit} s")
        if came.is_long:
            raise Failed(f"{os.path.basename(words[0])} printed more than {most} bytes")
        return came.status, came.printed, "; ".join(it.strip() for it in came.sentences())

    @contextlib.contextmanager
    def locked(self):
        """Sees that no other run is at work. The lock ends with this program, however it ends."""
        if self.words.no_collect:
            yield
            return
        with locks.lock_file(f"{self.site}.lock") as opened:
            if not locks.try_lock(opened):
                raise Busy(f"another run is at work on {self.site}")
            self.is_locked = True
            yield

    def read_state(self):
        """Reads what is known from last time, if that is there."""
        try:
            state = read_json(f"{self.site}.monitor.json", MOST_STATE)
            times = [state["last_success"], state["last_change"], state.get("last_fault_change")]
            names = [state["judged"], *state["sets"]]
            if not all(it is None or isinstance(it, int) for it in times):
                raise ValueError
            if not all(is_set_name(it) for it in names if it is not None):
                raise ValueError
            self.state = state
        except (Failed, ValueError, KeyError, TypeError, RecursionError):
            if not os.path.lexists(f"{self.site}.monitor.json"):
                return
            self.say(f"{self.site}.monitor.json can't be read: what was last time isn't known")

    def say(self, text):
        """Says what isn't the answer, where a monitor doesn't read it."""
        if not self.words.plugin:
            print(f"mcaudit-monitor: {clean(str(text))}", file=sys.stderr)

    def collect(self):
        """Makes a new set."""
        command = [find_tool("mcaudit-collect"), *self.words.collects, self.site, *self.words.ways]
        status, _, said = self.command(command, MOST_TEXT)
        if status == 1:
            raise Failed(said or "not every router was read, so nothing is judged")
        if status != 0:
            raise Failed(said or f"mcaudit-collect ended with status {status}", 5 if status == 5 else 3)

    def judge(self):
        """Audits the set that the site leads to now, whatever it leads to meanwhile."""
        self.folder = os.path.realpath(self.site)
        status, self.text, said = self.command([find_tool("mcaudit"), "audit", "--json", "--unlisted", self.folder],
                                               audits.MOST_BYTES, limit=audits.AUDITING)
        if os.path.lexists(self.site):
            self.check_folder()
        if status not in (0, 1):
            kind = "mcaudit refuses the folder" if status == 2 else f"mcaudit ended with status {status}"
            raise Failed(said or kind, status if status in (2, 4) else 3)
        try:
            self.judged = judged_of(self.text)
        except (Refused, ValueError, KeyError, IndexError, TypeError, AttributeError) as fault:
            raise Failed("what mcaudit printed is not a whole audit") from fault
        if self.judged.is_right != (status == 0):
            raise Failed(f"mcaudit printed another verdict than that of its status {status}")
        self.read_origins()
        self.check_routers()
        self.known_ages = self.ages_in(self.folder, self.judged.routers, self.judged.lans)
        self.check_folder()

    def check_folder(self):
        """Fails where the set that is judged is gone."""
        if not os.path.isdir(self.folder):
            raise Failed("the set was removed meanwhile")

    def check_routers(self):
        """Fails where routers were collected that the topology doesn't list: a yes would be said as if they weren't
        there. mcaudit-collect sees that by itself only where its Python reads TOML, and whoever judges what SITE has
        doesn't see what it ended with."""
        if not self.judged.is_right:
            return
        read = sorted(it for it in os.listdir(self.folder) if it.startswith("vif-"))
        if self.words.no_collect:
            read = [it for it in read if it in self.origins and self.origins[it].by == origins.COLLECT]
        unlisted = [it.removeprefix("vif-") for it in read if it.removeprefix("vif-") not in self.judged.routers]
        if unlisted:
            raise Failed(f"not in the topology, so that nobody judges them: {' '.join(unlisted)}")

    def read_origins(self):
        """Reads where the files of the set come from, and how old they are."""
        try:
            self.origins = origins.read(self.folder, self.site)
        except Failed as fault:
            self.origins_fault = str(fault)
            self.say(fault)

    def compare(self):
        """Finds what changed since the set that was judged last."""
        last = self.state.get("judged")
        path = f"{self.site}.sets/{last}/audit.json"
        if not last or not os.path.exists(path):
            return
        head = Head()
        status, _, said = self.command([find_tool("mcaudit-diff"), path, "/dev/stdin"], MOST_CHANGES, self.text,
                                       audits.AUDITING, head)
        if status == 2:
            self.say(said or f"mcaudit-diff refuses the audit of {last}")
            self.is_comparing = False
            return
        if status not in (0, 1):
            raise Failed(said or f"mcaudit-diff ended with status {status}: what changed isn't known")
        self.changes, self.count = head.lines(), head.count
        if bool(self.count) != bool(status):
            raise Failed("mcaudit-diff printed other changes than its status says")

    def work(self):
        """Collects, judges and compares, and prints what came of it."""
        if not self.words.no_collect:
            self.collect()
        self.judge()
        self.beside = beside.look_at(self.text, self.site, self.folder, self.ages())
        if not self.words.no_collect:
            self.compare()
        if not self.words.plugin:
            self.print_text()

    def print_text(self):
        """Prints what was judged, and what changed."""
        judged, last = self.judged, self.state.get("judged")
        lines = [f"{os.path.basename(self.folder)}: {judged.numbers()}", *self.beside.sentences(), *judged.lines()]
        if self.changes is not None:
            more = [f"and {self.count - len(self.changes)} more changes"] * (self.count > len(self.changes))
            lines += [f"changed since {last}:" if self.count else f"nothing changed since {last}", *self.changes, *more]
        elif not self.is_comparing:
            lines.append(f"what changed since {last} isn't known")
        elif not self.words.no_collect:
            lines.append("no audit before it is there to compare with")
        try:
            with printing():
                print("\n".join(map(clean, lines)), flush=True)
        except Failed:
            sys.stdout = None  # what is left in it can't be written either
            raise

    # What stays of a run

    def trim(self):
        """Removes the sets that came before the last ones, but never the newest ones, a young one, that which the site
        leads to, or which was judged last. The order is that in which runs met them, and not that of their names: a
        clock can go back."""
        if not self.is_locked:
            return
        folder = f"{self.site}.sets"
        with contextlib.suppress(FileNotFoundError):
            written = {it.name: it.stat().st_mtime for it in os.scandir(folder)
                       if is_set_name(it.name) and it.is_dir(follow_symlinks=False)}
            current = os.path.basename(os.path.realpath(self.site))
            order = [it for it in self.state.get("sets", []) if it in written]
            order += sorted(set(written) - set(order), key=lambda it: (it == current, it))
            newest = order if self.words.keep is None else order[-max(self.words.keep, NEWEST):]
            young = [it for it in order if written[it] > time.time() - YOUNG]
            kept = {current, self.state.get("judged"), *newest, *young}
            self.state["sets"] = [it for it in order if it in kept]
            for name in order:
                if name not in kept:
                    self.remove(folder, name)

    def remove(self, folder, name):
        """Removes a set, which is none from the first moment on."""
        import shutil  # (for --keep alone)  pylint: disable=import-outside-toplevel
        gone = f"{folder}/.removed"
        with failing(f"{folder}/{name} can't be removed"):
            with contextlib.suppress(FileNotFoundError):
                shutil.rmtree(gone)
            os.rename(f"{folder}/{name}", gone)
            shutil.rmtree(gone)

    def keep_audit(self):
        """Keeps the audit."""
        if self.is_locked and self.judged:
            write_beside(f"{self.folder}/audit.json", self.text)
            now = int(time.time())
            self.state.update(last_success=now, judged=os.path.basename(self.folder))
            if self.count:
                self.state["last_change"] = now
            if any(re.match(FAULT_CHANGE, it) for it in self.changes or ()):
                self.state["last_fault_change"] = now

    def keep_state(self):
        """Keeps what is known for next time."""
        if self.is_locked:
            state = {"version": 1, "last_success": None, "last_change": None, "last_fault_change": None, "judged": None,
                     "sets": [], **self.state}
            write_beside(f"{self.site}.monitor.json", json.dumps(state, sort_keys=True).encode() + b"\n")

    def write_metrics(self):
        """Writes the file for Prometheus."""
        if self.words.prometheus:
            write_beside(self.words.prometheus, metrics.text_of(self), 0o644)

    def ages(self):
        """Returns how old the files of the set that was judged are, or of what the site has."""
        return self.known_ages or self.ages_in(self.folder or os.path.realpath(self.site))

    def ages_in(self, folder, *judged):
        """Returns how old the files of a set are, of all or of what is judged."""
        return Ages(folder, None if self.origins_fault else self.origins, *judged)


@contextlib.contextmanager
def faults_of(work):
    """Notes what fails here. Whatever it is, it never ends in a trace: that has the status of another answer."""
    try:
        yield
    except Failed as fault:
        work.faults.append(fault)
    except Exception as fault:  # pylint: disable=broad-exception-caught
        work.faults.append(Failed(f"{type(fault).__name__}: {fault}"))


def do_run(work):
    """Does the work of a run, and keeps what stays of it, whatever became of it."""
    with work.locked():
        with faults_of(work):
            work.read_state()
            work.work()
        with RUNNING.unheeded():
            if work.faults:
                work.judged = None
            for step in (work.keep_audit, work.trim, work.keep_state, work.write_metrics):
                with faults_of(work):
                    step()


def finish(work):
    """Prints what came of the run. Returns the status."""
    if work.words.plugin:
        line, status = plugin.line_of(work)
        with printing():
            print(line, flush=True)
        return status
    for failure in work.faults:
        work.say(failure)
    if work.is_answered():
        return 0 if work.judged.is_right else 1
    return work.faults[0].status


def main():
    """Runs once. Returns the status."""
    work = Run(read_arguments())
    RUNNING.grace = GRACE
    with faults_of(work):
        do_run(work)
    with RUNNING.unheeded():
        if not work.is_locked and not work.words.no_collect and not any(isinstance(it, Busy) for it in work.faults):
            with faults_of(work):
                work.write_metrics()
        return finish(work)
