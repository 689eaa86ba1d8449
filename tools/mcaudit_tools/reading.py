"""One router's tables, read until two readings one after the other are equal, counters aside.

With them, in the same session, its routing daemon may be asked what hosts ask for, so that both are of one moment. What
comes of that makes no reading fail.
"""
import os
import time

from mcaudit_tools import answers, facts
from mcaudit_tools.programs import RUNNING, run

KEPT = "kept-"  # the folders of tables that held still


class Collected:
    """What came of a router: why it is missing, or where its tables are."""

    def __init__(self, fault=None, sentences=(), line="", folder="", when=0):
        """Takes why it is missing, or None; what the way to it said; the line that is printed of it; and the folder of
        its tables, and when they were read."""
        self.fault, self.sentences, self.line, self.folder, self.time = fault, sentences, line, folder, when
        self.facts_time = 0
        self.identity = None  # the boot and the network namespace, where the router says them
        self.beliefs = {}  # what its daemon believes, by device


class Reading:
    """The readings of one router, in a folder of its own."""

    def __init__(self, words, router, folder, beliefs):
        """Takes the arguments, the router, the folder, which it makes, and what is believed of its interfaces, where
        its daemon is asked too, or None."""
        self.words, self.router, self.folder, self.beliefs = words, router, folder, beliefs
        self.sentences, self.deadline, self.time = [], 0.0, 0
        self.daemon, self.shape = None, None
        os.makedirs(folder)

    def late(self):
        """Returns what is wrong where the time is over."""
        return f"no whole answer in {self.words.timeout} s"

    def ask(self, tables, has_daemon=False):
        """Asks the router for these tables, for at most the time that a reading has, in which all has to be done with
        the answer too; and behind them perhaps its daemon. Returns what is wrong with the tables, or None."""
        word, path = answers.random_word(), os.path.join(self.folder, "answer")
        script, most = answers.questions(word, tables), answers.MOST_ANSWER
        self.deadline = time.monotonic() + self.words.timeout
        if has_daemon:
            script, most = script + self.beliefs.questions(word.encode()), most + facts.MOST_ANSWER
            self.deadline += facts.TAKING
        try:
            with open(path, "wb") as file:
                came = run(self.router.shell(self.words.ssh), script, self.words.timeout, most, file)
            self.sentences = came.sentences()
            limit = f"the answer has more than {most} bytes" if came.is_long else self.late() if came.is_late else None
            if limit and not has_daemon:
                return limit
            with open(path, "rb") as file:
                fault = answers.Answer(file, word, tables, self.folder, self.deadline).fault()
                if has_daemon and fault is None:
                    self.daemon = self.beliefs.daemon_of(came, file, word.encode(), self.words.timeout, self.deadline)
                    self.deadline = time.monotonic() + facts.TAKING
            return limit or fault if fault else None
        except answers.Late:
            return self.late()
        finally:
            os.unlink(path)

    def read(self, has_daemon):
        """Reads the tables once, and their shape. Returns what is wrong with them, or None."""
        fault, self.time = self.ask(answers.TABLES, has_daemon), int(time.time())
        if fault is None:
            try:
                self.shape = answers.shape_of(self.folder, self.deadline)
            except answers.Late:
                fault = self.late()
        return fault

    def collect(self):
        """Reads the router until two readings are equal, and what its daemon believes is too. Returns what came of
        it."""
        earlier, kept, fault = None, None, None
        for count in range(1, self.words.readings + 1):
            if count > 1:
                RUNNING.rest(self.words.pause)
            has_daemon = self.beliefs is not None and not self.beliefs.is_hopeless()
            fault = self.read(has_daemon)
            is_believed = not has_daemon or fault is None and self.beliefs.take(self.daemon)
            if fault is None and self.shape == earlier:
                fault, kept = self.keep(count, kept)
            if fault or kept is not None and (is_believed or self.beliefs.is_hopeless()):
                break
            earlier = self.shape
        if kept is None:
            return Collected(fault, self.sentences) if fault else Collected(
                f"kept changing during {self.words.readings} readings")
        self.folder = kept.folder
        kept.beliefs = self.beliefs.found if self.beliefs else {}
        return self.ask_more(kept)

    def keep(self, count, before):
        """Keeps the tables, which held still. Returns what is wrong, or None, and what came of the router: before,
        where something is wrong."""
        try:
            vifs, rows = (answers.rows_of(os.path.join(self.folder, it), self.deadline) for it in answers.TABLES[:2])
            order = answers.order_of(os.path.join(self.folder, "igmp"), self.deadline)
        except answers.Late:
            return self.late(), before
        folder = os.path.join(self.folder, f"{KEPT}{count}")
        os.mkdir(folder)
        for table in answers.TABLES:
            os.rename(os.path.join(self.folder, table), os.path.join(folder, table))
        return None, Collected(line=f"vifs {vifs}, rows {rows}, readings {count}, {order}", folder=folder,
                               when=self.time)

    def ask_more(self, found):
        """Asks for what goes beyond the three tables, which a key that is restricted to them doesn't answer."""
        wanted = answers.FACTS if self.words.facts else ()
        if len(self.words.all) > 1 or wanted:
            fault = self.ask((*wanted, *answers.IDENTITY))
            if fault and wanted:
                return Collected(fault, self.sentences)
            if not fault:
                parts = [self.identity_part(it) for it in answers.IDENTITY]
                found.identity = b" ".join(parts) if all(parts) else None
        if wanted:
            found.facts_time = facts.ask(self.words, self.router, self.folder)
        return found

    def identity_part(self, name):
        """Returns the first word of what the router says of itself, or nothing."""
        with open(os.path.join(self.folder, name), "rb") as file:
            return b"".join(file.read(256).split()[:1])
