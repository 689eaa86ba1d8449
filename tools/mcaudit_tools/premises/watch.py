"""Four readings of the counters now: one session a router, which answers once for each line that it is sent, so that
each round of all routers begins after the one before has ended."""
import contextlib
import os
import resource
import selectors
import tempfile
import time

from mcaudit_tools.answers import MOST_ANSWER, random_word
from mcaudit_tools.common import Failed, clean, clean_lines, say
from mcaudit_tools.facts import script_of
from mcaudit_tools.files import PIECE
from mcaudit_tools.premises.counters import ROUNDS
from mcaudit_tools.premises.findings import NOT_KNOWN, Finding
from mcaudit_tools.premises.readings import SECTIONS, reading_of
from mcaudit_tools.premises.rows import Wanted
from mcaudit_tools.premises.windows import KIND, Windows, loss_text
from mcaudit_tools.programs import MOST_WORDS, RUNNING

STARTING = 32  # sessions that begin at once
MOST_FILES = 4096  # that are open at once
MOST_LINES = 4096  # of a table, but for the cache
MOST_LINE = 512  # bytes of a line by which an answer may end


class Session:
    """A shell on a router that answers line by line."""

    def __init__(self, router, words):
        """Takes the router and the arguments, and begins."""
        self.timeout, self.deadline = words.timeout, time.monotonic() + words.timeout
        self.name, self.words, self.fault, self.is_waiting, self.tail, self.taken = router.name, b"", None, True, b"", 0
        self.mark = random_word().encode()
        self.ending, self.identity = self.mark + b" ready", b""
        self.file = tempfile.TemporaryFile()
        self.process = RUNNING.begin(router.shell(words.ssh), stdin=-1, stdout=-1, stderr=-1)
        for pipe in (self.process.stdout, self.process.stderr):
            os.set_blocking(pipe.fileno(), False)
        self.send(b"word=" + self.mark + b"\n" + script_of("counters.sh"))

    def send(self, text):
        """Sends the shell a text, which is short."""
        try:
            self.process.stdin.write(text)
        except OSError:
            self.end("could not be reached")

    def ask(self, number):
        """Asks for a reading."""
        self.deadline = time.monotonic() + self.timeout
        self.file.seek(0)
        self.file.truncate()
        self.ending, self.is_waiting, self.tail, self.taken = self.mark + b" end %d" % number, True, b"", 0
        self.send(b"%d\n" % number)

    def take(self, pipe):
        """Takes what a pipe has."""
        piece = pipe.read(PIECE)
        if pipe is self.process.stderr:
            self.words += (piece or b"")[:MOST_WORDS - len(self.words)]
        elif piece == b"":
            self.end("could not be reached" if not self.identity else "the answer was cut short")
        elif piece and self.is_waiting:
            self.take_answer(piece)
        return piece != b""

    def take_answer(self, piece):
        """Takes a piece of an answer, which ends with the line that is waited for."""
        self.taken += len(piece)
        if self.taken > MOST_ANSWER:
            self.end(f"the answer has more than {MOST_ANSWER} bytes")
            return
        self.file.write(piece)
        *lines, self.tail = (self.tail + piece).split(b"\n")
        self.tail = self.tail[:MOST_LINE]
        for line in lines:
            if line.startswith(self.ending):
                self.is_waiting = False
                self.identity = self.identity or line[len(self.ending):].strip() or b"?"

    def reading(self, wanted):
        """Returns the reading that the last answer is."""
        self.file.seek(0)
        found, name = {it: [] for it in SECTIONS}, None
        for line in self.file:
            if line.startswith(b"@") and line[1:-1].decode("ascii", "replace") in found:
                name = line[1:-1].decode()
            elif name == SECTIONS[0]:
                found[name] += wanted.kept([line])
            elif name is not None and len(found[name]) < MOST_LINES:
                found[name].append(line)
        return reading_of(found, wanted)

    def end(self, fault):
        """Ends the session."""
        self.fault, self.is_waiting = self.fault or fault, False
        RUNNING.end(self.process, 0)
        self.file.close()


class Watch:
    """The sessions of all routers."""

    def __init__(self, words):
        """Takes the arguments."""
        self.words, self.sessions, self.selector = words, [], selectors.DefaultSelector()
        _, most = resource.getrlimit(resource.RLIMIT_NOFILE)
        with contextlib.suppress(ValueError, OSError):
            resource.setrlimit(resource.RLIMIT_NOFILE, (min(MOST_FILES, most) if most >= 0 else MOST_FILES, most))

    def begin(self, routers):
        """Begins a session for each router, some at once, as each costs both ends, and waits until they are ready."""
        for router in routers:
            self.wait(STARTING - 1)
            session = Session(router, self.words)
            self.sessions.append(session)
            if not session.fault:
                for pipe in (session.process.stdout, session.process.stderr):
                    self.selector.register(pipe, selectors.EVENT_READ, session)
        self.wait()
        same = {}
        for it in self.alive():
            same.setdefault(it.identity, []).append(it)
        for identity, found in same.items():
            for it in found if len(found) > 1 and len(identity.split()) == 2 else ():
                self.drop(it, f"is the same router as {' '.join(other.name for other in found if other is not it)}")

    def alive(self):
        """Returns the sessions that go on."""
        return [it for it in self.sessions if not it.fault]

    def drop(self, session, fault):
        """Ends a session."""
        for pipe in (session.process.stdout, session.process.stderr):
            with contextlib.suppress(KeyError, ValueError):
                self.selector.unregister(pipe)
        session.end(fault)

    def wait(self, most=0):
        """Waits until so many sessions at most haven't answered yet. A session whose time is over is ended."""
        while True:
            waiting = [it for it in self.sessions if it.is_waiting]
            if len(waiting) <= most:
                return
            now = time.monotonic()
            for it in [it for it in waiting if it.deadline <= now]:
                self.drop(it, f"no whole answer in {self.words.timeout} s")
            for key, _ in self.selector.select(max(0, min(it.deadline for it in waiting) - now)):
                if key.fileobj.closed or key.data.fault:
                    continue
                if not key.data.take(key.fileobj) or key.data.fault:
                    self.selector_drop(key)

    def selector_drop(self, key):
        """Looks no longer at a pipe that has ended, or at both of a session that has."""
        if key.data.fault:
            self.forget(key.data)
        else:
            self.selector.unregister(key.fileobj)

    def forget(self, session):
        """Looks no longer at the pipes of a session, which are closed."""
        for key in [it for it in self.selector.get_map().values() if it.data is session]:
            self.selector.unregister(key.fileobj)

    def round(self, number, wanted):
        """Asks all routers once. Returns the readings by name, and when that began and ended."""
        begin = time.monotonic()
        for it in self.alive():
            it.ask(number)
            if it.fault:
                self.forget(it)
        self.wait()
        end = time.monotonic()
        return {it.name: it.reading(wanted) for it in self.alive()}, (begin, end)


def watched(words, answer):
    """Returns what the counters of four readings say."""
    wanted, watch, rounds, times = Wanted(answer.trees), Watch(words), [], []
    others = [it.name for it in words.all if it.name not in answer.routers]
    if others:
        say(f"not in the topology, so that nobody judges them: {' '.join(others)}")
    watch.begin([it for it in words.all if it.name in answer.routers])
    for number in range(ROUNDS):
        if number:  # what came is read within the pause
            RUNNING.rest(max(0, times[-1][1] + words.pauses[number - 1] - time.monotonic()))
        found, when = watch.round(number, wanted)
        rounds.append(found)
        times.append(when)
    counters = Windows(answer, rounds).judge()
    counters.window = f"in {times[-1][1] - times[0][0]:.1f} s, {loss_text(times)}"
    given = {it.name for it in words.all}
    for router in [it for it in answer.routers if it not in given]:
        counters.findings.append(Finding(NOT_KNOWN, KIND, router, "packets: it was not asked"))
    for it in watch.sessions:
        if it.fault:
            counters.failed.append(it.name)
            for sentence in (it.fault, *clean_lines(it.words)):
                say(f"{clean(it.name)}: {sentence}")
        else:
            it.end("done")
    if not rounds[0]:
        raise Failed("no router could be read")
    return counters
