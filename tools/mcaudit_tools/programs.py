"""Other programs: each is run in a session of its own, under a limit of time and of bytes, and ended with the tool.

A signal that ends the tool raises `Ended` in its main thread, never between the fork of a program and the moment from
which that program can be ended; whatever still runs at the end of the tool is ended with all that it began.
"""
import contextlib
import os
import selectors
import signal
import subprocess
import threading
import time

from mcaudit_tools.common import Ended, Failed, clean_lines
from mcaudit_tools.files import PIECE

SIGNALS = signal.SIGHUP, signal.SIGINT, signal.SIGTERM
GRACE = 1.0  # seconds that a program has to end by itself
TURN = 0.5  # seconds after which a thread that runs one looks whether the tool is to end
MOST_WORDS = 4096  # bytes that are kept of what a program says


class Came:
    """What came of a program: its status, what it printed where that was kept, and the first of what it said."""

    def __init__(self):
        """Begins with nothing."""
        self.status, self.printed, self.words = 0, b"", b""
        self.is_late = False  # it was ended, since its time was over
        self.is_long = False  # it was ended, since it printed too much

    def sentences(self):
        """Returns what it said, in clean lines."""
        return clean_lines(self.words)


class Running:
    """The programs that run, and whether the tool was asked to end."""

    def __init__(self):
        """Begins with none."""
        self.lock = threading.RLock()
        self.processes = set()
        self.is_beginning = False  # the main thread is between a fork and the moment when its program can be ended
        self.grace = GRACE  # seconds that all that runs has to end by itself where the tool ends
        self.is_unheeded = False  # signals are not heeded now
        self.ended = threading.Event()  # set once no program is to begin any more

    def heed_signals(self):
        """Lets a signal end the tool."""
        for number in SIGNALS:
            signal.signal(number, self.end_at_signal)

    def end_at_signal(self, *_):
        """Ends the tool, or has it ended as soon as the program that just begins can be ended with it, or as the next
        one would begin behind steps that no signal may part."""
        for number in SIGNALS:
            signal.signal(number, signal.SIG_IGN)
        self.ended.set()
        if not self.is_beginning and not self.is_unheeded:
            raise Ended

    @contextlib.contextmanager
    def unheeded(self):
        """Lets no signal come between steps of which either all or none are to be done."""
        self.is_unheeded = True
        try:
            yield
        finally:
            self.is_unheeded = False

    def begin(self, words, **how):
        """Begins a program, in a session of its own."""
        is_main = threading.current_thread() is threading.main_thread()
        with self.lock:
            self.is_beginning = is_main
            try:
                if self.ended.is_set():
                    raise Ended
                process = subprocess.Popen(words, start_new_session=True, bufsize=0, **how)
                self.processes.add(process)
            except (OSError, ValueError) as fault:
                raise Failed(f"{words[0]} can't be run: {getattr(fault, 'strerror', None) or fault}") from fault
            finally:
                self.is_beginning = False
        if is_main and self.ended.is_set():
            raise Ended
        return process

    def rest(self, seconds):
        """Waits so long, unless the tool ends meanwhile."""
        if self.ended.wait(seconds):
            raise Ended

    def end(self, process, grace=GRACE):
        """Ends a program and all of its session: by TERM, and what is left after the grace by KILL."""
        signal_session(process, signal.SIGTERM)
        with contextlib.suppress(subprocess.TimeoutExpired):
            process.wait(grace)
        signal_session(process, signal.SIGKILL)
        process.wait()
        signal_session(process, signal.SIGKILL)  # what it left behind
        for pipe in (process.stdin, process.stdout, process.stderr):
            if pipe is not None:
                with contextlib.suppress(OSError):
                    pipe.close()
        with self.lock:
            self.processes.discard(process)

    def end_all(self):
        """Ends all programs at once; none begins any more. Whoever runs one closes its pipes."""
        self.ended.set()
        with self.lock:
            processes = list(self.processes)
        for process in processes:
            signal_session(process, signal.SIGTERM)
        until = time.monotonic() + self.grace
        for process in processes:
            with contextlib.suppress(subprocess.TimeoutExpired):
                process.wait(max(0, until - time.monotonic()))
        for process in processes:
            signal_session(process, signal.SIGKILL)
            process.wait()


RUNNING = Running()


def signal_session(process, number):
    """Sends a signal to a program and all that has its session."""
    with contextlib.suppress(ProcessLookupError, PermissionError):
        os.killpg(process.pid, number)


def run(words, text=b"", seconds=None, most=None, into=None, grace=GRACE, keeps_words=True):
    """Runs a program to its end with the text as its standard input, for at most so many seconds, while it prints at
    most so many bytes: into the file, or else kept. Of what it says the first is kept, unless that is to be seen at
    once."""
    process = RUNNING.begin(words, stdin=subprocess.PIPE if text else subprocess.DEVNULL, stdout=subprocess.PIPE,
                            stderr=subprocess.PIPE if keeps_words else None)
    came, kept = Came(), bytearray()
    deadline = None if seconds is None else time.monotonic() + seconds
    try:
        exchange(process, text, deadline, most, into.write if into else kept.extend, came)
        if not came.is_late and not came.is_long:
            wait_until(process, deadline, came)
    finally:
        RUNNING.end(process, 0 if process.poll() is not None else grace)
    came.status, came.printed = process.returncode, bytes(kept)
    return came


def turn_until(deadline):
    """Returns for how many seconds to wait before the next look, at most until then. Fails where the tool is to end: a
    signal comes to its main thread alone."""
    if RUNNING.ended.is_set():
        raise Ended
    return TURN if deadline is None else min(TURN, max(0.0, deadline - time.monotonic()))


def wait_until(process, deadline, came):
    """Waits for the end of a program whose output has ended."""
    while process.poll() is None and not came.is_late:
        with contextlib.suppress(subprocess.TimeoutExpired):
            process.wait(turn_until(deadline))
        came.is_late = deadline is not None and time.monotonic() >= deadline and process.poll() is None


def exchange(process, text, deadline, most, keep, came):
    """Hands a program the text, and takes what it prints and says, until both have ended or a limit is reached."""
    rest, taken = memoryview(text), 0
    with selectors.DefaultSelector() as selector:
        for pipe, event in ((process.stdin, selectors.EVENT_WRITE), (process.stdout, selectors.EVENT_READ),
                            (process.stderr, selectors.EVENT_READ)):
            if pipe is not None:
                os.set_blocking(pipe.fileno(), False)
                selector.register(pipe, event)
        while selector.get_map():
            if deadline is not None and time.monotonic() >= deadline:
                came.is_late = True
                return
            for key, _ in selector.select(turn_until(deadline)):
                if key.fileobj is process.stdin:
                    rest = hand_on(process.stdin, rest)
                    if not rest:
                        close_pipe(selector, process.stdin)
                    continue
                piece = key.fileobj.read(PIECE)
                if piece == b"":
                    close_pipe(selector, key.fileobj)
                elif piece and key.fileobj is process.stderr:
                    came.words += piece[:MOST_WORDS - len(came.words)]
                elif piece:
                    taken += len(piece)
                    if most is not None and taken > most:
                        came.is_long = True
                        return
                    keep(piece)


def close_pipe(selector, pipe):
    """Closes a pipe that has done its work."""
    selector.unregister(pipe)
    with contextlib.suppress(OSError):
        pipe.close()


def hand_on(pipe, rest):
    """Writes as much as the pipe takes. Returns what is left: nothing, where nobody reads it any more."""
    try:
        return rest[pipe.write(rest[:PIECE]) or 0:]
    except BlockingIOError:
        return rest
    except BrokenPipeError:
        return rest[:0]


def side_by_side(works, at_once):
    """Does all works, at most so many at a time, each under its name. Returns what came of each, by name; where one
    fails, or the tool is to end, all are ended."""
    # (it loads all of `logging`, and most tools do one thing after the other)
    import concurrent.futures  # pylint: disable=import-outside-toplevel
    with concurrent.futures.ThreadPoolExecutor(at_once) as pool:
        running = {name: pool.submit(work) for name, work in works.items()}
        try:
            for one in concurrent.futures.as_completed(running.values()):
                one.result()
        except BaseException:
            for one in running.values():
                one.cancel()
            RUNNING.end_all()
            raise
    return {name: one.result() for name, one in running.items()}
