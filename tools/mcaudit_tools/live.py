"""One LAN's list, gathered from a capture that goes on: on an interface here, or on a router."""
import ipaddress
import re
import shlex
import threading
import time

from mcaudit_tools import capture, igmp
from mcaudit_tools.common import Failed, find_tool
from mcaudit_tools.files import PIECE
from mcaudit_tools.programs import run
from mcaudit_tools.session import NoCapture, Session
from mcaudit_tools.window import NO_LIST, REFUSED, SPOILT, Gathering, List

QUERY_SECONDS = 30  # in which the queries of --ask have to be sent
ANSWERS_SECONDS = 10  # that the answers to them have
MARGIN = 0.5  # seconds for what is on its way
MOST_HELD = 65_536  # frames that come while it is asked


class Live:
    """The gathering of one list from a capture that goes on."""

    def __init__(self, task):
        """Takes the task."""
        self.task, self.words, self.say = task, task.words, task.say
        self.gathering, self.held = None, None
        self.begun, self.until = time.monotonic(), None  # until when frames are the list's

    def make_take(self, networks):
        """Begins to gather, once the interface's networks are known. Returns what takes the frames."""
        self.gathering = Gathering(self.task.rules(networks, True), self.say)
        return self.take

    def take(self, frame):
        """Takes a frame, or holds it as long as it isn't known which address asks."""
        if self.task.speakers is not None:
            self.task.speakers.take(frame)
        if self.until is not None and frame.time > self.until:
            return
        if self.held is None:
            self.gathering.take(frame)
        elif len(self.held) < MOST_HELD:
            self.held.append(frame)
        else:
            raise capture.Broken(f"more than {MOST_HELD} packets came while it was asked")

    def list(self):
        """Captures from now to the end of the answers to the next General Query, or to so many. Returns the list."""
        with Session(self.task.shell, self.task.device, self.make_take) as session:
            try:
                return self.list_of(session)
            except NoCapture:
                for sentence in session.sentences():
                    self.say(sentence)
                raise

    def list_of(self, session):
        """Returns the list of the capture."""
        self.say(f"waiting on {self.task.device} for a General Query, at most {self.words.wait} s")
        session.await_start()
        for count in range(self.words.queries):
            if count > 0:
                self.close()
            if not self.await_window(session):
                return List(NO_LIST)
        self.listen(session)
        lost = session.end()
        self.close()
        if lost:
            self.say(lost)
            self.say("no list: it would lack a report")
            return List(SPOILT)
        return self.task.list_of(self.gathering)

    def listen(self, session):
        """Goes on for whoever speaks seldom, as PIM's Hello comes each 30 s; nothing of it is the list's."""
        left = self.begun + self.words.listen - time.monotonic()
        if self.gathering.window is not None and left > 0:
            self.until = self.gathering.window.ends + int(MARGIN * capture.SECOND)
            session.pump(time.monotonic() + left)
            session.check()

    def close(self):
        """Ends the window that is open. The last one is, once all has come that the capture gave until its end: it may
        come late, by a slow way to the router."""
        if self.gathering is not None and self.gathering.window is not None:
            self.gathering.close()

    def await_window(self, session):
        """Waits for a General Query and for the end of its answers. Returns whether one came."""
        session.pump(time.monotonic() + self.words.wait, lambda: self.gathering is not None and self.gathering.window)
        session.check()
        window = self.gathering.window
        if window is None:
            return self.ask_hosts(session)
        session.pump(time.monotonic() + window.seconds() + self.words.slack + MARGIN)
        session.check()
        return True

    def ask_hosts(self, session):
        """Asks the hosts, where no querier was heard, and waits for the end of the answers. Returns whether it did."""
        device, wait = self.task.device, self.words.wait
        if not self.task.is_asking:
            self.say(f"no General Query came on {device} in {wait} s; by default one comes every 125 s")
            if self.task.others:
                self.say(f"{self.task.others} routers are on this LAN, and a switch that snoops could keep streams "
                         "from one of them while another asks: --ask-routers asks here anyway")
            return False
        if self.gathering.others:
            querier = igmp.dotted(self.gathering.others)
            self.say(f"{querier} asks on {device}, so nothing is asked: wait for its General Query")
            return False
        self.say(f"no querier was heard on {device} in {wait} s, so its own address asks: routers may take it for the "
                 "querier for 255 s")
        self.held = []
        self.gathering.asker = self.send_queries(session)
        held, self.held = self.held, None
        for frame in held:
            self.gathering.take(frame)
        session.pump(time.monotonic() + ANSWERS_SECONDS + self.words.slack + MARGIN)
        session.check()
        if len(self.gathering.done) + (self.gathering.window is not None) < self.words.queries:
            self.close()
            return self.gathering.finish() is None
        return True

    def send_queries(self, session):
        """Sends the queries on the router or here, while the capture goes on. Returns their address."""
        came = []

        def ask():
            """Runs mcaudit-query there."""
            try:
                came.append(run(self.task.shell, query_script(self.task.device), QUERY_SECONDS, PIECE))
            except Failed as fault:
                came.append(fault)
        asking = threading.Thread(target=ask, daemon=True)
        asking.start()
        session.pump(time.monotonic() + QUERY_SECONDS + 5, lambda: not asking.is_alive())
        asking.join(5)
        is_asked = came and not isinstance(came[0], Failed)
        found = is_asked and re.search(rb"^asked from ([0-9.]+)$", came[0].printed, re.M)
        try:
            asker = ipaddress.IPv4Address(found[1].decode()).packed
            self.task.own.add(asker)
            return asker
        except (TypeError, ValueError) as fault:
            for sentence in came[0].sentences() if came and not isinstance(came[0], Failed) else ():
                self.say(sentence)
            raise NoCapture(f"nothing could be asked on {self.task.device}") from fault


def query_script(device):
    """Returns what a shell is handed to ask on the interface: the Python that runs it reads nothing of where it is."""
    with open(find_tool("mcaudit-query"), encoding="utf-8") as file:
        end = "END OF MCAUDIT-QUERY"
        return f"exec python3 -I - {shlex.quote(device)} <<'{end}'\n{file.read()}\n{end}\n".encode()


def capture_list(task):
    """Captures until a list is whole, or for all tries. Returns the list."""
    for count in range(1, task.words.tries + 1):
        if count > 1:
            task.say(f"try {count} of {task.words.tries}")
        found = Live(task).list()
        if found.status not in (REFUSED, SPOILT):
            break
    return found


def hear(task, seconds):
    """Has the task's speakers hear what comes for so many seconds. Returns what tells how much was lost of it, or
    None."""
    with Session(task.shell, task.device, lambda networks: task.speakers.take) as session:
        try:
            session.await_start()
            session.pump(time.monotonic() + seconds)
            session.check()
            return session.end()
        except NoCapture:
            for sentence in session.sentences():
                task.say(sentence)
            raise
