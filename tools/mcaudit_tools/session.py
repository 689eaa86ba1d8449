"""A capture on an interface, here or on a router: tcpdump runs there in a shell, and its capture comes the same way.

The shell is handed a script that says which addresses the interface has, and then becomes the capture, until its input
ends. What comes before the random word is a greeting, and is passed over.
"""
import contextlib
import ipaddress
import re
import selectors
import shlex
import subprocess
import time

from mcaudit_tools import answers
from mcaudit_tools.capture import Broken, Decoder
from mcaudit_tools.common import Ended, Failed, clean_lines
from mcaudit_tools.files import PIECE
from mcaudit_tools.programs import RUNNING, signal_session

START = 30  # seconds until tcpdump listens
END = 10  # seconds until it has ended
TURN = 0.5  # seconds after which the tool looks whether it is to end
MOST_GREETING, MOST_WORDS = 65536, 16384  # bytes
MOST_BYTES = 256 << 20  # bytes of a capture until its window is over
ADDRESS = re.compile(rb"^\s*inet ([0-9.]+)(?: peer ([0-9.]+))?/([0-9]{1,2})\s", re.MULTILINE)
DROPPED = re.compile(r"[1-9][0-9]* packets? dropped.*")
COUNTED = re.compile(r"([0-9]{1,18}) packets? captured")
RECEIVED = re.compile(r"([0-9]{1,18}) packets? received by filter")
SCRIPT = """{{
    LC_ALL=C
    export LC_ALL
    exec 3<&0
    echo {word} addresses
    ip -4 address show dev {interface} 2> /dev/null
    echo {word} capture
    tcpdump -n -U -w - --immediate-mode -i {interface} 'ip proto 2 or ip proto 103' 3<&- < /dev/null &
    capture=$!
    {{ cat <&3 > /dev/null; kill "$capture"; }} > /dev/null 2>&1 &
    ending=$!
    wait "$capture"
    status=$?
    kill "$ending" 2> /dev/null
    exit "$status"
}}
"""


class NoCapture(Failed):
    """There is no capture on this router: perhaps there is one on another."""


class Session:
    """A capture that goes on, and what came of it."""

    def __init__(self, shell, interface, take):
        """Begins the capture in the shell. What takes the frames comes from `take`, once the addresses are known."""
        self.word = answers.random_word()
        script = SCRIPT.format(word=self.word, interface=shlex.quote(interface)).encode()
        self.make_take, self.take = take, None
        self.decoder, self.head, self.words, self.bytes = Decoder(), bytearray(), b"", 0
        self.process = RUNNING.begin(shell, stdin=subprocess.PIPE, stdout=subprocess.PIPE, stderr=subprocess.PIPE)
        self.selector = selectors.DefaultSelector()
        for pipe in (self.process.stdout, self.process.stderr):
            self.selector.register(pipe, selectors.EVENT_READ)
        with contextlib.suppress(OSError):
            self.process.stdin.write(script)

    def __enter__(self):
        """Gives itself."""
        return self

    def __exit__(self, *_):
        """Ends the capture, whatever became of it."""
        self.selector.close()
        RUNNING.end(self.process)

    # What comes

    def pump(self, until, is_over=lambda: False):
        """Takes what comes until then, or until something is over, or until nothing comes any more."""
        while self.selector.get_map() and not is_over():
            if RUNNING.ended.is_set():
                raise Ended
            left = until - time.monotonic()
            if left <= 0:
                return
            for key, _ in self.selector.select(min(left, TURN)):
                piece = key.fileobj.read(PIECE)
                if not piece:
                    self.selector.unregister(key.fileobj)
                elif key.fileobj is self.process.stderr:
                    self.words = (self.words + piece)[-MOST_WORDS:]
                else:
                    self.take_piece(piece)

    def take_piece(self, piece):
        """Takes a piece of what the shell prints: the addresses, and then the capture."""
        self.bytes += len(piece)
        if self.bytes > MOST_BYTES:
            raise Broken(f"more than {MOST_BYTES} bytes came before the answers were over")
        if self.take is None:
            self.head += piece
            mark = f"{self.word} capture\n".encode()
            at = self.head.find(mark)
            if at < 0:
                if len(self.head) > MOST_GREETING:
                    raise NoCapture("the answer is not what was asked for")
                return
            addresses = bytes(self.head[:at]).partition(f"{self.word} addresses\n".encode())[2]
            self.take = self.make_take(networks_of(addresses))
            piece = bytes(self.head[at + len(mark):])
            self.head.clear()
        for frame in self.decoder.feed(piece):
            self.take(frame)

    def is_alive(self):
        """Whether the capture goes on."""
        return bool(self.selector.get_map()) and self.process.poll() is None

    def sentences(self):
        """Returns what tcpdump and the way to the router said, but for what it always says."""
        return [it for it in clean_lines(self.words) if not it.startswith(("listening on ", "tcpdump: listening on "))]

    # Its beginning and its end

    def await_start(self):
        """Waits until tcpdump listens: what is sent from then on it sees."""
        self.pump(time.monotonic() + START, lambda: b"listening on " in self.words)
        if b"listening on " not in self.words or not self.is_alive():
            self.pump(time.monotonic() + TURN, lambda: not self.is_alive())
            raise self.failed()

    def check(self):
        """Fails where the capture has ended by itself."""
        if not self.is_alive():
            self.pump(time.monotonic() + TURN)
            raise self.failed()

    def end(self):
        """Ends the capture, and takes all that it still has. Returns what tells how much was dropped, or left unread as
        it ended, or None."""
        with contextlib.suppress(OSError):
            self.process.stdin.close()
        self.pump(time.monotonic() + END)
        if self.selector.get_map():
            raise self.failed()
        try:
            status = self.process.wait(END)
        except subprocess.TimeoutExpired as fault:
            raise self.failed() from fault
        captured, received, dropped = (next((found for found in map(it.search, self.sentences()) if found), None)
                                       for it in (COUNTED, RECEIVED, DROPPED))
        if status != 0 or not captured:
            raise self.failed()
        self.decoder.finish()
        if not dropped and received and int(received[1]) > int(captured[1]):
            return f"{int(received[1]) - int(captured[1])} packets were left unread as the capture ended"
        return dropped and dropped[0]

    def failed(self):
        """Returns the failure of the capture."""
        signal_session(self.process, 15)
        return NoCapture("tcpdump failed" if self.take is not None else "the router could not be reached")


def networks_of(text):
    """Returns the networks of an interface, of what `ip -4 address` says of it; of a link both ends."""
    found = []
    for local, peer, prefix in ADDRESS.findall(text):
        for address, length in ((peer or local, prefix), *([(local, b"32")] if peer else [])):
            with contextlib.suppress(ValueError):
                found.append(ipaddress.IPv4Network(f"{address.decode()}/{length.decode()}", strict=False))
    return found
