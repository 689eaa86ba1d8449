"""What a router's multicast tables don't show: facts.sh asks for it, and a set keeps it as facts-NAME.

A file of facts has sections: a line `@NAME` and lines that begin with a blank, which are a router's own words. It ends
with the line `@end`. A section that was too large has the line `!too large` alone; where an answer failed or was cut
short, the section `failed` says why. So nothing that a router answers makes a collection fail.
"""
import contextlib
import os
import re
import shutil
import time

from mcaudit_tools import origins
from mcaudit_tools.answers import Late, random_word
from mcaudit_tools.common import Failed
from mcaudit_tools.files import PIECE, open_regular
from mcaudit_tools.programs import run

SCRIPTS = "sections.sh", "facts.sh"  # what a router is asked by
PREFIXES = PREFIX, EARLIER = "facts-", "earlier-"  # of the facts of a set, and of those before them
MOST_SECTION = 4 << 20  # bytes
MOST_TOLD = 8 << 20  # bytes of what a daemon answers
MOST_FACTS = 16 << 20  # bytes of all sections
MOST_ANSWER = MOST_FACTS + (1 << 20)
MOST_FILE = MOST_FACTS + (1 << 16)
TAKING = 5  # seconds that an answer is taken apart beyond its time
SECTION = re.compile(rb"@([a-z][a-z0-9_]{0,31})\n")
END = "end"  # the section that is last
OF_A_DAEMON = b"frr_"
TOO_LARGE = b" !too large\n"


def script_of(name):
    """Returns the text of what runs on a router, which lies beside this package's modules."""
    with open(os.path.join(os.path.dirname(os.path.abspath(__file__)), name), "rb") as file:
        return file.read()


class Sections:
    """The sections of an answer, written into a file as they are read, each in its bounds."""

    def __init__(self, file):
        """Takes the file, open to be written and read."""
        self.file, self.name, self.begin, self.size, self.total, self.is_kept = file, b"", 0, 0, 0, False

    def open(self, name):
        """Begins a section."""
        head = b"@" + name + b"\n"
        self.name, self.size, self.is_kept = name, 0, True
        self.file.write(head)
        self.total += len(head)
        self.begin = self.file.tell()

    def add(self, piece):
        """Adds a piece of a section, which falls away whole where it is too large."""
        most = MOST_TOLD if self.name.startswith(OF_A_DAEMON) else MOST_SECTION
        if not self.is_kept:
            return
        if self.size + len(piece) > most or self.total + len(piece) > MOST_FACTS:
            self.replace(TOO_LARGE)
            return
        self.file.write(piece)
        self.size += len(piece)
        self.total += len(piece)

    def replace(self, line):
        """Puts one line in the place of what the section has."""
        self.file.seek(self.begin)
        self.file.truncate()
        self.file.write(line)
        self.total += len(line) - self.size
        self.is_kept = False

    def fail(self, reason):
        """Ends with the reason why there is no more; of a section that is open nothing is kept."""
        if self.name:
            self.replace(b" !cut short\n")
        self.file.write(b"@failed\n " + reason.encode("ascii", "replace") + b"\n")


def take_sections(answer, word, sections, deadline):
    """Takes the sections of an open answer, behind the line that the word begins. Returns why they aren't all, or
    None."""
    while True:
        line = answer.readline(PIECE)
        if not line:
            return "could not be reached"
        if line == word + b" facts\n":
            break
        check_time(deadline)
    is_at_line = True
    for piece in iter(lambda: answer.readline(PIECE), b""):
        check_time(deadline)
        head = SECTION.fullmatch(piece) if is_at_line else None
        if head and head[1] == END.encode():
            return None
        if head:
            sections.open(head[1])
        elif is_at_line and not piece.startswith(b" ") or not sections.name:
            return "the answer is not what was asked for"
        elif piece != b" \n" or not is_at_line:
            sections.add(piece)
        is_at_line = piece.endswith(b"\n")
    return "the answer was cut short"


def check_time(deadline):
    """Fails where the time is over."""
    if time.monotonic() > deadline:
        raise Late("late")


def script(word, *names):
    """Returns what the shell on a router is handed: the random word, and then the texts of what it runs."""
    return b"word=" + word + b"\n" + b"".join(map(script_of, names))


def take_answer(came, answer, word, target, seconds, until):
    """Takes the sections of the rest of an open answer, which had so many seconds, into a file until then, whatever
    came."""
    sections, late = Sections(target), f"no whole answer in {seconds} s"
    cut = "the answer is too large" if came.is_long else late if came.is_late else None
    try:
        reason = take_sections(answer, word, sections, until)
    except Late:
        reason = late
    if reason:
        sections.fail(cut or reason)
    target.write(b"@" + END.encode() + b"\n")


def ask(words, router, folder):
    """Asks a router for its facts, for at most the time that a reading has, and writes them into the folder, whatever
    comes of it. Returns when that was, in Unix seconds."""
    word, answer = random_word().encode(), os.path.join(folder, "facts.answer")
    until = time.monotonic() + words.timeout + TAKING
    with open(answer, "wb") as file:
        came = run(router.shell(words.ssh), script(word, *SCRIPTS), words.timeout, MOST_ANSWER, file)
    with open(answer, "rb") as file, open(os.path.join(folder, "facts"), "w+b") as target:
        take_answer(came, file, word, target, words.timeout, until)
    os.unlink(answer)
    return int(time.time())


def files_of(last, name, folder, when):
    """Returns the files of a new set that a router's facts in the folder are, as they were asked for then, and those
    before them in the set that was the last: where each lies, and where it comes from."""
    files = {PREFIX + name: (os.path.join(folder, "facts"), origins.Origin(origins.COLLECT, name, when))}
    before, path = os.path.join(last, PREFIX + name), os.path.join(folder, "earlier")
    if os.path.isfile(before) and os.stat(before).st_size <= MOST_FILE:
        with contextlib.suppress(Failed), open_regular(before) as file, open(path, "wb") as target:
            known = origins.read(last)
            origin = origins.current(before, known.get(PREFIX + name), origins.is_copy(last, known))
            shutil.copyfileobj(file, target, PIECE)
            files[EARLIER + name] = path, origin
    return files
