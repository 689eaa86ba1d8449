"""What a router is asked, and what its answer is believed: tables of its own, each named, in their order, and as long
as they are told to be.

A router is asked by a shell script that holds a random word, which no greeting has. The lines that begin with the word
are believed; where a table goes is made of our own name of it.
"""
import os
import re
import shlex
import time

from mcaudit_tools.common import Failed
from mcaudit_tools.files import PIECE

TABLES = "ip_mr_vif", "ip_mr_cache", "igmp"
FACTS = "route", "address"
IDENTITY = "boot", "net"
MOST_TABLE = 16 << 20  # bytes of a table, as mcaudit takes it
MOST_ANSWER = 3 * MOST_TABLE + (1 << 20)
LENGTH = re.compile(rb"[1-9][0-9]{0,8}")  # of a table and its point
MOST_LINE = 4096  # bytes of a line that is looked into: a kernel's row is far shorter
SCRIPT = """LC_ALL=C
export LC_ALL
show() {{
    case $1 in
        address) ip -j address 2> /dev/null || ip -o -4 address ;;
        boot) cat /proc/sys/kernel/random/boot_id ;;
        net) readlink /proc/self/ns/net ;;
        *) cat "/proc/net/$1" ;;
    esac
}}
for table in {tables}; do
    if text=$(show "$table" && echo .); then
        printf '%s\\n%s\\n' "{word} table $table ${{#text}}" "$text"
    else
        echo "{word} failed $table"
    fi
done
echo "{word} end"
"""


class Late(Failed):
    """The time that an answer has is over."""


def random_word():
    """Returns a word that nobody can know before."""
    return f"mcaudit-{os.urandom(16).hex()}"


def questions(word, tables):
    """Returns what the shell on a router is handed."""
    return SCRIPT.format(tables=" ".join(map(shlex.quote, tables)), word=word).encode()


class Answer:
    """An answer that is taken apart as it is read: each table goes into a file of the folder."""

    def __init__(self, file, word, tables, folder, deadline):
        """Takes the answer's file, and what was asked."""
        self.file, self.word, self.tables, self.folder, self.deadline = file, word.encode(), tables, folder, deadline
        self.is_at_line = True

    def fault(self):
        """Takes the answer apart. Returns what is wrong with it, or None."""
        fields = self.line(is_first=True)
        for table in self.tables:
            if fields is None:
                return "the answer was cut short" if table != self.tables[0] else "could not be reached"
            if fields[1:2] == [b"failed"] and fields[2:] == [table.encode()]:
                open(os.path.join(self.folder, table), "wb").close()
                if table.startswith("ip_mr_"):
                    return f"/proc/net/{table} could not be read"
            elif fields[1:3] == [b"table", table.encode()] and len(fields) == 4 and LENGTH.fullmatch(fields[3]):
                fault = self.take_table(table, int(fields[3]) - 1)
                if fault:
                    return fault
            else:
                return "the answer is not what was asked for"
            fields = self.line()
        if fields is None:
            return "the answer was cut short"
        return None if fields[1:] == [b"end"] else "the answer is not what was asked for"

    def line(self, is_first=False):
        """Returns the fields of the next line, which the word has to begin, or of the first one that it begins,
        whatever was said before; None at the end."""
        while True:
            line = self.file.readline(MOST_LINE)
            if not line:
                return None
            fields = line.split() if self.is_at_line else []
            self.is_at_line = line.endswith(b"\n")
            if fields[:1] == [self.word] or not is_first:
                return fields if fields[:1] == [self.word] else [self.word, b""]
            self.check_time()

    def take_table(self, table, length):
        """Takes a table of this length, behind which stands a point. Returns what is wrong, or None."""
        if length > MOST_TABLE:
            return f"its table {table} has more than {MOST_TABLE} bytes"
        with open(os.path.join(self.folder, table), "wb") as file:
            while length > 0:
                piece = self.file.read(min(PIECE, length))
                if not piece:
                    return "the answer was cut short"
                file.write(piece)
                length -= len(piece)
                self.check_time()
        end = self.file.read(2)
        if len(end) < 2:
            return "the answer was cut short"
        return None if end == b".\n" else "the answer is not what was asked for"

    def check_time(self):
        """Fails where the time is over."""
        if time.monotonic() > self.deadline:
            raise Late("late")


def lines_of(path, deadline):
    """Yields the lines of a table, cut where they are longer than a kernel's."""
    with open(path, "rb") as file:
        for line in iter(lambda: file.readline(MOST_LINE), b""):
            if time.monotonic() > deadline:
                raise Late("late")
            yield line


def shape_of(folder, deadline):
    """Returns a digest of what has to hold still of a router's tables: all but the counters."""
    # (OpenSSL is loaded with it, and whoever takes only an answer apart needs no digest)
    import hashlib  # pylint: disable=import-outside-toplevel
    digest = hashlib.sha256()
    for line in lines_of(os.path.join(folder, "ip_mr_vif"), deadline):
        fields = line.split()
        digest.update(b" ".join([b"vif", str(len(fields)).encode(), *fields[:2], *fields[6:9]]) + b"\n")
    for line in lines_of(os.path.join(folder, "ip_mr_cache"), deadline):
        fields = line.split()
        digest.update(b" ".join([b"row", *fields[:3], b"-", *fields[6:]]) + b"\n")
    return digest.digest()


def rows_of(path, deadline):
    """Returns how many lines a table has after its header."""
    rows, is_at_line = 0, True
    for line in lines_of(path, deadline):
        rows += is_at_line
        is_at_line = line.endswith(b"\n")
    return max(0, rows - 1)


def order_of(path, deadline):
    """Returns the router's byte order. The kernel prints the group 224.0.0.1, which every interface that is up has
    joined, in /proc/net/igmp as it prints addresses in ip_mr_cache: as a number of the machine."""
    order = "order not known: no interface is up"
    for line in lines_of(path, deadline):
        first = line.split()[:1]
        if first == [b"010000E0"]:
            order = "order little"
        elif first == [b"E0000001"]:
            order = "order big"
    return order
