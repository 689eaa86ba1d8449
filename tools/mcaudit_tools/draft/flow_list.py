"""A list of flows that an operator has: CSV with the columns source, group and ttl (RFC 4180), or M3U. Of it come
addresses and times to live alone: no title is copied, nothing is fetched, and no name is asked for."""
import io
import ipaddress
import re
import typing

from mcaudit_tools import igmp
from mcaudit_tools.common import Failed
from mcaudit_tools.draft.told import MOST_FLOWS
from mcaudit_tools.files import read_regular

MOST_BYTES = 1 << 20
MOST_TOLD = 20  # lines that are named with what is wrong
COLUMNS = "source", "group", "ttl"
SCHEME = re.compile(r"(?:udp|rtp)://", re.IGNORECASE)
PLACE = re.compile(r"(?:([^@/]*)@)?([^@/:]+)(?::([0-9]{1,5}))?/?")
NEWLINE = re.compile(r"\r\n|\r|\n")


class Given(typing.NamedTuple):
    """A flow as the list has it: on which line, and with which time to live, if it has any."""

    line: int
    ttl: "int | None"


class FlowList:
    """The flows of a file."""

    def __init__(self, path):
        """Reads the file, if there is one."""
        self.path, self.flows, self.faults, self.others = path, {}, [], 0  # by source, or None, and group
        if path is not None:
            self.read(path)

    def read(self, path):
        """Reads the file."""
        data = read_regular(path, MOST_BYTES)
        try:
            text = data.decode("utf-8-sig")
        except UnicodeDecodeError as fault:
            raise self.failed("it is not UTF-8") from fault
        if not self.take_csv(text):
            self.take_m3u(text)
        if not self.flows and not self.faults:
            raise self.failed("it has neither a column `group`, as CSV, nor lines of udp:// or rtp://, as M3U")

    def failed(self, reason):
        """Returns the failure of a file that can't be read."""
        return Failed(f"{self.path} can't be read: {reason}")

    def take_csv(self, text):
        """Takes the lines of CSV, where it is any. Returns whether it is."""
        import csv  # (for --flows alone)  pylint: disable=import-outside-toplevel
        reader = csv.reader(io.StringIO(text, newline=""), strict=True)
        head, last = None, 0
        try:
            for row in reader:
                line, last = last + 1, reader.line_num
                if head is None:
                    head = [it.strip().lower() for it in row]
                    if "group" not in head:
                        return False
                    self.check_head(head)
                elif row:
                    self.take_row(line, head, row)
        except csv.Error as fault:
            if head is None:
                return False
            raise self.failed(f"line {last + 1}: its fields and quotes are none of CSV (RFC 4180)") from fault
        return head is not None

    def check_head(self, head):
        """Fails where a column is there twice."""
        for name in COLUMNS:
            if head.count(name) > 1:
                raise self.failed(f"the column `{name}` is there twice")

    def take_row(self, line, head, row):
        """Takes a line of CSV."""
        if len(row) != len(head):
            self.faults.append((line, f"it has {len(row)} fields, and the first line {len(head)}"))
            return
        named = dict(zip(head, row))
        self.take(line, *(named.get(it, "").strip() for it in COLUMNS))

    def take_m3u(self, text):
        """Takes the lines of M3U: those of an address, and counts all others but for empty ones."""
        for line, word in enumerate(map(str.strip, NEWLINE.split(text)), 1):
            found = SCHEME.match(word)
            place = PLACE.fullmatch(word, found.end()) if found else None
            if place is not None and int(place[3] or 0) < 65536:
                self.take(line, place[1] or "", place[2], "")
            elif found:
                self.faults.append((line, "it is not [SOURCE@]GROUP[:PORT]"))
            else:
                self.others += bool(word)

    def take(self, line, source, group, ttl):
        """Takes a flow: its source and its time to live may be missing."""
        host, joined = igmp.host_of(source), igmp.group_of(group)
        if joined is None:
            self.faults.append((line, "its group is none of 224.0.1.0 to 239.255.255.255"))
        elif source and host is None:
            self.faults.append((line, "its source is not a host's address"))
        elif ttl and not (re.fullmatch("[1-9][0-9]{0,2}", ttl) and int(ttl) <= 255):
            self.faults.append((line, "its ttl is none of 1 to 255"))
        else:
            key = ipaddress.IPv4Address(host) if host else None, ipaddress.IPv4Address(joined)
            self.add(key, Given(line, int(ttl) if ttl else None))

    def add(self, key, given):
        """Adds a flow, but for one that is there already."""
        if key in self.flows:
            first = self.flows[key]
            other = ", with another ttl" if first.ttl != given.ttl else ""
            pair = f"{key[0] or '?'} {key[1]}"
            self.faults.append((given.line, f"{pair} is there already, on line {first.line}{other}"))
        elif len(self.flows) >= MOST_FLOWS:
            raise self.failed(f"it has more than {MOST_FLOWS} flows")
        else:
            self.flows[key] = given

    def sentences(self):
        """Yields what a person is to know of it."""
        for line, reason in self.faults[:MOST_TOLD]:
            yield f"{self.path}: line {line}: {reason}"
        if len(self.faults) > MOST_TOLD:
            yield f"{self.path}: and {len(self.faults) - MOST_TOLD} more such lines"
        if self.others:
            yield f"{self.path}: other lines {self.others}"
