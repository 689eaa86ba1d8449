"""Recorded texts: what `tcpdump -n -tt -x` printed, as frames. With -e the text has the link's headers too."""
import re

from mcaudit_tools.capture import ALL_HOSTS_MAC, MOST_BYTES, SECOND, Frame
from mcaudit_tools.common import Failed, from_hex

MOST_LINE = 65536
MOST_PACKET = 65535  # bytes of an IPv4 packet
DIGITS = re.compile(rb"[ \t]+0x([0-9a-f]+):  ?(.*)", re.DOTALL)
SECONDS = re.compile(rb"[0-9]{1,12}(\.[0-9]{1,9})?")
CLOCK = re.compile(rb"([0-9]{2}):([0-9]{2}):([0-9]{2})(?:\.([0-9]{1,9}))?")
DATE = re.compile(rb"[0-9]{4}-[0-9]{2}-[0-9]{2}")
LINK = re.compile(rb" ([0-9a-f:]{17}) (?:\([^)]*\) )?> ([0-9a-f:]{17}|Broadcast)(?: \([^)]*\))?, ")
MAC = re.compile(rb"[0-9a-f]{2}(:[0-9a-f]{2}){5}")
TAG = re.compile(rb"\bvlan ([0-9]{1,4})\b")
DAY, HALF_DAY = 86400 * SECOND, 43200 * SECOND


class Clock:
    """Reads the times that lines begin with: seconds, or times of a day, whose days are counted."""

    def __init__(self):
        """Begins without a date."""
        self.date, self.days, self.earlier = None, 0, 0

    def time_of(self, fields):
        """Returns when the line says that its packet came, in nanoseconds; None if it doesn't."""
        first = fields[0]
        found = SECONDS.fullmatch(first)
        if found and (found[1] or len(fields) == 1):
            whole, _, parts = first.partition(b".")
            return int(whole) * SECOND + int(parts.ljust(9, b"0"))
        if DATE.fullmatch(first) and len(fields) > 1:
            self.days += self.date not in (None, first)
            self.date, first = first, fields[1]
        clock = CLOCK.fullmatch(first)
        if not clock:
            return None
        hours, minutes, seconds = (int(it) for it in clock.groups()[:3])
        time = (hours * 3600 + minutes * 60 + seconds) * SECOND + int((clock[4] or b"").ljust(9, b"0"))
        if self.date is None and time < self.earlier - HALF_DAY:
            self.days += 1
        self.earlier = time
        return self.days * DAY + time


class Recording:
    """Takes the lines of a text, and gives the frames that they end."""

    def __init__(self):
        """Begins before the first line."""
        self.clock, self.frame, self.count = Clock(), None, 0
        self.lacks_links = False

    def frames(self, file):
        """Yields the frames of a text."""
        yield from filter(None, map(self.take, lines_of(file)))
        yield from filter(None, [self.end()])

    def take(self, line):
        """Takes a line. Returns the frame that it ends, or None."""
        self.count += 1
        digits = DIGITS.fullmatch(line)
        if digits:
            ended = None
            if int(digits[1], 16) == 0 and self.frame is not None and self.frame.data:
                ended, self.frame = self.end(), Frame(None, line=self.count)
            if self.frame is None:
                self.frame = Frame(None, line=self.count)
            self.frame.data += bytes_of(digits[2])
            if len(self.frame.data) > MOST_PACKET:
                raise Failed(f"the text has a packet of more than {MOST_PACKET} bytes")
            return ended
        if not line.strip() or line[:1] in b" \t":
            return None
        ended, fields = self.end(), line.split()
        self.frame = Frame(self.clock.time_of(fields), line=self.count)
        self.take_link(line)
        return ended

    def take_link(self, line):
        """Takes what the line says of the link, with -e."""
        found = LINK.search(line[:256])
        if found:
            self.frame.hardware, self.frame.target = map(hardware_of, found.groups())
            self.frame.is_to_all = self.frame.target == ALL_HOSTS_MAC
            self.frame.vlans = [int(it) & 0xFFF for it in TAG.findall(line[:256])]

    def end(self):
        """Returns the frame that has come in whole: of a line that tells a time alone, without a packet; or None."""
        frame, self.frame = self.frame, None
        if frame is not None and frame.data:
            self.lacks_links |= frame.is_to_all is None
        return frame if frame is not None and (frame.data or frame.time is not None) else None


def hardware_of(text):
    """Returns a link's address, or None where the text is none."""
    return from_hex(text.replace(b":", b"")) if MAC.fullmatch(text) else None


def bytes_of(text):
    """Returns the bytes of a line's digits: eight words of four at most, before what -X prints."""
    digits = text[:39].replace(b" ", b"").strip()
    try:
        return from_hex(digits[:len(digits) // 2 * 2])
    except ValueError as fault:
        raise Failed("the text has a line of digits that are none") from fault


def lines_of(file):
    """Yields the lines of a text without their ends, as long as it isn't too long."""
    taken = 0
    for line in iter(lambda: file.readline(MOST_LINE + 1), b""):
        taken += len(line)
        if taken > MOST_BYTES or len(line) > MOST_LINE:
            raise Failed(f"the text has more than {MOST_BYTES} bytes, or {MOST_LINE} in a line")
        yield line.rstrip(b"\r\n")
