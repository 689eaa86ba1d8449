"""Files that an audit reads, of which single lines are written anew: as a router's kernel prints them
(net/ipv4/ipmr.c), in the router's byte order. Each other line stays as it is, byte for byte.

The texts are those of an audit that had a verdict, so each line has the words that docs/FORMATS.md gives it.
"""
import collections
import functools
import os
import typing

from mcaudit_tools import igmp
from mcaudit_tools.common import Refused, from_hex
from mcaudit_tools.premises.rows import REGISTER, TUNNEL, USES_INDEX, word_of

NO_DEVICE = b"none"  # in the place of a device that a vif has lost
UNRESOLVED = b"-1"  # in the place of the incoming vif
EVERY = b"00000000"  # in the place of a source, or of source and group: an entry for each of them
CLOSED = 255  # the threshold by which nothing is forwarded, which the kernel doesn't print
DEFAULT_THRESHOLD = 1  # that daemons give a vif unless they are configured otherwise


class Entry(typing.NamedTuple):
    """A router's entry for a source and a group."""

    vif: int  # by which packets come in
    outgoing: "dict[int, int]"  # by vif, its threshold


class Vif(typing.NamedTuple):
    """A vif of a router."""

    device: bytes
    flags: int
    place: int  # of its line

    @property
    def is_link(self):
        """Whether it is an interface, with a device and no tunnel or register vif."""
        return self.device != NO_DEVICE and not self.flags & (TUNNEL | REGISTER)


def decimal(word):
    """Returns the number of a decimal word, which may have any number of leading zeros."""
    sign = -1 if word.startswith(b"-") else 1
    return sign * int(word.lstrip(b"-").lstrip(b"0") or b"0")


def pairs_of(words):
    """Returns outgoing vifs with their thresholds, of words `n:t`."""
    pairs = (it.split(b":") for it in words)
    return {decimal(vif): decimal(threshold) for vif, threshold in pairs}


def row_of(group, source, vif, counters, outgoing):
    """Returns the line of a resolved entry as the kernel prints it, without its end."""
    head = b"%b %b %-3d %8d %8d %8d" % (group, source, vif, *counters)
    return head + b"".join(b" %2d:%-3d" % it for it in sorted(outgoing.items()))


class VifTable:
    """/proc/net/ip_mr_vif of a router."""

    def __init__(self, text):
        """Takes its text."""
        self.lines = text.split(b"\n")[:-1]
        self.vifs = {}  # by number
        for place, line in enumerate(self.lines[1:], 1):
            words = line.split()
            self.vifs[decimal(words[0])] = Vif(words[1], int(words[6], 16), place)

    def number_of(self, device):
        """Returns the number of the vif that has the device, whose name is given as bytes; None where there is none."""
        return next((vif for vif, it in self.vifs.items() if it.device == device != NO_DEVICE), None)

    def name_of(self, vif):
        """Returns what a vif is called: by its device, or by its number where it has none."""
        found = self.vifs.get(vif)
        return f"vif/{vif}" if found is None or found.device == NO_DEVICE else os.fsdecode(found.device)

    def words_of(self, entry):
        """Returns an entry in words, as audit has them."""
        outgoing = [self.name_of(it) + (f":{threshold}" if threshold > 1 else "")
                    for it, threshold in sorted(entry.outgoing.items())]
        return f"from {self.name_of(entry.vif)} to {' '.join(outgoing) or 'none'}"

    def add(self, number, device, local):
        """Adds the line of a vif that an interface index makes, which is the word given for it."""
        self.vifs[number] = Vif(device, USES_INDEX, len(self.lines))
        counters = b"%8d %7d  %8d %7d" % (0, 0, 0, 0)
        self.lines.append(b"%2d %-10b %b %05X %b %b" % (number, device, counters, USES_INDEX, local, EVERY))

    def drop(self, vif):
        """Takes the line of a vif out."""
        self.lines[self.vifs.pop(vif).place] = None

    def clear(self):
        """Takes all lines out but the header."""
        self.lines, self.vifs = self.lines[:1], {}

    def text(self):
        """Returns the text."""
        return b"".join(it + b"\n" for it in self.lines if it is not None)


class CacheTable:
    """/proc/net/ip_mr_cache of a router. Its entries are those of a source and a group; others are never changed but
    with all that a router has."""

    def __init__(self, text, order):
        """Takes its text, and the router's byte order, little or big."""
        self.order, self.lines = order, text.split(b"\n")[:-1]
        self.places, self.waiting = {}, collections.defaultdict(list)  # of resolved lines and of unresolved ones
        self.shared = set()  # the words of groups with an entry for every source
        self.new = {}  # the lines of entries that were added, by words; they come behind the other resolved ones
        self.thresholds = {}  # by vif, where they were set for what is added
        self.first_lines = list(self.lines)  # before anything was changed
        for place, line in enumerate(self.lines[1:], 1):
            key, vif = key_of(line)
            if vif == UNRESOLVED:
                self.waiting[key].append(place)
            elif key.endswith(EVERY):
                self.shared.add(key[:8])
            else:
                self.places[key] = place

    def key(self, source, group):
        """Returns the words of a group and a source, given as dotted texts."""
        return word_of(group, self.order) + b" " + word_of(source, self.order)

    def words(self, key):
        """Returns the words of an entry's line, or None."""
        line = self.new.get(key) or (self.lines[self.places[key]] if key in self.places else None)
        return line and line.split()

    def entry(self, source, group):
        """Returns the entry, or None. An unresolved line is none."""
        words = self.words(self.key(source, group))
        return words and Entry(decimal(words[2]), pairs_of(words[6:]))

    def is_unresolved(self, source, group):
        """Whether there is an unresolved line of them."""
        return bool(self.waiting.get(self.key(source, group)))

    def is_shared(self, group):
        """Whether there is an entry for every source of the group, or of all groups."""
        return bool({word_of(group, self.order), EVERY} & self.shared)

    def odd_group(self):
        """Returns the word of a group that is none, or None: with such a line the byte order isn't the router's."""
        at = 0 if self.order == "big" else 6
        return next((key[:8] for key in (*self.places, *self.waiting)
                     if key[at:at + 1] != b"E" and not key.startswith(EVERY)), None)

    def put(self, source, group, entry):
        """Writes an entry, or takes it out where it is None. With a new one the unresolved lines of them go, as the
        kernel resolves them."""
        key = self.key(source, group)
        words = self.words(key)
        if entry is None:
            self.new.pop(key, None)
            if key in self.places:
                self.lines[self.places.pop(key)] = None
            return
        counters = map(decimal, words[3:6]) if words else (0, 0, 0)
        row = row_of(*key.split(), entry.vif, counters, entry.outgoing)
        if key in self.places:
            self.lines[self.places[key]] = row
        else:
            self.new[key] = row
            for place in self.waiting.pop(key, ()):
                self.lines[place] = None

    def change_outgoing(self, vif, change):
        """Writes anew each resolved line that has this outgoing vif: with the outgoing ones that the change makes of
        them, which are a dictionary of its own."""
        rows = [(self.lines, place) for place, line in enumerate(self.lines) if place and line is not None]
        for holder, place in [*rows, *((self.new, key) for key in self.new)]:
            words = holder[place].split()
            outgoing = pairs_of(words[6:])
            if vif in outgoing:
                change(outgoing)
                holder[place] = row_of(*(it.upper() for it in words[:2]), decimal(words[2]), map(decimal, words[3:6]),
                                       outgoing)

    def set_threshold(self, vif, threshold):
        """Gives the vif this threshold in all entries, and in those that are added."""
        self.change_outgoing(vif, lambda outgoing: outgoing.update({vif: threshold}))
        self.thresholds[vif] = threshold

    def threshold(self, vif):
        """Returns the threshold that an outgoing vif gets where none is given: the one that most entries had, and
        whether all of them had it, or it was set."""
        if vif in self.thresholds:
            return self.thresholds[vif], True
        seen = self.seen_thresholds.get(vif)
        if not seen:
            return DEFAULT_THRESHOLD, False
        return max(seen, key=lambda it: (seen[it], it)), len(seen) == 1

    @functools.cached_property
    def seen_thresholds(self):
        """How often each vif had which threshold before anything was changed."""
        found = collections.defaultdict(collections.Counter)
        for line in self.first_lines[1:]:
            for vif, threshold in pairs_of(line.split()[6:]).items():
                found[vif][threshold] += 1
        return found

    def clear(self):
        """Takes all lines out but the header."""
        self.lines, self.places, self.new = self.lines[:1], {}, {}
        self.waiting.clear()
        self.shared.clear()

    def text(self):
        """Returns the text. New lines come behind the resolved ones: a kernel prints the unresolved ones last."""
        lines = [it for it in self.lines if it is not None]
        end = len(lines)
        while end > 1 and key_of(lines[end - 1])[1] == UNRESOLVED:
            end -= 1
        return b"".join(it + b"\n" for it in (*lines[:end], *self.new.values(), *lines[end:]))


def key_of(line):
    """Returns the words of a line's group and source, and that of its incoming vif."""
    words = line.split(None, 3)
    return (words[0] + b" " + words[1]).upper(), words[2]


class ReportList:
    """The list of a LAN's reports, a message a line in hexadecimal."""

    def __init__(self, text):
        """Takes its text."""
        self.lines = text.split(b"\n")[:-1]

    def join(self, group, source=None):
        """Adds the report of a host that wants the group, from all sources or from one; both are bytes."""
        self.lines.append(igmp.report_of(group, source).hex().encode())

    def leave(self, group, source=None):
        """Has no report ask for the group any more, or for this source of it. Fails where none does."""
        lines, has_asked = [], False
        for line in self.lines:
            records = igmp.all_records(from_hex(line))
            kept = [it if it.group != group else without(it, source) for it in records]
            has_asked |= any(it.group == group and asks(it, source) for it in records)
            if kept == records:
                lines.append(line)
            elif any(kept):
                lines.append(igmp.message_of([it for it in kept if it]).hex().encode())
        if not has_asked:
            raise Refused("no report asks for that")
        self.lines = lines

    def text(self):
        """Returns the text."""
        return b"".join(it + b"\n" for it in self.lines)


def asks(record, source):
    """Whether a record asks for its group from this source, or from any."""
    if record.kind == igmp.EXCLUDE:
        return source is None or source not in record.addresses()
    return record.kind == igmp.INCLUDE and (source in record.addresses() if source else bool(record.sources))


def without(record, source):
    """Returns the record of a host that doesn't want its group any more, or this source of it; None where it wants
    nothing then."""
    if not asks(record, source):
        return record
    if source is None:
        return None
    if record.kind == igmp.EXCLUDE:
        return record._replace(sources=record.sources + source)
    kept = b"".join(it for it in record.addresses() if it != source)
    return record._replace(sources=kept) if kept else None
