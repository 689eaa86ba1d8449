"""What the hosts of a LAN want at the end of a window in which some join and leave: what each reports is followed from
the query on, as routers follow it (RFC 3376, section 6.4, and RFC 2236), but of each host apart.

What raises what is wanted counts at once. What lowers it counts only from the host that wanted it, where the querier
heard it too, and once so much of the window has passed without an answer that restores it: where it was forged, the
querier asks, and the host answers.
"""
import dataclasses
import typing

from mcaudit_tools import igmp
from mcaudit_tools.capture import SECOND
from mcaudit_tools.common import Failed
from mcaudit_tools.heard import MOST_MESSAGES, TENTH, Heard
from mcaudit_tools.igmp import dotted

LASTING = 2 * SECOND  # for which what was left is still wanted: a querier asks twice, and each answer may take 1 s
LATE = SECOND  # that an answer may be late
MOST_SOURCES = 360  # that a host has of a group: one report has room for them
NOBODY = bytes(4)


class NotFollowed(Failed):
    """A window whose changes don't say what is wanted at its end, as a sentence."""


class Filter(typing.NamedTuple):
    """What a host wants of a group: these sources, or all but these."""

    is_exclude: bool
    sources: frozenset

    def union(self, other):
        """Returns what either wants."""
        if self.is_exclude and other.is_exclude:
            return Filter(True, self.sources & other.sources)
        if not self.is_exclude and not other.is_exclude:
            return Filter(False, self.sources | other.sources)
        excluding, including = (self, other) if self.is_exclude else (other, self)
        return Filter(True, excluding.sources - including.sources)

    def changed(self, record):
        """Returns what is wanted after a record. One of a current state, as the answer to a query, may have only those
        sources that the query was for, or a part of many: so it takes nothing away."""
        given = frozenset(record.addresses())
        if record.kind in (igmp.INCLUDE, igmp.ALLOW):
            return self.union(Filter(False, given))
        if record.kind == igmp.EXCLUDE:
            return self.union(Filter(True, given))
        if record.kind == igmp.BLOCK:
            return Filter(self.is_exclude, self.sources | given if self.is_exclude else self.sources - given)
        return Filter(record.kind == igmp.TO_EXCLUDE, given)


NOTHING = Filter(False, frozenset())


@dataclasses.dataclass
class Following:
    """What the window shows: the list's reports, where they aren't those that came, and what a person is to know."""

    reports: "list | None" = None
    changes: int = 0
    kept: list = dataclasses.field(default_factory=list)  # who left which group, which is in the list all the same


class Hosts:
    """What each host wants of each group, by its reports of version 3."""

    def __init__(self, ends, lowering):
        """Takes when the window ends, and until when what lowers what is wanted counts."""
        self.ends, self.lowering, self.wanted, self.late = ends, lowering, {}, {}

    def take(self, heard):
        """Takes a report."""
        for record in igmp.records_of(heard.message)[0]:
            if record.kind in (*igmp.CURRENT, *igmp.CHANGES):
                self.take_record(heard, record)

    def take_record(self, heard, record):
        """Takes a record of a host."""
        key = *heard.host(), record.group
        before = self.wanted.get(key, NOTHING)
        after = before.changed(record)
        if after.union(before) != after:
            check_sender(heard, record.group)
            if heard.time > self.lowering or not heard.is_public:
                self.late[key] = self.late.get(key, NOTHING).union(before)
        if len(after.sources) > MOST_SOURCES:
            after = without_many(after, heard.sender, record.group)
        if after == NOTHING:
            self.wanted.pop(key, None)
        else:
            self.wanted[key] = after
        if len(self.wanted) + len(self.late) > MOST_MESSAGES:
            raise NotFollowed(f"more than {MOST_MESSAGES} hosts and groups")

    def reports(self):
        """Yields a report of a current state for each host and each group of which it wants anything at the end."""
        for key in sorted({*self.wanted, *self.late}, key=place_of):
            found = self.wanted.get(key, NOTHING).union(self.late.get(key, NOTHING))
            kind = igmp.EXCLUDE if found.is_exclude else igmp.INCLUDE
            hardware, sender, group = key
            yield Heard(self.ends, hardware, sender, igmp.state_report(kind, group, sorted(found.sources)))


def place_of(key):
    """Returns by what hosts and groups are put in order."""
    hardware, sender, group = key
    return sender, hardware or b"", group


def without_many(found, sender, group):
    """Returns a filter of at most so many sources. One that excludes them asks for more without some of them."""
    if not found.is_exclude:
        raise NotFollowed(f"{dotted(sender)} wants more than {MOST_SOURCES} sources of {dotted(group)}")
    return Filter(True, frozenset(sorted(found.sources)[:MOST_SOURCES]))


def check_sender(heard, group):
    """Fails where it isn't known whose a message is that lowers what is wanted."""
    if heard.sender == NOBODY and group >= igmp.FIRST_FORWARDED:
        raise NotFollowed(f"0.0.0.0 no longer wants {dotted(group)}, or less of it: such hosts can't be distinguished")


@dataclasses.dataclass
class Older:
    """A group that somebody wants by a report of version 1 or 2, which others of the LAN don't repeat."""

    heard: Heard  # the last report
    is_lasting: bool  # somebody speaks version 1, which has no leaves
    left: "int | None" = None  # when whoever sent it left
    answer_by: "int | None" = None  # by when the others have answered


class Groups:
    """What is wanted by reports of versions 1 and 2, of which the last one's sender alone is known: it leaves with a
    message, and whether others want the group shows only where the querier asks for it."""

    def __init__(self):
        """Begins without a group."""
        self.found, self.ended = {}, 0

    def take(self, heard):
        """Takes a report, a leave, or a query of one group."""
        group = heard.message[4:8]
        older = self.found.get(group)
        if heard.is_report():
            is_lasting = heard.message[0] == igmp.REPORT_1 or older is not None and older.is_lasting
            self.found[group] = Older(heard, is_lasting)
        elif older is None or older.is_lasting:
            return
        elif heard.message[0] == igmp.LEAVE:
            if heard.is_public and older.heard.host() == heard.host() and older.left is None:
                check_sender(heard, group)
                older.left = heard.time
        elif older.left is not None and igmp.is_without_sources(heard.message):
            until = max(older.left + LASTING, heard.time + longest_answer(heard.message) + LATE)
            older.answer_by = max(older.answer_by or 0, until)

    def end(self, time):
        """Ends the groups for which nobody answered until now."""
        over = [it for it, older in self.found.items() if older.answer_by is not None and older.answer_by <= time]
        for group in over:
            del self.found[group]
            self.ended += 1


def longest_answer(query):
    """Returns how long an answer may take, as hosts of either version read the query."""
    return max(query[1] or 100, igmp.tenths_to_answer(query)) * TENTH


def is_change(heard):
    """Whether the message is one of a change."""
    if heard.message[0] == igmp.REPORT_3:
        return any(it.kind in igmp.CHANGES for it in igmp.records_of(heard.message)[0])
    return heard.message[0] == igmp.LEAVE


def check_hosts(messages):
    """Fails where an address has two hardware addresses: one of them may be forged, or both be proxies."""
    known = {}
    for it in messages:
        is_leave = it.message[0] == igmp.LEAVE
        groups = [it.message[4:8]] if is_leave else [group for group, _ in igmp.groups_of(it.message)]
        if it.sender != NOBODY and any(group >= igmp.FIRST_FORWARDED for group in groups):
            if known.setdefault(it.sender, it.hardware) != it.hardware:
                raise NotFollowed(f"{dotted(it.sender)} has two hardware addresses, {hardware_text(known[it.sender])} "
                                  f"and {hardware_text(it.hardware)}")


def hardware_text(hardware):
    """Returns a link's address as text."""
    return "none" if hardware is None else ":".join(f"{it:02x}" for it in hardware)


def follow(window, has_querier):
    """Follows what was heard in a window: of a querier that asks again for what is left, or else nothing is left.
    Returns what it shows."""
    changes = [it for it in window.heard if is_change(it)]
    if not changes:
        return Following()
    check_hosts([it for it in window.heard if it.message[0] != igmp.QUERY])
    lowering = window.ends - LASTING if has_querier else window.begins - SECOND
    hosts, groups, last = Hosts(window.ends, lowering), Groups(), window.begins
    for it in window.heard:
        if it.time < last - SECOND:
            raise NotFollowed(f"the clock went back by {(last - it.time) / SECOND:.1f} s among the answers")
        last = max(last, it.time)
        groups.end(it.time)
        (hosts if it.message[0] == igmp.REPORT_3 else groups).take(it)
    groups.end(window.ends)
    found = Following(changes=len(changes), kept=kept_of(hosts, groups))
    if groups.ended or any(it.is_report() for it in changes):
        found.reports = [*hosts.reports(), *(groups.found[it].heard for it in sorted(groups.found))]
    return found


def kept_of(hosts, groups):
    """Returns sentences on what was left, and is in the list all the same."""
    late = [f"{dotted(sender)} no longer wants {dotted(group)}, or less of it, and no host was asked again for "
            f"{LASTING // SECOND} s: the list has what it wanted"
            for _, sender, group in sorted(hosts.late, key=place_of)]
    left = [f"{dotted(it.heard.sender)} left {dotted(group)}, and no query for it was left unanswered: the list has it"
            for group, it in sorted(groups.found.items()) if it.left is not None]
    return late + left
