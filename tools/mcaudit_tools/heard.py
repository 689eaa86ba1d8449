"""What was heard in the window of one General Query: the reports of a list, and what mcaudit would refuse of them."""
import copy
import typing

from mcaudit_tools import igmp, ssm
from mcaudit_tools.capture import SECOND

TENTH = SECOND // 10
MOST_MESSAGES, MOST_BYTES = 65_536, 16 << 20  # of a list, as mcaudit takes it
MOST_IGNORED, MOST_IGNORED_SENDERS = 8, 2  # packets that receivers ignore, of a list that is given out
MOST_NOTED = 4096  # leaves, and queries of one group, that are followed: others lower nothing


class Heard(typing.NamedTuple):
    """A whole message: when it came, of which hardware address and address, and whether it was sent so that all hear it
    to whose address it is: the querier must hear what is left."""

    time: int
    hardware: "bytes | None"
    sender: bytes
    message: bytes
    is_public: bool = True

    def host(self):
        """Returns whose it is: two hosts may have one address, and one of them may forge the other's."""
        return self.hardware, self.sender

    def is_report(self):
        """Whether it is a report."""
        return self.message[0] in igmp.REPORTS


class Window:
    """What came from a query to the end of its answers' time."""

    def __init__(self, querier, begins, tenths, slack):
        """Takes who asked, when, and how long the answers may take."""
        self.querier, self.begins, self.tenths, self.slack = querier, begins, tenths, slack
        self.aside, self.is_spoilt, self.is_refused = 0, False, False
        self.ignored, self.whole = {}, set()  # by sender: packets that receivers ignore; who sent whole ones
        self.heard, self.noted = [], 0  # reports in their order, and beside them what is noted
        self.clear()
        self.extend(begins)

    def clear(self):
        """Begins a list without reports."""
        self.reports, self.bytes = [], 0
        self.wants = set()  # who asks for which group
        self.unheeded = ssm.Unheeded()

    def extend(self, asked):
        """Lets the answers' time go on from this query."""
        self.ends = asked + self.tenths * TENTH + self.slack

    def seconds(self):
        """Returns how long the answers may take."""
        return self.tenths / 10

    def ignore(self, sender):
        """Leaves aside what receivers ignore. Returns whether there is too much of it."""
        self.ignored[sender] = self.ignored.get(sender, 0) + 1
        return sum(self.ignored.values()) > MOST_IGNORED or len(self.ignored) > MOST_IGNORED_SENDERS

    def note(self, heard):
        """Notes what may lower what is wanted, as long as there isn't too much of it."""
        self.noted += 1
        if self.noted <= MOST_NOTED:
            self.heard.append(heard)

    def take_report(self, heard, is_followed=False):
        """Takes a whole report, of a host whose changes are followed or not. Returns why mcaudit would refuse it, or
        None."""
        report = heard.message
        self.whole.add(heard.sender)
        self.bytes += 2 * len(report) + 1
        if len(self.reports) >= MOST_MESSAGES or self.bytes > MOST_BYTES:
            return f"more than {MOST_MESSAGES} messages, or {MOST_BYTES} bytes of them"
        self.reports.append(report)
        self.heard.append(heard)
        self.wants.update((heard.sender, group) for group, _ in igmp.groups_of(report))
        self.unheeded.take(report)
        return report_fault(report, is_followed)

    def with_reports(self, reports):
        """Returns this window with these reports as what was heard in it."""
        found = copy.copy(self)
        found.heard, found.whole = [], set(self.whole)
        found.clear()
        for it in reports:
            found.is_refused |= found.take_report(it) is not None
        return found

    def is_wanting(self):
        """Whether any host wants a group that routers forward."""
        return any(group >= igmp.FIRST_FORWARDED for _, group in self.wants)

    def silent(self):
        """Returns the senders from whom nothing came but what receivers ignore."""
        return [it for it in self.ignored if it not in self.whole]


def report_fault(report, is_followed):
    """Returns why mcaudit would refuse a report, or None: one of a change, unless changes are followed."""
    if report[0] != igmp.REPORT_3:
        return None
    records, cut = igmp.records_of(report)
    changes = [number for number, it in enumerate(records, 1) if it.kind in igmp.CHANGES and not is_followed]
    if changes:
        return f"record {changes[0]} reports a change"
    return f"record {cut} doesn't end within the message" if cut else None
