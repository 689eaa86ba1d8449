"""What `mcaudit audit --json` prints, read in one place: line by line, in bounds, and whole or not at all. Of format 1,
which 0.2.0 wrote, each object is made one of format 2, without what format 1 doesn't say."""
import collections
import contextlib
import io
import json
import sys

from mcaudit_tools.common import Failed, Refused
from mcaudit_tools.files import failing, open_regular, whole
from mcaudit_tools.programs import run
from mcaudit_tools.wants import Wants

AUDITING = 300  # seconds that an audit may take
MOST_BYTES = 256 << 20
MOST_LINE = 16 << 20
COUNTS = "flows", "right", "wrong", "unknown", "unwanted"
ASKED = "asked"  # what is counted too, but by programs that were too old to say it


class NoAudit(Refused):
    """Why lines are none that an audit printed."""


def counted(summary):
    """Returns the names of what a summary counts, in the order of audit's text."""
    return [*COUNTS, *([ASKED] if ASKED in summary else [])]


def counts_text(summary):
    """Returns what a summary counts, as audit's text has it."""
    return " ".join(f"{it} {summary[it]}" for it in counted(summary))


def finding_text(finding):
    """Returns a finding as audit's text has it."""
    return " ".join(str(finding[it]) for it in ("kind", "lan", "router", "vif") if it in finding)


def refuse(text):
    """Refuses a number that audit never prints."""
    raise ValueError(f"a number that is not a whole one: {text[:40]}")


class Lines:
    """What the lines of an audit have had so far."""

    def __init__(self, is_whole=True, most=MOST_BYTES):
        """Begins before the first one. They tell all flows, or else only those that --faults doesn't leave out, in so
        many bytes at the most."""
        self.is_whole, self.most, self.count, self.taken = is_whole, most, 0, 0
        self.format, self.summary, self.verdict = None, None, None
        self.flows = collections.Counter()  # by whether they are right, or None, where that isn't known
        self.missed = 0  # flows of format 1 that are counted as wrong, of which it isn't known
        self.wants = Wants()

    def read(self, line):
        """Returns the object of the next line."""
        self.count, self.taken = self.count + 1, self.taken + len(line)
        try:
            if not line.endswith(b"\n"):
                raise NoAudit("it is cut short")
            if self.taken > self.most or len(line) > MOST_LINE:
                raise NoAudit("audit prints no such length")
            value = json.loads(line, parse_int=whole, parse_float=refuse, parse_constant=refuse)
            if not isinstance(value, dict):
                raise TypeError
            return self.see(value)
        except NoAudit as fault:
            raise NoAudit(f"line {self.count}: {fault}") from fault
        except (ValueError, KeyError, TypeError, AttributeError, RecursionError) as fault:
            raise NoAudit(f"line {self.count}: it is not a line of audit") from fault

    def end(self):
        """Sees that there are all lines."""
        if self.verdict is None:
            raise NoAudit("it has no verdict: it is cut short")

    def see(self, value):
        """Sees that an object has its place among the others, and that the counts and the verdict are theirs. Returns
        it as format 2 has it."""
        has_place = ("domain" in value) == (self.format is None) and ("verdict" in value) == (self.summary is not None)
        if self.verdict or not has_place:
            raise NoAudit("audit prints no such line here")
        if "domain" in value:
            self.format = value["format"]
            if self.format not in (1, 2):
                raise NoAudit("it is of another format")
        found = self.as_format_2(value) if self.format == 1 else value
        self.wants.take(found)
        if "flow" in found:
            self.flows[found["right"]] += 1
        elif "summary" in found:
            self.summary = found["summary"]
            self.check_summary()
        elif "verdict" in found:
            self.verdict = {"yes": "yes", "no": "no"}[found["verdict"]]
            if self.verdict == "yes" and self.flows[True] != sum(self.flows.values()):
                raise NoAudit("it is a yes with a flow that is wrong or not known")
        return found

    def check_summary(self):
        """Sees that the summary counts the flows and the wants that were told."""
        if any(type(self.summary[it]) is not int for it in counted(self.summary)):  # pylint: disable=C0123
            raise TypeError
        left_out = self.summary["flows"] - sum(self.flows.values())
        if left_out < 0 or self.is_whole and left_out:
            raise NoAudit("it doesn't list all flows: it was made with --faults, or lines are missing")
        if [self.summary["wrong"], self.summary["unknown"]] != [self.flows[False], self.flows[None]]:
            raise NoAudit("it counts other flows as wrong than it lists")
        if not self.wants.is_counted():
            raise NoAudit("it counts other wants than it lists")

    def as_format_2(self, value):
        """Returns an object of format 1 as format 2 has it. There a flow isn't known to be wrong where the search for a
        LAN that was missed came to a router that is excluded, and one without a fault isn't right then."""
        if "domain" in value:
            routers = [{"name": it} for it in value["domain"]["routers"]]
            return {**value, "domain": {**value["domain"], "routers": routers}}
        if "finding" in value and any(it["kind"] == "left_out" for it in value["why"]):
            self.missed += 1
            return {**value, "right": None}
        if "summary" in value:
            counts, unknown = value["summary"], self.flows[None]
            return {"summary": {**counts, "right": counts["right"] + self.missed - unknown, "unknown": unknown,
                                "wrong": counts["wrong"] - self.missed}}
        return value


def lines_of(file):
    """Yields the objects of an open file's lines, which are those of a whole audit."""
    lines = Lines()
    for line in iter(lambda: file.readline(MOST_LINE + 1), b""):
        yield lines.read(line)
    lines.end()


def objects_of(path, standard):
    """Yields the objects of a file of what an audit printed, or of standard input, which has this name."""
    if path != standard:
        with open_regular(path) as file:
            yield from lines_of(file)
    elif sys.stdin is None:
        raise Failed("standard input is closed")
    else:
        yield from lines_of(sys.stdin.buffer)


@contextlib.contextmanager
def telling(path):
    """Tells by its path what is refused here, or can't be read."""
    try:
        with failing(f"{path} can't be read"):
            yield
    except Refused as fault:
        raise Refused(f"refused: {path}: {fault}") from fault


def run_audit(words, named):
    """Runs `mcaudit audit` with these words. Returns its status, and the objects that it printed, which are none of an
    audit where the status is no verdict's. It is told by this name; what it says of a refusal is seen as it is."""
    came = run(words, seconds=AUDITING, most=MOST_BYTES, keeps_words=False)
    if came.is_late or came.is_long:
        raise Failed(f"{named} took more than {AUDITING} s, or printed more than {MOST_BYTES} bytes")
    return came.status, lines_of(io.BytesIO(came.printed))
