"""Which multicast table a router forwards by: its rules (ip mrule), its other tables, hardware."""
import re
import typing

from mcaudit_tools.premises.findings import BESIDE, DROPS, MAY_DROP, NOT_KNOWN, some

RULE = re.compile(r"(\d{1,10}):\s+(.{1,1000})")  # no rule is longer
ENDS = "prohibit", "blackhole", "unreachable"
DEFAULT = "default", "253"
TABLE = re.compile(r"Table: (\S+)")
OFFLOAD = re.compile(r"\boffload\b")
MOST_RULES = 20  # that are told of a device


class Rule(typing.NamedTuple):
    """A rule: the device that it is of, or None; whether it has conditions that aren't judged; what it does."""

    text: str
    device: "str | None"
    is_plain: bool
    end: str  # the table, or one of ENDS


def rule_of(line):
    """Returns a rule of what `ip mrule` prints, or None."""
    found = RULE.fullmatch(line.strip())
    if not found:
        return None
    words, device, is_plain, end = found[2].split(), None, True, ""
    while words:
        word = words.pop(0)
        if word in ENDS:
            end = word
        elif word == "from" and words[:1] == ["all"]:
            words.pop(0)
        elif word == "iif" and words:
            device = words.pop(0)
        elif word in ("lookup", "table") and words:
            end = words.pop(0)
        else:
            is_plain = False
    if "not" in found[2].split():
        device = None
    return Rule(" ".join(line.split()), device, is_plain, end)


class Tables:
    """The rules of a router, and its tables beside the default one that have rows."""

    def __init__(self, facts):
        """Takes the router's facts."""
        self.facts, lines = facts, facts.lines("mrule")
        rules = [(it, rule_of(it)) for it in lines]
        self.rules, self.unread = [it for _, it in rules if it], [it for it, rule in rules if rule is None]
        self.others = {it[1] for it in map(TABLE.search, facts.lines("mroute")) if it} - set(DEFAULT)

    def judge_tables(self):
        """Yields what is so of all flows of a router: a word, a text and a remedy."""
        fault = self.facts.fault("mrule")
        if fault is not None:
            why = ", as where it is BusyBox's `ip`" if "mrule" in self.facts.sections else ""
            yield NOT_KNOWN, f"ip mrule: {fault}{why}", ""
        if self.unread:
            yield NOT_KNOWN, f"ip mrule: {self.unread[0][:80]}", ""
        if self.others:
            yield BESIDE, f"it has entries in other tables: {some(sorted(self.others))}", ""
        for line in self.facts.lines("mroute"):
            if OFFLOAD.search(line):
                yield BESIDE, f"hardware forwards: {' '.join(line.split())[:80]}", ""
                break

    def judge_rules(self, device):
        """Yields what the rules do with packets that come in by a device. A rule with a table that isn't there does
        nothing."""
        is_sure, count = True, 0
        for rule in self.rules:
            if rule.device not in (None, device):
                continue
            if rule.is_plain and rule.end in DEFAULT:
                return
            if rule.is_plain and rule.end in ENDS:
                number = rule.text.partition(":")[0]
                yield DROPS if is_sure else MAY_DROP, f"ip mrule: {rule.text}", f"ip mrule del pref {number}"
                return
            count += 1
            if count <= MOST_RULES:
                yield BESIDE, f"ip mrule: {rule.text}", ""
            if rule.is_plain and rule.end in self.others:
                return
            is_sure = False
        if not self.facts.fault("mrule"):
            yield NOT_KNOWN, f"ip mrule: no rule is for all that comes by {device}", ""
