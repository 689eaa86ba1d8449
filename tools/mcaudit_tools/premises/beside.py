"""What stands beside the verdict of a tool that gives one: what it rests on, whether packets flow, by the last sets'
counters, and what the facts of a set say, where it has any. Nothing of it makes a run fail."""
import io

from mcaudit_tools import audit as audits
from mcaudit_tools.premises import basis, counted, domain, judge, text
from mcaudit_tools.premises.counters import Counters
from mcaudit_tools.premises.findings import BAD, DROPS, KINDS, NONE_COMES, SIZES, looked_at

MOST_SHOWN = 20  # lines of what was found


class Beside:
    """What was found beside a verdict."""

    def __init__(self, findings, counters, ages, domain=None):
        """Takes what was found, what the counters say, how old it is, and what was audited, where that can be read."""
        self.findings, self.counters, self.domain = findings, counters, domain
        self.bad = [it for it in findings if it.word in BAD]
        self.parts = basis.parts_of(ages, counters, domain, findings)

    def contradictions(self):
        """Returns what contradicts the tables, in lines."""
        lines = list(text.lines_of(self.bad))
        more = [f"and {len(lines) - MOST_SHOWN} lines more: mcaudit-premises"] if len(lines) > MOST_SHOWN else []
        return lines[:MOST_SHOWN] + more

    def sentences(self):
        """Returns what a person is to know of it."""
        return ["; ".join(self.parts), *self.counters.details(), *self.contradictions()]

    def warnings(self):
        """Returns what a plugin is to warn of."""
        return [it for it in text.lines_of(self.bad) if not it.startswith(" ")]

    def samples(self):
        """Returns the metrics: name, what it says, and labels and value of each sample."""
        found = []
        if not self.counters.reason:
            starved = {it.flow for it in self.findings if it.word == NONE_COMES}
            found.append(("flows_not_coming", "Right flows of which a router on their tree gets no packet.",
                          [({}, len(starved))]))
            found.append(("flows_not_judged", "Right flows of which the counters say nothing.",
                          [({}, self.counters.not_judged())]))
        found.append(("premise_contradicted", "1 for a router whose own settings drop what its tables forward.",
                      [({"router": it}, value) for it, value in self.contradicted().items()]))
        return found

    def contradicted(self):
        """Returns 1 for each router whose own settings drop packets, and 0 where all that may was looked at."""
        dropping = {it.router for it in self.findings if it.word == DROPS}
        known = looked_at(self.domain, self.findings) if self.domain else {}
        seen = set.intersection(*(set(known[it]) for it in KINDS if it != SIZES)) if known else set()
        return {it: int(it in dropping) for it in (self.domain.routers if self.domain else ())
                if it in dropping or it in seen}


def look(answer, site, folder, ages):
    """Returns what stands beside what an audit answered of a site's set, whose files are so old. The answer is given by
    a call."""
    try:
        found = answer()
        findings = judge.Judge(found, folder, ages).judge_all()
        counters = counted.of_sets(found, site, folder)
        return Beside(findings + counters.findings, counters, ages, found)
    except Exception as fault:  # pylint: disable=broad-exception-caught
        return Beside([], Counters(reason=f"{type(fault).__name__}: {fault}"), ages)


def look_at(printed, site, folder, ages):
    """Returns what stands beside what `mcaudit audit --json` printed of a site's set, whose files are so old."""
    return look(lambda: domain.domain_of(audits.lines_of(io.BytesIO(printed))), site, folder, ages)
