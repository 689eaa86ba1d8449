"""What an audit says, as far as a monitor tells it."""
import dataclasses
import io

from mcaudit_tools import audit as audits
from mcaudit_tools.common import some
from mcaudit_tools.wants import Wants

MOST_SHOWN = 20  # flows that are wrong, and wants that no flow answers


@dataclasses.dataclass
class Judged:
    """What an audit says."""
    is_right: bool
    counts: dict  # flows, right, wrong, unknown, unwanted, and asked where that is said
    wrong: list  # texts: source, group and finding
    unwanted: list  # texts: source and group
    unlisted: int
    wants: Wants
    routers: list
    lans: list

    def numbers(self):
        """Returns the verdict, and how many there are of each."""
        counts = {it: self.counts[it] for it in ("flows", "right", "wrong", "unwanted")} | {"unlisted": self.unlisted}
        counts |= {} if self.wants.count is None else {"asked": self.wants.count}
        return ", ".join([f"verdict {'yes' if self.is_right else 'no'}", *(f"{it} {counts[it]}" for it in counts)])

    def lines(self):
        """Returns the first flows that are wrong, and wants that no flow answers, a line each."""
        wants = [f"{it.name} on {some(it.lans)}: {it.sentence()}" for it in self.wants.all]
        found = []
        for kind, texts in (("wrong", self.wrong), ("asked", wants)):
            found += [f"{kind}: {it}" for it in texts[:MOST_SHOWN]]
            found += [f"and {len(texts) - MOST_SHOWN} more"] * (len(texts) > MOST_SHOWN)
        return found


def judged_of(text):
    """Reads what audit printed."""
    wrong, unwanted, unlisted, wants, domain, counts, verdict = [], [], 0, Wants(), None, None, None
    for line in audits.lines_of(io.BytesIO(text)):
        domain, counts, verdict = (line.get(key, before) for key, before in (
            ("domain", domain), ("summary", counts), ("verdict", verdict)))
        unlisted += "unlisted" in line
        wants.take(line)
        if "flow" in line:
            name = f"{line['source']} {line['group']}"
            if line["right"] is False:
                wrong.append(f"{name} {audits.finding_text(line['finding'])}")
            elif "finding" not in line and not line["wanted"]:
                unwanted.append(name)
    routers = [it["name"] for it in domain["routers"]]
    return Judged(verdict == "yes", counts, wrong, unwanted, unlisted, wants, routers, domain["lans"])
