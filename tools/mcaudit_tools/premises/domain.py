"""What an audit answers, as far as premises need it: the routers, and the tree of each right flow."""
import collections
import dataclasses
import functools

from mcaudit_tools import audit as audits
from mcaudit_tools.common import Failed, Refused


class Tree:
    """By which routers copies go, as an audit's entries have it."""

    def __init__(self, entries, kept):
        """Takes the entries, and what is kept once of all trees: names, and pairs of a router and a vif."""
        self.feeding = {}  # of the source's LAN no router
        self.ranks = {}  # of routers: how many are between them and the source, and one
        for it in entries:
            lan, router = (kept.setdefault(it[name], it[name]) for name in ("lan", "router"))
            self.feeding[lan] = kept.setdefault((router, it["vif"]), (router, it["vif"]))
            if router is not None:
                self.ranks[router] = min(it["rank"], self.ranks.get(router, it["rank"]))
        self.sending = {it for it in self.feeding.values() if it[0] is not None}
        self.routers = sorted(self.ranks, key=lambda it: self.ranks[it])  # those nearest to the source first


@dataclasses.dataclass
class Domain:
    """What an audit answers of a domain."""

    routers: list
    lans: list
    devices: dict  # by router and vif
    lan_of: dict  # by router and vif
    flows: list  # source and group of each
    trees: dict  # of the right flows, by source and group
    is_right: bool = False
    excluded: list = dataclasses.field(default_factory=list)  # routers whose tables were not looked at

    @functools.cached_property
    def lan_counts(self):
        """How many routers lie on each LAN."""
        return collections.Counter(lan for lan, _ in {(it, router) for (router, _), it in self.lan_of.items()})


class Answer:
    """What the lines of an audit have said so far."""

    def __init__(self):
        """Begins before the first one."""
        self.first, self.verdict, self.excluded = None, None, []
        self.trees, self.flows, self.right = {}, [], {}  # by number; source and group of each; the tree of each of them
        self.kept = {}

    def take(self, line):
        """Takes a line's object."""
        self.first, self.verdict = line.get("domain", self.first), line.get("verdict", self.verdict)
        self.excluded = [str(it) for it in line.get("without", self.excluded)]
        if "entries" in line:
            self.trees[line["tree"]] = Tree(line["entries"], self.kept)
        elif "flow" in line:
            self.flows.append((line["source"], line["group"]))
            if line["right"] is True:
                self.right[self.flows[-1]] = self.trees[line["tree"]]

    def domain(self):
        """Returns the domain, once all lines were taken."""
        there = [it for it in self.first["interfaces"] if it["vif"] is not None]
        routers = [str(it["name"]) for it in self.first["routers"]]
        return Domain([it for it in routers if it not in self.excluded], [str(it) for it in self.first["lans"]],
                      {(it["router"], it["vif"]): str(it["device"]) for it in there},
                      {(it["router"], it["vif"]): it["lan"] for it in there}, self.flows, self.right,
                      self.verdict == "yes", self.excluded)


def domain_of(objects):
    """Returns what the objects of an audit's lines say."""
    answer = Answer()
    for line in objects:
        answer.take(line)
    return answer.domain()


def run_audit(mcaudit, folder, named):
    """Has mcaudit judge the folder. Returns its answer, or fails with its status where it gave no verdict."""
    status, objects = audits.run_audit([mcaudit, "audit", "--json", "--unlisted", folder], named)
    if status not in (0, 1):
        raise Failed(f"{named} ended with status {status}", status if status in (2, 4) else 3)
    try:
        return domain_of(objects)
    except (Refused, KeyError, TypeError, AttributeError, ValueError) as fault:
        raise Failed(f"what {named} answers can't be read: {fault}") from fault
