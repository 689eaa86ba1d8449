"""What is to be planned: one flow, the entries that routers have of it, and what may be changed."""
import dataclasses
import typing  # noqa: F401


@dataclasses.dataclass
class Task:
    """A flow to plan. An entry is its incoming vif, and its outgoing ones with their thresholds; a router without one
    has none."""

    domain: "typing.Any"
    ttl: int
    lan: str  # of the source
    wanted: tuple
    entries: dict  # by router
    every_source: set  # routers with an entry for every source
    unresolved: set  # routers with an unresolved row alone
    use: frozenset  # routers that may be given an entry in front of one for every source, or of an unresolved row
    usual: dict  # by router and vif, the threshold that an entry made now gets, and whether other rows tell it

    def __post_init__(self):
        """Works out which routers and LANs no plan may use."""
        self.open = {it for it in self.every_source if it not in self.entries}
        self.shut = {it for it in self.open | self.unresolved if it not in self.entries and it not in self.use}
        self.banned = {lan for it in self.open - self.use for lan in self.domain.placed[it].values()}

    def threshold(self, router, vif):
        """Returns the threshold that an entry made now gets at a vif."""
        return self.usual[router][vif][0]


class NoPlan(Exception):
    """Why there is no plan: what kind of reason, at which LAN, and of which router."""

    def __init__(self, kind, lan, router=None):
        """Takes the reason."""
        super().__init__(kind)
        self.kind, self.lan, self.router = kind, lan, router


def without(entry, vif):
    """Returns an entry without one of its outgoing vifs."""
    return entry[0], {number: threshold for number, threshold in entry[1].items() if number != vif}
