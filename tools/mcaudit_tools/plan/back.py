"""Paths from a LAN that isn't reached back to the LANs that are, with the fewest changes: a search that looks at
few LANs, since it ends where the flow is already. It knows no time to live, so a path is looked at anew from the
source."""
import heapq
import itertools

from mcaudit_tools.plan.flight import GREATEST
from mcaudit_tools.plan.paths import NO_ENTRY


class Back:
    """One search back from LANs."""

    def __init__(self, task, entries, reach, pins=frozenset()):
        """Takes the entries, how LANs are reached by them, and the outgoing vifs that stay as they are."""
        self.task, self.entries, self.reach, self.pins = task, entries, reach, pins
        self.fixed = {router for router, _ in pins}

    def nearest(self, targets):
        """Returns the changes and the hops of the path from a LAN that is reached to one of the targets, or None."""
        settled, numbers = set(), itertools.count()
        heap = [(0, next(numbers), it, None) for it in targets]
        while heap:
            cost, _, lan, path = heapq.heappop(heap)
            if lan in settled:
                continue
            settled.add(lan)
            if lan in self.reach:
                return cost, lan, path
            for router, vif in self.task.domain.on[lan]:
                forwarding = self.cost_to_forward(router, vif, lan)
                if router in self.task.shut or forwarding is None:
                    continue
                for from_vif, from_lan in self.task.domain.placed[router].items():
                    if from_vif == vif or from_lan in settled or from_lan in self.task.banned:
                        continue
                    entering = self.cost_to_enter(router, from_vif, from_lan)
                    if entering is not None:
                        further = (router, from_vif, vif), path
                        heapq.heappush(heap, (cost + forwarding + entering, next(numbers), from_lan, further))
        return None

    def cost_to_forward(self, router, vif, lan):
        """Returns how many changes it costs that a router forwards onto a LAN, or None where it can't."""
        has = self.entries.get(router, NO_ENTRY)[1]
        threshold = has[vif] if vif in has else self.task.usual[router][vif][0]
        return None if threshold >= self.task.ttl or lan == self.task.lan else int(vif not in has)

    def cost_to_enter(self, router, vif, lan):
        """Returns how many changes it costs at least that a router takes the flow by this vif, or None."""
        entry = self.entries.get(router)
        if entry is None or entry[0] == vif:
            return int(entry is None)
        if router in self.fixed:
            return None
        placed, surely_passed = self.task.domain.placed[router], GREATEST - self.task.ttl
        return 1 + sum(1 for to, threshold in entry[1].items()
                       if placed.get(to) in (None, self.task.lan, lan) and threshold < surely_passed)


def back_to(task, entries, reach, pins, targets):
    """Returns the hops of a path from the source to the nearest of the targets, none of which is reached; or None,
    where that isn't passed by packets of the flow, or a router would take them by two vifs."""
    found = Back(task, entries, reach, pins).nearest(targets)
    if found is None:
        return None
    _, lan, path = found
    before, hops = [], []
    while reach[lan].router is not None:
        before.append((reach[lan].router, entries[reach[lan].router][0], reach[lan].vif))
        lan = reach[lan].parent
    while path is not None:
        hop, path = path
        hops.append(hop)
    hops = before[::-1] + hops
    seen = {}
    for rank, (router, vif, to_vif) in enumerate(hops):
        has = entries.get(router, NO_ENTRY)[1]
        if task.ttl - rank <= (has[to_vif] if to_vif in has else task.usual[router][to_vif][0]):
            return None
        if seen.setdefault(router, vif) != vif:
            return None
    return hops


def least_changes(task, reach):
    """Returns a number of changes that every plan has: those of the LAN that needs the most of its own. LANs that the
    flow reaches as it is need none."""
    search, least = Back(task, task.entries, reach), 1
    for lan in task.wanted:
        found = search.nearest([lan])
        if found is not None:
            least = max(least, found[0])
    return least
