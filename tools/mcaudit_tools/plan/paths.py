"""The paths with the fewest changes from a flow's source to LANs, by Dijkstra's algorithm over LANs and ranks: what is
in the entries costs nothing."""
import heapq
import itertools

from mcaudit_tools.plan.flight import GREATEST

UNREACHED = 999  # a rank that no LAN has
NO_ENTRY: "tuple[None, dict]" = (None, {})
NO_LIMIT = 10 ** 6  # a time to live that passes each threshold
ATTEMPTS = 8  # at a path that meets no router twice


class Search:
    """One search: what it starts from, and what it may not change."""

    def __init__(self, task, entries, reach, pins=frozenset(), forbidden=frozenset()):
        """Takes the entries and how LANs are reached by them, the outgoing vifs that stay as they are, and the incoming
        ones that aren't used: router, vif and LAN each."""
        self.task, self.entries, self.reach, self.pins, self.forbidden = task, entries, reach, pins, forbidden
        self.fixed = {router for router, _ in pins}

    def ways(self, ttl):
        """Yields the changes, the LAN and the path of each way to a LAN for packets of this time to live, those with
        the fewest changes first. A path is the one before it and its last hop: router, incoming and outgoing vif."""
        task, entries, best, numbers = self.task, self.entries, {}, itertools.count(1)
        source, banned, shut, onward = task.lan, task.banned, task.shut, task.domain.onward
        heap = [(0, 0, 0, source, None)]
        while heap:
            cost, rank, _, lan, path = heapq.heappop(heap)
            if best.get(lan, UNREACHED) <= rank:
                continue
            best[lan] = rank
            if path:
                yield cost, lan, path
            sender = sender_of(path)
            for router, vif, hops in onward[lan]:
                if router in shut or (router, vif) == sender or (router, vif, lan) in self.forbidden:
                    continue
                entering = self.cost_to_enter(router, vif, lan, rank)
                if entering is None:
                    continue
                has, usual = entries.get(router, NO_ENTRY)[1], task.usual[router]
                for to_vif, to_lan in hops:
                    if best.get(to_lan, UNREACHED) <= rank + 1 or to_lan == source or to_lan in banned:
                        continue
                    more = int(to_vif not in has)
                    if ttl - rank <= (usual[to_vif][0] if more else has[to_vif]):
                        continue
                    more = self.cost_to_reach(to_lan, router, to_vif, more)
                    if more is not None:
                        heapq.heappush(heap, (cost + entering + more, rank + 1, next(numbers), to_lan,
                                              (path, (router, vif, to_vif))))

    def cost_to_enter(self, router, vif, lan, rank):
        """Returns how many changes it costs that a router takes the flow by this vif, or None where it can't."""
        entry = self.entries.get(router)
        if entry and entry[0] == vif:
            return 0
        if router in self.fixed:
            return None
        if not entry:
            return 1
        placed, source = self.task.domain.placed[router], self.task.lan  # what it sends already may be second copies
        return 1 + sum(1 for to, threshold in entry[1].items()
                       if placed.get(to) in (None, source, lan) and GREATEST - rank > threshold)

    def cost_to_reach(self, lan, router, vif, cost):
        """Returns how many changes it costs that a router forwards onto a LAN, where the vif alone costs so many: what
        reaches the LAN now goes. None where that stays."""
        reached = self.reach.get(lan)
        if reached is None or reached[2] == router and reached[3] == vif:
            return cost
        return None if (reached[2], reached[3]) in self.pins else cost + 1


def sender_of(path):
    """Returns the router and the vif by which the last hop of a path forwards; None where there is no hop."""
    if path is None:
        return None
    _, (router, _, vif) = path
    return router, vif


def hops_of(path):
    """Returns the hops of a path, the first one first."""
    hops = []
    while path:
        path, hop = path
        hops.append(hop)
    return hops[::-1]


def path_to(task, entries, reach, pins, targets, ttl, is_far=False):
    """Returns the hops of the path with the fewest changes to the nearest of the targets, or to the farthest, on which
    no router takes the flow by two vifs; or None."""
    forbidden = set()
    for _ in range(ATTEMPTS):
        search = Search(task, entries, reach, pins, forbidden)
        path = first_of(search.ways(ttl), targets, is_far)
        if not path:
            return None
        hops, seen, clash = hops_of(path), {}, None
        for router, vif, _ in hops:
            if seen.setdefault(router, vif) != vif:
                clash = (router, vif, task.domain.placed[router][vif])
        if not clash:
            return hops
        forbidden.add(clash)
    return None


def first_of(ways, targets, is_far):
    """Returns the path to the first of the targets, or to the last of them, or None."""
    found, left = None, set(targets)
    for _, lan, path in ways:
        if lan in left:
            found = path
            left.discard(lan)
            if not is_far or not left:
                break
    return found
