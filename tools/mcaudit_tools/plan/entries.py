"""The entries that routers have of the flows to plan, kept as plain numbers, since there may be a million of them; and
what the other rows of a cache tell of it: the thresholds of its vifs, and whether its byte order can be right."""
import array
import collections
import os
import re

from mcaudit_tools.files import read_regular
from mcaudit_tools.premises.rows import OUTGOING, word_of

MOST_TABLE = 16 << 20  # bytes of a cache
ROW = re.compile(rb"^ *([0-9A-Fa-f]{8}) +([0-9A-Fa-f]{8}) +(-1|[0-9]+) +-?[0-9]+ +-?[0-9]+ +-?[0-9]+"
                 rb"((?: +[0-9]+:[0-9]+)*) *$", re.MULTILINE)
ANY = b"00000000"  # the source of an entry for every source, and the group of one for every group
NOTHING, UNRESOLVED = -1, -2  # in the place of an incoming vif


class Cache:
    """What of a router's cache is kept."""

    def __init__(self, order, count):
        """Takes the byte order, and how many flows there are, of which nothing is read yet."""
        self.order = order
        self.vifs, self.ends = array.array("h", [NOTHING]) * count, array.array("L", [0]) * count
        self.every = set()  # the groups of entries for every source, as the cache has them
        self.tails = collections.Counter()  # how often rows end so
        self.odd = False  # a row has a group that is none
        self.threshold = self.usual_threshold  # what says the threshold that an entry made now gets at a vif
        self.known = None

    def read(self, body, numbers, tail_number):
        """Reads the rows. `numbers` has the flows by their words, `tail_number` numbers the ends of rows."""
        first = 0 if self.order == "big" else 6
        for group, source, vif, tail in ROW.findall(body):
            self.tails[tail] += 1
            if source == ANY:
                if vif != b"-1":
                    self.every.add(group.upper())
                continue
            number = numbers.get((group + source).upper())
            if number is None:
                self.odd = self.odd or group[first:first + 1] not in b"Ee"
            elif vif != b"-1":
                self.vifs[number], self.ends[number] = int(vif), tail_number(tail)
            elif self.vifs[number] == NOTHING:
                self.vifs[number] = UNRESOLVED

    def usual_threshold(self, vif):
        """Returns the threshold that most rows have at a vif, and whether they agree in it. Where they don't tell it,
        it is 1."""
        if self.known is None:
            seen = collections.defaultdict(collections.Counter)
            for tail, count in self.tails.items():
                for number, threshold in OUTGOING.findall(tail):
                    seen[int(number)][int(threshold)] += count
            self.known = {number: (max(of, key=lambda it, of=of: (of[it], it)), len(of) == 1)
                          for number, of in seen.items()}
        return self.known.get(vif, (1, False))


class Entries:
    """The entries of all routers."""

    def __init__(self, folder, domain, flows):
        """Reads the caches in the folder of a domain, for the entries of flows."""
        self.domain, self.tails, self.known = domain, [], {}
        self.numbers = {pair: number for number, pair in enumerate(dict.fromkeys(it.pair for it in flows))}
        words = {order: {word_of(group, order) + word_of(source, order): number
                         for (source, group), number in self.numbers.items()} for order in set(domain.orders.values())}
        self.caches = {}
        for router, order in domain.orders.items():
            cache = self.caches[router] = Cache(order, len(self.numbers))
            body = read_regular(os.path.join(folder, f"cache-{router}"), MOST_TABLE, f"cache-{router}")
            cache.read(body, words[order], self.tail_number)

    def tail_number(self, tail):
        """Returns the number of the end of a row, which names the outgoing vifs."""
        if tail not in self.known:
            self.known[tail] = len(self.tails)
            self.tails.append({int(vif): int(threshold) for vif, threshold in OUTGOING.findall(tail)})
        return self.known[tail]

    def of(self, flow):
        """Returns the entries of a flow, by router: the incoming vif, and the outgoing ones with their thresholds."""
        number = self.numbers[flow.pair]
        return {router: (it.vifs[number], self.tails[it.ends[number]]) for router, it in self.caches.items()
                if it.vifs[number] >= 0}

    def unresolved(self, flow):
        """Returns the routers that have an unresolved row of a flow alone."""
        number = self.numbers[flow.pair]
        return {router for router, it in self.caches.items() if it.vifs[number] == UNRESOLVED}

    def every_source(self, flow):
        """Returns the routers with an entry for every source of the flow's group, or of every group."""
        words = {order: {word_of(flow.group, order), ANY} for order in set(self.domain.orders.values())}
        return {router for router, it in self.caches.items() if it.every & words[it.order]}

    def key(self, flow):
        """Returns what says of two flows that their entries are alike."""
        number = self.numbers[flow.pair]
        return (tuple(it.vifs[number] for it in self.caches.values()),
                tuple(it.ends[number] for it in self.caches.values()))

    def threshold(self, router, vif):
        """Returns the threshold that an entry made now gets at a vif, and whether the rows agree in it."""
        return self.caches[router].threshold(vif)

    def odd(self):
        """Returns the routers whose rows have groups that are none."""
        return [router for router, it in self.caches.items() if it.odd]
