"""What `check` has to say of a domain and the text of a certificate, worked out from the format and the conditions.

The text is read by Python's json, and refused as docs/FORMATS.md says; the lists of entries are judged one condition
after the other, by the tables. The domain is one of answers.py.
"""
import json

from answers import dotted

LONGEST, DEEPEST = 16777216, 127
MOST_TREES, MOST_ENTRIES = 4096, 1024
ENTRY = {"lan", "need", "rank", "router", "vif"}


class Refused(Exception):
    """A text that is no certificate of the domain: the place of its first fault, and the kind."""


class Number(str):
    """A number, as it is written."""


class Members(dict):
    """An object, of equal keys the last, and how deep all that it was written with nests."""

    def __init__(self, pairs):
        super().__init__(pairs)
        self.depth = 1 + max([depth_of(value) for pair in pairs for value in pair], default=0)


def depth_of(value):
    """How deep a value nests. A text that is none, and a number past the greatest double, is a ValueError."""
    if isinstance(value, Members):
        return value.depth
    if isinstance(value, list):
        return 1 + max(map(depth_of, value), default=0)
    if isinstance(value, Number) and float(value) in (float("inf"), float("-inf")):
        raise ValueError("a number past the greatest double")
    if isinstance(value, str):
        value.encode()  # a surrogate without its other half is no text
    return 0


def refuse_word(word):
    raise ValueError(f"{word} is no JSON")


def parsed(text):
    """The value of a text, in which numbers are as they are written; a ValueError where it is no JSON."""
    how = {"parse_int": Number, "parse_float": Number, "parse_constant": refuse_word}
    try:
        value = json.loads(text.decode(), object_pairs_hook=Members, **how)
        depth = depth_of(value)
    except RecursionError as deep:
        raise ValueError("far too deep") from deep
    if depth > DEEPEST:
        raise ValueError("too deep")
    return value


class Certificate:
    """The lists of entries that a text has for the flows of a domain. Refused tells why it has none.

    An entry has the numbers of its LAN and of its router: (LAN, need, rank, (router, vif) or None)."""

    def __init__(self, domain, text):
        self.domain = domain
        if len(text) > LONGEST:
            raise Refused("top", "TooMany")
        try:
            value = parsed(text)
        except ValueError as fault:
            raise Refused("top", "NotJson") from fault
        version = self.version_of(value)
        rows = self.at("top", value, "flows", list)
        if len(rows) != len(domain.flows):
            raise Refused("top", "WrongFlows")
        trees = self.trees_of(value) if version == "2" else None
        self.flows = [self.flow_of(number, row, trees) for number, row in enumerate(rows)]

    def version_of(self, value):
        """The version of an object whose keys are all known."""
        if not isinstance(value, Members):
            raise Refused("top", "BadKind")
        version = self.at("top", value, "version", Number)
        if version not in ("1", "2"):
            raise Refused("top", "BadVersion")
        self.only("top", value, {"flows", "version"} | ({"trees"} if version == "2" else set()))
        return version

    @staticmethod
    def only(place, value, keys):
        if not isinstance(value, Members):
            raise Refused(place, "BadKind")
        if not keys.issuperset(value):
            raise Refused(place, "UnknownKey")

    @staticmethod
    def at(place, members, key, kind):
        """The value under a key, which has to be there and of this kind."""
        if key not in members:
            raise Refused(place, "MissingKey")
        value = members[key]
        if not isinstance(value, kind) or (kind is str and isinstance(value, Number)):
            raise Refused(place, "BadKind")
        return value

    def whole_at(self, place, members, key, low, high):
        """The number under a key, from `low` to `high`."""
        number = self.at(place, members, key, Number)
        if not number.isdigit() or len(number) > 4 or not low <= int(number) <= high:
            raise Refused(place, "BadNumber")
        return int(number)

    def name_at(self, place, members, key, names):
        """The number of the name under a key."""
        name = self.at(place, members, key, str)
        if name not in names:
            raise Refused(place, "UnknownName")
        return names.index(name)

    def entry_of(self, place, value):
        self.only(place, value, ENTRY)
        lan = self.name_at(place, value, "lan", self.domain.lans)
        need, rank = (self.whole_at(place, value, key, low, 255) for key, low in (("need", 1), ("rank", 0)))
        sender = None
        if "router" in value or "vif" in value:
            router = self.name_at(place, value, "router", self.domain.routers)
            sender = router, self.whole_at(place, value, "vif", 0, 31)
        return lan, need, rank, sender

    def entries_of(self, place, rows):
        if len(rows) > MOST_ENTRIES:
            raise Refused(place, "TooMany")
        return [self.entry_of(f"{place} entry {number}", row) for number, row in enumerate(rows, 1)]

    def trees_of(self, value):
        rows = self.at("top", value, "trees", list)
        if len(rows) > MOST_TREES:
            raise Refused("top", "TooMany")
        return [self.tree_of(f"tree {number}", row) for number, row in enumerate(rows, 1)]

    def tree_of(self, place, row):
        if not isinstance(row, list):
            raise Refused(place, "BadKind")
        return self.entries_of(place, row)

    def flow_of(self, number, row, trees):
        """The entries of a flow, its own or those of its tree."""
        place, (source, group, *_) = f"flow {number + 1}", self.domain.flows[number]
        kinds = {"group": str, "source": str} | ({"reached": list} if trees is None else {"tree": Number})
        self.only(place, row, set(kinds))
        values = {key: self.at(place, row, key, kinds[key]) for key in sorted(kinds)}
        tree = None if trees is None else self.whole_at(place, row, "tree", 0, len(trees) - 1)
        if (values["source"], values["group"]) != (dotted(source), dotted(group)):
            raise Refused(place, "WrongFlows")
        return self.entries_of(place, values["reached"]) if trees is None else trees[tree]


class Judged:
    """The first condition that a flow's list of entries breaks, in words, or None."""

    def __init__(self, domain, flow, entries):
        self.domain, self.flow, self.entries = domain, flow, entries
        self.named = {lan: (need, rank, sender) for lan, need, rank, sender in entries}
        steps = (self.named_twice, self.wrong_source, self.wrong_row, self.unfed, self.unserved)
        self.reason = next(filter(None, (step() for step in steps)), None)

    def named_twice(self):
        lans = [lan for lan, *_ in self.entries]
        twice = next((lan for place, lan in enumerate(lans) if lan in lans[:place]), None)
        return None if twice is None else f"TwoEntries {self.domain.lans[twice]}"

    def wrong_source(self):
        source = self.flow[3]
        others = [sender for lan, _, _, sender in self.entries if lan != source]
        return "BadSource" if self.named.get(source) != (1, 0, None) or None in others else None

    def wrong_row(self):
        """What the routers' rows break, in their order."""
        return next(filter(None, map(self.wrong_row_of, range(len(self.domain.routers)))), None)

    def wrong_row_of(self, router):
        domain, name = self.domain, self.domain.routers[router]
        if domain.open_row(router, self.flow):
            vifs = [vif for vif in sorted(domain.tables[router].vifs) if domain.placed(router, vif) in self.named]
            return f"Wildcard {name} {vifs[0]}" if vifs else None
        return next(filter(None, (self.wrong_pair(router, *pair) for pair in self.live_pairs(router))), None)

    def live_pairs(self, router):
        """The outgoing vifs of a router's row that a copy from the row's LAN can pass, if that is named: each with the
        LAN's rank and need, and with its threshold."""
        row = self.domain.exact(router, self.flow)
        lan = self.domain.placed(router, row.incoming) if row else None
        if lan not in self.named:
            return []
        need, rank, _ = self.named[lan]
        return [(rank, need, vif, threshold) for vif, threshold in row.pairs if rank + threshold + 1 <= 255]

    def wrong_pair(self, router, rank, need, vif, threshold):
        name, lan = self.domain.routers[router], self.domain.placed(router, vif)
        if lan is None:
            return f"Stray {name} {vif}"
        if lan not in self.named or self.named[lan][2] != (router, vif):
            return f"Extra {name} {vif} {self.domain.lans[lan]}"
        if self.named[lan][1] != rank + 1:
            return f"WrongRank {self.domain.lans[lan]}"
        if self.named[lan][0] != max(need, rank + threshold + 1):
            return f"WrongNeed {self.domain.lans[lan]}"
        return None

    def unfed(self):
        """The LAN of the first entry whose router doesn't send onto it."""
        for lan, _, _, sender in self.entries:
            if sender:
                vifs = [vif for _, _, vif, _ in self.live_pairs(sender[0])]
                if sender[1] not in vifs or self.domain.placed(*sender) != lan:
                    return f"Unfed {self.domain.lans[lan]}"
        return None

    def unserved(self):
        """The first LAN that wants the flow and isn't named, or is too far away for the flow's time to live."""
        for lan in self.domain.wanting(self.flow):
            if lan not in self.named:
                return f"Missed {self.domain.lans[lan]}"
            if self.named[lan][0] > self.flow[2]:
                return f"Low {self.domain.lans[lan]}"
        return None


def line_of(domain, flow, entries):
    """The line of a flow, and the reason of a no."""
    reason = Judged(domain, flow, entries).reason
    said = f"no {reason}" if reason else f"yes copies {len(entries)}"
    return f"flow {dotted(flow[0])} {dotted(flow[1])} ttl {flow[2]} {said}\n", reason


def check(domain, text):
    """What `check` has to answer, its status and what it writes to standard output and error; and the kinds of that."""
    try:
        flows = Certificate(domain, text).flows
    except Refused as refused:
        place, kind = map(str, refused.args)
        return (2, "", f"refused: certificate: {place}: {kind}\n"), {kind, " ".join(place.split()[::2])}
    lines = [line_of(domain, flow, entries) for flow, entries in zip(domain.flows, flows)]
    reasons = [reason.split()[0] for _, reason in lines if reason]
    verdict = f"verdict {'no' if reasons else 'yes'}"
    return (int(bool(reasons)), "".join(line for line, _ in lines) + f"{verdict}\n", ""), {verdict, *reasons}
