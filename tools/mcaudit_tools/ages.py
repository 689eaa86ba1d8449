"""How old what is judged is: the tables of routers, their facts, and the LANs' lists of reports."""
import contextlib
import os

from mcaudit_tools import origins
from mcaudit_tools.common import Failed, say

UNITS = ("days", 86400), ("h", 3600), ("min", 60)  # the longest first, each with its seconds
LATER = -1  # stands for a time too far ahead, which can't be believed: it is older than all others


class Ages:
    """The times of a set's tables and lists, by where its files come from."""

    def __init__(self, folder, known, routers=None, lans=None):
        """Takes the set's folder, which is read at once, what is told of its files, or None where that can't be read,
        and the names of what is judged; all, where that isn't known."""
        judged, entries = {"vif": routers, "cache": routers, "facts": routers, "igmp": lans}, []
        self.judged = judged  # by kind
        self.files = {kind: [] for kind in judged}  # of each kind, whose file it is, and where it comes from
        self.is_told, known = known is not None, known or {}
        with contextlib.suppress(OSError):
            is_copied = origins.is_copy(folder, known)
            entries = sorted(os.scandir(folder), key=lambda it: it.name)
        for entry in entries:
            kind, _, name = entry.name.partition("-")
            if kind in judged and (judged[kind] is None or name in judged[kind]):
                with contextlib.suppress(OSError):
                    self.files[kind].append((name, origins.current(entry.path, known.get(entry.name), is_copied)))

    @classmethod
    def of_set(cls, folder, named, routers, lans):
        """Returns the ages of a set that has this name. Where its collected.json can't be read that is told, and each
        file is as old as itself."""
        known = None
        try:
            known = origins.read(folder, named)
        except Failed as fault:
            say(str(fault))
        return cls(folder, known, routers, lans)

    def times(self, *kinds):
        """Returns for each name when the oldest of its files of these kinds was written, in Unix seconds, by name;
        LATER, where one of them has a time too far ahead. What an operator decided has no age."""
        found = {}
        for name, origin in (it for kind in kinds for it in self.files[kind]):
            if origin.by != origins.STATIC:
                when = LATER if origins.is_ahead(origin) else origin.time
                found[name] = min(when, found.get(name, when))
        return dict(sorted(found.items()))

    def tables(self):
        """Returns when each router's tables were read."""
        return self.times("vif", "cache")

    def facts(self):
        """Returns when each router's facts were asked for."""
        return self.times("facts")

    def reports(self):
        """Returns when each LAN's reports were gathered."""
        return self.times("igmp")

    def decided(self):
        """Returns the LANs whose lists an operator decided."""
        return sorted({name for name, it in self.files["igmp"] if it.by == origins.STATIC})

    def by_hand(self):
        """Returns the LANs whose lists were written by hand; none, where it can't be read who wrote them."""
        return sorted({name for name, it in self.files["igmp"] if it.by == origins.OPERATOR and self.is_told})

    def believed(self):
        """Returns the LANs whose lists a daemon or a bridge of a router believes."""
        return sorted({name for name, it in self.files["igmp"]
                       if it.by in (origins.DAEMON, origins.BRIDGE) and origins.NOT_ASKED not in it.unchecked})

    def not_asked(self):
        """Returns the LANs whose lists are empty since no router there asks hosts."""
        return sorted({name for name, it in self.files["igmp"] if origins.NOT_ASKED in it.unchecked})

    def unknown(self, *kinds):
        """Returns the names of what is judged of which a file of these kinds can't be seen."""
        return sorted({name for kind in kinds for name in self.judged[kind] or ()
                       if name not in {it for it, _ in self.files[kind]}})


def age_of(when, now):
    """Returns how many seconds ago that was; 0 where it is still to come."""
    return max(0, int(now - when))


def age_text(seconds):
    """Returns an age in the longest unit of which it has at least two, rounded down."""
    for unit, length in UNITS:
        if seconds >= 2 * length:
            return f"{seconds // length} {unit}"
    return f"{seconds} s"
