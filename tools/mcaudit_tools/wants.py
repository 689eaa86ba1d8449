"""What hosts ask for and no listed flow answers, as an audit says it."""
import ipaddress
import sys
import typing

from mcaudit_tools.common import names_change, some

ANY = "*"  # stands for any source


def names(value):
    """Returns the value, which has to be a list of texts."""
    if not isinstance(value, list) or not all(isinstance(it, str) for it in value):
        raise TypeError
    return list(map(sys.intern, value))  # told again and again, of one want after another


class Want(typing.NamedTuple):
    """A group, and a source or any, with the LANs that ask for it, and what routers do with it."""
    source: str
    group: str
    lans: list
    listed: list  # the sources of the group that flows list
    routers: list  # that forward it
    none: list  # that have an entry for it which forwards it nowhere
    star: list  # that have entries for every source alone
    key: tuple  # the group and the source as numbers, in whose order audit has them

    @classmethod
    def of(cls, told):
        """Returns what an object `asked` tells."""
        source, group = names([ANY if told["source"] is None else told["source"], told["group"]])
        key = tuple(int(ipaddress.IPv4Address(it)) for it in (group, "0.0.0.0" if source == ANY else source))
        return cls(source, group, *(names(told[it]) for it in ("lans", "listed", "routers", "none", "star")), key)

    @property
    def name(self):
        """The source and the group."""
        return f"{self.source} {self.group}"

    def what(self, has_unknown=False):
        """Returns what is done with it, as audit says that; it says so of tables that may be unknown too."""
        for words, routers in (("forwarded by", self.routers), ("no outgoing LAN interface in", self.none),
                               ("no entry for it but (*,G) or (*,*) in", self.star)):
            if routers:
                return f"{words} {some(routers)}"
        return f"no router {'with known tables ' * has_unknown}forwards it"

    def sentence(self, has_unknown=False):
        """Returns all that audit says of it behind its LANs."""
        more = [f"listed for the group: {some(self.listed)}"] if self.listed else []
        more += ["SSM: routers ignore it"] if self.source == ANY and self.group.startswith("232.") else []
        return "; ".join([self.what(has_unknown), *more])


class Wants:
    """What an audit says of wants, taken line by line."""

    def __init__(self):
        """Begins with nothing."""
        self.all = []
        self.more = 0  # wants of LANs that aren't told
        self.services = []  # group, name and LANs of each
        self.count = None  # of wants of LANs; None where the program was too old to say it

    def take(self, line):
        """Takes a line's object, if it is about wants."""
        if "asked" in line:
            self.all.append(Want.of(line["asked"]))
        elif "asked_more" in line:
            self.more = line["asked_more"]["wants"]
            if type(self.more) is not int:  # pylint: disable=unidiomatic-typecheck
                raise TypeError
        elif "asked_services" in line:
            self.services = [(*names([it["group"], it["name"]]), names(it["lans"])) for it in line["asked_services"]]
        elif "summary" in line:
            self.count = line["summary"].get("asked")

    def is_counted(self):
        """Whether the summary counts the wants that were told."""
        return sum(len(it.lans) for it in self.all) + self.more == (self.count or 0)


def changes_of_wants(old, new):
    """Yields each change of what hosts ask for and no flow answers: whose it is, which, what was and what is. Where one
    of both doesn't say it, or doesn't tell all, nothing is known of it."""
    if None in (old.count, new.count):
        return
    was, now = ({want.key: want for want in wants.all} for wants in (old, new))
    known = min((max(wants, default=(0, 0)) for wants, of in ((was, old), (now, new)) if of.more), default=None)
    for key in sorted({*was, *now}):
        if known is None or key <= known:
            before, after = was.get(key), now.get(key)
            want = after or before
            whose = {"asked": {"source": None if want.source == ANY else want.source, "group": want.group}}
            lans = (it.lans if it else [] for it in (before, after))
            yield from ((whose, *it) for it in names_change("lans" if before and after else "asked", *lans))
            if before and after and before.what() != after.what():
                yield whose, "forwarding", before.what(), after.what()
