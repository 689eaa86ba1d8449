"""What a page says beside the verdict: what that rests on, the sources and groups that no flow lists, when what was
judged was collected, and what isn't judged."""
import collections
import contextlib
import os
import re
import time

from mcaudit_tools import origins, topology
from mcaudit_tools.ages import Ages
from mcaudit_tools.common import Failed
from mcaudit_tools.files import read_regular
from mcaudit_tools.page.explain import some
from mcaudit_tools.page.markup import table_of, tag
from mcaudit_tools.premises import beside

SHOWN_UNLISTED = 1000
SHOWN_WANTS = 1000
UNSEEN = ("What the files don't show: (*,G) entries and shared trees, netfilter, rp_filter, other "
          "multicast tables, links that are down, losses, and whatever changed since they were written. The guide "
          "has each of them under “What lies outside”")


class Folder:
    """The folder that a page is of: its name as it was given, and the set that it led to when the page was begun."""

    def __init__(self, name):
        """Takes the folder of this name, as it is now."""
        self.named = name.rstrip("/") or name
        self.path, self.is_set = os.path.realpath(self.named), os.path.islink(self.named)
        self.was_there = os.path.isdir(self.path)

    def check(self):
        """Fails where the set is gone."""
        if self.was_there and not os.path.isdir(self.path):
            raise Failed(f"{self.named}: the set was removed meanwhile")


def files_of(domain):
    """Returns what each file is that an audit reads, by name."""
    found = {"topology": "the topology"}
    for router in domain.routers:
        found |= {f"vif-{router}": f"vifs of the router {router}", f"cache-{router}": f"rows of the router {router}"}
    return found | {f"igmp-{lan}": f"reports of the LAN {lan}" for lan in domain.lans}


def text_of_time(seconds):
    """Returns a time as it is shown."""
    return time.strftime("%Y-%m-%dT%H:%M:%SZ", time.gmtime(seconds))


def basis_section(audit, folder):
    """Returns what the verdict rests on, and what contradicts it, as of the time at which the page is made."""
    if folder is None:
        return [tag("p", "How old the tables and the lists were, and what else was looked at, isn't known here.",
                    class_="basis")]
    routers = [it for it in audit.domain.routers if it not in audit.without]
    ages = Ages.of_set(folder.path, folder.named, routers, audit.domain.lans)
    found = beside.look(audit.premises.domain, folder.named, folder.path, ages)
    said = f"When this page was made, at {text_of_time(time.time())}: {'; '.join(found.parts)}."
    bad = [tag("li", it) for it in found.contradictions()]
    return [tag("div", tag("p", said), *([tag("ul", *bad)] if bad else []), class_="basis")]


def told_times(folder):
    """Returns when each file of the folder was written, by name, as its collected.json says."""
    with contextlib.suppress(Failed, OverflowError, ValueError, OSError):
        return {name: text_of_time(it.time) for name, it in origins.read(folder.path).items()}
    return {}


def collected_section(domain, folder):
    """Returns when what was judged was collected."""
    times = told_times(folder) if folder else {}
    if not times:
        return [tag("p", "When the files were written isn't known: there is no list of times beside them, as "
                         "mcaudit-collect writes it.")]
    is_set, own, about = folder.is_set, {}, files_of(domain)
    for name in about:
        with contextlib.suppress(OSError, ValueError):  # no such file, or no name of one
            own[name] = text_of_time(os.stat(os.path.join(folder.path, name)).st_mtime)
    later = {name: when for name, when in own.items()
             if name not in times or (is_set and name.startswith("igmp-") and when > times[name])}
    absent = [name for name in about if name not in times and name not in own]
    all_times = {**times, **{name: f"{when}, by the file itself" for name, when in later.items()}}
    order = [it for it in about if it in all_times] + sorted(it for it in all_times if it not in about)
    tables = sorted(times[it] for it in times if it in about and it.startswith(("vif-", "cache-")))
    said = [f"Set {os.path.basename(folder.path)}; " * is_set + f"{len(order)} files"
            + (f"; the routers' tables were written from {tables[0]} to {tables[-1]}" if tables else "") + "."]
    if later:
        said.append("Gathered or written after the tables, so that collected.json doesn't have their times, but read "
                    f"by the audit all the same: {some(list(later))}.")
    if absent:
        said.append(f"Not in the folder: {some(absent)}.")
    rows = [tag("tr", *(tag("td", it) for it in (tag("code", name), about.get(name, "not read by an audit"),
                                                 all_times[name]))) for name in order]
    return [tag("p", " ".join(said)),
            tag("details", tag("summary", "Each file, and when it was written"),
                table_of(("File", "What it is", "Written, by collected.json"), rows),
                open=None if len(rows) > 40 else "")]


def comments_of(folder):
    """Returns the lines of the folder's topology that are comments and would be tables without their first letters, as
    mcaudit-draft leaves what it isn't sure of."""
    try:
        data = read_regular(os.path.join(folder.path, "topology"), topology.MOST_BYTES)
        lines = data.decode("utf-8", "replace").split("\n")
        return [line.strip() for line in lines if re.match(r"\s*#\s*(\{|missing:)", line)]
    except Failed:
        return []


def unjudged_section(audit, folder):
    """Returns what this verdict doesn't judge."""
    domain, lone = audit.domain, collections.defaultdict(list)
    for port in domain.ports:
        if port.lan is None:
            lone[port.router].append(port.device)
    absent = [f"{domain.routers[it.router]}: {it.device} on {domain.lans[it.lan]}" for it in domain.ports
              if it.vif is None and domain.routers[it.router] not in audit.without]
    known = {port.lan for port in domain.ports}
    alone = [name for lan, name in enumerate(domain.lans) if lan not in known]
    comments = comments_of(folder) if folder else []
    items = [(words, more) for is_there, words, more in (
        (audit.without, f"Excluded routers, whose tables are unknown: {' '.join(audit.without)}", []),
        (audit.unlisted, f"(S,G) that belong to no listed flow: {len(audit.unlisted)}, see above", []),
        (audit.wants.count, f"What hosts ask for and no flow answers: {wants_words(audit.wants)}, see above", []),
        (lone, "Vifs on no LAN of the topology. A copy that is sent there has left the domain, which is a Stray",
         [f"{domain.routers[router]}: {' '.join(lone[router])}" for router in sorted(lone)]),
        (absent, "Interfaces of the topology that the router's vif table doesn't have", absent),
        (alone, f"LANs that no router is on: {' '.join(alone)}", []),
        (comments, "Comments of the topology, which are not judged", comments), (True, UNSEEN, [])) if is_there]
    return [tag("ul", *(tag("li", f"{words}.", *([tag("ul", *(tag("li", it) for it in more))] if more else []))
                        for words, more in items))]


def unlisted_section(audit):
    """Returns the sources and groups that no flow lists."""
    if not audit.unlisted:
        return [tag("p", "None: each resolved (S,G) entry is of a flow that the topology lists.")]
    rows = []
    for source, group, routers in audit.unlisted[:SHOWN_UNLISTED]:
        is_group = group.split(".")[0] in map(str, range(224, 240))
        remark = "" if is_group else "no multicast group: is the byte order of these routers right in the topology?"
        rows.append(tag("tr", *(tag("td", it) for it in (source, group, len(routers), some(routers), remark))))
    rest = len(audit.unlisted) - len(rows)
    more = [f"{rest} more sources and groups"] if rest > 0 else []
    more += [f"{audit.unlisted_more} further entries"] if audit.unlisted_more else []
    return [tag("p", "The routers have entries for these, which belong to no listed flow: their paths are not judged."
                + (f" Not shown: {', '.join(more)}." if more else "")),
            tag("div", table_of(("Source", "Group", "Routers", "Which", "Remark"), rows), class_="scroll")]


def wants_words(wants):
    """Returns how many wants of LANs there are."""
    return f"{wants.count} want{'s' * (wants.count != 1)} of LANs"


def wants_section(audit):
    """Returns what hosts ask for and no flow answers."""
    wants = audit.wants
    if wants.count is None:
        return [tag("p", "This isn't known: the mcaudit that answered was too old to say it.")]
    ignored = f" Ignored, by --ignore: {' '.join(audit.ignored)}." if audit.ignored else ""
    services = ", ".join(f"{group} {name} on {some(lans)}" for group, name, lans in wants.services)
    counted = [tag("p", f"Not counted, since most hosts ask for it by themselves: {services}.")] if services else []
    if not wants.count:
        return [tag("p", "Nothing: a flow that the topology lists answers whatever else the lists of the LANs have."
                    + ignored), *counted]
    rows = [tag("tr", *(tag("td", it) for it in (want.source, want.group, len(want.lans), some(want.lans),
                                                 want.sentence(bool(audit.without)))))
            for want in wants.all[:SHOWN_WANTS]]
    rest = wants.count - sum(len(want.lans) for want in wants.all[:SHOWN_WANTS])
    return [tag("p", f"{wants_words(wants)}, which no listed flow answers: the verdict says nothing about them. "
                     "Where no router forwards what hosts ask for, they get nothing. * is any source."
                     + ignored + (f" Not shown: {rest} more." if rest else "")),
            tag("div", table_of(("Source", "Group", "LANs", "Which", "What the routers do"), rows), class_="scroll"),
            *counted]
