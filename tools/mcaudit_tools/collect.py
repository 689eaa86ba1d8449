"""mcaudit-collect: brings the multicast tables of a domain's routers into one folder.

vif-NAME holds a router's /proc/net/ip_mr_vif, cache-NAME its /proc/net/ip_mr_cache. A router needs nothing but a shell
and cat.

A read of ip_mr_cache gives about 4 KB at a time. Where rows are deleted between two such reads, a row that stays all
the while can slip through. So each router is read until two readings one after the other are equal, counters aside.
Some routers are read side by side: the sooner all are read, the less their tables can change in between.
"""
import functools
import os
import sys
import threading

from mcaudit_tools import answers, facts, origins, topology, ways
from mcaudit_tools.common import Ended, Failed, Parser, Wrong, printable, say, tell_lines
from mcaudit_tools.programs import RUNNING, side_by_side
from mcaudit_tools.reading import Collected, Reading
from mcaudit_tools.sets import Site

ABOUT = """Collects the multicast tables of each router NAME into SITE, as vif-NAME and cache-NAME.
Give each router the name that the topology gives it: letters, digits, `-`, `_`, `.`.

The ADDRESS of a router is one of:
  HOST       over ssh; HOST is a host's name or address, or USER@HOST
  (nothing)  this machine: NAME=
  !COMMAND   any command that runs a shell on the router: `COMMAND sh` has to run sh there, with its
             standard input and output connected, as `ssh HOST sh` does
None of them has a terminal, so no password can be asked."""
MORE = """Each router is read until two consecutive readings agree, counters aside; then its line is printed. It says
how many vifs and rows it has, and its byte order, which the topology has to name where it is big. What could not be
read, or kept changing, is named. So are two names of one router: each is asked for its boot's id and its network
namespace.

What is read at one time is a set, SITE.sets/TIME: the new tables, each other file of the last set
(except hidden ones and audit.json), and collected.json, which says where each file comes from and
how old it is. SITE is a symbolic link to the newest set. A router that was not collected has no
tables in it, so that no earlier ones are judged in their place. Earlier sets stay until you remove
them.

Statuses: 0 all collected, 1 some router was not, or SITE's topology doesn't list it, 3 SITE can't be
written and is unchanged, or a signal ended it, 5 usage error.

Examples:
  mcaudit-collect --adopt site r1=10.9.0.1 r2=admin@r2.example.net
  mcaudit-collect --routers routers --timeout 20 site
  mcaudit-collect --ssh 'ssh -p 2222' site r1=10.9.0.1
  mcaudit-collect site here= 'r1=!ip netns exec r1' 'r2=!docker exec -i frr2'"""
OPTIONS = [
    ("--routers", "FILE", "take the routers of FILE too: NAME=ADDRESS, a line each; empty lines and those that begin "
     "with # are ignored"),
    ("--adopt", None, "if SITE is a plain folder, make it the first set; without routers do just that"),
    ("--readings", "N", "read a router at most N times, 2 to 100 (5)", 2, 100, 5),
    ("--pause", "SECONDS", "wait so long between two readings of a router (1)", 0, 999, 1),
    ("--timeout", "SECONDS", "give a router up when a reading takes longer (60)", 1, 999, 60),
    ("--at-once", "N", "read at most N routers side by side, 1 to 100 (8)", 1, 100, 8),
    ("--ssh", "COMMAND", f"reach a HOST by `COMMAND HOST sh` ({ways.SSH})"),
    ("--facts", None, "also bring what else decides what a router forwards, as facts-NAME, which mcaudit-premises "
     "judges (rp_filter, links, filters, counters ..; as root it has the filters), and those of the last set as "
     "earlier-NAME; addresses and routes for mcaudit-draft, as address-NAME and route-NAME. What a router doesn't have "
     "is left out"),
    ("--from-daemon", None, "also bring the lists of the LANs, right after the tables, as the routers' daemons believe "
     "them (FRR's pimd, by vtysh): mcaudit-reports --help says when one counts. A LAN without one keeps its last list, "
     "and is named"),
    ("--empty-lan", "LAN", "with --from-daemon, also write an empty list of this LAN; may be repeated"),
    ("--shell", "NAME", "collect nothing: run a shell on the router NAME, with this standard input and output")]
FILES = {  # the tables that a set has
    "ip_mr_vif": "vif", "ip_mr_cache": "cache", "route": "route", "address": "address"}

PRINTING = threading.Lock()


# The arguments

def read_arguments():
    """Reads the arguments."""
    parser = Parser(description=ABOUT, epilog=MORE,
                    usage="mcaudit-collect [option ...] SITE [NAME=ADDRESS ...]\n"
                          "       mcaudit-collect [option ...] --shell NAME [NAME=ADDRESS ...]")
    parser.add_argument("words", nargs="*", metavar="SITE [NAME=ADDRESS ...]", help="the folder, and the routers")
    parser.add_options(OPTIONS, ["--empty-lan"])
    parser.add_version()
    found = parser.parse_intermixed_args()
    if found.empty_lan and not found.from_daemon:
        parser.error("--empty-lan goes with --from-daemon")
    found.ssh = ways.SSH if found.ssh is None else found.ssh
    take_words(parser, found)
    return found


def take_words(parser, found):
    """Makes the site and the routers of the words."""
    try:
        found.site = None
        if found.shell is None:
            if not found.words:
                parser.error("SITE and at least one router are required")
            found.site = Site(found.words.pop(0))
        found.all = ways.read_routers(found.words, [found.routers] if found.routers else [])
    except Wrong as fault:
        parser.error(str(fault))
    if not found.all and not found.adopt and found.shell is None:
        parser.error("SITE and at least one router are required")
    if found.shell is not None and found.shell not in [it.name for it in found.all]:
        parser.error(f"{found.shell} is none of the routers")


# All routers

class Collection:
    """All routers, collected side by side: once, or where lists are held back once more."""

    def __init__(self, words, scratch):
        """Takes the arguments, and the folder in which the set is made."""
        self.words, self.scratch, self.count, self.found = words, scratch, 0, {}
        self.beliefs_of = lambda name: None  # what is believed of a router's interfaces, where its daemon is asked too

    def collect(self):
        """Collects all routers."""
        self.count += 1
        folder = os.path.join(self.scratch, f"routers-{self.count}")
        works = {it.name: functools.partial(self.collect_router, it, folder) for it in self.words.all}
        self.found = side_by_side(works, self.words.at_once)
        refuse_twins(self.words, self.found)

    def collect_router(self, router, folder):
        """Collects one router, and prints what came of it."""
        with self.words.site.failing():
            own = os.path.join(folder, router.name)
            found = Reading(self.words, router, own, self.beliefs_of(router.name)).collect()
        if RUNNING.ended.is_set():
            raise Ended
        if found.fault:
            with PRINTING:
                for sentence in (found.fault, *found.sentences):
                    print(f"{router.name}: {sentence}", file=sys.stderr, flush=True)
        else:
            show(self.words, f"{router.name}: {found.line}")
        return found

    def tell(self, name, sentences, answers):
        """Tells what is so of a LAN, and the sentences that are answers as such."""
        with self.words.site.failing(), PRINTING:
            tell_lines(name, sentences, answers)


def show(words, line):
    """Prints a line, as long as that can be."""
    with words.site.failing(), PRINTING:
        print(printable(line), flush=True)


def refuse_twins(words, found):
    """Refuses the routers that are one under two names: by what they say of themselves, and else by their ways."""
    for key, is_sure in (lambda it: found[it.name].identity, True), (lambda it: it.way, False):
        same = {}
        for router in words.all:
            if not found[router.name].fault and key(router) is not None:
                same.setdefault(key(router), []).append(router.name)
        for names in same.values():
            is_one = is_sure or not all(found[it].identity for it in names)
            for name in names if len(names) > 1 and is_one else ():
                others = " ".join(it for it in names if it != name)
                found[name] = Collected(f"is the same router as {others}")
                print(f"{name}: {found[name].fault}", file=sys.stderr, flush=True)
    silent = [it.name for it in words.all if not found[it.name].fault and not found[it.name].identity]
    if silent and len(words.all) > 1:
        say(f"whether these are routers of their own isn't known, since they don't say it: {' '.join(silent)}")


def new_files(words, found):
    """Returns the files of the new set: where each lies, and where it comes from."""
    files = {}
    for name, one in found.items():
        for table in tables_of(words) if not one.fault else ():
            files[f"{FILES[table]}-{name}"] = (os.path.join(one.folder, table),
                                               origins.Origin(origins.COLLECT, name, one.time))
        if words.facts and not one.fault:
            files.update(facts.files_of(words.site.folder(), name, one.folder, one.facts_time))
    return files


def tables_of(words):
    """Returns the tables that a set has of each router."""
    return (*answers.TABLES[:2], *(answers.FACTS if words.facts else ()))


def unlisted_of(words, folder):
    """Returns the routers whose tables the set has and its topology doesn't list: a yes would be said as if they
    weren't there. Tells where that can't be seen."""
    if not os.path.lexists(os.path.join(folder, "topology")):
        return []
    try:
        listed = topology.read_routers(folder, words.site.path)
    except Failed as fault:
        say(f"whether the topology lists all routers isn't known: {fault}")
        return [] if isinstance(fault, topology.NoReader) else [it.name for it in words.all]
    return [it.name for it in words.all if listed and it.name not in listed]


def publish(words, found, lists, scratch):
    """Makes the new set, with the lists that are written into a folder by a call. Returns whether all routers are in
    it, and in its topology."""
    missing = [name for name, one in found.items() if one.fault]
    count = f"{len(words.all) - len(missing)} of {len(words.all)} routers collected"
    replaced = (*(f"{FILES[it]}-" for it in tables_of(words)), *(facts.PREFIXES if words.facts else ()))
    with words.site.failing():
        files = {**new_files(words, found), **lists(scratch)}
    folder = words.site.publish(files, lambda it: it.startswith(replaced), scratch,
                                lambda folder: show(words, f"{count}: {folder}"))
    if missing:
        say(f"not collected: {' '.join(missing)}")
    unlisted = unlisted_of(words, folder)
    if unlisted:
        say(f"not in the topology, so that nobody judges them: {' '.join(unlisted)}")
    return not missing and not unlisted


def main():
    """Collects. Returns the status."""
    words = read_arguments()
    if words.shell is not None:
        ways.become_shell(next(it for it in words.all if it.name == words.shell), words.ssh)
    words.site.check(words.adopt)
    with words.site.scratch() as scratch:
        if words.adopt:
            words.site.adopt(scratch)
        if not words.all:
            return 0
        collection, lists = Collection(words, scratch), lambda folder: {}
        if words.from_daemon:
            # (what makes a list of a daemon's answers takes longer to load than all else)
            from mcaudit_tools import collect_lists  # pylint: disable=import-outside-toplevel
            lists = collect_lists.collect(collection)
        else:
            collection.collect()
        return 0 if publish(words, collection.found, lists, scratch) else 1
