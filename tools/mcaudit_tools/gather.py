"""The lists of all LANs of a site, gathered side by side, and how they come into it."""
import contextlib
import os
import resource
import threading
import time

from mcaudit_tools import origins
from mcaudit_tools.common import Ended, Failed, say, tell_lines
from mcaudit_tools.files import beside
from mcaudit_tools.listed import Listed
from mcaudit_tools.live import capture_list
from mcaudit_tools.programs import RUNNING
from mcaudit_tools.session import NoCapture
from mcaudit_tools.sets import Site, record
from mcaudit_tools.speakers import Speakers
from mcaudit_tools.task import Task
from mcaudit_tools.topology import check_lans, read_topology
from mcaudit_tools.window import NO_LIST, WRITTEN, List
from mcaudit_tools.ways import SSH

A_SECOND = 10  # LANs that are begun in a second
MOST_FILES = 8192  # that are open at a time


class Lan:
    """One LAN's list: what came of it, and what was said."""

    def __init__(self, words, name, places, statics):
        """Takes the LAN's name, the interfaces on it, (router, device), and its hosts that can't be asked."""
        self.words, self.name, self.places, self.statics = words, name, places, statics
        self.sentences = ["no router of the topology has an interface on it"]
        self.list, self.router, self.time, self.fault = List(NO_LIST), None, 0, None
        self.speakers, self.own = Speakers(), set()  # who speaks as a router there, and by which addresses it is asked

    def is_empty_named(self):
        """Whether an empty list of it is allowed by its name."""
        return self.name in (self.words.empty_lan or ())

    def gather(self):
        """Gathers the list on the first of its routers where that can be done."""
        try:
            for router, device in self.places:
                if self.gather_on(router, device):
                    return
        except Ended:
            pass
        except Exception as fault:  # pylint: disable=broad-exception-caught
            self.fault = fault if isinstance(fault, Failed) else Failed(f"{type(fault).__name__}: {fault}")

    def gather_on(self, router, device):
        """Gathers the list on this router. Returns whether that could be done."""
        self.sentences = []
        try:
            self.list = capture_list(self.task(router, device))
            self.router, self.time = router, int(time.time())
            return True
        except Failed as fault:
            if isinstance(fault, Ended):
                raise
            self.say_of(router, device, str(fault))
            return not isinstance(fault, NoCapture)

    def task(self, router, device):
        """Returns what is to be done on the router."""
        way = next((it for it in self.words.all_routers if it.name == router), None)
        if way is None:
            self.say_of(router, device, f"{router} is none of the routers")
            raise NoCapture("the router could not be reached")
        others = len({it for it, _ in self.places}) if self.words.ask and not self.words.ask_routers else 0
        return Task(self.words, way.shell(self.words.ssh or SSH), device, self.statics,
                    lambda sentence: self.say_of(router, device, sentence),
                    self.words.empty or self.is_empty_named(), f"--empty-lan {self.name}",
                    self.words.ask and others < 2, others if others > 1 else None, self.speakers, self.own)

    def say_of(self, router, device, sentence):
        """Keeps what is said, but for what is of use only meanwhile."""
        if not sentence.startswith("waiting on ") and ": its answers have " not in sentence:
            self.sentences.append(f"{router} {device}: {sentence}")

    def tell(self, listed):
        """Tells what came of it: of a list that is whole, how many reports it has, as an answer."""
        answers = [it for it in self.sentences if self.list.status == WRITTEN and ": query of " in it
                   and ": reports " in it]
        strangers = [] if listed.missing else self.speakers.sentences(listed, self.own)
        tell_lines(self.name, [*self.sentences, *([str(self.fault)] if self.fault else []), *strangers], answers)

    def origin(self):
        """Returns where its list comes from."""
        by = origins.STATIC if self.list.is_decided else origins.CAPTURE
        return origins.Origin(by, self.router, self.time, self.list.unchecked)


def allow_files():
    """Lets as many files be open as the system allows: each LAN has four, and a domain may have 1,024 LANs."""
    now, most = resource.getrlimit(resource.RLIMIT_NOFILE)
    if 0 <= now < MOST_FILES:
        with contextlib.suppress(OSError, ValueError):
            resource.setrlimit(resource.RLIMIT_NOFILE, (MOST_FILES if most < 0 else min(most, MOST_FILES), most))


def gather_side_by_side(lans, listed):
    """Gathers all lists, some more each second, and tells of each what came of it."""
    allow_files()
    threads = []
    for count, lan in enumerate(lans, 1):
        threads.append(threading.Thread(target=lan.gather, daemon=True))
        threads[-1].start()
        if count % A_SECOND == 0:
            RUNNING.rest(1)
    for thread, lan in zip(threads, lans):
        while thread.is_alive():
            thread.join(0.5)
        lan.tell(listed)


def files_of(lans, folder):
    """Writes the lists of LANs that are whole into a folder. Returns the files that a set has of them: where each lies,
    and where it comes from."""
    new = {}
    for lan in (it for it in lans if it.list.status == WRITTEN):
        path = os.path.join(folder, f"igmp-{lan.name}")
        with open(path, "wb") as file:
            file.write(lan.list.text())
        new[f"igmp-{lan.name}"] = path, lan.origin()
    return new


def publish(site, lans, scratch):
    """Puts the lists into the site: as one new set, or into a plain folder."""
    whole = [it for it in lans if it.list.status == WRITTEN]
    if not whole:
        return
    if os.path.islink(site.path):
        site.publish(files_of(lans, scratch), lambda name: False, scratch, lambda folder: None)
        return
    with site.writing():
        for lan in whole:
            with beside(os.path.join(site.path, f"igmp-{lan.name}")) as file:
                file.write(lan.list.text())
        record(site.path, {f"igmp-{it.name}": it.origin() for it in whole})


def tell_empty(option, names):
    """Names the LANs that have an empty list by an option."""
    if names:
        say(f"empty by {option}, so that nobody there counts as wanting anything: {' '.join(names)}")


def tell_all(lans):
    """Tells how many LANs were gathered, of which nobody answered, and which not. Returns the status."""
    missing = [it.name for it in lans if it.list.status != WRITTEN]
    silent = [it for it in lans if it.list.status == WRITTEN and it.list.is_decided]
    print(f"{len(lans) - len(missing)} of {len(lans)} LANs gathered", flush=True)
    tell_empty("--empty", [it.name for it in silent if not it.is_empty_named()])
    tell_empty("--empty-lan", [it.name for it in silent if it.is_empty_named()])
    if missing:
        say(f"not gathered: {' '.join(missing)}")
    return 1 if missing else 0


def gather_all(words):
    """Gathers the lists of all LANs of the site's topology. Returns the status."""
    site = Site(words.all)
    topology = read_topology(site.folder(), site.path)
    names = list(dict.fromkeys(topology.lans))
    check_lans(topology, {"--static": words.statics, "--empty-lan": words.empty_lan})
    lans = [Lan(words, name, [(router, device) for lan, router, device in topology.interfaces if lan == name],
                words.statics.get(name, [])) for name in names]
    listed = Listed(site.folder(), topology.routers)
    gather_side_by_side(lans, listed)
    unknown = listed.sentence([(it.name, it.speakers, it.own) for it in lans])
    if unknown:
        say(unknown)
    return finish(site, lans)


def finish(site, lans):
    """Puts the lists into the site, and tells how many there are. Returns the status."""
    if os.path.islink(site.path):
        with site.scratch() as scratch:
            publish(site, lans, scratch)
    else:
        publish(site, lans, None)
    return tell_all(lans)
