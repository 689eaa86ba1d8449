"""mcaudit-reports --from-daemon: the lists of all LANs of a site, or that of one, as the daemons of their routers
believe them."""
import functools
import os

from mcaudit_tools import bridge as bridges
from mcaudit_tools import origins
from mcaudit_tools.believed import (BelievedLan, Options, ask_daemon, ask_told, ask_until_still, by_place, judge_until,
                                    lans_of)
from mcaudit_tools.common import Ended, Failed, say, tell_lines
from mcaudit_tools.daemon import Belief
from mcaudit_tools.gather import finish
from mcaudit_tools.listed import Listed
from mcaudit_tools.live import hear
from mcaudit_tools.programs import RUNNING, side_by_side
from mcaudit_tools.session import NoCapture
from mcaudit_tools.sets import Site
from mcaudit_tools.speakers import Speakers
from mcaudit_tools.task import Task
from mcaudit_tools.topology import check_lans, read_topology
from mcaudit_tools.ways import SSH, Router
from mcaudit_tools.window import WRITTEN

AT_ONCE = 8  # routers that are asked at a time


def ask_routers(words, devices):
    """Asks the daemons of all routers that have a device on a LAN, some at a time. Returns what is believed by router
    and device."""
    ways = {it.name: it for it in words.all_routers}
    works = {name: functools.partial(ask_until_still, functools.partial(ask_daemon, ways[name].shell(words.ssh or SSH)),
                                     found) for name, found in devices.items() if found and name in ways}
    beliefs = {name: found for name, (found, _) in side_by_side(works, AT_ONCE).items()}
    for name, found in devices.items():
        if name not in ways:
            beliefs[name] = {it: Belief(reason=f"{name} is none of the routers") for it in found}
    return by_place(beliefs)


class Transit:
    """The hearing of a LAN on which no router asks hosts: whether one reports a group all the same."""

    def __init__(self, words, lan):
        """Takes the LAN."""
        self.words, self.lan, self.speakers = words, lan, Speakers()

    def tell(self, router, device, sentence):
        """Keeps what is said."""
        self.lan.sentences.append(f"{router} {device}: {sentence}")

    def hear(self):
        """Hears it on the first of its routers where that can be done."""
        ways = {it.name: it for it in self.words.all_routers}
        for router, device in self.lan.places:
            if router not in ways:
                continue
            tell = functools.partial(self.tell, router, device)
            try:
                lost = hear(Task(self.words, ways[router].shell(self.words.ssh or SSH), device, [], tell,
                                 speakers=self.speakers), self.words.wait)
            except Ended:
                raise
            except Failed as fault:
                tell(str(fault))
                if isinstance(fault, NoCapture):
                    continue
                return
            if lost:
                tell(lost)
            elif self.speakers.wanted:
                tell(f"hosts ask there, for {self.speakers.wanted_text()}")
            else:
                self.lan.take_transit(f"none was heard on {router} {device} to ask for a group in {self.words.wait} s")
            return


def hear_transit(words, lans):
    """Hears each LAN where no router asks hosts and that has no list yet. Returns the hearings."""
    found = [Transit(words, it) for it in lans if it.is_transit and it.list.status != WRITTEN]
    side_by_side({it.lan.name: it.hear for it in found}, AT_ONCE)
    return found


def gather_all(words):
    """Gathers the lists of all LANs of the site's topology. Returns the status."""
    site = Site(words.all)
    topology = read_topology(site.folder(), site.path)
    check_lans(topology, {"--static": words.statics, "--empty-lan": words.empty_lan})
    lans = lans_of(topology, lambda name: Options(
        words.empty or name in (words.empty_lan or ()), f"--empty-lan {name}", words.statics.get(name, []),
        name in (words.empty_lan or ())))
    folder = site.folder()
    devices = {it: topology.devices_of(it) for it in topology.routers}
    judge_until(lans, folder, lambda: ask_routers(words, devices))
    heard = hear_transit(words, lans)
    listed = Listed(folder, topology.routers)
    for lan in lans:
        strangers = [it for one in heard if one.lan is lan and not listed.missing
                     for it in one.speakers.sentences(listed)]
        tell_lines(lan.name, [*lan.answers, *lan.sentences, *strangers], lan.answers)
    return finish(site, lans)


class BridgeAsking:
    """Asks a bridge: before its first answer counts, a query and the answers to it are waited for."""

    def __init__(self, shell, bridge):
        """Takes the shell on the router, and the bridge."""
        self.shell, self.bridge, self.settings = shell, bridge, None

    def ask_once(self):
        """Asks the bridge."""
        told, sentences = ask_told(self.shell, bridges.SCRIPTS, bridges.variable_of(self.bridge))
        return bridges.Bridge(told), sentences

    def ask(self):
        """Asks the bridge, where that is the first time after the wait. Fails where it was set otherwise meanwhile."""
        found, sentences = self.ask_once()
        belief = found.belief(self.bridge)
        if self.settings is None and belief.wants is not None:
            self.settings = found.settings
            say(f"{self.bridge}: a query and its answers are waited for, {belief.interval} s")
            RUNNING.rest(belief.interval)
            found, sentences = self.ask_once()
        if self.settings is not None and found.settings != self.settings:
            raise Failed("the bridge was recreated, or its settings changed, meanwhile")
        return found, sentences


def one_list(words):
    """Makes the list of one interface. Returns it, or why there is none, and where it comes from."""
    folder, name = os.path.split(words.o or "")
    options = Options(words.empty, statics=words.statics.get(None, []), is_alone=False)
    shell = Router("router", words.by or "").shell(words.ssh or SSH)
    lan = BelievedLan(name.partition("igmp-")[2], [("router", words.device)], options,
                      origins.BRIDGE if words.from_bridge else origins.DAEMON)
    asking = BridgeAsking(shell, words.device).ask if words.from_bridge else functools.partial(ask_daemon, shell)

    def ask():
        """Asks the daemon or the bridge."""
        found, sentences = ask_until_still(asking, [words.device])
        for sentence in sentences:
            say(sentence)
        return by_place({"router": found})
    judge_until([lan], folder, ask)
    for sentence in [*lan.answers, *lan.sentences]:
        say(sentence.removeprefix("router "))
    lan.of = None
    return lan.list, lan.origin()
