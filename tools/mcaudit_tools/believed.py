"""The lists of LANs as the routing daemons of their routers believe them: of FRR's pimd, while hosts zap too.

Each router is asked until two answers believe the same of an interface. Of the routers of a LAN whose word counts the
list is the union. What is said of why it doesn't count stands with the LAN's name, and then there is no list.
"""
import dataclasses
import io
import os
import time

from mcaudit_tools import igmp, origins, ssm
from mcaudit_tools.answers import random_word
from mcaudit_tools.common import Failed, from_hex, say
from mcaudit_tools.daemon import ANY, SCRIPTS, Belief, Daemon
from mcaudit_tools.facts import MOST_ANSWER, TAKING, script, take_answer
from mcaudit_tools.files import read_regular
from mcaudit_tools.heard import MOST_BYTES, MOST_MESSAGES
from mcaudit_tools.programs import RUNNING, run
from mcaudit_tools.told import Told
from mcaudit_tools.window import NO_LIST, WRITTEN, List, Remarks

FRESH = 260  # seconds in which the groups of a list can't all be gone: the answers to two queries lie in them
SECONDS = 60  # that a router may take
READINGS, PAUSE = 5, 0.2  # of a daemon where only it is asked, and seconds between them
DOUBT = ", unless another one does"
NOT_ASKED = Belief(reason="the router was not asked")


# One router

def told_of(came, answer, word, seconds, until):
    """Returns the sections in the rest of an open answer, which had so many seconds."""
    target = io.BytesIO()
    take_answer(came, answer, word, target, seconds, until)
    return Told(target.getvalue())


def ask_told(shell, names, variables=b""):
    """Asks the router that the shell runs on, by what these scripts print. Returns its sections, and what the way to it
    said where it failed."""
    word, until = random_word().encode(), time.monotonic() + SECONDS + TAKING
    came = run(shell, variables + script(word, *names), SECONDS, MOST_ANSWER)
    told = told_of(came, io.BytesIO(came.printed), word, SECONDS, until)
    return told, came.sentences() if told.failed() else []


def ask_daemon(shell):
    """Asks the daemon of the router that the shell runs on."""
    told, sentences = ask_told(shell, SCRIPTS)
    return Daemon(told), sentences


class Beliefs:
    """What a router's daemon believes of its interfaces, reading by reading."""

    def __init__(self, devices):
        """Takes the devices that are on listed LANs."""
        self.devices, self.last, self.count = devices, None, 0
        self.found = {}

    @staticmethod
    def questions(word):
        """Returns what asks the daemon on the router, whose answer begins with the word."""
        return script(word, *SCRIPTS)

    @staticmethod
    def daemon_of(came, answer, word, seconds, until):
        """Returns the daemon that the rest of an open answer tells of, which had so many seconds."""
        return Daemon(told_of(came, answer, word, seconds, until))

    def take(self, daemon):
        """Takes a reading. Returns whether it believes of each interface what the one before did."""
        now, self.count = {it: daemon.belief(it) for it in self.devices}, self.count + 1
        changed = [it for it in now if self.last is None or not now[it].is_as(self.last[it])]
        for belief in now.values():
            belief.time = int(time.time())
        self.found = {it: self.unsteady(belief) if it in changed else belief for it, belief in now.items()}
        self.last = now
        return not changed

    def unsteady(self, belief):
        """Returns what counts of a belief that was another one before."""
        if belief.wants is None and not belief.is_torn:
            return belief
        reason = f"its groups kept changing during {self.count} readings"
        return Belief(reason=belief.reason if belief.is_torn else reason)

    def is_hopeless(self):
        """Whether nothing is believed of any interface, so that another reading shows no more."""
        return self.last is not None and all(it.wants is None and not it.is_torn for it in self.last.values())


def ask_until_still(ask, devices):
    """Asks a router's daemon, or its bridge, until two answers believe the same. Returns what it believes by device,
    and what the way to it said where it failed."""
    beliefs, sentences = Beliefs(devices), []
    for count in range(READINGS):
        if count:
            RUNNING.rest(PAUSE)
        try:
            daemon, sentences = ask()
        except Failed as fault:
            if RUNNING.ended.is_set():
                raise
            return {it: Belief(reason=str(fault)) for it in devices}, []
        if beliefs.take(daemon) or beliefs.is_hopeless():
            break
    return beliefs.found, sentences


# The list before it

@dataclasses.dataclass
class Last:
    """The list that a LAN has: the groups that are asked for in it, and how many seconds old it is."""

    groups: set
    age: "int | None"


def groups_in(messages):
    """Returns the groups that routers forward and some report names."""
    return {group for it in messages for group, _ in igmp.groups_of(it) if group >= igmp.FIRST_FORWARDED}


def last_list(folder, lan):
    """Returns the list that a LAN has in a folder, or None where it has none that can be read, or no name."""
    if not lan:
        return None
    name = f"igmp-{lan}"
    path = os.path.join(folder, name)
    try:
        lines = read_regular(path, MOST_BYTES).split(b"\n")
        messages = [from_hex(it) for it in lines if it.strip()]
        if not all(len(it) >= igmp.LEAST_MESSAGE for it in messages):
            return None
        known = origins.read(folder)
        origin = origins.current(path, known.get(name), origins.is_copy(folder, known))
    except (Failed, OSError, ValueError):
        return None
    age = None if origins.is_ahead(origin) else int(time.time() - origin.time)
    return Last(groups_in([it for it in messages if it[0] in igmp.REPORTS]), age)


# One LAN

@dataclasses.dataclass
class Options:
    """What decides of a LAN's list beside what is believed."""

    is_empty_allowed: bool = False
    option: str = "--empty"
    statics: list = dataclasses.field(default_factory=list)  # reports of hosts that can't be asked
    is_named: bool = False  # an empty list is allowed by the LAN's name
    is_alone: bool = True  # no other router than those that are asked lies on the LAN, as far as is listed


class BelievedLan:
    """One LAN's list, by what the daemons of its routers believe."""

    def __init__(self, name, places, options, by=origins.DAEMON):
        """Takes the LAN's name, the interfaces on it, (router, device), what else decides, and who believes."""
        self.name, self.places, self.options, self.by = name, places, options, by
        self.answers, self.sentences = [], []  # what is told as the answer, and what beside it
        self.list, self.of, self.time = List(NO_LIST), None, 0
        self.hold = 0  # seconds to wait until the routers are asked again
        self.is_transit = False  # no router there asks hosts

    def is_empty_named(self):
        """Whether an empty list of it is allowed by its name."""
        return self.options.is_named

    def origin(self):
        """Returns where its list comes from."""
        by = origins.STATIC if self.list.is_decided else self.by
        return origins.Origin(by, self.of, self.time, self.list.unchecked)

    def judge(self, beliefs, last, is_final):
        """Makes the list of what is believed of its interfaces. One that lacks most of the last list's groups is held
        back, unless this is final."""
        self.answers, self.sentences, self.hold = [], [], 0
        self.list, self.of, self.time = List(NO_LIST), None, int(time.time())
        found = [(router, device, beliefs.get((router, device), NOT_ASKED)) for router, device in self.places]
        counted = [it for it in found if it[2].wants is not None]
        if not counted and self.judge_transit(found, last):
            return
        for router, device, belief in found:
            if belief.wants is None and not (counted and belief.has_no_igmp):
                self.sentences.append(f"{router} {device}: {belief.reason}")
        if not counted:
            self.sentences.append(f"no list: no {self.by}'s word on it counts" if found else
                                  "no router of the topology has an interface on it")
            return
        self.of = counted[0][0] if len({it for it, _, _ in counted}) == 1 else None
        is_all = self.options.is_alone and all(it.wants is not None or it.has_no_igmp for _, _, it in found)
        self.time = min(it.time for _, _, it in counted)
        self.judge_counted(counted, last, is_final, is_all)

    def judge_counted(self, counted, last, is_final, is_all):
        """Makes the list of the beliefs that count, which are those of all routers there, or not."""
        wants = sorted({it for _, _, belief in counted for it in belief.wants},
                       key=lambda it: (it.group, it.version, it.mode, it.sources()))
        messages = list(dict.fromkeys(it.report() for it in wants)) + self.options.statics
        if len(messages) > MOST_MESSAGES or sum(2 * len(it) + 1 for it in messages) > MOST_BYTES:
            self.sentences.append(f"no list: it would have more than {MOST_MESSAGES} reports, or {MOST_BYTES} bytes")
            return
        gone = last.groups - groups_in(messages) if last else set()
        if not is_final and last and last.age is not None and last.age < FRESH and 2 * len(gone) > len(last.groups):
            self.hold = max(belief.interval for _, _, belief in counted)
            self.sentences.append(f"{len(gone)} of {len(last.groups)} groups of its list of {last.age} s ago are gone: "
                                  f"its routers are asked again in {self.hold} s")
            return
        for router, device, belief in counted:
            self.answers.append(f"{router} {device}: groups {len(groups_of(belief))}, as its {self.by} believes")
        if not wants:
            self.sentences.append("no host asks for anything, as is believed")
            self.judge_empty()
            return
        self.list = List(WRITTEN, messages)
        self.tell_wants(wants, [it for _, _, belief in counted for it in belief.wants], is_all)

    def judge_empty(self):
        """Makes an empty list where that is allowed, or none."""
        if self.options.is_empty_allowed:
            self.list = List(WRITTEN, list(self.options.statics), is_decided=True)
        else:
            self.sentences += [*self.answers, f"no list: {self.options.option} writes one that says that nobody wants "
                               "anything"]
            self.answers = []

    def judge_transit(self, found, last):
        """Makes an empty list where two routers or more lie and none of them asks hosts, if its last list has no group.
        Returns whether that was so."""
        routers = {router for router, _, belief in found}
        if not found or not all(belief.has_no_igmp for _, _, belief in found):
            return False
        if len(routers) < 2:
            self.sentences.append(f"{found[0][0]} {found[0][1]} has no ip igmp: hosts there, if any, get nothing")
            self.judge_empty()
            return True
        self.is_transit = True
        if last is not None and not last.groups:
            self.take_transit("its last list has no group that routers forward")
        elif last is not None:
            self.sentences.append("no router there asks hosts, and its last list has groups that hosts ask for")
        else:
            self.sentences.append("no router there asks hosts, and it has no list yet")
        if self.list.status != WRITTEN:
            self.judge_empty()
        return True

    def take_transit(self, reason):
        """Makes the list of a LAN where no router asks hosts an empty one, for this reason."""
        self.list = List(WRITTEN, list(self.options.statics), unchecked=[origins.NOT_ASKED])
        self.answers = [f"no router there asks hosts ({' '.join(dict.fromkeys(it for it, _ in self.places))}), and "
                        f"{reason}: empty"]
        self.sentences = []

    def tell_wants(self, wants, all_wants, is_all):
        """Tells what is asked for and forwarded by none of the routers, and what SSM routers ignore."""
        remarks, unheeded = Remarks(self.sentences.append), ssm.Unheeded()
        by_group = {}
        for it in all_wants:
            by_group.setdefault(it.group, []).append(it)
        for it in wants:
            unheeded.take(it.report())
            for source in it.asked():
                if not any(other.is_forwarded(source) for other in by_group[it.group]):
                    remarks.tell("of what no router forwards", f"{asked_text(it, source)} is asked for, and no router "
                                 f"forwards it there (forwarded: false){'' if is_all else DOUBT}")
        for sentence in unheeded.sentences():
            remarks.tell("such groups", sentence)
        remarks.finish()


def groups_of(belief):
    """Returns the groups that are asked for."""
    return {it.group for it in belief.wants}


def asked_text(want, source):
    """Returns what is asked for, as a sentence has it."""
    if source != ANY:
        return f"{igmp.dotted(want.group)} of {igmp.dotted(source)}"
    without = want.sources()[:8]
    return igmp.dotted(want.group) + (f" of all but {' '.join(map(igmp.dotted, without))}" if without else "")


def lans_of(topology, options_of):
    """Returns all LANs, each with the interfaces that the topology has on it."""
    return [BelievedLan(name, [(router, device) for lan, router, device in topology.interfaces if lan == name],
                        options_of(name)) for name in dict.fromkeys(topology.lans)]


def by_place(beliefs):
    """Returns what is believed by router and device, of what is by router."""
    return {(router, device): it for router, found in beliefs.items() for device, it in found.items()}


def judge_until(lans, folder, ask):
    """Judges all LANs against their lists in the folder, by what is believed when it is asked: once, and where a list
    is held back once more, an interval later."""
    beliefs = ask()
    for lan in lans:
        lan.judge(beliefs, last_list(folder, lan.name), False)
    held = [it for it in lans if it.hold]
    if held:
        tell_held(held)
        RUNNING.rest(max(it.hold for it in held))
        beliefs = ask()
        for lan in held:
            lan.judge(beliefs, last_list(folder, lan.name), True)


def tell_held(lans):
    """Tells which LANs are held back, and why."""
    for lan in lans:
        for sentence in lan.sentences:
            say(f"{lan.name}: {sentence}" if lan.name else sentence)
