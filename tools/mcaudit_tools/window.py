"""The window of one General Query: which query counts, and whether what came in its answers' time is the LAN's list.

A query counts that all hosts of the LAN have heard, and that one of the LAN sent: what a single host could have forged
so that the others stay silent doesn't. The list is spoilt where it may lack an answer, or has what is none.
"""
import dataclasses
import ipaddress

from mcaudit_tools import fold, igmp
from mcaudit_tools.capture import SECOND
from mcaudit_tools.heard import MOST_IGNORED, MOST_IGNORED_SENDERS, Heard, Window
from mcaudit_tools.igmp import dotted

LEAST_TENTHS, MOST_TENTHS = 10, 255  # of the answers' time of a query that counts
MOST_ASKED = 4096  # groups that were asked for
MOST_TOLD = 20  # sentences of each kind on what hosts sent: they may send as much as they like
NOBODY = bytes(4)
WRITTEN, NO_LIST, REFUSED, SPOILT = 0, 1, 2, 4  # SPOILT: there is no list, and a second try may have one


@dataclasses.dataclass
class Rules:
    """What queries count, and how a list is made of the answers."""

    networks: "list | None" = None  # of the LAN, where they are known
    queriers: list = dataclasses.field(default_factory=list)  # addresses that count whatever their network
    slack: int = SECOND  # how late answers may be
    windows: int = 1  # of the same querier, one after the other
    is_live: bool = False  # the windows are closed by whoever captures
    is_folding: bool = False  # changes are followed, of hosts whose hardware addresses are known


class Remarks:
    """Tells a person what was sent: so many sentences of a kind, and then how many more there are."""

    def __init__(self, say):
        """Takes what tells a person a sentence."""
        self.say, self.counts = say, {}

    def tell(self, kind, sentence):
        """Tells a sentence, as long as there aren't too many of its kind."""
        self.counts[kind] = self.counts.get(kind, 0) + 1
        if self.counts[kind] <= MOST_TOLD:
            self.say(sentence)

    def finish(self):
        """Tells how many more there were of each kind."""
        for kind, count in self.counts.items():
            if count > MOST_TOLD:
                self.say(f"and {count - MOST_TOLD} more {kind}")
        self.counts.clear()


class Gathering:
    """Takes the frames of a capture in their order, and finds the window or the windows."""

    def __init__(self, rules, say):
        """Takes the rules, and what tells a person a sentence."""
        self.rules, self.say, self.remarks = rules, say, Remarks(say)
        self.window, self.done = None, []
        self.asker, self.others = None, None  # this machine's address, where it asks; who else sent a query
        self.last = None  # when the last frame came
        self.is_watching = False  # the first report after the window is still to come
        self.is_lost = False  # something came that can't be told in time
        self.told = set()
        self.asked = {}  # by group: until when its members may answer a query for it

    def take(self, frame):
        """Takes a frame."""
        if frame.time is None:
            self.take_timeless(frame)
            return
        if not self.rules.is_live:
            self.see_time(frame.time)
        packet = igmp.packet_of(frame.data) if frame.data and not any(frame.vlans) else None
        if packet is None:
            return
        if self.window is not None:
            self.take_inside(frame, packet)
        elif not packet.fault and igmp.is_whole(packet.message):
            self.take_outside(frame, packet)

    def take_timeless(self, frame):
        """Takes a frame without a time, which may be an answer."""
        if frame.data[:1] and frame.data[0] >> 4 == 4:
            at = f"line {frame.line}: " if frame.line else ""
            self.remarks.tell("packets without a time", f"{at}a packet without a time; record with tcpdump -n -tt -x")
            self.is_lost = True

    def see_time(self, time):
        """Sees whether the window's time is over, or the clock was set back in it."""
        if self.window is not None:
            if time < self.last - SECOND:
                self.spoil(f"the clock went back by {(self.last - time) / SECOND:.1f} s among the answers")
            elif time > self.window.ends:
                self.close()
                self.is_watching = True
        self.last = time

    def close(self):
        """Ends the window."""
        self.done.append(self.window)
        self.window = None

    def is_done(self):
        """Whether all windows have come."""
        return len(self.done) >= self.rules.windows

    def spoil(self, sentence):
        """Notes why the list of the window that is open, or was the last, is none of all answers."""
        self.remarks.tell("of what spoils the list", sentence)
        (self.window or self.done[-1]).is_spoilt = True

    # Outside of a window

    def take_outside(self, frame, packet):
        """Takes a whole message that came before a window, or after one."""
        message = packet.message
        if message[0] == igmp.QUERY and packet.sender != NOBODY:
            self.others = packet.sender
        if igmp.is_general_query(message):
            self.is_watching = False
            if not self.is_done():
                self.take_query(frame, packet)
        elif message[0] == igmp.QUERY:
            self.take_group_query(frame, packet)
        elif self.is_watching and message[0] in igmp.REPORTS and not self.is_asked_for(frame, message):
            self.is_watching = False
            if igmp.is_of_current_state(message):
                self.spoil(f"the first report after the answers' time, of {dotted(packet.sender)}, is one of a current "
                           "state: it came late, or the clock was set forward")

    def take_query(self, frame, packet):
        """Opens a window with a General Query that counts, and names one that doesn't."""
        tenths = igmp.tenths_to_answer(packet.message)
        reason = self.reason_against(frame, packet, tenths)
        if reason is None:
            self.window = Window(packet.sender, frame.time, tenths, self.rules.slack)
            if self.rules.is_live and self.asker is None:
                self.say(f"query of {dotted(packet.sender)}: its answers have {self.window.seconds():g} s")
        elif self.asker is None and (packet.sender, reason) not in self.told and len(self.told) < MOST_TOLD:
            self.told.add((packet.sender, reason))
            self.say(f"a General Query of {dotted(packet.sender)} didn't count: {reason}")

    def reason_against(self, frame, packet, tenths):
        """Returns why a General Query doesn't count, or None."""
        sender = dotted(packet.sender)
        if self.asker is not None:
            return None if packet.sender == self.asker else "another address asks"
        if self.done and packet.sender != self.done[0].querier:
            return f"the window before it is of {dotted(self.done[0].querier)}"
        if packet.target != igmp.ALL_HOSTS:
            return f"it was sent to {dotted(packet.target)}, and not to all hosts"
        if frame.is_to_all is False:
            return "it was not sent to the MAC of all hosts, 01:00:5e:00:00:01"
        if packet.ttl != 1:
            return f"its TTL is {packet.ttl}, and not 1"
        if not LEAST_TENTHS <= tenths <= MOST_TENTHS:
            return f"its answers have {tenths / 10:.1f} s, and not {LEAST_TENTHS / 10} to {MOST_TENTHS / 10} s"
        return None if packet.sender in self.rules.queriers else self.sender_fault(packet.sender, sender)

    def sender_fault(self, address, sender):
        """Returns why the sender of a query is none of the LAN, or None."""
        if address == NOBODY:
            return f"a switch sends it in a querier's place; where it is the LAN's, say --querier {sender}"
        if self.rules.networks is None:
            unlike = f"it is not a host's address; where it is the LAN's, say --querier {sender}"
            return None if igmp.is_host(address) else unlike
        if any(ipaddress.IPv4Address(address) in it for it in self.rules.networks):
            return None
        networks = " ".join(map(str, self.rules.networks)) or "which has no address here"
        return (f"it is not of the LAN's network, {networks}; where it is the LAN's querier, say --querier {sender}, "
                "or --network")

    # In a window

    def take_inside(self, frame, packet):
        """Takes what came in the answers' time."""
        window, sender, message = self.window, dotted(packet.sender), packet.message
        if packet.fault:
            self.spoil(packet.fault)
        elif not igmp.is_whole(message):
            if window.ignore(packet.sender) and not window.is_spoilt:
                self.spoil(f"more than {MOST_IGNORED} packets, or of more than {MOST_IGNORED_SENDERS} senders, are too "
                           "short or have a wrong checksum")
        elif message[0] in igmp.REPORTS:
            self.take_report(frame, packet)
        else:
            window.whole.add(packet.sender)
            window.aside += 1
            if message[0] == igmp.LEAVE and self.rules.is_folding and frame.hardware:
                window.note(heard_of(frame, packet))
            elif message[0] == igmp.LEAVE:
                self.remarks.tell("leaves", f"{sender} left a group: its report may still be in the list")
            elif igmp.is_general_query(message):
                self.take_further_query(frame, packet)
            else:
                self.take_group_query(frame, packet)

    def take_group_query(self, frame, packet):
        """Takes a query of one group, where the LAN's querier sent it so that all members of the group hear it."""
        window, group = self.window or (self.done[-1] if self.done else None), igmp.group_asked(packet.message)
        heard = heard_of(frame, packet)
        is_counted = heard.is_public and group == packet.target and packet.ttl == 1 and frame.target is not None
        if not self.rules.is_folding or window is None or not is_counted or packet.sender != window.querier:
            return
        if len(self.asked) < MOST_ASKED or group in self.asked:
            self.asked[group] = frame.time + fold.longest_answer(packet.message) + fold.LATE
        if self.window is not None:
            window.note(heard)

    def is_asked_for(self, frame, report):
        """Whether a report may be the answer to a query for its groups."""
        return all(frame.time <= self.asked.get(group, 0) for group, _ in igmp.groups_of(report))

    def take_report(self, frame, packet):
        """Takes a report, and names it where mcaudit would refuse it."""
        sender, is_followed = dotted(packet.sender), self.rules.is_folding and frame.hardware is not None
        fault = self.window.take_report(heard_of(frame, packet), is_followed)
        if fault and not (self.window.is_refused and fault.startswith("more than")):
            at = f"line {len(self.window.reports)} of {sender}"
            self.remarks.tell("reports that mcaudit would refuse", f"{at}: {fault}")
        self.window.is_refused |= fault is not None

    def take_further_query(self, frame, packet):
        """Takes a General Query that came before the answers to the first one were over."""
        window, asker = self.window, self.asker
        if asker is not None and packet.sender == asker:
            window.extend(frame.time)
        elif packet.sender != NOBODY or window.querier == NOBODY:
            asked = f"{(frame.time - window.begins) / SECOND:.1f} s after that of {dotted(window.querier)}"
            self.spoil(f"a General Query of {dotted(packet.sender)} came {asked}, before its answers were over")

    # What comes of it

    def finish(self):
        """Ends a recording. Returns the status that it has of itself, or None where there is a list to judge."""
        self.remarks.finish()
        if self.window is not None and self.last is not None and self.last >= self.window.ends:
            self.close()
        if self.window is not None and not self.rules.is_live:
            took, window = (self.last - self.window.begins) / SECOND, self.window
            self.say(f"the text ends {took:.1f} s after the query of {dotted(window.querier)} and answers have "
                     f"{window.seconds():.1f} s: nothing shows that the capture went on so long")
            self.say("no list: it may lack a report")
            return NO_LIST
        if not self.done:
            self.say("no General Query to all hosts came")
            return NO_LIST
        if not self.is_done():
            self.say(f"only {len(self.done)} of {self.rules.windows} queries came")
            return NO_LIST
        if self.is_lost or any(it.is_spoilt for it in self.done):
            self.say("no list: it would lack a report")
            return SPOILT
        return None


def heard_of(frame, packet):
    """Returns what was heard of a whole message."""
    is_public = frame.is_to_all if frame.target is None else frame.target == igmp.mac_of(packet.target)
    return Heard(frame.time, frame.hardware, packet.sender, packet.message, bool(is_public))


@dataclasses.dataclass
class List:
    """A list of reports, or why there is none."""

    status: int
    messages: list = dataclasses.field(default_factory=list)
    is_decided: bool = False  # an operator said that nobody wants anything
    unchecked: list = dataclasses.field(default_factory=list)

    def text(self):
        """Returns its text."""
        return b"".join(it.hex().encode() + b"\n" for it in self.messages)


def followed(window, gathering):
    """Follows the changes in a window, where that is wanted and mcaudit would take its other reports. Returns the
    window with the reports that make the list, and words on it."""
    if gathering.rules.is_folding and window.is_refused and any(it.hardware is None for it in window.heard):
        gathering.say("changes are followed only where link headers (tcpdump -e) show whose they are")
    if not gathering.rules.is_folding or window.is_refused:
        return window, ""
    found = fold.follow(window, gathering.asker is None)
    for sentence in found.kept:
        gathering.remarks.tell("such hosts and groups", sentence)
    gathering.remarks.finish()
    if not found.changes:
        return window, ""
    window = window if found.reports is None else window.with_reports(found.reports)
    return window, f", changes {found.changes}: reports in the list {len(window.reports)}"


def list_of(gathering, statics, is_empty_allowed, option):
    """Makes the list of what was gathered, and of the hosts that can't be asked. Tells it, or why there is none."""
    status, say = gathering.finish(), gathering.say
    if status is not None:
        return List(status)
    window = gathering.done[-1]
    static = f", static {len(statics)}" if statics else ""
    told = f"query of {dotted(window.querier)}: reports {len(window.reports)}, other messages {window.aside}{static}"
    try:
        window, changes = followed(window, gathering)
    except fold.NotFollowed as fault:
        say(f"{fault}: changes can't be followed")
        say("no list: it may lack what a host wants")
        return List(SPOILT)
    say(told + changes)
    for sender, count in window.ignored.items():
        alone = ", and nothing else of it came" if sender in window.silent() else ""
        say(f"ignored of {dotted(sender)}, too short or with a wrong checksum: {count}{alone}")
    remarks = Remarks(say)
    for sender, group in sorted({it for earlier in gathering.done[:-1] for it in earlier.wants} - window.wants):
        remarks.tell("wants of an earlier window",
                     f"{dotted(sender)} asked for {dotted(group)} in an earlier window, and not in the last one")
    remarks.finish()
    is_silent = not window.is_wanting() and not window.is_refused
    if is_silent:
        of = " for a group that routers forward" if gathering.done[-1].reports else ""
        say(f"no host answered{of}; where there are hosts, see that the switch shows their reports here"
            if not changes else "no host wants a group that routers forward any more")
        if not is_empty_allowed:
            say(f"no list: {option} writes one that says that nobody wants anything")
            return List(NO_LIST)
    if window.is_refused:
        say("mcaudit will refuse this list: ask again")
    for sentence in window.unheeded.sentences() if not window.is_refused else ():
        remarks.tell("such groups", sentence)
    remarks.finish()
    unchecked = [f"sender {dotted(it)}" for it in window.silent()]
    return List(REFUSED if window.is_refused else WRITTEN, window.reports + statics, is_silent, unchecked)
