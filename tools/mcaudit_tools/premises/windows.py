"""Whether packets come along the trees of right flows: four rounds of readings of all routers, each begun after the one
before has ended.

Whatever a router took in between its rounds 1 and 2, the one that it feeds must have seen between its own rounds 0 and
3, since each of those moments lies outside. So no clock, no order inside a round and no burst matters.
"""
import dataclasses

from mcaudit_tools.premises import places
from mcaudit_tools.premises.counters import ROUNDS, Counters
from mcaudit_tools.premises.findings import LOST, MORE, NONE_COMES, STRANGERS, Finding

KIND = "packets"
LEAST = 20  # packets below which nothing is said
SLACK = 10  # packets
LOSS = 0.01  # of the packets


@dataclasses.dataclass
class Rise:
    """How a number rose: between the rounds 1 and 2, and between 0 and 3."""

    inner: int
    outer: int


def rise_of(values):
    """Returns how a number rose, or None where it isn't known all the while, or fell."""
    if len(values) != ROUNDS or None in values or any(a > b for a, b in zip(values, values[1:])):
        return None
    return Rise(values[2] - values[1], values[3] - values[0])


def loss_text(times):
    """Returns the least steady loss that readings can show. The times are the beginning and the end of each round, in
    seconds."""
    inner, outer = times[2][0] - times[1][1], times[3][1] - times[0][0]
    least = 100 * (1 - (1 - LOSS) * inner / outer) if outer > 0 else 100
    return f"where a steady loss of {min(100, int(least) + 1)} % or more is seen"


def is_less(number, expected):
    """Whether a number is less than expected by more than slack."""
    return number < expected - max(SLACK, LOSS * expected)


class Windows:
    """Four rounds of readings of a domain's routers."""

    def __init__(self, domain, rounds, is_close=True):
        """Takes what an audit answers, and the rounds: a reading by router each. Where they aren't close to each other,
        a row that was made anew could have counted further than it had, and only what never comes is told."""
        self.is_close = is_close
        self.domain, self.rounds, self.counters = domain, rounds, Counters(flows=len(domain.trees))
        self.faults = {it: fault for it, fault in zip(domain.routers, map(self.fault_of, domain.routers)) if fault}
        self.routers = [it for it in domain.routers if it not in self.faults]
        self.kept = {}  # by router and vif: whether it was there all the while
        self.copies = {}  # by router and vif: what rows of right flows must have sent
        self.compared = None, {}  # the flow that is judged, and its rows by router
        self.explained = set()  # routers and vifs of whose copies some are known to be lost
        self.coming, self.by_vif = set(), {}  # flows whose packets come; and those that each router's vif sends

    def fault_of(self, router):
        """Returns why the readings of a router can't be compared, or None."""
        if any(router not in one for one in self.rounds):
            return "it was not read"
        boots = {one[router].boot for one in self.rounds} - {None}
        return "it was booted meanwhile" if len(boots) > 1 else None

    def rise(self, router, kind, key, name=None):
        """Returns how a number of a router rose."""
        def value(reading):
            found = getattr(reading, kind).get(key)
            return found if name is None or found is None else getattr(found, name)
        return rise_of([value(one[router]) for one in self.rounds])

    def rows(self, router, flow):
        """Returns the rows of a flow on a router in all rounds, or why they can't be compared."""
        if self.compared[0] != flow:
            self.compared = flow, {}
        known = self.compared[1]
        if router not in known:
            known[router] = self.compare(router, flow)
        return known[router]

    def compare(self, router, flow):
        """Returns the rows of a flow on a router in all rounds, or why they can't be compared."""
        if router in self.faults:
            return None, self.faults[router]
        rows = [one[router].rows.get(flow) for one in self.rounds]
        if None in rows:
            return None, "there was no entry of it all the while"
        if len({it.vif for it in rows}) > 1:
            return None, "its entry had another incoming vif meanwhile"
        if rise_of([it.taken for it in rows]) is None or not self.is_vif_kept(router, rows[0].vif):
            return None, "its entry was recreated meanwhile"
        return rows, None

    def is_vif_kept(self, router, number):
        """Whether a vif was there all the while: a daemon that starts anew, or a router, makes its vifs anew too."""
        if (router, number) not in self.kept:
            self.kept[router, number] = self.rise(router, "vifs", number, "packets_in") is not None
        return self.kept[router, number]

    def add(self, word, router, text, flow=None):
        """Adds what was found."""
        self.counters.findings.append(Finding(word, KIND, router, text, flow=flow))

    def judge(self):
        """Judges all right flows, and then what each router sent out. Returns what the counters say."""
        for flow, tree in self.domain.trees.items():
            if self.judge_flow(flow, tree):
                self.coming.add(flow)
        for router in self.routers if self.is_close else ():
            self.judge_sending(router)
        self.counters.come = len(self.coming)
        return self.counters

    def judge_flow(self, flow, tree):
        """Judges a right flow along its tree. Returns whether its packets come everywhere."""
        starved, is_coming = set(), True
        for router in tree.routers:
            rows, reason = self.rows(router, flow)
            if rows is None:
                self.counters.unjudged.append((flow, router, reason))
                is_coming = False
                continue
            vif = rows[0].vif
            self.judge_strangers(flow, router, rows)
            self.add_copies(flow, router, rows)
            feeder, number = tree.feeding.get(self.domain.lan_of.get((router, vif)), (None, None))
            taken = rise_of([it.taken for it in rows])
            if feeder is None:
                if taken.outer == 0:
                    self.counters.idle += 1
                    return False
            elif feeder in starved:
                starved.add(router)
            else:
                outcome = self.judge_hop(flow, (feeder, number), (router, vif), taken)
                is_coming = is_coming and outcome is None
                if outcome == NONE_COMES:
                    starved.add(router)
        return is_coming and not starved

    def judge_hop(self, flow, sender, receiver, taken):
        """Judges a flow between two routers, each with its vif, of which the second one took in so much. Returns what
        was found."""
        router = receiver[0]
        rows, reason = self.rows(sender[0], flow)
        if rows is None:
            return reason
        if not all(sender[1] in it.outgoing for it in rows):
            reason = f"{sender[0]} did not send it to {self.domain.lan_of.get(sender)} all the while"
            self.counters.unjudged.append((flow, router, reason))
            return reason
        sent = rise_of([it.taken for it in rows])
        begin = (f"{sender[0]} took in {{}} packets, and {router} {{}} by {self.domain.devices.get(receiver)} from "
                 f"{self.domain.lan_of.get(receiver)}")
        if not self.is_close and taken.outer:
            return None
        if sent.inner >= LEAST and is_less(taken.outer, sent.inner):
            word = LOST if taken.outer else NONE_COMES
            text = begin.format(sent.inner, taken.outer or "none")
            text += f": at least {sent.inner - taken.outer} are lost" if taken.outer else ""
            where = places.place_of(self, sender, receiver, sent.inner, taken.outer)
            self.explained.add(sender)
            self.add(word, router, text + (f": {where}" if where else ""), flow)
            return word
        if taken.inner > (1 + LOSS) * sent.outer + SLACK:
            pieces = self.rise(sender[0], "numbers", "IpFragCreates")
            text = begin.format(sent.outer, taken.inner)
            text += (f", cut in pieces by {sender[0]}" if pieces and pieces.outer
                     else ": an unlisted router or host sends too")
            self.add(MORE, router, text, flow)
            return MORE
        return None

    def judge_strangers(self, flow, router, rows):
        """Judges what came of a flow by another vif than its row's."""
        strangers, taken = rise_of([it.strangers for it in rows]), rise_of([it.taken for it in rows])
        vifs = self.rounds[0][router].vifs
        is_registering = any(vifs[it].is_register for one in rows for it in one.outgoing if it in vifs)
        if strangers and strangers.inner >= LEAST and strangers.inner > 0.05 * taken.inner and not is_registering:
            self.add(STRANGERS, router, f"{strangers.inner} packets came by another vif than its entry's, beside "
                     f"{taken.inner}: somebody else sends it onto a LAN of {router}", flow)

    def add_copies(self, flow, router, rows):
        """Adds the copies that the rows of a flow must have sent by each vif that they had all the while."""
        inner = rise_of([it.taken for it in rows]).inner
        for vif in rows[0].outgoing:
            if all(it.outgoing.get(vif) == rows[0].outgoing[vif] for it in rows):
                self.copies[router, vif] = self.copies.get((router, vif), 0) + inner
                self.by_vif.setdefault((router, vif), set()).add(flow)

    def judge_sending(self, router):
        """Judges what a router's vifs, IP and devices sent of the copies that its rows made: what is lost at the last
        router shows there alone."""
        total = 0
        for number, vif in self.rounds[0][router].vifs.items():
            there = [one[router].vifs.get(number) for one in self.rounds]
            out = self.rise(router, "vifs", number, "packets_out")
            if not vif.is_register and out is not None and all(it.device == vif.device for it in there):
                total += out.inner
                self.judge_vif(router, number, vif.device, out)
        sent = self.rise(router, "numbers", "IpExtOutMcastPkts")
        if router in {it for it, _ in self.explained}:
            return
        if sent is not None and total >= LEAST and is_less(sent.outer, total):
            self.add(LOST, router, f"its vifs count {total} copies, and its IP sent {sent.outer}: netfilter, FORWARD "
                     "or POSTROUTING")
            self.coming -= set().union(*(flows for (it, _), flows in self.by_vif.items() if it == router))

    def judge_vif(self, router, number, device, out):
        """Judges what a vif and its device sent."""
        copies = self.copies.get((router, number), 0)
        if (router, number) in self.explained:
            return
        if copies >= LEAST and is_less(out.outer, copies):
            self.add(LOST, router, f"{device}: its entries made {copies} copies, and {out.outer} left by this vif: "
                     + places.VIF)
            self.coming -= self.by_vif.get((router, number), set())
        sent, dropped = (self.rise(router, "devices", device, it) for it in ("sent", "sent_dropped"))
        if sent is not None and out.inner >= LEAST and is_less(sent.outer, out.inner):
            self.add(LOST, router, f"{device}: its vif counts {out.inner} copies, and the device sent {sent.outer} "
                     f"packets and dropped {dropped.outer if dropped else 0}")
            self.coming -= self.by_vif.get((router, number), set())
