"""Why a flow has no plan: which LAN has no path, around which routers that lies, and which threshold, time to live, vif
or router would help."""
from mcaudit_tools.plan.flight import GREATEST, missed
from mcaudit_tools.plan.grow import Growing
from mcaudit_tools.plan.paths import NO_LIMIT, path_to
from mcaudit_tools.plan.task import NoPlan


class Reasons:
    """What is said of a flow without a plan."""

    def __init__(self, task, flow):
        """Takes the flow as it is told and as it is planned."""
        self.task, self.flow, self.domain = task, flow, task.domain
        self.growing = Growing(task)
        self.flight = None

    def of(self, fault):
        """Returns the reasons, a line each."""
        if fault.kind == "open":
            return [self.open(fault)]
        try:
            self.flight = self.growing.settle()
        except NoPlan as why:
            return [self.open(why) if why.kind == "open" else f"{why.kind} at {why.lan}"]
        lines = []
        for lan in missed(self.task, self.flight):
            if not self.path(lan, self.task.ttl):
                lines += self.unreached(lan)
        return lines or [f"none was found ({fault.kind} at {fault.lan}), which doesn't show that there is none"]

    def open(self, fault):
        """Returns what is said of a router with an entry for every source."""
        return (f"{fault.router} is on {fault.lan} and has only an entry for every source, which is not judged: "
                f"--use {fault.router} lets the plan give it one of the flow")

    def path(self, lan, ttl):
        """Returns the path to a LAN for packets sent with this time to live, or None."""
        return path_to(self.task, self.growing.entries, self.flight.reach, set(), [lan], ttl)

    def unreached(self, lan):
        """Returns why a LAN can't be reached."""
        if self.path(lan, GREATEST):
            return [self.low_ttl(lan)]
        hops = self.path(lan, NO_LIMIT)
        stops = self.stops(hops) if hops and len(hops) < self.task.ttl else []
        if stops:
            return [f"{lan} is reached by no ttl, for thresholds on the path: lower {', '.join(stops)}"]
        return [self.around(lan), *self.absent(lan),
                f"  to plan the flow without it: '{lan}: leave {self.flow.group}'", *self.unused(lan)]

    def low_ttl(self, lan):
        """Returns with which time to live a LAN is reached, and which thresholds would have to be lower."""
        below, least = self.task.ttl, GREATEST
        while least - below > 1:
            middle = (below + least) // 2
            below, least = (below, middle) if self.path(lan, middle) else (middle, least)
        stops = self.stops(self.path(lan, least))
        return (f"{lan} needs a ttl of {least} at the source, and the flow is listed with {self.task.ttl}" +
                (f"; or lower {', '.join(stops)}" if stops else ""))

    def stops(self, hops):
        """Returns the thresholds on a path that packets of the flow don't pass; none where it is too long for them."""
        found = []
        for rank, (router, _, vif) in enumerate(hops):
            entry = self.growing.entries.get(router)
            threshold = entry[1][vif] if entry and vif in entry[1] else self.task.threshold(router, vif)
            most = self.task.ttl - rank - 1
            if threshold > most:
                if most < 1:
                    return []
                device = self.domain.interface(router, vif)
                found.append(f"the threshold of {router} {device} from {threshold} to {most} or less")
        return found

    def around(self, lan):
        """Returns which routers are on a LAN."""
        routers = list(dict.fromkeys(router for router, _ in self.domain.on[lan]))
        verb = "are" if len(routers) > 1 else "is"
        return f"{lan} can't be reached: " + (f"on it {verb} {' '.join(routers)}" if routers else
                                              "no router has a vif on it")

    def absent(self, lan):
        """Returns by which interfaces on a LAN nothing can be sent."""
        pairs = dict.fromkeys(f"{router} {device}" for on, router, device in (*self.domain.absent, *self.flow.absent)
                              if on == lan)
        return [f"  without a vif there, or with a tunnel or register vif: {', '.join(pairs)}"] if pairs else []

    def unused(self, lan):
        """Returns which routers near a LAN are not used, since their entries aren't the flow's."""
        shut, near = self.task.shut, {lan}
        for router, _ in self.domain.on[lan]:
            near.update(self.domain.placed[router].values())
        routers = sorted(shut & {router for it in near for router, _ in self.domain.on[it]} or shut)
        if not routers:
            return []
        return [f"  not used, with only an unresolved entry or one for every source: {' '.join(routers)} (see --use)"]
