"""The words of a plan: what smcroutectl is told, lines of smcroute.conf, and what is left to a person."""
import re

from mcaudit_tools.plan.steps import ADD

WORD = re.compile(r"[A-Za-z0-9_.@:/][A-Za-z0-9_.@:/-]*")  # what a printed command may hold
PIM = "PIM"
NO_NAME = "a device has no name that smcroute takes"


def has_device(domain, router, vif):
    """Whether a vif has a device, which smcroute may name."""
    return domain.devices.get((router, vif), "none") != "none"


def is_named(domain, router, vif):
    """Whether the device of a vif may stand in a command. A + at the end would be a pattern there."""
    return has_device(domain, router, vif) and WORD.fullmatch(domain.devices[router, vif]) is not None


class Words:
    """The words of one flow's plan."""

    def __init__(self, domain, flow, pim):
        """Takes the flow, and the routers whose entries are a PIM daemon's."""
        self.domain, self.flow, self.pim = domain, flow, pim

    def names(self, router, vifs):
        """Returns vifs by their devices."""
        return [self.domain.interface(router, it) for it in vifs]

    def by_hand(self, step):
        """Returns why a person has to do a step, or None. It is so too with a step that takes the place of an entry to
        none for which smcroute can't be given a rule."""
        if step.router in self.pim:
            return PIM
        vifs = [it for it in (step.vif, *step.outgoing, step.in_place_of) if it is not None]
        return None if all(is_named(self.domain, step.router, it) for it in vifs) else NO_NAME

    def command(self, step):
        """Returns the command of a step."""
        devices = self.names(step.router, (step.vif, *step.outgoing))
        return " ".join(["smcroutectl", step.verb, devices[0], self.flow.source, self.flow.group, *devices[1:]])

    def sentence(self, step):
        """Returns what is to be done by hand."""
        start, *devices = self.names(step.router, (step.vif, *step.outgoing))
        entry = f"entry ({self.flow.source},{self.flow.group}) from {start}"
        if step.is_whole:
            return f"remove the {entry}"
        if step.verb == ADD and step.is_new:
            return f"make an {entry} to {' '.join(devices) or 'none'}"
        if step.is_rule:
            return f"give smcroute a rule for the {entry} to none"
        verb, to = ("add", "to") if step.verb == ADD else ("remove", "from")
        return f"{verb} {' '.join(devices)} {to} the {entry}"

    def line(self, router, entry):
        """Returns the line of smcroute.conf for an entry. Of a device without a name it isn't known what it says."""
        devices = [self.domain.interface(router, it) if is_named(self.domain, router, it) else "..."
                   for it in sorted(entry[1])]
        start = self.domain.interface(router, entry[0])
        return f"mroute from {start} source {self.flow.source} group {self.flow.group} to {' '.join(devices)}"

    def conf(self, old, new):
        """Returns what changes in smcroute.conf, by router: lines that go, behind a -, and that come, behind a +."""
        found = {}
        for router in sorted({*old, *new}):
            was, now = old.get(router), new.get(router)
            is_whole = all(is_named(self.domain, router, it) for it in {*now[1], now[0]})
            if was == now or router in self.pim or not is_whole:
                continue
            gone = [f"- {self.line(router, was)}"] if was and was[1] and is_named(self.domain, router, was[0]) else []
            come = [f"+ {self.line(router, now)}"] if now[1] else []
            if gone != [f"-{it[1:]}" for it in come]:
                found[router] = gone + come
        return found


def assumed(domain, plan):
    """Yields the thresholds of outgoing vifs that come, or come again, where entries don't tell that they are 1."""
    remade = {it.router for it in plan.steps if it.is_whole}
    for router, entry in sorted(plan.entries.items()):
        was = plan.task.entries.get(router, (0, {}))[1]
        for vif in sorted(entry[1].keys() if router in remade else entry[1].keys() - was.keys()):
            usual, is_told = plan.task.usual[router].get(vif, (1, False))
            threshold = entry[1][vif]
            if is_told and threshold == usual == 1:
                continue
            why = ("as the entry has it now" if vif in was else "as its other entries have it" if is_told else
                   "since no other entry shows it" if threshold == 1 else "as most of its other entries have it")
            yield f"{router} {domain.interface(router, vif)}: threshold {threshold}, {why}"
