"""What is found of counters: of how many flows packets come, and of which they don't."""
import dataclasses

from mcaudit_tools.premises.findings import grouped, place_of

ROUNDS = 4  # of readings


@dataclasses.dataclass
class Counters:
    """What the counters say."""

    findings: list = dataclasses.field(default_factory=list)
    unjudged: list = dataclasses.field(default_factory=list)  # flow, router and why
    failed: list = dataclasses.field(default_factory=list)  # routers that weren't read
    flows: int = 0
    idle: int = 0
    come: int = 0
    window: str = ""  # how long it was, and what it can show
    reason: str = ""  # why they weren't looked at

    def found(self):
        """Returns of how many flows something was found."""
        return len({it.flow for it in self.findings if it.flow is not None})

    def first(self):
        """Returns what was found of a flow, the first in the order in which all is printed, and of how many more flows
        something was found."""
        it, flows = next(grouped(it for it in self.findings if it.flow is not None))
        more = self.found() - 1
        return f"{it.word}: {place_of(it, flows[:1], [])}" + (f", and {more} more" if more else "")

    def not_judged(self):
        """Returns of how many flows they say nothing."""
        return self.flows - self.come - self.found()

    def sentence(self):
        """Returns what they say, in one line."""
        if self.reason or not self.flows:
            return f"packets: not looked at ({self.reason or 'no flow is right'})"
        parts = [f"packets flow on {self.come} of {self.flows} flows"]
        parts += [f"idle {self.idle}"] if self.idle else []
        parts += [f"with a finding {self.found()} ({self.first()})"] if self.found() else []
        unjudged = len({flow for flow, _, _ in self.unjudged})
        return ", ".join(parts + ([f"not judged everywhere {unjudged}"] if unjudged else []))

    def details(self):
        """Returns in which time that was, and what could be seen in it, as lines."""
        return [f"packets: {self.window}"] if self.window and self.flows else []

    def as_json(self):
        """Returns the same as JSON has it."""
        if self.reason:
            return {"looked_at": False, "text": self.reason}
        return {"looked_at": True, "flows": self.flows, "come": self.come, "idle": self.idle, "text": self.window}
