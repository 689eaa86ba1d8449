"""What an audit answers, as far as plans are made of it: which vif is on which LAN, and each flow that isn't right."""
import dataclasses
import sys

from mcaudit_tools import audit as audits
from mcaudit_tools.common import Failed, Refused
from mcaudit_tools.programs import run

MOST_BYTES = 1 << 30  # of what an audit prints
UNREADABLE = KeyError, TypeError, AttributeError, ValueError, IndexError
ABSENT = "no_vif", "not_multicast"  # causes that tell of an interface by which nothing can be sent


@dataclasses.dataclass
class Finding:
    """What is found of a flow."""

    kind: str
    text: str  # as the audit's own line has it

    @property
    def is_worse(self):
        """Whether it is a loop, a duplicate or a stray."""
        return self.kind != "Missed"


@dataclasses.dataclass
class Flow:
    """A flow that isn't right."""

    number: int
    source: str
    group: str
    ttl: int
    lan: str  # of the source
    wanted: tuple
    finding: Finding
    absent: list  # LAN, router and device each, by which nothing can be sent there

    @property
    def pair(self):
        """Its source and group."""
        return self.source, self.group


class Domain:
    """What is the same for all flows."""

    def __init__(self, value):
        """Takes the object of an audit's first line."""
        self.lans = [str(it) for it in value["lans"]]
        self.orders = {str(it["name"]): str(it["order"]) for it in value["routers"]}
        self.sources = {str(it["address"]): str(it["lan"]) for it in value["sources"]}
        self.devices, self.placed, self.on = {}, {it: {} for it in self.orders}, {it: [] for it in self.lans}
        self.absent = []
        for it in value["interfaces"]:
            router, vif, lan = str(it["router"]), it["vif"], it["lan"]
            if vif is None:
                self.absent.append((str(lan), router, str(it["device"])))
                continue
            self.devices[router, int(vif)] = str(it["device"])
            if lan is not None:
                self.placed[router][int(vif)] = str(lan)
        self.onward = {it: [] for it in self.lans}  # router, incoming vif, and the outgoing vifs with their LANs
        for router, vifs in self.placed.items():
            for vif, lan in vifs.items():
                self.on[lan].append((router, vif))
                self.onward[lan].append((router, vif, [(to, of) for to, of in vifs.items() if to != vif and of != lan]))

    @property
    def routers(self):
        """The names of the routers."""
        return list(self.orders)

    def interface(self, router, vif):
        """Returns a vif by its device, or by its number where it has none."""
        device = self.devices.get((router, vif), "none")
        return f"vif/{vif}" if device == "none" else device


@dataclasses.dataclass
class Answer:
    """What an audit answers."""

    domain: "Domain | None" = None
    wrong: dict = dataclasses.field(default_factory=dict)  # by the number of the flow
    summary: dict = dataclasses.field(default_factory=dict)
    verdict: str = ""
    excluded: list = dataclasses.field(default_factory=list)

    def take(self, line):
        """Takes the object of a line."""
        if "domain" in line:
            self.domain = Domain(line["domain"])
        elif "finding" in line:
            self.wrong[int(line["flow"])] = flow_of(line, self.domain)
        elif "summary" in line:
            self.summary = {str(key): int(it) for key, it in line["summary"].items()}
        elif "verdict" in line:
            self.verdict = line["verdict"]

    def finding(self, number):
        """Returns what is found of a flow: None, where it is right."""
        return self.wrong[number].finding if number in self.wrong else None


def finding_of(line):
    """Returns the finding of the object of a flow."""
    value = line["finding"]
    kind = str(value["kind"])
    if kind == "Stray":
        return Finding(kind, f"{kind} {value['router']} {value['vif']}")
    return Finding(kind, f"{kind} {value['lan']}")


def flow_of(line, domain):
    """Returns the flow of an object with a finding."""
    absent = [(str(it["lan"]), str(it["router"]), str(it["device"])) for it in line["why"] if it["kind"] in ABSENT]
    return Flow(int(line["flow"]), str(line["source"]), str(line["group"]), int(line["ttl"]),
                domain.sources[line["source"]], tuple(map(sys.intern, line["wanted"])), finding_of(line), absent)


class Reading:
    """What an audit prints, read as it comes: of many flows it may be more than memory has."""

    def __init__(self, is_whole, see):
        """Takes whether all flows are told, and what sees each object too."""
        self.lines, self.answer, self.see, self.rest = audits.Lines(is_whole, MOST_BYTES), Answer(), see, b""

    def write(self, piece):
        """Takes a piece of it."""
        *lines, self.rest = (self.rest + piece).split(b"\n")
        if len(self.rest) > audits.MOST_LINE:
            raise Refused("a line of it is too long")
        for line in lines:
            value = self.lines.read(line + b"\n")
            self.answer.take(value)
            self.see(value)

    def end(self):
        """Returns what it says, once all came."""
        if self.rest:
            self.lines.read(self.rest)
        self.lines.end()
        return self.answer


def judge(mcaudit, folder, see=None):
    """Has the program judge a folder, and returns what it answers; all flows are told to what sees each object, where
    there is such, and else only the faults."""
    reading = Reading(see is not None, see or (lambda _: None))
    words = [mcaudit, "audit", "--json", *([] if see else ["--faults"]), folder]
    try:
        came = run(words, seconds=audits.AUDITING, most=MOST_BYTES, into=reading, keeps_words=False)
        if came.is_late or came.is_long:
            raise Failed(f"mcaudit took more than {audits.AUDITING} s, or printed more than {MOST_BYTES} bytes")
        if came.status == 2:
            raise Refused("mcaudit refuses it")
        if came.status not in (0, 1):
            raise Failed(f"mcaudit ended with status {came.status}", 4 if came.status == 4 else 3)
        return reading.end()
    except (audits.NoAudit, *UNREADABLE) as fault:
        raise Failed(f"what mcaudit answers can't be read: {fault}") from fault
