"""The text of a topology that is drafted, and what it has otherwise than one that is there."""
from mcaudit_tools.common import clean
from mcaudit_tools.draft.measure import command_of
from mcaudit_tools.services import SERVICES

MOST_NAMES = 8  # of LANs or routers
MOST_SOURCES = 20  # of a service that are named
MOST_ASKED = 256  # groups that are asked for
TABLES = {"router": ("name", "order"), "interface": ("router", "device", "lan"), "flow": ("source", "group", "ttl")}


def toml_text(text):
    """Returns a text of TOML, in letters of ASCII."""
    letters = (f"\\{it}" if it in "\"\\" else it if " " <= it <= "~" else f"\\U{ord(it):08X}" for it in text)
    return f'"{"".join(letters)}"'


def table_text(**fields):
    """Returns a table of TOML in one line, of texts and a flow's time to live."""
    return "{" + ", ".join(f"{key} = {it if key == 'ttl' else toml_text(it)}" for key, it in fields.items()) + "}"


def shown_number(number):
    """Returns the number in two digits or more."""
    return f"{number:.1f}" if number < 10 else f"{number:.0f}"


def shown_rate(rate):
    """Returns the rate for people."""
    if rate is None:
        return "rate not known"
    bits, unit = rate[1], "bit"
    for greater in ("kbit", "Mbit"):
        if bits >= 1000:
            bits, unit = bits / 1000, greater
    return f"{shown_number(rate[0])} packets/s, {shown_number(bits)} {unit}/s"


def measuring_words(flow):
    """Returns how the flow's time to live can be measured by hand, or nothing."""
    if not flow.points:
        return ""
    router, device = flow.points[0]
    return f"; on {router}: {clean(command_of(flow, device, '-n -v -c 1'))}"


def topology_of(draft):
    """Returns what is sure of the draft, as a topology has it."""
    names = [it.name for it in draft.routers]
    placed = [(router, device, lan) for lan, keys in draft.lans.items() for router, device in keys]
    placed.sort(key=lambda it: names.index(it[0]))
    judged = [it for it in draft.flows if it.ttl is not None]
    sources = {str(it.source): it.lan for it in judged}
    return {"lans": list(draft.lans), "router": [{"name": it.name, "order": it.order} for it in draft.routers],
            "interface": [dict(zip(TABLES["interface"], it)) for it in placed],
            "source": [{"address": source, "lan": lan} for source, lan in sources.items()],
            "flow": [{"source": str(it.source), "group": str(it.group), "ttl": it.ttl} for it in judged]}


def tables_of(topology, kind):
    """Returns the tables of a kind that the topology has: what is the usual order of bytes isn't in them."""
    return [table_text(**{key: it[key] for key in TABLES[kind] if key != "order" or it.get(key) == "big"})
            for it in topology.get(kind, [])]


def names(found):
    """Returns the first of some names."""
    return " ".join([*found[:MOST_NAMES], *[".."] * (len(found) > MOST_NAMES)])


def asked_words(asked):
    """Returns what is known of a group of which no flow is."""
    return "; ".join([*["the list of flows has no source for it"] * asked.is_given,
                      *[f"asked for on {names(asked.lans)}"] * bool(asked.lans),
                      *[f"a (*,G) entry on {names(asked.routers)}"] * bool(asked.routers)])


def asked_lines(draft):
    """Yields a comment for each group of which no flow is known."""
    for it in draft.asked[:MOST_ASKED]:
        source = "?" if it.source is None else toml_text(str(it.source))
        yield f"# {{source = {source}, group = {toml_text(str(it.group))}}}, # {asked_words(it)}"
    if len(draft.asked) > MOST_ASKED:
        yield f"# and {len(draft.asked) - MOST_ASKED} more are asked for"


def service_counts(draft):
    """Returns how many sources send to each group of a service."""
    groups = [it.group for it in draft.services]
    return {it: groups.count(it) for it in sorted({*groups})}


def service_lines(draft):
    """Yields a comment for each of some sources that send to a group of a service."""
    for group, count in service_counts(draft).items():
        why = f"left out: {SERVICES[str(group)]}, a service of hosts"
        for it in [it for it in draft.services if it.group == group][:MOST_SOURCES]:
            table = table_text(source=str(it.source), group=str(group), ttl="?")
            yield f"# {table}, # {why}; {shown_rate(it.rate)}"
        if count > MOST_SOURCES:
            yield f"# and {count - MOST_SOURCES} more sources of {group}, {why}"


def flow_lines(draft, topology):
    """Yields the lines of the flows: those of the topology, and as comments all others."""
    judged = [it for it in draft.flows if it.ttl is not None]
    for line, it in zip(tables_of(topology, "flow"), judged):
        yield f"{line}, # {shown_rate(it.rate)}; ttl {it.said}"
    for it in draft.flows:
        if it.ttl is None:
            table = table_text(source=str(it.source), group=str(it.group), ttl="?")
            yield f"# {table}, # not judged: {it.said}; {shown_rate(it.rate)}{measuring_words(it)}"
    yield from asked_lines(draft)
    yield from service_lines(draft)


def text_of(draft):
    """Returns the topology's text."""
    topology = topology_of(draft)
    sources = [table_text(**it) for it in topology["source"]]
    listed = {it["address"] for it in topology["source"]}
    idle = {(it.source, it.lan or "?") for it in draft.flows if it.ttl is None and str(it.source) not in listed}
    sections = {
        "lans": [f"{toml_text(it)}," for it in topology["lans"]],
        "router": [f"{it}," for it in tables_of(topology, "router")],
        "interface": [*(f"{it}," for it in tables_of(topology, "interface")),
                      *(f"# {table_text(router=router, device=device, lan=lan)}, # needs a decision: {why}"
                        for router, device, why, lan in draft.unsure)],
        "source": [*(f"{it}," for it in sources),
                   *(f"# {table_text(address=str(source), lan=lan)}," for source, lan in sorted(idle))],
        "flow": flow_lines(draft, topology)}
    lines = ["# Drafted by mcaudit-draft from what the routers say: read it before anything is judged by it.",
             *(f"# missing: {it}" for it in draft.doubts), *(f"# {it}" for it in draft.remarks), "version = 1"]
    for name, inner in sections.items():
        lines += [f"{name} = [", *inner, "]"]
    return "\n".join(lines) + "\n"


# Beside a topology that is there

def take_interfaces(draft, topology):
    """Names the draft's LANs as the topology does that is there, by their interfaces, and places as it does those
    that aren't sure."""
    known = {(it["router"], it["device"]): it["lan"] for it in topology.get("interface", [])}
    renamed = {}
    for name, keys in draft.lans.items():
        old = [known[it] for it in keys if it in known]
        renamed[name] = old[0] if old and old[0] not in renamed.values() else name
    draft.lans = {renamed[name]: keys for name, keys in draft.lans.items()}
    draft.networks = {renamed[name]: it for name, it in draft.networks.items()}
    for router, device, _, _ in draft.unsure:
        if (router, device) in known:
            draft.lans.setdefault(known[router, device], []).append((router, device))
    draft.unsure = [it for it in draft.unsure if it[:2] not in known]


def content_of(topology):
    """Returns the topology's tables, a line each, sorted."""
    lines = [f"lan {toml_text(it)}" for it in topology.get("lans", [])]
    lines += [f"source {it['address']} on {toml_text(it['lan'])}" for it in topology.get("source", [])]
    return sorted(lines + [f"{kind} {it}" for kind in TABLES for it in tables_of(topology, kind)])


def print_changes(draft, topology):
    """Takes over the times to live that weren't measured now, and prints what the draft has otherwise than the topology
    that is there. Returns whether there is anything."""
    known = {(it["source"], it["group"]): it["ttl"] for it in topology.get("flow", [])}
    for flow in draft.flows:
        key = str(flow.source), str(flow.group)
        if flow.ttl is None and flow.lan is not None and key in known:
            flow.ttl, flow.said = known[key], "unchanged"
    import difflib  # (for --update alone)  pylint: disable=import-outside-toplevel
    changes = [it for it in difflib.ndiff(content_of(topology), content_of(topology_of(draft))) if it[0] in "+-"]
    print("".join(it + "\n" for it in changes), end="")
    return bool(changes)
