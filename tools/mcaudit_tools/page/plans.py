"""The plans of flows, as mcaudit-plan prints them in JSON, on the page of the audit that they are of."""
import json

from mcaudit_tools.common import Refused
from mcaudit_tools.files import read_regular, whole
from mcaudit_tools.page.markup import table_of, tag

MOST_BYTES = 64 << 20
TAKEN_OUT, PUT_IN = "✂", "+"


def read_plans(path, audit):
    """Returns the objects of a file's flows, which are flows of the audit."""
    flows, found = {it["number"]: (it["source"], it["group"]) for it in audit.flows}, []
    try:
        lines = [json.loads(it, parse_int=whole) for it in read_regular(path, MOST_BYTES).splitlines()]
        if lines[0]["format"] != 1 or lines[-1]["verdict"] not in ("yes", "no"):
            raise ValueError
        if tried := list(map(str, lines[0]["tried"])):
            raise Refused(f"refused: {path}: it was made after changes that the audit doesn't have: {tried[0]}")
        for it in lines[1:-1]:
            if flows.get(it["flow"]) != (it["source"], it["group"]):
                raise Refused(f"refused: {path}: it is of another audit, by its flow {it['flow']}")
            found.append({"flow": int(it["flow"]), "reasons": list(map(str, it["why"])),
                          "steps": list(map(step_of, it["plan"] or ())),
                          "entries": [entries_of(audit.domain, *pair) for pair in it.get("entries", {}).items()]})
    except (ValueError, LookupError, TypeError, AttributeError, RecursionError) as fault:
        raise Refused(f"refused: {path}: it is nothing that mcaudit-plan --json printed") from fault
    return found


def step_of(value):
    """Returns a step's router, its sign, what is done, and what is found then."""
    gone = f"; without the stream: {' '.join(map(str, value['gone']))}" if value["gone"] else ""
    what = value["command"] or f"by hand ({value['by_hand']}): {value['do']}"
    sign = TAKEN_OUT if str(value["do"]).startswith("remove ") else PUT_IN
    return str(value["router"]), sign, str(what), f"{value['then']}{gone}"


def entries_of(domain, router, pair):
    """Returns a router and its entry before the plan and after it, in words."""
    def words(entry):
        """Returns an entry with its devices."""
        if entry is None:
            return "none"
        names = [domain.ports[domain.port(router, it)].device for it in
                 (entry["from"], *(to["vif"] for to in entry["to"]))]
        return f"from {names[0]} to {' '.join(names[1:]) or 'none'}"
    return str(router), words(pair["before"]), words(pair["after"])


def plans_section(plans):
    """Returns what a person may do: the steps of each plan, or why there is none, and the entries before and after."""
    steps, entries = [], []
    for it in plans:
        link = tag("a", it["flow"], href=f"#flow-{it['flow']}")
        steps += [tag("tr", *map(cell, (link, "", "", "", f"no plan: {reason}", ""))) for reason in it["reasons"]]
        for number, (router, sign, what, then) in enumerate(it["steps"], 1):
            steps.append(tag("tr", *map(cell, (link, number, router, sign, tag("code", what), then))))
        entries += [tag("tr", *map(cell, (link, *entry))) for entry in it["entries"]]
    told = "Found by mcaudit-plan; mcaudit audited a copy after each step. One step after the other, then audit again."
    return [tag("p", told), tag("div", table_of(("Flow", "Step", "Router", "", "What", "Found then"), steps),
                                class_="scroll"),
            tag("details", tag("summary", "The entries before the plan and after it"),
                table_of(("Flow", "Router", "Before", "After"), entries), open="")]


def cell(text):
    """Returns a cell of a table."""
    return tag("td", text)
