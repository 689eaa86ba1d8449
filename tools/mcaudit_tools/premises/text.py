"""How what was found is printed: a line each for people, or an object a line."""
import json

from mcaudit_tools.common import clean
from mcaudit_tools.premises import basis
from mcaudit_tools.premises.findings import BAD, MAY_DROP, ROUTER, counts_of, grouped, looked_at, place_of

MOST_LINES = 200  # for people; --json has all


def together(findings):
    """Returns what was found, each with its flows and routers: what is so of the facts of several routers at once."""
    found = {}
    for number, (it, flows) in enumerate(grouped(findings)):
        key = it.text if it.kind == ROUTER and not flows else number
        found.setdefault(key, (it, flows, []))[2].append(it.router)
    return list(found.values())


def lines_of(findings):
    """Yields the lines of what was found."""
    groups = together(findings)
    for it, flows, routers in groups[:MOST_LINES]:
        yield f"{it.word}: {place_of(it, flows, routers)}: {it.text}"
        if it.remedy:
            yield f"  {'if so' if it.word == MAY_DROP else 'to end it'}, on {it.router}: {it.remedy}"
    if len(groups) > MOST_LINES:
        yield f"and {len(groups) - MOST_LINES} more, which --json prints"


def result_of(counts, is_looked_at):
    """Returns whether anything contradicts the tables, as a sentence."""
    found = ", ".join(f"{word} {count}" for word, count in counts.items() if count)
    result = "nothing that was found contradicts the tables" if is_looked_at else "not looked at"
    if any(counts[it] for it in BAD):
        result = "contradicted"
    return f"premises: {result}" + (f" ({found})" if found else "")


def object_of(it, flows):
    """Returns what was found as JSON has it."""
    found = {"finding": it.word, "kind": it.kind, "router": it.router, "text": it.text,
             "flows": [{"source": source, "group": group} for source, group in flows]}
    return {**found, "remedy": it.remedy} if it.remedy else found


def objects_of(answer, name, findings, counters, ages):
    """Yields the objects of all lines."""
    no_facts = [] if ages.facts() else ["no facts"]
    yield {"format": 1, "set": name, "verdict": "yes" if answer.is_right else "no", "routers": answer.routers,
           "ages": basis.ages_of(ages) + no_facts, "basis": basis.line_of(ages, counters, answer, findings)}
    for it, flows in grouped(findings):
        yield object_of(it, flows)
    for flow, router, reason in counters.unjudged:
        yield {"unjudged": {"source": flow[0], "group": flow[1]}, "router": router, "text": reason}
    yield {"packets": counters.as_json(), "looked_at": looked_at(answer, findings)}
    yield {"summary": counts_of(findings)}


def show(words, answer, name, findings, counters, ages):
    """Prints what was found."""
    if words.json:
        for it in objects_of(answer, name, findings, counters, ages):
            print(json.dumps(it, sort_keys=True, separators=(",", ":")))
    else:
        unknown = {it.router for it in findings if it.kind == ROUTER}
        result = result_of(counts_of(findings), not counters.reason or len(unknown) < len(answer.routers))
        rests_on = basis.line_of(ages, counters, answer, findings)
        lines = [*lines_of(findings), f"verdict {'yes' if answer.is_right else 'no'} of {name}: {rests_on}",
                 *counters.details(), result]
        print("\n".join(map(clean, lines)))
    print(end="", flush=True)
