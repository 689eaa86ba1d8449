"""What a verdict rests on, in the one line that every tool prints beside it: how old the tables and the lists are, on
how many flows packets flow, and on how many routers their own settings were looked at; and of each what was not, and
why.
"""
import time

from mcaudit_tools.ages import LATER, age_of, age_text
from mcaudit_tools.common import clean, cut
from mcaudit_tools.premises.findings import KINDS, NOT_KNOWN, ROUTER, looked_at, some

SPREAD = 60  # seconds between the youngest and the oldest, below which the oldest alone is told
MOST_REASON = 80  # letters
MOST_REASONS = 3  # of a kind


def span_text(ages):
    """Returns how old the youngest and the oldest are; where both are about as old, how old the oldest is."""
    youngest, oldest = age_text(min(ages)), age_text(max(ages))
    is_one = max(ages) - min(ages) < SPREAD or youngest == oldest
    return oldest if is_one else f"{youngest} to {oldest}"


def lans_text(lans):
    """Returns how many LANs these are."""
    return f"{len(lans)} LAN{'s' * (len(lans) != 1)}"


def ages_of_kind(name, times, unknown, by_hand, now):
    """Yields how old the tables, the lists or the facts with these times are, which of them have no age, and which
    lists nobody gathered, since they were written by hand."""
    known = {it: age_of(when, now) for it, when in times.items() if when != LATER}
    later = [it for it, when in times.items() if when == LATER]
    gathered, written = ([it for it in known if (it in by_hand) == is_by_hand] for is_by_hand in (False, True))
    if gathered:
        count = f" of {lans_text(gathered)}" if name == "lists" else ""
        yield f"{name}{count} {span_text([known[it] for it in gathered])} old"
    if written:
        span = span_text([known[it] for it in written])
        yield f"{name} of {lans_text(written)} written by hand {span} ago: {some(written)}"
    if later:
        yield f"{name} of {some(later)} of a later time than now"
    if unknown:
        yield f"{name} of {some(unknown)} of an unknown age"


def ages_of(ages):
    """Returns how old what is judged is, and for which lists no host was asked."""
    now, found = time.time(), []
    for name, times, unknown, by_hand in (("tables", ages.tables(), ages.unknown("vif", "cache"), []),
                                          ("lists", ages.reports(), ages.unknown("igmp"), ages.by_hand()),
                                          ("facts", ages.facts(), [], [])):
        found += ages_of_kind(name, times, unknown, by_hand, now)
    for what, names in (("decided, not gathered", ages.decided()), ("as routers believe", ages.believed()),
                        ("empty since no router there asks hosts", ages.not_asked())):
        found += [f"{what}: {some(names)}"] if names else []
    return found


def reasons_of(domain, findings):
    """Returns why a kind isn't known on a router, by kind and router, in one reason each."""
    found = dict.fromkeys(((ROUTER, it) for it in domain.excluded), "excluded")
    for it in findings:
        if it.word == NOT_KNOWN:
            text = it.text.removeprefix(f"{it.kind}: ")
            found.setdefault((it.kind, it.router), text if it.kind == ROUTER else f"not known: {text}")
    return found


def missing_text(missing):
    """Returns on which routers something wasn't looked at, and why, where there are any."""
    groups = {}
    for router, reason in missing:
        groups.setdefault(cut(clean(reason), MOST_REASON), []).append(router)
    texts = [f"{some(routers)}: {reason}" for reason, routers in groups.items()]
    return f" ({'; '.join(texts[:MOST_REASONS])}{' ..' * (len(texts) > MOST_REASONS)})" if texts else ""


def looked_of(domain, findings):
    """Returns on how many routers each kind of settings was looked at; kinds of which the same is so are one part."""
    if domain is None:
        return [f"{', '.join(KINDS)}: not looked at"]
    there, reasons, groups = looked_at(domain, findings), reasons_of(domain, findings), {}
    routers = domain.routers + domain.excluded
    for kind in KINDS:
        seen = set(there[kind])
        missing = tuple((it, reasons.get((ROUTER, it)) or reasons[kind, it]) for it in routers if it not in seen)
        groups.setdefault(missing, []).append(kind)
    found = []
    for missing, kinds in groups.items():
        count = len(routers) - len(missing)
        how = f" looked at on {count} of {len(routers)} routers" if count else ": not looked at"
        found.append(f"{', '.join(kinds)}{how}{missing_text(missing)}")
    return found


def parts_of(ages, counters, domain, findings):
    """Returns the parts of the line."""
    return [*map(clean, (*ages_of(ages), counters.sentence(), *looked_of(domain, findings)))]


def line_of(ages, counters, domain, findings):
    """Returns the line."""
    return "; ".join(parts_of(ages, counters, domain, findings))
