"""What is found: how sure it is, where, of which flows, and the line that ends it."""
import typing

DROPS, MAY_DROP, BESIDE, NOT_KNOWN = "drops", "may drop", "beside", "not known"
NONE_COMES, LOST, MORE, STRANGERS = "none comes", "lost", "more come", "by another vif"
BAD = DROPS, NONE_COMES, LOST  # what contradicts a yes
KINDS = REVERSE, LINKS, SIZES, NETFILTER, TABLES = "rp_filter", "links", "MTU", "netfilter", "ip mrule"
ROUTER = "facts"  # the kind of what is found of them as a whole
WORDS = (DROPS, NONE_COMES, LOST, MAY_DROP, MORE, STRANGERS, BESIDE, NOT_KNOWN)  # in the order in which they are told
MOST_NAMES = 8  # that are told of many


class Finding(typing.NamedTuple):
    """One thing that was found of a router, and of a flow where it is about one."""

    word: str
    kind: str  # what was looked at: rp_filter, netfilter, links ..
    router: str
    text: str
    remedy: str = ""
    flow: "tuple[str, str] | None" = None  # source and group


def looked_at(domain, findings):
    """Returns the routers on which each kind was looked at, by kind."""
    unknown = {(it.kind, it.router) for it in findings if it.word == NOT_KNOWN}
    return {kind: [it for it in domain.routers if (kind, it) not in unknown and (ROUTER, it) not in unknown]
            for kind in KINDS}


def some(names):
    """Returns the first of the names, as they are told."""
    return " ".join(names[:MOST_NAMES]) + (" .." if len(names) > MOST_NAMES else "")


def grouped(findings):
    """Yields each different thing that was found, in the order of the words, with all the flows that it was found
    of."""
    found = {}
    for it in findings:
        _, flows = found.setdefault((it.word, it.kind, it.router, it.text, it.remedy), (it, {}))
        if it.flow is not None:
            flows[it.flow] = None
    for it, flows in sorted(found.values(), key=lambda group: WORDS.index(group[0].word)):
        yield it, list(flows)


def place_of(it, flows, routers):
    """Returns where something was found: of which flows, and on which router."""
    if not flows:
        return some(routers)
    more = f" and {len(flows) - 1} more" if len(flows) > 1 else ""
    return f"flow {flows[0][0]} {flows[0][1]}{more}: {it.router}"


def counts_of(findings):
    """Returns how many different things were found, by word."""
    counts = dict.fromkeys(WORDS, 0)
    for it, _ in grouped(findings):
        counts[it.word] += 1
    return counts
