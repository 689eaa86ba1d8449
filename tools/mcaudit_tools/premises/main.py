"""mcaudit-premises: what a verdict rests on and the multicast tables don't show: whether packets flow as they say, and
what of each router's own settings contradicts them.

The verdict stays what it is. What is found stands beside it: it never turns a no into a yes, and never says that all is
well where it wasn't looked at.
"""
import os
import re
import sys

from mcaudit_tools import ways
from mcaudit_tools.ages import Ages
from mcaudit_tools.common import Failed, Parser, find_tool
from mcaudit_tools.files import printing
from mcaudit_tools.premises import counted, domain, judge, text
from mcaudit_tools.premises.findings import BAD, counts_of

PAUSES = "1,5,1"
NUMBERS = re.compile(r"([0-9]{1,3}(?:\.[0-9]{1,3})?),([0-9]{1,3}(?:\.[0-9]{1,3})?),([0-9]{1,3}(?:\.[0-9]{1,3})?)")
ABOUT = """Judges what the verdict about SITE rests on, beside the verdict itself: what of each router's own settings
contradicts its tables (rp_filter, links, netfilter, ip mrule, bridges that snoop ..), from the facts that
`mcaudit-collect --facts` brings; and whether packets flow as the tables say, by the counters of the last
four sets, or with --watch by four readings now, for which the routers are given as for mcaudit-collect.

Each line says how certain it is: `drops`, the kernel drops these packets although the table says forward; `may drop`,
that is unknown; `beside`, something else than the table decides; `not known`, the router could not say it. Of
counters: `none comes`, `at least n are lost`, `more come than were sent`, `by another vif`. The line below it is the
command that ends it, where there is one."""
MORE = """What a router took in between the second reading and the third, the next one must have seen between the
first and the last: so neither clocks nor bursts matter, only a delay of more than the first and the last pause.

Statuses: 0 nothing contradicts the tables, 1 something does: `drops`, `none comes` or packets that are lost (with
--strict anything that was found or isn't known), 2 mcaudit refuses the folder, 3 a read failed, 4 out of
memory, 5 usage error.

Examples:
  mcaudit-collect --facts --routers routers site && mcaudit-premises site
  mcaudit-premises --watch --routers routers site
  mcaudit-premises --watch 0.2,20,0.2 --routers routers --json site"""
OPTIONS = [
    ("--timeout", "SECONDS", "with --watch, give a router up when a reading takes longer (20)", 1, 999, 20),
    ("--json", None, "print an object a line"),
    ("--strict", None, "also end with status 1 where something may drop packets, decides beside the tables, or is not "
     "known")]


def read_arguments():
    """Reads the arguments."""
    parser = Parser(description=ABOUT, epilog=MORE)
    parser.add_argument("site", metavar="SITE", help="the folder, as mcaudit-collect makes it")
    parser.add_argument("ways", metavar="NAME=ADDRESS", nargs="*", help="with --watch, a router and its address")
    parser.add_options(ways.REACH)
    parser.add_argument("--watch", metavar="[A,B,C]", help="read the counters of all routers four times, with these "
                        f"pauses in seconds between ({PAUSES})")
    parser.add_options(OPTIONS)
    parser.add_version()
    found = parser.parse_intermixed_args(list(with_pauses(sys.argv[1:])))
    if not found.site:
        parser.error("SITE has to be a folder's name")
    found.site = found.site.rstrip("/") or found.site
    check_words(parser, found)
    return found


def with_pauses(words):
    """Yields the arguments, with the pauses of --watch beside it also where none are given."""
    rest = list(words)
    while rest:
        word = rest.pop(0)
        if word == "--watch":
            word += f"={rest.pop(0) if rest and NUMBERS.fullmatch(rest[0]) else PAUSES}"
        yield word
        if word == "--":
            yield from rest
            return


def check_words(parser, found):
    """Ends where arguments don't go together."""
    if found.watch is None:
        if found.ways or found.routers:
            parser.error("routers go with --watch")
        return
    pauses = NUMBERS.fullmatch(found.watch)
    if not pauses:
        parser.error("--watch takes three numbers of seconds, as 1,5,1")
    found.pauses = [float(it) for it in pauses.groups()]
    try:
        found.all = ways.read_routers(found.ways, [found.routers] if found.routers else [])
    except Failed as fault:
        if fault.status != 5:
            raise
        parser.error(str(fault))
    if not found.all:
        parser.error("--watch requires the routers")
    found.ssh = found.ssh or ways.SSH


def read_counters(words, folder, answer):
    """Returns what the counters say: of four readings now, or of the last four sets."""
    if words.watch is None:
        return counted.of_sets(answer, words.site, folder)
    from mcaudit_tools.premises import watch  # (for --watch alone)  pylint: disable=import-outside-toplevel
    return watch.watched(words, answer)


def main():
    """Judges. Returns the status."""
    words = read_arguments()
    folder = os.path.realpath(words.site)
    if not os.path.isdir(folder):
        raise Failed(f"{words.site} is not a folder")
    try:
        answer = domain.run_audit(find_tool("mcaudit"), folder, "mcaudit audit")
        ages = Ages.of_set(folder, words.site, answer.routers, answer.lans)
        findings = judge.Judge(answer, folder, ages).judge_all()
        counters = read_counters(words, folder, answer)
    except (Failed, OSError) as fault:
        if not os.path.isdir(folder):
            raise Failed(f"{words.site}: the set was removed meanwhile") from fault
        raise
    findings += counters.findings
    with printing():
        text.show(words, answer, os.path.basename(folder), findings, counters, ages)
    counts = counts_of(findings)
    if any(counts[it] for it in BAD):
        return 1
    if counters.failed:
        return 3
    return 1 if words.strict and any(counts.values()) else 0
