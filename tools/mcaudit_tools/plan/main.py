"""mcaudit-plan: the changes of entries by which flows that aren't right become right, each plan confirmed by mcaudit.

A plan is found here and needs no trust: its steps are carried out on a copy of the set, the program audits the copy
after each of them, and a plan is printed only where it finds the flow right in the end, and no step makes a loop, a
duplicate or a stray. That a plan has the fewest changes, and that there is none, are the planner's words and not the
program's.
"""
import contextlib
import os
import sys

from mcaudit_tools import audit as audits
from mcaudit_tools import igmp
from mcaudit_tools.changes import GRAMMAR, read_changes
from mcaudit_tools.common import Parser, Refused, find_tool, from_hex, whole_number
from mcaudit_tools.files import printing, read_regular
from mcaudit_tools.plan import pim
from mcaudit_tools.plan.confirm import Confirming
from mcaudit_tools.plan.domain import judge
from mcaudit_tools.plan.entries import MOST_TABLE, Entries
from mcaudit_tools.plan.find import Effort
from mcaudit_tools.plan.make import Maker
from mcaudit_tools.plan.text import Printer, show
from mcaudit_tools.tried import Copy

ABOUT = """Finds for each flow of SITE that isn't right the fewest changes of (S,G) entries that make it right: commands
of smcroutectl, router by router, in an order in which no step makes a loop, a duplicate or a stray, and as few LANs
as possible lose the stream; lines of smcroute.conf; what was assumed. Each step and the end are audited by mcaudit
on a copy: a flow that it doesn't find right has no plan. Where there is none, the reason is printed. SITE is
never changed, nor is a router.

A CHANGE is made first: `r2: down`, and what then? Then it also says what is found once what is down is back."""
MORE = """{grammar}

Where a router has PIM's register vif, or its facts name a PIM daemon, its entries are the daemon's: its steps are `by
hand (PIM)`, unless --smcroute names it.

Statuses: 0 each flow is right or has a plan of commands, 1 one has none, or a step has to be done by hand; 2 SITE or a
CHANGE is refused, 3 a read or a write failed, 4 out of memory, 5 usage error.

Examples:
  mcaudit-plan site
  mcaudit-plan site 'r2: down'
  mcaudit-plan --flow 3 --keep fixed site && mcaudit audit fixed"""
OPTIONS = [
    ("--flow", "N", "plan this flow alone, by its number in the topology"),
    ("--new", None, "also plan flows of which no router has an entry"),
    ("--use", "ROUTER", "give this router an entry of the flow even if it has only an unresolved or a (*,G) one; may "
     "be repeated"),
    ("--smcroute", "ROUTER", "print commands for this router even if it has PIM; may be repeated"),
    ("--keep", "FOLDER", "keep the copy with all plans carried out"),
    ("--json", None, "print an object a line")]
MOST_FLOWS, MOST_SEARCH, SEARCH = 4096, 1_000_000, 2000


def read_arguments():
    """Reads the arguments."""
    parser = Parser(description=ABOUT, epilog=MORE.format(grammar=GRAMMAR))
    parser.add_argument("site", metavar="SITE", help="the folder, as mcaudit-collect makes it")
    parser.add_argument("change", metavar="CHANGE", nargs="*", help="a change that is made before the plan")
    parser.add_argument("-f", metavar="FILE", action="append", default=[],
                        help="take the changes of FILE too, one on each line; - is standard input")
    parser.add_options(OPTIONS, repeated=("--use", "--smcroute"))
    parser.add_options([("--search", "N", f"how many sets of changes to try, for a plan with fewer ({SEARCH})", 0,
                         MOST_SEARCH, SEARCH)])
    parser.add_version()
    found = parser.parse_intermixed_args()
    if not found.site:
        parser.error("SITE has to be a folder's name")
    if found.flow is not None:
        try:
            found.flow = whole_number(1, MOST_FLOWS, "")(found.flow)
        except Exception as fault:  # pylint: disable=broad-exception-caught
            parser.error(f"--flow {fault}")
    return found


def judge_whole(mcaudit, copy):
    """Returns what the program says of the copy, which learns of it which routers and flows it has."""
    def see(value):
        """Lets the copy see what it has to know."""
        if "domain" in value or "flow" in value:
            copy.take_line(value)
    copy.write()
    found = judge(mcaudit, copy.folder, see)
    copy.check()
    return found


def check_words(words, answer):
    """Fails where the words name what the domain has not."""
    for option, names in (("--use", words.use or ()), ("--smcroute", words.smcroute or ())):
        for it in names:
            if it not in answer.domain.orders:
                raise Refused(f"{option}: the topology has no router {it}")
    if words.flow is not None and words.flow > answer.summary["flows"]:
        raise Refused(f"--flow: the topology lists no flow {words.flow}")


def lans_without_source(copy):
    """Returns what says which LANs ask for a flow without naming its source."""
    def found(flow):
        """Returns these LANs."""
        source, group, lans = igmp.address_of(flow.source), igmp.address_of(flow.group), []
        for lan in flow.wanted:
            lines = read_regular(os.path.join(copy.folder, f"igmp-{lan}"), MOST_TABLE).split(b"\n")[:-1]
            records = [record for line in lines for record in igmp.all_records(from_hex(line))]
            if not any(it.kind == igmp.INCLUDE and it.group == group and source in it.addresses() for it in records):
                lans.append(lan)
        return lans
    return found


def make_plans(words, copy, answer):
    """Returns the plans of the flows that aren't right, or of one."""
    flows = [it for it in answer.wrong.values() if words.flow in (None, it.number)]
    entries = Entries(copy.folder, answer.domain, flows)
    for router, cache in entries.caches.items():
        if f"cache-{router}" in copy.files:  # with what it had before it was changed
            cache.threshold = copy.cache(router).threshold
    maker = Maker(answer.domain, entries, Effort.of(len(flows), words.search), words.use or (), words.new)
    return [maker.plan(it) for it in flows]


def run(words, site, given, copy, stack):
    """Plans on the copy of the set in the folder site. Returns the plans, what prints them, and what the program says
    in the end."""
    mcaudit = find_tool("mcaudit")
    before = judge_whole(mcaudit, copy)
    back = None
    if any(it.verb == "down" for it in given):
        back = stack.enter_context(Copy(copy.folder))
        judge_whole(mcaudit, back)
        for change in given:
            if change.verb != "down":
                back.apply(change)
    for change in given:
        copy.apply(change)
    before = judge_whole(mcaudit, copy) if given else before
    check_words(words, before)
    routers = pim.routers_of(copy.folder, site, before.domain.routers) - set(words.smcroute or ())
    plans = make_plans(words, copy, before)
    after = Confirming(mcaudit, copy, before).carry_out(plans)
    if back is not None:
        Confirming(mcaudit, back, before).come_back([it for it in plans if it.is_made])
    tried = [it.text for it in given]
    return plans, Printer(before.domain, routers, lans_without_source(copy), copy.named, tried), after


def main():
    """Plans. Returns the status."""
    words = read_arguments()
    site = os.path.realpath(words.site)  # where a link that moves leads now
    given = read_changes(words.change, words.f) if words.change or words.f else []
    with contextlib.ExitStack() as stack:
        copy = stack.enter_context(Copy(words.site, words.keep))
        with audits.telling(copy.named):
            plans, printer, after = run(words, site, given, copy, stack)
        if words.keep is not None:
            copy.keep_folder()
        with printing():
            show(printer, plans, after, words.json)
            sys.stdout.flush()
    return 1 if any(not it.is_made or printer.hands(it) for it in plans) else 0
