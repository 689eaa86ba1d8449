"""mcaudit-try: says what changes of a domain would do, before they are made.

The changes are made on a copy of SITE, and mcaudit judges what was found and the copy: this program judges nothing,
and writes nothing where SITE lies. The answer is about files: what a daemon makes of its entries later no file shows.
"""
import dataclasses
import json

from mcaudit_tools import audit as audits
from mcaudit_tools import changes, diff
from mcaudit_tools.common import Failed, Parser, Wrong, clean_lines, find_tool, printable
from mcaudit_tools.files import printing
from mcaudit_tools.programs import run
from mcaudit_tools.tried import Copy

ABOUT = f"""Says what changes of a domain would do, before they are made: makes them on a copy of the folder SITE, and
prints what changes by them, as mcaudit-diff does, and mcaudit's verdict on the copy. SITE is never written.

{changes.GRAMMAR}"""
MORE = """Statuses: that of the verdict after the changes, 0 yes or 1 no; 1 too where a file of --conf was not audited
whole; 2 SITE is refused, or a change that can't be made as it is written; 3 a read or a write failed, or something
that is needed isn't there; 4 out of memory; 5 usage error.

Examples:
  mcaudit-try site 'r2: remove eth0 10.0.0.5 239.1.2.3 eth1'
  mcaudit-try --why site 'r2: down' 'hall: join 239.1.2.3'
  mcaudit-try --json site -f changes
  mcaudit-try --conf r2=smcroute.conf --conf-root files-of-r2 site"""
OPTIONS = [("-f", "FILE", "take the changes of FILE too, one a line, or of standard input where it is -"),
           ("--conf", "ROUTER=FILE", "before the changes, give the router the vifs and entries that smcrouted makes of "
            "this smcroute.conf"),
           ("--conf-root", "FOLDER", "what the files of --conf include is in FOLDER as on the router in /"),
           ("--why", None, "print what mcaudit audit says of the faults after the changes"),
           ("--json", None, "print an object a line"),
           ("--keep", "FOLDER", "keep the changed copy as FOLDER, where nothing is yet"),
           ("--page", "FILE", "write a page of the changed domain into FILE, marked as tried, as mcaudit-page does")]


@dataclasses.dataclass
class Tried:
    """What was tried: the changes in words, what of a file wasn't audited, and what was assumed."""

    site: str
    changes: list
    unaudited: list = dataclasses.field(default_factory=list)
    assumed: list = dataclasses.field(default_factory=list)


def read_arguments():
    """Reads the arguments."""
    words = Parser(description=ABOUT, epilog=MORE)
    words.add_argument("site", metavar="SITE", help="the folder")
    words.add_argument("changes", metavar="CHANGE", nargs="*", help="a change, in the grammar above")
    words.add_options(OPTIONS, ["-f", "--conf"])
    words.add_version()
    found = words.parse_intermixed_args()
    if not found.changes and not found.f and not found.conf:
        words.error("a CHANGE, -f FILE or --conf ROUTER=FILE is required")
    if found.conf_root is not None and not found.conf:
        words.error("--conf-root goes with --conf")
    return found


def audit_twice(words, copy, confs, made):
    """Makes the changes between two audits of the copy: those of the topology first, since what a file makes of its
    ranges depends on the flows. Returns what both audits say, the objects of the second one, and what was tried."""
    tried = Tried(copy.named, [*(f"{it.router}: as in {it.path}" for it in confs), *(it.text for it in made)])
    before = diff.audit_of(copy.audit("--unlisted"))
    for it in made:
        if it.verb in changes.OF_FLOWS:
            copy.apply(it)
    for one in confs:
        unaudited, on_demand = one.apply(copy, words.conf_root)
        tried.unaudited += unaudited
        tried.assumed += [f"{it}: entries that come on demand are audited as if they were there" for it in on_demand]
    for it in made:
        if it.verb not in changes.OF_FLOWS:
            copy.apply(it)
    objects = list(copy.audit("--unlisted", *["--travel"] * (words.page is not None)))
    tried.assumed += [f"{router} {device}: threshold {number}, which no entry shows for certain; `ttl N` gives another"
                      for (router, device), number in copy.assumed.items()]
    return before, diff.audit_of(objects), objects, tried


def why_lines(copy):
    """Returns the lines of what mcaudit says about the faults of the copy."""
    words = [find_tool("mcaudit"), "audit", "--faults", copy.folder]
    came = run(words, seconds=audits.AUDITING, most=audits.MOST_BYTES)
    if came.is_late or came.is_long or came.status != copy.status:
        raise Failed(f"{copy.named}: mcaudit audit --faults ended with another status than audit --json: {came.status}")
    return clean_lines(came.printed)


def text_lines(words, copy, changed, tried):
    """Returns the lines of the answer."""
    lines = [diff.tell(*it) for it in changed if it[1] != "verdict"] or ["nothing changes"]
    lines += [f"assumed: {printable(it)}" for it in tried.assumed]
    end = [f"summary {audits.counts_text(copy.summary)}", f"verdict {copy.verdict}"]
    lines += why_lines(copy) if words.why else end
    if tried.unaudited:
        lines[-1:] = [*(f"not audited: {printable(it)}" for it in tried.unaudited), "not audited whole"]
    return lines


def json_lines(words, copy, changed, objects, tried):
    """Returns the lines of the answer in JSON."""
    found = [{"format": 1, "site": copy.named, "tried": tried.changes}, *(diff.object_of(*it) for it in changed)]
    found += [it for it in objects if words.why and "finding" in it]
    found += [{"assumed": it} for it in tried.assumed] + [{"unaudited": it} for it in tried.unaudited]
    found.append({"summary": copy.summary, "verdict": None if tried.unaudited else copy.verdict})
    return [json.dumps(it, sort_keys=True, separators=(",", ":")) for it in found]


def make_page(path, copy, objects, tried):
    """Writes the page of the changed domain."""
    # (most runs make none, and what makes it takes as long to load as all else)
    from mcaudit_tools.page import answer, graph, remarks, render, write  # pylint: disable=import-outside-toplevel
    audit = answer.audit_of(objects)
    drawn, folder = graph.Graph(audit.domain, graph.roots_of(audit)), remarks.Folder(copy.folder)
    folder.named = copy.named
    write.write_page(path, render.page_of(audit, drawn if drawn.lay_out() else None, folder, tried))


def main():
    """Tries the changes. Returns the status."""
    words = read_arguments()
    made = changes.read_changes(words.changes, words.f or ())
    confs = []
    if words.conf:
        from mcaudit_tools.conf import parse_all  # (for --conf alone)  pylint: disable=import-outside-toplevel
        confs = parse_all(words.conf)
    if not made and not confs:
        raise Wrong("no change is given")
    if words.page is not None:
        find_tool("dot", ": it comes with graphviz")
    with Copy(words.site, words.keep) as copy:
        with audits.telling(copy.named):
            before, after, objects, tried = audit_twice(words, copy, confs, made)
        changed = diff.faults_first(diff.all_changes(before, after))
        lines = json_lines(words, copy, changed, objects, tried) if words.json else \
            text_lines(words, copy, changed, tried)
        if words.page is not None:
            make_page(words.page, copy, objects, tried)
        if words.keep is not None:
            copy.keep_folder()
        with printing():
            print(*lines, sep="\n", flush=True)
    return 1 if tried.unaudited else copy.status
