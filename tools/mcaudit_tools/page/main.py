"""mcaudit-page: makes one page of what `mcaudit audit` answers of a folder, to be read in a browser.

The answer in JSON is all that is judged here: this program draws it, with Graphviz, and tells it in the words that
`mcaudit audit` has. The page is one file that asks no network for anything. What stands in a folder is never more
than text in it: each text is escaped where it is put, and the page's policy lets no script run but its own.
"""
from mcaudit_tools import audit as audits
from mcaudit_tools.common import Parser, find_tool
from mcaudit_tools.page.answer import read_audit, run_audit
from mcaudit_tools.page.graph import Graph, roots_of
from mcaudit_tools.page.remarks import Folder
from mcaudit_tools.page.render import page_of
from mcaudit_tools.page.write import write_page

ABOUT = """Makes one page, an HTML file, from what `mcaudit audit` prints of the folder SITE: the verdict and what it
rests on, the domain as a graph, each flow's path in it or its fault with the travel that shows it, and what isn't
listed or judged.

The page needs nothing but a browser: it has no script, font or picture from elsewhere. It is written beside FILE and
then renamed, so FILE is the whole page or unchanged."""
MORE = """Statuses: that of the verdict, 0 yes or 1 no; 2 the folder is refused, or what --audit gives is no audit; 3 a
read or a write failed, or something that is needed isn't there; 4 out of memory; 5 usage error. With 2 to 5 there is
no page.

Examples:
  mcaudit-page site -o report.html
  mcaudit-page --without r7 site -o report.html
  ssh r1 mcaudit audit --json --travel --unlisted site | mcaudit-page --audit - -o report.html"""

OPTIONS = [("-o", "FILE", "write the page into FILE; without it to standard output"),
           ("--audit", "FILE", "run no audit: take what one answered with --json --travel --unlisted from FILE, or "
            "from - for standard input"),
           ("--plan", "FILE", "also show the plans that `mcaudit-plan --json` printed of the same set into FILE"),
           ("--program", "PATH", "run PATH for mcaudit"),
           ("--without", "ROUTER", "audit without this router's tables, as mcaudit audit --without")]


def read_arguments():
    """Reads the arguments."""
    words = Parser(description=ABOUT, epilog=MORE)
    words.add_argument("site", metavar="SITE", nargs="?", help="the folder; with --audit it may be left out")
    words.add_options(OPTIONS, ["--without"])
    words.add_version()
    found = words.parse_args()
    if found.site is None and found.audit is None:
        words.error("SITE or --audit FILE is required")
    if found.audit is not None and (found.program or found.without):
        words.error("with --audit nothing is run: --program and --without go with a folder that is audited here")
    return found


def main():
    """Makes the page that is asked for: of one set, whatever SITE leads to meanwhile. Returns the verdict's status."""
    words = read_arguments()
    find_tool("dot", ": it comes with graphviz")
    folder = None if words.site is None else Folder(words.site)
    audit = read_audit(words.audit) if words.audit is not None else run_audit(words, folder)
    if words.plan is not None:
        from mcaudit_tools.page.plans import read_plans  # (for --plan alone)  pylint: disable=import-outside-toplevel
        audit.plans = read_plans(words.plan, audit)
    graph = Graph(audit.domain, roots_of(audit))
    page = page_of(audit, graph if graph.lay_out() else None, folder)
    if words.audit is None:
        folder.check()
    write_page(words.o, page, f"{audits.counts_text(audit.summary)}, verdict {audit.verdict}")
    return 0 if audit.verdict == "yes" else 1
