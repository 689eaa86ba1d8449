"""The words of mcaudit-monitor: what it takes, and what it hands to mcaudit-collect."""
import argparse
import os
import re
import sys

from mcaudit_tools.common import Parser, clean, options_of
from mcaudit_tools.monitor.plugin import MOST_LETTERS
from mcaudit_tools.ways import REACH

WARN_AGE, WARN_REPORTS = 900, 3600  # seconds
LABEL = r"(?!__|router=|lan=)[A-Za-z_][A-Za-z0-9_]*=.*"
ABOUT = """Collects the tables of SITE's routers (mcaudit-collect), audits them (mcaudit audit --json --unlisted) and
prints what changed since last time (mcaudit-diff). The routers are given as for mcaudit-collect.

Of what changed, new and cleared faults come first, and then paths that moved; with --plugin too.

Only one run at a time works on SITE: another one ends at once, and writes nothing. Where a router was not read
nothing is judged. Each set keeps its audit as audit.json, and SITE.monitor.json says which one was judged last."""
MORE = """Statuses: 0 verdict yes, 1 verdict no, 2 mcaudit refuses the folder, 3 a router was not read, another run is
at work, or something failed, 4 out of memory, 5 usage error.
With --plugin: 0 verdict yes; 1 yes, but a flow is wanted by nobody, or files are older than allowed; 2 verdict no;
3 anything else.

Examples:
  mcaudit-monitor --routers routers --keep 100 site
  mcaudit-monitor --plugin --no-collect --warn-age 900 /var/lib/mcaudit/site
  mcaudit-monitor --routers routers --prometheus /var/lib/prometheus/node-exporter/mcaudit.prom site"""
COLLECTS = [*REACH,
            ("--readings", "N", "read a router at most N times"),
            ("--pause", "SECONDS", "wait so long between two readings of a router"),
            ("--timeout", "SECONDS", "give a router up when a reading takes longer"),
            ("--at-once", "N", "read at most N routers side by side"),
            ("--facts", None, "also bring the routers' facts, and warn where one of their own settings drops what its "
             "tables forward (mcaudit-premises)"),
            ("--from-daemon", None, "also bring the lists of the LANs, as the routers' daemons believe them"),
            ("--empty-lan", "LAN", "with --from-daemon, also write an empty list of this LAN"),
            ("--adopt", None, "if SITE is a plain folder, make it the first set")]
MOST = 999_999_999  # sets that are kept, and seconds
OPTIONS = [("--no-collect", None, "judge what SITE has: nothing is read of a router, compared or kept"),
           ("--keep", "N", "keep the last N sets, and those still needed (all)", 1, MOST, None),
           ("--plugin", None, "print one line, and end as a plugin of Nagios or Icinga"),
           ("--warn-age", "SECONDS", f"with --plugin: warn of older tables; 0 never does ({WARN_AGE})", 0, MOST, None),
           ("--warn-reports", "SECONDS", f"with --plugin: warn of older reports; 0 never does ({WARN_REPORTS})", 0,
            MOST, None),
           ("--prometheus", "FILE.prom", "write what node_exporter's textfile collector reads")]


class MonitorParser(Parser):
    """Reads the arguments, and ends with the status of wrong ones, or of a plugin's failure."""

    def error(self, message):
        """Tells what is wrong."""
        if "--plugin" in sys.argv:
            print(f"MCAUDIT UNKNOWN - usage error: {clean(message, '|')[:MOST_LETTERS]}")
            sys.exit(3)
        super().error(message)


def label(text):
    """Reads a label."""
    if not re.fullmatch(LABEL, text, re.DOTALL):
        raise argparse.ArgumentTypeError(f"{text!r} is not a valid NAME=VALUE of a label other than router and lan")
    return tuple(text.split("=", 1))


def read_arguments():
    """Reads the arguments."""
    words = MonitorParser(description=ABOUT, epilog=MORE)
    words.add_version()
    words.add_argument("site", metavar="SITE")
    words.add_argument("ways", metavar="NAME=ADDRESS", nargs="*",
                       help="a router and its address, as for mcaudit-collect")
    words.add_options([*COLLECTS, *OPTIONS], ["--empty-lan"])
    words.add_argument("--label", metavar="NAME=VALUE", type=label, action="append", default=[],
                       help="a label of all metrics in FILE.prom, where one machine watches several sites")
    found = words.parse_intermixed_args()
    check_words(words, found)
    return found


def check_words(words, found):
    """Ends where words don't go together, and makes of them what is handed to mcaudit-collect."""
    found.site = found.site.rstrip("/")
    if os.path.basename(found.site) in ("", ".", ".."):
        words.error("SITE has to be a folder's name")
    collects = options_of(found, *(it for it, *_ in COLLECTS))
    if found.no_collect and (collects or found.ways or found.keep or found.prometheus):
        words.error("--no-collect goes with no router, no option of mcaudit-collect, no --keep and no --prometheus")
    if not found.no_collect and not found.ways and not found.routers:
        words.error("SITE and at least one router are required")
    if (found.warn_age is not None or found.warn_reports is not None) and not found.plugin:
        words.error("--warn-age and --warn-reports go with --plugin")
    found.warn_age = WARN_AGE if found.warn_age is None else found.warn_age
    found.warn_reports = WARN_REPORTS if found.warn_reports is None else found.warn_reports
    if found.prometheus is not None and not found.prometheus.endswith(".prom"):
        words.error("--prometheus requires a FILE.prom: node_exporter reads no other")
    found.collects, found.labels = collects, dict(found.label)
