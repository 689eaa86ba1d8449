"""mcaudit-site: makes the whole folder of a domain in one go, and tells the LANs of its topology.

`init` runs the other tools one after the other: mcaudit-draft, mcaudit-collect, mcaudit-reports and `mcaudit
audit`, each by its own words. It takes nothing over from them but their statuses.
"""
import os
import subprocess

from mcaudit_tools.common import Failed, Parser, clean, find_tool, options_of, printable, say
from mcaudit_tools.files import read_regular
from mcaudit_tools.programs import RUNNING
from mcaudit_tools.topology import MOST_BYTES, read_topology
from mcaudit_tools.ways import REACH

ABOUT = """Makes the whole folder of a domain in one go, or lists the LANs of its topology.

`init` drafts the topology (mcaudit-draft), collects the routers' tables (mcaudit-collect --adopt), gathers the
reports of all LANs (mcaudit-reports --all) and judges the folder (mcaudit audit --travel). The line below the verdict
is what it rests on: how old the tables and the lists are, and what was not looked at. An existing topology is kept.
Anything that couldn't be obtained is named, and the next step runs anyway."""
MORE = """Statuses of init: 0 verdict yes, 1 verdict no or something is missing; else that of the step that ended it.
Of lans: 0 printed, 3 the topology can't be read. 5 usage error.

Examples:
  mcaudit-site init site --facts --routers routers --ssh 'ssh -l root'
  mcaudit-site lans site"""
OPTIONS = [*REACH,
           ("--facts", None, "also bring the routers' facts, and look whether one of their own settings drops what its "
            "tables forward (mcaudit-premises)"),
           ("--ttl", "N", "the TTL of all flows; without it each is measured"),
           ("--wait", "SECONDS", "wait so long for a General Query on each LAN"),
           ("--listen", "SECONDS", "capture on each LAN for so long at least, for who speaks as a router"),
           ("--tries", "N", "gather a LAN's reports so often, where they changed meanwhile"),
           ("--static", "LAN:GROUP[,SOURCE]", "what a host wants that can't be asked"),
           ("--empty-lan", "LAN", "if no host of this LAN answers, nobody on it wants anything")]
REPEATED = "--static", "--empty-lan"
GRACE = 5  # seconds that a step has to end what it began


class Stopped(Failed):
    """A step after which the next one can't be done."""

    def __init__(self, step, status, why="nothing more is done"):
        """Takes the step's name and its status."""
        super().__init__(f"{step} ended with status {status}: {why}", status)


def print_lans(site):
    """Prints each LAN of the topology with each interface on it, `LAN ROUTER DEVICE`, or alone."""
    topology = read_topology(os.path.realpath(site), site)
    for lan in topology.lans:
        found = [row for row in topology.interfaces if row[0] == lan]
        for row in found or [(lan,)]:
            print(*row)


def read_arguments():
    """Reads the arguments."""
    words = Parser(description=ABOUT, epilog=MORE)
    words.add_version()
    commands = words.add_subparsers(dest="command", metavar="COMMAND", required=True, parser_class=Parser)
    init = commands.add_parser("init", prog="mcaudit-site init", help="draft, collect, gather and judge",
                               description="Makes the folder SITE of the routers, and judges it.")
    init.add_argument("site", metavar="SITE")
    init.add_argument("ways", metavar="NAME=ADDRESS", nargs="*",
                      help="a router and its address, as for mcaudit-collect")
    init.add_options(OPTIONS, REPEATED)
    init.add_argument("--ask", action="store_true", help="ask the hosts where no querier does, as mcaudit-reports")
    init.add_argument("--ask-routers", action="store_true", help="also on LANs with two listed routers")
    init.add_argument("--from-daemon", action="store_true",
                      help="take the lists of what the routers' daemons believe, as mcaudit-reports")
    init.add_argument("--empty", action="store_true",
                      help="--empty-lan for every LAN, even if its hosts just went unheard")
    lans = commands.add_parser("lans", prog="mcaudit-site lans", help="print each LAN with each interface on it",
                               description="Prints LAN ROUTER DEVICE for each interface, or a LAN without one alone.")
    lans.add_argument("site", metavar="SITE")
    return words.parse_args()


def steps_of(words):
    """Returns each step: its name, what it does, and the words that do it."""
    reach = options_of(words, "--routers", "--ssh")
    gather = options_of(words, "--ask", "--ask-routers", "--from-daemon", "--empty", "--wait", "--listen",
                        "--tries", *REPEATED)
    steps = [("draft", "draft the topology of what the routers say",
              [find_tool("mcaudit-draft"), *reach, *options_of(words, "--ttl"), words.site, *words.ways]),
             ("collect", "collect the routers' tables",
              [find_tool("mcaudit-collect"), "--adopt", *reach, *options_of(words, "--facts"), words.site,
               *words.ways]),
             ("reports", "gather what the hosts of each LAN want",
              [find_tool("mcaudit-reports"), *reach, *gather, "--all", words.site, *words.ways]),
             ("audit", "judge the folder", [find_tool("mcaudit"), "audit", "--travel"])]
    if os.path.lexists(os.path.join(words.site, "topology")):
        print(f"{printable(words.site)}/topology exists, and is kept", flush=True)
        tell_missing(words.site)
        return steps[1:]
    return steps


def tell_missing(site):
    """Tells what the draft of a topology that is there had missed, and that is still a comment in it."""
    data = read_regular(os.path.join(os.path.realpath(site), "topology"), MOST_BYTES, os.path.join(site, "topology"))
    for line in data.decode("utf-8", "replace").split("\n"):
        if line.startswith("# missing: "):
            say(f"in {site}/topology: {line.removeprefix('# ').rstrip()}")


def run_step(command):
    """Runs the command to its end. Returns its status."""
    process = RUNNING.begin(command, stdin=subprocess.DEVNULL)
    try:
        return process.wait()
    finally:
        RUNNING.end(process, GRACE)


def tell_basis(site, folder):
    """Tells beside the verdict what it rests on, and what contradicts it."""
    # (only once there is a verdict: `lans` needs nothing of it)
    from mcaudit_tools.ages import Ages  # pylint: disable=import-outside-toplevel
    from mcaudit_tools.premises import beside, domain  # pylint: disable=import-outside-toplevel
    try:
        answer = domain.run_audit(find_tool("mcaudit"), folder, "mcaudit audit")
    except Failed as fault:
        say(f"what the verdict rests on isn't known: {fault}")
        return
    ages = Ages.of_set(folder, site, answer.routers, answer.lans)
    for line in beside.look(lambda: answer, site, folder, ages).sentences():
        print(clean(line), flush=True)


def init_site(words):
    """Runs each step, as long as the next one can be. Returns the status."""
    steps = steps_of(words)
    partly, before = [], os.path.realpath(words.site)
    for number, (name, what, command) in enumerate(steps, 1):
        print(f"{number} of {len(steps)}: {what}", flush=True)
        if name == "audit":
            folder = os.path.realpath(words.site)
            status = run_step([*command[:2], folder, *command[2:]])
            if not os.path.isdir(folder):
                raise Failed(f"{words.site}: the set was removed meanwhile")
            if status in (0, 1):
                tell_basis(words.site, folder)
            break
        status = run_step(command)
        if status not in (0, 1):
            raise Stopped(name, status if status > 0 else 3)
        if name == "collect" and os.path.realpath(words.site) == before:
            raise Stopped(name, 3, "there is no new set")
        if status == 1:
            partly.append(name)
    if partly:
        say(f"something is missing, see above: {' '.join(partly)}")
    return status or (1 if partly else 0)


def main():
    """Makes the folder, or prints the LANs. Returns the status."""
    words = read_arguments()
    RUNNING.grace = GRACE
    if words.command == "lans":
        print_lans(words.site)
        return 0
    return init_site(words)
