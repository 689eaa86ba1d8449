"""mcaudit-reports: writes what the hosts of one LAN answered to a General Query, in the form that mcaudit reads.

That is the IGMP message of each report in hexadecimal, one a line (igmp-LAN). They are taken from a capture of tcpdump:
of an interface, here or on a router, of a file, or of a recorded text.

An empty list says that nobody wants anything, and a list that lacks a report says so of some: so nothing is given out
before all of it was written, and an empty one only where it was asked for.
"""
import ipaddress
import os
import sys
import time

from mcaudit_tools import igmp, origins, ways
from mcaudit_tools.capture import Decoder
from mcaudit_tools.common import Failed, Parser, Wrong, say
from mcaudit_tools.files import PIECE, open_regular, printing
from mcaudit_tools.speakers import Speakers
from mcaudit_tools.task import Task
from mcaudit_tools.window import NO_LIST, REFUSED, SPOILT, WRITTEN, Gathering, List

ABOUT = """Writes the IGMP reports of one LAN into a file or to standard output, in hexadecimal, one a line,
as mcaudit reads them. They are those that come from the first General Query to the end of its
answers' time.

  INTERFACE        capture on this interface with tcpdump, and wait for the querier's next query"""
MORE = """Reports of IGMP versions 1, 2 and 3 are written whole and unchanged. Queries, leaves and packets
that aren't IGMP are ignored, and so is what receivers ignore: too short, or a wrong checksum, at
most 8 packets of at most 2 senders. A report of a change (a host joined or left while the list was
made) is followed with --fold; else it is named on standard error, and `mcaudit` refuses the list as
StateChange: then gather again. No list is written where a report may be missing: a packet was a
fragment, or was cut or dropped by the capture; a second General Query came before the answers to
the first were over; the clock was set among them; or nothing shows that the recording went on to
the end of the answers (a later packet or a last line with the time does).

A General Query counts if all hosts of the LAN hear it and one of the LAN may have sent it: to
224.0.0.1 at its MAC, with TTL 1, from an address of the LAN's network, and with a response time of
1.0 to 25.5 s. The network is that of the interface; of a file or text it is what --network says.
Queries that didn't count are named with the reason. Frames of other VLANs never count.

A report of IGMP version 1 or 2, and one of version 3 in EXCLUDE mode, asks for every source of its
group. For a group of 232.0.0.0/8, which is source-specific (SSM), routers ignore it (RFC 4604): each
such group is named on standard error, with how many such reports came. The list has them anyway,
and mcaudit counts every listed flow of the group as wanted.

With --fold each host, which is a hardware address with an address, is followed from the query on,
and the list has what each wants at the end. What a host leaves counts only if the same host had
asked for it, and if no answer contradicts it for 2 seconds; else it stays in the list. A leave of
version 2 counts once the querier asked for the group and nobody answered. No list is written if a
host of 0.0.0.0 leaves anything, or if hosts change and one address has two hardware addresses. A
text without link headers (tcpdump -e) is not followed.

An empty list says that no host of the LAN wants anything, and so does one that has no group but
those that routers never forward (224.0.0.x), as the routers and switches themselves report them.
If nothing else came no list is written, unless --empty or --empty-lan allows it: check first that
the switch shows reports here.

Capture where all reports are seen: on the LAN's multicast router, or on a switch port that gets
them (a switch with IGMP snooping shows them to routers alone). For a VLAN use its own interface
(eth0.20, not eth0).

With --from-daemon the list is what FRR's pimd believes, of `show ip igmp groups json` and `sources json`,
read until two answers are equal; nobody is captured, so hosts may zap. It counts where IGMP is up on the
interface for longer than a query and its answers take, and where not more than half of the groups of a
list that is under 260 s old are gone: then it is asked again after that time. Else the reason is named,
and there is no list. With several routers on a LAN the list is the union. What is asked for and no router
there forwards (forwarded: false) is named. An empty list needs --empty-lan, except on a LAN with two or more
listed routers of which none asks hosts (no `ip igmp`): if its last list has no group, or nobody is heard to
report one for --wait, its list is empty, and the verdict's line names it.

Who speaks as a multicast router (PIM, queries, member of routers' groups) and has no address of a listed
one is named, with its hardware address, where the facts of SITE have the addresses of all of them.

Queries from 0.0.0.0 (sent by switches as proxy) don't mark router ports, so they don't count, unless
--querier says so. If any other query was heard, --ask sends none.

Statuses: 0 the list is written, 1 there is no list (no query came, no host answered, a report is
missing, or the recording ends too early; with --all, of some LAN), 2 mcaudit would refuse the list
(it is written to standard output, and not into FILE), 3 tcpdump failed, the list could not be
written, or a signal ended it, 5 usage error.

Examples:
  mcaudit-reports -o site/igmp-l1 eth1
  mcaudit-reports -o site/igmp-l1 --by root@r1 eth1
  mcaudit-reports -o site/igmp-l1 --capture l1.pcap --network 10.0.1.0/24
  mcaudit-reports --all site --from-daemon --routers routers
  mcaudit-reports --all site --empty-lan core --tries 3 --routers routers --ssh 'ssh -l root'"""
USAGE = """mcaudit-reports [option ...] [--by ADDRESS] INTERFACE
       mcaudit-reports [option ...] --capture FILE
       mcaudit-reports [option ...] --text
       mcaudit-reports [option ...] --static GROUP[,SOURCE] ...
       mcaudit-reports [option ...] --from-daemon [--by ADDRESS] INTERFACE
       mcaudit-reports [option ...] --from-bridge [--by ADDRESS] BRIDGE
       mcaudit-reports [option ...] --all SITE [NAME=ADDRESS ...]"""
OPTIONS = [
    ("--by", "ADDRESS", "the interface is on a router: HOST, USER@HOST or !COMMAND, as `mcaudit-collect --help` says; "
     "root is required there"),
    ("--capture", "FILE", "read a capture file, pcap or pcapng"),
    ("--text", None, "read a text on standard input, recorded with `tcpdump -n -tt -e -x`; a last line with the time "
     "alone (`date +%%s`) says when the recording ended"),
    ("--static", "GROUP[,SOURCE]", "put into the list what a host wants that can't be asked: all that is sent to "
     "GROUP, or what SOURCE sends to it. Without an interface, FILE or text the list has such hosts alone, and nobody "
     "is asked"),
    ("--all", "SITE", "gather the lists of all LANs of SITE/topology at once, as SITE/igmp-LAN: each on a router of "
     "the LAN, or where that fails on its next one. The routers are given by NAME=ADDRESS, as for mcaudit-collect. For "
     "--static say LAN:GROUP[,SOURCE]. All lists come into SITE as one new set"),
    ("--from-daemon", None, "take the list of what the router's routing daemon believes, FRR's pimd, and ask nobody "
     "else: a captured list can't be had while hosts zap. vtysh has to answer there"),
    ("--from-bridge", None, "the interface is a bridge of the router's own: take the list of its multicast database, "
     "once a query and its answers are over. It has to snoop with IGMPv3, and ask hosts itself; nobody else is asked"),
    ("-o", "FILE", "put the list into FILE, once it is whole and on the disk; with any status but 0 FILE is unchanged"),
    ("--empty", None, "write the list even if no host answered, or only for groups that routers never forward "
     "(224.0.0.x): nobody on the LAN wants anything. With --all this holds for every LAN, even if its hosts just went "
     "unheard: name the LANs by --empty-lan instead"),
    ("--empty-lan", "LAN", "with --all, the same for this LAN alone; may be repeated"),
    ("--ask", None, "where no query comes, ask: after --wait send two General Queries, of the interface's own address. "
     "Routers may take it for the querier for 255 seconds, and a switch that snoops may keep streams from the LAN's "
     "other routers meanwhile. With --all no query is sent on a LAN with two or more listed routers"),
    ("--ask-routers", None, "with --all, also ask on those LANs"),
    ("--fold", None, "if hosts join or leave meanwhile, follow their changes, host by host, and put into the list what "
     "each wants at the end; on by default with --all"),
    ("--no-fold", None, "with --all, follow no changes: a list with one is refused"),
    ("--tries", "N", "gather again if a host joined or left meanwhile, or a report was lost, 1 to 99 times in all "
     "(1)", 1, 99, 1),
    ("--queries", "N", "gather the answers to so many queries of the same querier, one after the other, 1 to 3 (1): "
     "the list is the last one's, and what an earlier one had beyond it is named", 1, 3, 1),
    ("--wait", "SECONDS", "wait so long for a General Query, at most 9999 (260: after 255 seconds without one, by RFC "
     "3376, another router of the LAN would have taken over)", 0, 9999, 260),
    ("--listen", "SECONDS", "capture for so long at least, at most 999 (0; with --all 35): PIM's Hello comes each 30 "
     "s. Who speaks as a multicast router and has no address of a listed one is named", 0, 999, None),
    ("--slack", "SECONDS", "take answers that are so late, at most 99 (1)", 0, 99, 1),
    ("--network", "PREFIX", "the LAN's network, as 10.0.1.0/24, whose addresses a query may come from; may be "
     "repeated"),
    ("--querier", "ADDRESS", "a query of this address counts too; may be repeated"),
    ("--interface", "NUMBER", "with --capture, the interface of a file that has several: its index, or its number in "
     "the file", 0, 999_999_999, None),
    *ways.REACH]
LISTEN = 35  # seconds in which whoever speaks PIM says so
REPEATED = "--static", "--empty-lan", "--routers", "--network", "--querier"


# The arguments

def read_arguments():
    """Reads the arguments."""
    parser = Parser(description=ABOUT, epilog=MORE, usage=USAGE)
    parser.add_options(OPTIONS, REPEATED)
    parser.add_argument("words", metavar="INTERFACE", nargs="*",
                        help="an interface; with --all, NAME=ADDRESS of routers")
    parser.add_version()
    found = parser.parse_intermixed_args()
    found.ask = found.ask or found.ask_routers
    found.listen = LISTEN * (found.all is not None) if found.listen is None else found.listen
    check_sources(parser, found)
    try:
        take_statics(parser, found)
        found.networks = [ipaddress.IPv4Network(it) for it in found.network or ()]
        found.queriers = [ipaddress.IPv4Address(it).packed for it in found.querier or ()]
        found.all_routers = ways.read_routers(found.ways, found.routers or [])
        if found.by is not None:
            ways.parse_router(f"router={found.by}")
    except (ValueError, Wrong) as fault:
        parser.error(str(fault))
    if found.ask and bytes(4) in found.queriers:
        parser.error("--querier 0.0.0.0 goes without --ask")
    return found


def check_sources(parser, found):
    """Sees that there is one source of reports, and that the options go with it."""
    found.ways = [it for it in found.words if "=" in it]
    interfaces = [it for it in found.words if "=" not in it]
    if "any" in interfaces:
        parser.error("a list is of one LAN: name its interface")
    sources = [*interfaces, *[it for it in (found.capture, found.text or None, found.all) if it is not None]]
    if len(sources) > 1 or not sources and not found.static:
        parser.error("one INTERFACE, --capture FILE or --text is required")
    found.device = interfaces[0] if interfaces else None
    if found.o is not None and (not found.o or found.o.startswith("-")):
        parser.error("-o requires a file")
    if (found.ask or found.by is not None) and found.device is None and found.all is None:
        parser.error("--ask and --by require an interface")
    if found.all is not None and (found.o is not None or found.by is not None):
        parser.error("--all takes no -o and no --by")
    if found.from_daemon and (found.capture or found.text or found.ask or not sources):
        parser.error("--from-daemon requires an interface or --all, and goes without --ask")
    if found.from_bridge and (found.device is None or found.ask or found.from_daemon):
        parser.error("--from-bridge requires an interface, and goes without --ask and --from-daemon")
    if found.all is None and found.ask_routers:
        parser.error("--ask-routers goes with --all")
    if found.all is None and found.empty_lan:
        parser.error("--empty-lan goes with --all")
    if "" in (found.empty_lan or ()):
        parser.error("--empty-lan requires a LAN")
    if found.no_fold and (found.all is None or found.fold):
        parser.error("--no-fold goes with --all, and without --fold")
    found.fold = found.fold or found.all is not None and not found.no_fold


def take_statics(parser, found):
    """Makes the reports of the hosts that can't be asked, by LAN; without --all that is none."""
    found.statics = {}
    for word in found.static or ():
        lan, is_lan, rest = word.partition(":")
        if found.all is not None and not (is_lan and lan):
            parser.error("--static with --all takes LAN:GROUP[,SOURCE]")
        if found.all is None and is_lan:
            parser.error("--static takes GROUP[,SOURCE]")
        report = static_report(rest if is_lan else word)
        if report is None:
            parser.error(f"--static {word}: a group lies in 224.0.1.0 to 239.255.255.255, and a source is a host's "
                         "address")
        found.statics.setdefault(lan if is_lan else None, []).append(report)


def static_report(word):
    """Returns the report of a host of version 3 that wants GROUP[,SOURCE]; None where the word is none."""
    group, *sources = word.split(",")
    addresses = [igmp.group_of(group), *map(igmp.host_of, sources)]
    return igmp.report_of(*addresses) if len(sources) < 2 and None not in addresses else None


# A list

def file_list(task, path):
    """Reads a capture file, once. Returns its list."""
    decoder = Decoder(task.words.interface)
    gathering = Gathering(task.rules(None, False), task.say)
    with open_regular(path) as file:
        for piece in iter(lambda: file.read(PIECE), b""):
            for frame in decoder.feed(piece):
                if decoder.interface is None or frame.interface in (None, decoder.interface):
                    task.speakers.take(frame)
                    gathering.take(frame)
    decoder.finish()
    if decoder.dropped:
        task.say(f"{decoder.dropped} packets dropped, as the file says")
        gathering.is_lost = True
    found = task.list_of(gathering)
    return marked(task, found, [])


def text_list(task):
    """Reads a recorded text on standard input. Returns its list."""
    if sys.stdin is None:
        raise Failed("standard input is closed")
    from mcaudit_tools.recording import Recording  # pylint: disable=import-outside-toplevel
    reader = Recording()
    gathering = Gathering(task.rules(None, False), task.say)
    for frame in reader.frames(sys.stdin.buffer):
        task.speakers.take(frame)
        gathering.take(frame)
    found = task.list_of(gathering)
    if reader.lacks_links and found.status in (WRITTEN, REFUSED):
        task.say("the text has no link headers (tcpdump -e): it doesn't show that the query was sent to all hosts, or "
                 "that nothing is of another VLAN")
    return marked(task, found, ["link"] if reader.lacks_links else [])


def marked(task, found, unchecked):
    """Returns the list with what could not be checked of it: of a file or text the network, unless it was given."""
    found.unchecked += [*unchecked, *([] if task.words.networks or task.words.queriers else ["network"])]
    return found


# What comes of a list

def check_output(words):
    """Sees that the list can go where it is wanted, as far as that shows before there is one."""
    if words.o is None:
        return
    if os.path.lexists(words.o) and not os.path.isfile(words.o):
        raise Failed(f"{words.o} is not a plain file")
    folder = os.path.dirname(words.o) or "."
    if not os.path.isdir(folder) or not os.access(folder, os.W_OK):
        raise Failed(f"{words.o} can't be written")


def give(words, found, origin):
    """Gives the list out, where its status lets it. Returns the status."""
    if found.status in (NO_LIST, SPOILT):
        return NO_LIST
    if words.o is None:
        with printing():
            sys.stdout.buffer.write(found.text())
            sys.stdout.buffer.flush()
    elif found.status == WRITTEN:
        from mcaudit_tools.into_site import write_list  # pylint: disable=import-outside-toplevel
        write_list(words.o, found.text(), origin)
    return found.status


def one_list(words):
    """Makes one list of the source that the arguments name. Returns the status."""
    check_output(words)
    if words.from_daemon or words.from_bridge:
        from mcaudit_tools import from_daemon  # pylint: disable=import-outside-toplevel
        return give(words, *from_daemon.one_list(words))
    shell = ways.Router("router", words.by or "").shell(words.ssh or ways.SSH)
    task = Task(words, shell, words.device, words.statics.get(None, []), say, is_empty_allowed=words.empty,
                is_asking=words.ask, speakers=Speakers())
    if words.device is not None:
        from mcaudit_tools.live import capture_list  # pylint: disable=import-outside-toplevel
        found = capture_list(task)
    elif words.capture is not None:
        found = file_list(task, words.capture)
    elif words.text:
        found = text_list(task)
    else:
        found = List(WRITTEN, task.statics, True)
    if words.o is not None:
        from mcaudit_tools.into_site import tell_strangers  # pylint: disable=import-outside-toplevel
        tell_strangers(words, task)
    by = origins.STATIC if found.is_decided else origins.CAPTURE
    return give(words, found, origins.Origin(by, None, int(time.time()), found.unchecked))


def main():
    """Gathers one list, or those of all LANs. Returns the status."""
    words = read_arguments()
    if words.all is None:
        return one_list(words)
    # (here and in one_list: lists have many sources, and each is loaded where it is asked for)
    if words.from_daemon:
        from mcaudit_tools import from_daemon  # pylint: disable=import-outside-toplevel
        return from_daemon.gather_all(words)
    from mcaudit_tools import gather  # pylint: disable=import-outside-toplevel
    return gather.gather_all(words)
