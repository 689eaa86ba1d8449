"""Tries drafts of lists of flows, of services and of what hosts ask for: nothing of a text comes into a topology but
addresses and times to live, and what isn't sure is a comment."""
import os
import shutil
import tomllib

import packets as p
from place import case

VIFS = """Interface      BytesIn  PktsIn  BytesOut PktsOut Flags Local    Remote
 0 eth0              0       0         0       0 00000 00000000 00000000
 1 eth1              0       0         0       0 00000 00000000 00000000
"""
LOOPBACK = " 2 lo                0       0         0       0 00000 00000000 00000000\n"
ADDRESSES = """1: lo    inet 127.0.0.1/8 scope host lo
1: lo    inet 10.255.0.1/32 scope global lo
2: eth0    inet 10.0.0.1/24 scope global eth0
3: eth1    inet 10.0.1.1/24 scope global eth1
"""
S, T, FAR = "10.0.0.5", "10.0.0.6", "192.0.2.9"


def word(address):
    """Returns an address as a kernel of little order prints it."""
    return bytes(reversed(p.address(address))).hex().upper()


def router(place, *rows, vifs=VIFS, addresses=ADDRESSES):
    """Writes what the router r1 says: its rows are of a source, or of every one, and a group."""
    place.write("r1/ip_mr_vif", vifs)
    lines = [f"{word(group)} {word(source)} 0          9      900        0  1:1\n" for source, group in rows]
    place.write("r1/ip_mr_cache", "Group    Origin   Iif     Pkts    Bytes    Wrong Oifs\n" + "".join(lines))
    place.write("addresses", addresses)
    place.script("ip", '[ "$*" = "-o -4 address" ] || exit 1; exec /bin/cat addresses')


def drafted(place, *words, text=None, site="site"):
    """Drafts the site, of a list of flows or none. Returns the status, and the lines of flows, comments among them."""
    if text is not None:
        place.write("list", text)
        words = ("--flows", "list", *words)
    status = place.run("draft", *words, site, "r1=!env R=r1")
    if not os.path.exists(place.at(site, "topology")):
        return status, None
    topology = place.read(f"{site}/topology")
    place.topology = tomllib.loads(topology)
    return status, topology.partition("\nflow = [\n")[2].splitlines()[:-1]


def anew(place, *words, text=None):
    """Drafts once more. Returns as `drafted`."""
    shutil.rmtree(place.at("site"), ignore_errors=True)
    return drafted(place, *words, text=text)


def pairs(place):
    """Returns the flows of the topology."""
    return [(it["source"], it["group"], it["ttl"]) for it in place.topology["flow"]]


# Lists of flows

@case
def flows_of_csv(place):
    """Its columns stand in any order beside others, its fields are quoted or not, and its lines end either way."""
    router(place)
    for end, mark in (("\n", ""), ("\r\n", "\ufeff")):
        lines = ["group,name,ttl,source", f'239.1.1.1,"News, ""world""{end}and more",16,{S}',
                 f'"239.1.1.2",x,"7","{T}"', ""]
        status, flows = anew(place, text=mark + end.join(lines))
        assert (status, pairs(place)) == (0, [(S, "239.1.1.1", 16), (T, "239.1.1.2", 7)]), place.said
        assert flows[0].endswith("# rate not known; ttl as the list of flows has it"), flows
        assert place.topology["source"] == [{"address": it, "lan": "10.0.0.0-24"} for it in (S, T)]


@case
def flows_of_m3u(place):
    """Lines of udp and rtp are flows, with a source or without; all others are counted."""
    router(place)
    lines = ["#EXTM3U", "#EXTINF:-1,News", f"udp://{S}@239.1.1.1:1234", "", f"RTP://{T}@239.1.1.2",
             "udp://@239.1.1.3:5000", "rtp://239.1.1.4/", "http://192.0.2.1/x.ts", "udp"]
    status, flows = drafted(place, "--ttl", "9", text="\r\n".join(lines))
    assert (status, pairs(place)) == (1, [(S, "239.1.1.1", 9), (T, "239.1.1.2", 9)]), place.said
    assert flows[2:] == [f'# {{source = ?, group = "239.1.1.{it}"}}, # the list of flows has no source for it'
                         for it in (3, 4)], flows
    assert "list: other lines 4" in place.said, place.said
    assert "no flow: ? 239.1.1.3: the list of flows has no source for it" in place.said, place.said


@case
def flows_without_a_time_to_live(place):
    """They have that of --ttl, or are comments; that of the list stands above --ttl."""
    router(place)
    text = f"source,group,ttl\n{S},239.1.1.1,\n{S},239.1.1.2,5\n"
    status, flows = drafted(place, text=text)
    assert (status, pairs(place)) == (1, [(S, "239.1.1.2", 5)]), place.said
    why = "the list of flows has no TTL of it, and no router an entry"
    assert flows[1].startswith(f'# {{source = "{S}", group = "239.1.1.1", ttl = ?}}, # not judged: {why}'), flows
    assert f"not judged: {S} 239.1.1.1: {why}" in place.said, place.said
    status, flows = anew(place, "--ttl", "16", text=text)
    assert (status, pairs(place)) == (0, [(S, "239.1.1.1", 16), (S, "239.1.1.2", 5)]), place.said
    status, flows = anew(place, "--ttl", "16", text=f"group,source\n239.1.1.1,{S}\n")
    assert (status, pairs(place)) == (0, [(S, "239.1.1.1", 16)]), place.said


@case
def flows_beside_the_rows(place):
    """One of both has the ttl of the list, and is there once; a group whose source is known is no comment."""
    router(place, (S, "239.1.1.1"), (T, "239.1.1.2"))
    text = f"source,group,ttl\n{S},239.1.1.1,5\n,239.1.1.2,\n{FAR},239.1.1.3,7\n"
    status, flows = drafted(place, "--ttl", "16", text=text)
    assert (status, pairs(place)) == (1, [(S, "239.1.1.1", 5), (T, "239.1.1.2", 16)]), place.said
    assert len(flows) == 3 and "its source is on no LAN of these routers" in flows[2], flows


def assert_named(place, wrong):
    """Holds what was said to the reasons of these lines, of which the first is line 3, and to nothing hidden."""
    named = [f"mcaudit-draft: list: line {line}: {reason}" for line, (_, reason) in enumerate(wrong, 3)]
    assert [it for it in place.said.splitlines() if ": list: " in it] == named, place.said
    assert "hidden" not in place.said, place.said


@case
def lines_that_are_wrong(place):
    """Each is named with its number and reason, and nothing of it is printed or written; the others are taken."""
    router(place)
    group, ttl = "its group is none of 224.0.1.0 to 239.255.255.255", "its ttl is none of 1 to 255"
    source = "its source is not a host's address"
    wrong = [(f"{S},239.1.1,5,x", group), (f"{S},224.0.0.5,5,x", group), (f"{S},10.0.0.9,5,x", group),
             (f"{S},,5,x", group), (f"{S},240.0.0.1,5,x", group), ("239.9.9.9,239.1.1.1,5,x", source),
             ("127.0.0.1,239.1.1.1,5,x", source),
             ("0.0.0.0,239.1.1.1,5,x", source), ("hidden.example,239.1.1.1,5,x", source), ("::1,239.1.1.1,5,x", source),
             (f"{S},239.1.1.2,0,x", ttl), (f"{S},239.1.1.2,256,x", ttl), (f"{S},239.1.1.2,05,x", ttl),
             (f"{S},239.1.1.2,-1,x", ttl), (f"{S},239.1.1.2,\u0665,x", ttl),
             (f"{S},239.1.1.2,5,hidden, title", "it has 5 fields, and the first line 4"),
             (f"{S},239.1.1.2,5", "it has 3 fields, and the first line 4"),
             (f"{S},239.1.1.1,5,again", f"{S} 239.1.1.1 is there already, on line 2"),
             (f"{S},239.1.1.1,6,again", f"{S} 239.1.1.1 is there already, on line 2, with another ttl")]
    lines = ["source,group,ttl,name", f"{S},239.1.1.1,5,title", *(line for line, _ in wrong), f"{T},239.1.1.1,6,title"]
    status, _ = drafted(place, text="\n".join(lines))
    assert (status, pairs(place)) == (1, [(S, "239.1.1.1", 5), (T, "239.1.1.1", 6)]), place.said
    assert_named(place, wrong)


@case
def urls_that_are_wrong(place):
    """So are those of M3U; no name is looked up."""
    router(place)
    group, place_of = "its group is none of 224.0.1.0 to 239.255.255.255", "it is not [SOURCE@]GROUP[:PORT]"
    source, again = "its source is not a host's address", "? 239.1.1.2 is there already, on line 2"
    wrong = [("udp://239.1.1.1:65536", place_of), ("udp://239.1.1.1:1?pkt_size=1316", place_of), ("udp://", place_of),
             ("rtp://[ff3e::1]:5000", place_of), ("udp://@:5000", place_of), ("udp://hidden.example:1234", group),
             (f"udp://{S}@10.0.0.9:5000", group), ("udp://hidden@239.1.1.2", source), ("udp://a:b@239.1.1.2", source),
             ("rtp://@239.1.1.2:5", again)]
    lines = [f"udp://{S}@239.1.1.1", "udp://239.1.1.2", *(line for line, _ in wrong)]
    status, _ = drafted(place, "--ttl", "5", text="\n".join(lines))
    assert (status, pairs(place)) == (1, [(S, "239.1.1.1", 5)]), place.said
    assert_named(place, wrong)


@case
def lines_that_are_wrong_without_number(place):
    """They are named as long as they are few."""
    router(place)
    assert drafted(place, text="source,group\n" + "x,y\n" * 3000)[0] == 1
    assert place.said.count("list: line ") == 20 and "list: and 2980 more such lines" in place.said, place.said[:999]


@case
def titles_that_would_be_more(place):
    """They come neither into the topology nor to the terminal."""
    router(place)
    title = '\x1b[2J"]\nflow = [{source = \'10.0.0.9\', group = \'239.9.9.9\', ttl = 1}]\n#'
    quoted = title.replace('"', '""')
    line = f'{{source = "{S}", group = "239.1.1.1", ttl = 5}}, # rate not known; ttl as the list of flows has it'
    assert drafted(place, text=f'name,source,group,ttl\n"{quoted}",{S},239.1.1.1,5\n') == (0, [line]), place.said
    status, flows = anew(place, "--ttl", "5", text=f"#EXTM3U\n#EXTINF:-1,{title}\nudp://{S}@239.1.1.1\n")
    assert status == 0 and len(flows) == 1 and "\x1b" not in place.said and "239.9.9.9" not in place.said, place.said


@case
def files_that_are_no_list(place):
    """They are refused before any router is asked."""
    router(place)
    os.mkfifo(place.at("pipe"))
    os.mkdir(place.at("folder"))
    for path, reason in (("pipe", "a regular file"), ("folder", "a regular file"), ("/dev/zero", "a regular file"),
                         ("nowhere", "No such file")):
        assert place.run("draft", "--flows", path, "site", "r1=!env R=r1") == 3 and reason in place.said, place.said
    row = f"{S},239.1.1.1,5\n".encode()
    for data, reason in ((b"", "neither"), (b"#EXTM3U\nhttp://192.0.2.1/x\n", "neither"), (b"a,b\n1,2\n", "neither"),
                         (b"source,group\n", "neither"), (b"source;group\n10.0.0.5;239.1.1.1\n", "neither"),
                         (b"source,group,ttl\n\xff" + row, "it is not UTF-8"),
                         ("source,group\n".encode("utf-16"), "it is not UTF-8"),
                         (b"source,group,ttl\n" + row + b'"x"y,239.1.1.2,5\n', "line 3: its fields and quotes"),
                         (b'source,group,ttl\n"' + row, "line 2: its fields and quotes"),
                         (b"source,group,group\n", "the column `group` is there twice"),
                         (b"Source,source,group\n", "the column `source` is there twice"),
                         (b"source,group,ttl\n" + row + b"," * (1 << 20), "more than 1048576 bytes")):
        place.write("list", data)
        assert place.run("draft", "--flows", "list", "site", "r1=!env R=r1") == 3, (data[:99], place.said)
        assert reason in place.said and "r1: vifs" not in place.said, (data[:99], place.said)
    assert not os.path.exists(place.at("site"))


@case
def flows_at_the_limit(place):
    """4,096 are taken, and not one more, before any that no list has."""
    router(place, (T, "239.9.9.9"))
    lines = [f"{S},239.1.{it >> 8}.{it & 255},5\n" for it in range(4097)]
    assert drafted(place, text="source,group,ttl\n" + "".join(lines))[0] == 3 and "more than 4096 flows" in place.said
    status, flows = drafted(place, "--ttl", "9", text="source,group,ttl\n" + "".join(lines[:4096]))
    assert status == 1 and len(pairs(place)) == 4096 and len(flows) == 4097, place.said
    why = "there are more than 4096 flows"
    assert flows[-1].startswith(f'# {{source = "{T}", group = "239.9.9.9", ttl = ?}}, # not judged: {why}'), flows[-1]


@case
def update_with_a_list(place):
    """What it has beyond the topology that is there is printed, and nothing is changed."""
    router(place)
    assert drafted(place, text=f"source,group,ttl\n{S},239.1.1.1,5\n")[0] == 0
    before = place.read("site/topology")
    assert drafted(place, "--update", text=f"source,group,ttl\n{S},239.1.1.1,5\n")[0] == 0, place.said
    status, _ = drafted(place, "--update", text=f"source,group,ttl\n{S},239.1.1.1,6\n{T},239.1.1.2,7\n")
    assert status == 1 and place.read("site/topology") == before, place.said
    for line in (f'- flow {{source = "{S}", group = "239.1.1.1", ttl = 5}}',
                 f'+ flow {{source = "{S}", group = "239.1.1.1", ttl = 6}}',
                 f'+ flow {{source = "{T}", group = "239.1.1.2", ttl = 7}}', f'+ source {T} on "10.0.0.0-24"'):
        assert line in place.said, place.said


# Services, loopbacks and routers without tcpdump

@case
def services_of_hosts(place):
    """What is sent to their groups is a comment with the reason, and no question; PTP is none of them."""
    router(place, (S, "239.255.255.250"), (T, "239.255.255.250"), (S, "224.0.1.187"), (S, "224.0.1.129"),
           ("0.0.0.0", "239.255.255.253"), (FAR, "224.0.1.1"))
    status, flows = drafted(place, "--ttl", "4")
    assert (status, pairs(place)) == (0, [(S, "224.0.1.129", 4)]), place.said
    named = ((FAR, "224.0.1.1", "NTP"), (S, "224.0.1.187", "CoAP"), (S, "239.255.255.250", "SSDP"),
             (T, "239.255.255.250", "SSDP"))
    assert [it.rpartition(";")[0] for it in flows[1:]] == [
        f'# {{source = "{source}", group = "{group}", ttl = ?}}, # left out: {name}, a service of hosts'
        for source, group, name in named], flows
    assert "left out: 239.255.255.250, SSDP, a service of hosts: sources 2" in place.said, place.said
    assert place.topology["source"] == [{"address": S, "lan": "10.0.0.0-24"}], place.topology
    assert "missing" not in place.said, place.said


@case
def services_that_are_given(place):
    """A list or a topology that has the group makes it one like others."""
    router(place, (S, "239.255.255.250"))
    text = f"source,group,ttl\n{T},239.255.255.250,3\n"
    status, _ = drafted(place, "--ttl", "4", text=text)
    assert (status, pairs(place)) == (0, [(S, "239.255.255.250", 4), (T, "239.255.255.250", 3)]), place.said
    status, _ = drafted(place, "--ttl", "4", "--update")
    assert status == 1 and "left out" not in place.said, place.said
    assert f'- flow {{source = "{T}", group = "239.255.255.250", ttl = 3}}' in place.said, place.said
    assert f'flow {{source = "{S}", group = "239.255.255.250"' not in place.said, place.said


@case
def services_of_hosts_without_number(place):
    """Few of their sources are comments, and how many more there are."""
    router(place, *((f"10.0.0.{it}", "239.255.255.250") for it in range(2, 252)), (S, "239.1.1.1"))
    status, flows = drafted(place, "--ttl", "4")
    assert status == 0 and len(flows) == 22 and "sources 250" in place.said, place.said[:999]
    assert flows[-1] == "# and 230 more sources of 239.255.255.250, left out: SSDP, a service of hosts", flows[-1]


@case
def loopback_of_a_rendezvous_point(place):
    """A /32 on lo, or none, is no question; another lone address is."""
    another = ADDRESSES.replace(": lo ", ": l1 ").replace(" lo\n", " l1\n")
    for addresses, vifs, status in ((ADDRESSES, VIFS + LOOPBACK, 0),
                                    (ADDRESSES.replace("10.255.0.1/32", "127.0.0.2/8"), VIFS + LOOPBACK, 0),
                                    (another, VIFS + LOOPBACK.replace("lo ", "l1 "), 1)):
        router(place, (S, "239.1.1.1"), addresses=addresses, vifs=vifs)
        assert anew(place, "--ttl", "4")[0] == status, place.said
        question = "needs a decision: r1 l1: unnumbered: 10.255.0.1 is a lone address"
        assert (question in place.said) is (status == 1), place.said
        comment = '# {router = "r1", device = "lo", lan = "?"}, # needs a decision: a loopback is on no LAN'
        assert (comment in place.read("site/topology")) is (status == 0), place.read("site/topology")
    router(place, (S, "239.1.1.1"), addresses=ADDRESSES.replace("10.255.0.1/32", "10.255.0.1/24"), vifs=VIFS + LOOPBACK)
    assert anew(place, "--ttl", "4")[0] == 0, place.said
    assert {"router": "r1", "device": "lo", "lan": "10.255.0.0-24"} in place.topology["interface"], place.topology


@case
def router_without_tcpdump(place):
    """What it lacks is said, and that --ttl does without."""
    router(place, (S, "239.1.1.1"))
    few = place.at("few")
    os.mkdir(few)
    for name in ("sh", "timeout", "sed", "sleep"):
        os.symlink(shutil.which(name), os.path.join(few, name))
    way = f"r1=!env R=r1 PATH={place.at('bin')}:{few}"

    place.write("turn", "0")
    place.script("cat", """case $1 in
    /proc/net/ip_mr_cache)
        read -r turn < turn
        echo $((turn + 1)) > turn
        while read -r group source vif packets rest; do
            [ "$group" = Group ] || packets=$((packets + turn))
            echo "$group $source $vif $packets $rest"
        done < r1/ip_mr_cache
        exit ;;
    /proc/net/ip_mr_*) exec /bin/cat "r1/${1##*/}" ;;
esac
exec /bin/cat "$@"
""")
    assert place.run("draft", "site", way) == 1, place.said
    assert ("missing: r1: there is no tcpdump: install it there, or set the TTL of all flows by --ttl"
            in place.said), place.said
    assert "--ttl" in place.read("site/topology").splitlines()[1], place.read("site/topology")


# What hosts ask for

def reports(*messages):
    """Returns the text of a list of reports."""
    return "".join(it.hex() + "\n" for it in messages)


@case
def groups_that_hosts_ask_for(place):
    """Each that no flow answers is a comment: of lists that lie in the site, and of rows of every source."""
    router(place, (S, "239.1.1.1"), (T, "232.1.1.1"), ("0.0.0.0", "239.1.1.9"), ("0.0.0.0", "239.1.1.1"))
    older = p.summed(b"\x16\0\0\0" + p.address("239.1.1.6"))
    place.write("site/igmp-10.0.1.0-24", reports(
        p.report(*(p.record(2, it) for it in ("239.1.1.1", "239.1.1.5", "239.255.255.250", "224.0.0.251"))),
        p.report(p.record(1, "232.1.1.1", T, FAR, "10.0.1.7"), p.record(2, "239.1.1.8", S)), older))
    place.write("site/igmp-hall", reports(p.wants("239.1.1.5"), p.report(p.record(2, "239.1.1.1", S))))
    place.write("site/igmp-bad", "00\n")
    place.write("site/igmp-worse", "zz\n")
    status, flows = drafted(place, "--ttl", "4")
    assert (status, pairs(place)) == (1, [(S, "239.1.1.1", 4), (T, "232.1.1.1", 4)]), place.said
    asked = "# {source = ?, group = "
    assert flows[2:] == [
        f'# {{source = "{FAR}", group = "232.1.1.1"}}, # asked for on 10.0.1.0-24',
        f'{asked}"239.1.1.1"}}, # asked for on hall', f'{asked}"239.1.1.5"}}, # asked for on 10.0.1.0-24 hall',
        f'{asked}"239.1.1.6"}}, # asked for on 10.0.1.0-24', f'{asked}"239.1.1.8"}}, # asked for on 10.0.1.0-24',
        f'{asked}"239.1.1.9"}}, # a (*,G) entry on r1'], flows
    assert f"no flow: {FAR} 232.1.1.1: asked for on 10.0.1.0-24" in place.said, place.said
    assert "no flow: ? 239.1.1.5: asked for on 10.0.1.0-24 hall" in place.said, place.said
    for name in ("bad", "worse"):
        assert f"missing: igmp-{name} is not a valid list of reports: see what mcaudit says of it" in place.said, place.said


@case
def groups_that_hosts_ask_for_beside_a_topology(place):
    """They are told with --update, and change nothing; a flow of the topology answers too."""
    router(place, (S, "239.1.1.1"))
    assert drafted(place, "--ttl", "4", text=f"source,group,ttl\n{T},239.1.1.2,5\n")[0] == 0, place.said
    place.write("site/igmp-10.0.1.0-24", reports(p.wants("239.1.1.2"), p.wants("239.1.1.3"), p.wants("239.1.1.1")))
    status, _ = drafted(place, "--update", "--ttl", "4", text=f"source,group,ttl\n{T},239.1.1.2,5\n")
    assert status == 0 and place.said.count("no flow: ") == 1, place.said
    assert "no flow: ? 239.1.1.3: asked for on 10.0.1.0-24" in place.said, place.said
    assert drafted(place, "--update", "--ttl", "4")[0] == 1 and place.said.count("no flow: ") == 1, place.said


@case
def groups_that_hosts_ask_for_without_number(place):
    """Few are comments, and fewer are told."""
    router(place, (S, "239.1.1.1"))
    records = [p.record(2, f"239.2.{it >> 8}.{it & 255}") for it in range(3000)]
    place.write("site/igmp-hall", reports(*(p.report(*records[at:at + 100]) for at in range(0, 3000, 100))))
    status, flows = drafted(place, "--ttl", "4")
    assert status == 1 and len(flows) == 258 and flows[-1] == "# and 2744 more are asked for", flows[-1]
    assert place.said.count("no flow: ") == 20 and "and 2980 more without a flow" in place.said, place.said[:999]
