"""Tries lists of reports: each is the LAN's, whole, and of one query, whatever hosts and captures do."""
import json
import os
import subprocess
import sys
import time

import packets as p
from place import GOOD, LISTED, TOOLS, case, framed


# A list of reports is the LAN's, whole, and of one query

@case
def list_of_each_kind_of_capture(place):
    """pcap in both orders, pcapng, IP alone and both cooked kinds have the same list."""
    cooked = [(at, p.cooked(it, hardware=512)) for at, it in GOOD]
    cooked_2 = [(at, p.cooked_2(it, 3)) for at, it in GOOD]
    for name, file in (("little", p.pcap(framed(*GOOD))), ("big", p.pcap(framed(*GOOD), order=">")),
                       ("pcapng", p.pcapng(framed(*GOOD))), ("raw", p.pcap(GOOD, 101)), ("old raw", p.pcap(GOOD, 12)),
                       ("cooked", p.pcap(cooked, 113)), ("cooked 2", p.pcap(cooked_2, 276))):
        assert place.captured((), file=file) == (0, LISTED), (name, place.said)


@case
def query_that_a_host_forged(place):
    """A query that other hosts don't hear, or that none of the LAN sent, doesn't count; the true one does."""
    for forged in (p.frame(p.asked("127.0.0.1", 1, ttl=64)), p.frame(p.asked("10.0.1.66", ttl=2)),
                   p.frame(p.asked("10.0.1.66", 5)), p.frame(p.asked("10.0.1.66"), mac=bytes([2, 0, 0, 0, 0, 9])),
                   p.frame(p.asked("10.0.1.66", target="224.0.0.2")), p.frame(p.asked("0.0.0.0")),
                   p.frame(p.asked("192.0.2.1")), p.frame(p.asked("10.0.1.66", 255))):
        frames = [(-30, forged), (-29.5, p.frame(p.wanted("10.0.1.66", "239.9.9.9"))), *framed(*GOOD)]
        status, lines = place.captured(frames, "--network", "10.0.1.0/24")
        assert (status, lines) == (0, LISTED) and "didn't count" in place.said, (lines, place.said)


@case
def query_that_an_option_lets_count(place):
    """--querier lets one of 0.0.0.0 count, and --network is where the others come from."""
    frames = framed((0, p.asked("0.0.0.0")), *GOOD[1:])
    assert place.captured(frames)[0] == 1 and "--querier 0.0.0.0" in place.said
    assert place.captured(frames, "--querier", "0.0.0.0") == (0, LISTED)
    os.unlink(place.at("list"))
    assert place.captured(framed(*GOOD), "--network", "10.9.0.0/16") == (1, None) and "--querier 10.0.1.1" in place.said


@case
def second_query_spoils_the_list(place):
    """A General Query in the window, of whomever, but for one of 0.0.0.0 or for one group."""
    for asked, status in ((p.asked("10.0.1.2"), 1), (p.asked(), 1), (p.asked("0.0.0.0"), 0),
                          (p.packet("10.0.1.1", "239.1.1.1", p.summed(b"\x11\x0a\0\0" + p.address("239.1.1.1"))), 0)):
        found = place.captured(framed(GOOD[0], (2, asked), *GOOD[1:]))
        assert found[0] == status, place.said


@case
def clock_that_was_set(place):
    """Forward or back among the answers: there is no list."""
    for step in (3600, -3600):
        rest = ((step + 2, p.wanted("10.0.1.6", "239.2.2.2")), (step + 20, p.later()))
        assert place.captured(framed(*GOOD[:2], *rest)) == (1, None), place.said
        assert place.reports("--text", text=p.text((*GOOD[:2], *rest))) == (1, None), place.said


@case
def frames_of_other_vlans(place):
    """They never count; those that have a priority alone do."""
    frames = [(-5, p.frame(p.asked("10.0.1.9", 10), vlan=20)),
              (-4.5, p.frame(p.wanted("10.0.1.8", "239.9.9.9"), vlan=20)),
              *framed(*GOOD[:2]), (2, p.frame(p.wanted("10.0.1.6", "239.2.2.2"), vlan=0xE000)), *framed(GOOD[2])]
    assert place.captured(frames) == (0, [*LISTED, p.wants("239.2.2.2").hex()]), place.said


@case
def capture_of_several_interfaces(place):
    """One of `any` is refused, and of the second kind the interface has to be named."""
    assert place.captured((), file=p.pcap([(at, p.cooked(it)) for at, it in GOOD], 113))[0] == 3 and "any" in place.said
    other = (-5, p.cooked_2(p.asked("10.0.77.1", 10), 4)), (-4, p.cooked_2(p.wanted("10.0.77.5", "239.7.7.7"), 4))
    file = p.pcap([*other, *((at, p.cooked_2(it, 3)) for at, it in GOOD)], 276)
    assert place.captured((), file=file)[0] == 3 and "--interface" in place.said
    assert place.captured((), "--interface", "3", file=file) == (0, LISTED)


@case
def capture_of_any_by_its_name(place):
    """pcapng names its interfaces: one of `any` is refused whatever its packets are of, but not one beside it."""
    tunnels = [(at, p.cooked(it, hardware=768)) for at, it in GOOD]
    for name in (b"any", b"any\0"):
        status, lines = place.captured((), file=p.pcapng(tunnels, 113, (name,)))
        assert (status, lines) == (3, None) and "of all interfaces (any)" in place.said, (name, place.said)
    assert place.captured((), file=p.pcapng(tunnels, 113, (b"l1", b"any"), 1))[0] == 3, place.said
    for name in (b"", b"l1", b"anyone"):
        assert place.captured((), file=p.pcapng(tunnels, 113, (name,))) == (0, LISTED), (name, place.said)
        os.unlink(place.at("list"))
    beside = p.pcapng(tunnels, 113, (b"l1", b"any"))
    assert place.captured((), "--interface", "0", file=beside) == (0, LISTED), place.said


@case
def packets_that_receivers_ignore(place):
    """They are left aside, as long as they are few, and their senders are named."""
    bad = p.packet("10.0.1.66", p.ROUTERS, b"\x22\0\x12\x34\0\0\0\0")
    assert place.captured(framed(*GOOD[:2], (2, bad), GOOD[2])) == (0, LISTED) and "10.0.1.66" in place.said
    many = [(2 + turn / 10, bad) for turn in range(9)]
    senders = [(3, p.packet(f"10.0.1.{it}", p.ROUTERS, b"\x22")) for it in (66, 67, 68)]
    for some in (many, senders):
        os.path.exists(place.at("list")) and os.unlink(place.at("list"))
        assert place.captured(framed(*GOOD[:2], *some, GOOD[2])) == (1, None), place.said


def bad_of(*hosts):
    """Returns packets that receivers ignore, of these hosts: too short, or with a wrong sum of the message or the
    header."""
    kinds = (b"\x22", b"\x22\0\x12\x34\0\0\0\0", None)
    made = [(host, kinds[turn % 3]) for turn, host in enumerate(hosts)]
    return [(2 + turn / 10, p.with_a_bad_header(p.wanted(host, "239.6.6.6")) if message is None
             else p.packet(host, p.ROUTERS, message)) for turn, (host, message) in enumerate(made)]


@case
def ignored_packets_at_their_limits(place):
    """8 of 2 senders are left aside, and not 9, nor those of 3 senders; before and after the answers none counts."""
    one, two, three = "10.0.1.66", "10.0.1.67", "10.0.1.68"
    outside = [(-1 - turn / 10, it) for turn, (_, it) in enumerate(bad_of(*[three] * 20))][::-1]
    for hosts, expected in (([one] * 8, (0, LISTED)), ([one, two] * 4, (0, LISTED)), ([one] * 9, (1, None)),
                            ([one, two] * 4 + [one], (1, None)), ([one, two, three], (1, None))):
        for gather in (lambda some: place.captured(framed(*some)),
                       lambda some: place.reports("--text", text=p.text(some))):
            os.path.exists(place.at("list")) and os.unlink(place.at("list"))
            found = gather((*outside, *GOOD[:2], *bad_of(*hosts), GOOD[2]))
            assert found == expected, (hosts, found, place.said)
            for host in set(hosts) if found[0] == 0 else ():
                assert f"ignored of {host}, too short or with a wrong checksum: {hosts.count(host)}" in place.said


@case
def list_marked_with_who_sent_nothing_whole(place):
    """collected.json names the senders of whom only such came that receivers ignore, and no others."""
    place.site()
    frames = framed(*GOOD[:2], *bad_of("10.0.1.66", "10.0.1.5"), GOOD[2])
    place.write("l1.pcap", p.pcap(frames))
    for options, unchecked in ((["--network", "10.0.1.0/24"], ["sender 10.0.1.66"]),
                               ([], ["sender 10.0.1.66", "network"])):
        assert place.run("reports", "-o", "site/igmp-l1", "--capture", "l1.pcap", *options) == 0, place.said
        assert json.loads(place.read("site/collected.json"))["files"]["igmp-l1"]["unchecked"] == unchecked
    assert place.said.count("and nothing else of it came") == 1, place.said
    text = p.text((*GOOD[:2], *bad_of("10.0.1.66"), GOOD[2]))
    assert place.run("reports", "-o", "site/igmp-l1", "--text", text=text) == 0, place.said
    assert set(json.loads(place.read("site/collected.json"))["files"]["igmp-l1"]["unchecked"]) == {
        "sender 10.0.1.66", "network", "link"}


@case
def live_list_marked_with_who_sent_nothing_whole(place):
    """So are those of an interface, and of all LANs, whose networks are known."""
    place.site()
    place.script("ip", 'echo "    inet 10.0.1.9/24 scope global l1"')
    place.write("window", p.pcap(framed((0, p.asked(tenths=10)), *GOOD[1:2], *bad_of("10.0.1.66"))))
    place.script("tcpdump", 'echo "listening on l1" >&2; trap "echo 3 packets captured >&2; exit 0" TERM; cat window\n'
                 "while :; do sleep .1; done")
    for words in (["-o", "site/igmp-l1", "l1"], ["--listen", "0", "--all", "site", "r1=!env", "r2=!env"]):
        assert place.run("reports", "--wait", "9", *words) == 0, place.said
        found = json.loads(place.read("site/collected.json"))["files"]["igmp-l1"]
        assert found["unchecked"] == ["sender 10.0.1.66"] and "nothing else of it came" in place.said, place.said


@case
def query_with_a_header_that_hosts_drop(place):
    """It counts for nobody, and doesn't spoil what another one asked for."""
    forged = p.with_a_bad_header(p.asked("10.0.1.66"))
    assert place.captured(framed((0, forged), (1, p.wanted("10.0.1.66", "239.9.9.9")), (13, p.later()))) == (1, None)
    frames = framed((-30, forged), (-29, p.wanted("10.0.1.66", "239.9.9.9")), *GOOD[:2], (2, forged), GOOD[2])
    assert place.captured(frames) == (0, LISTED), place.said


@case
def lists_that_mcaudit_refuses(place):
    """Never with status 0: a record that doesn't end, a change, too many messages."""
    place.write("list", "kept\n")
    for message in (p.report(p.record(2, "239.1.1.1"), count=5), p.report(p.record(3, "239.1.1.1"))):
        found = place.captured(framed(GOOD[0], (1, p.packet("10.0.1.6", p.ROUTERS, message)), GOOD[2]))
        assert found == (2, ["kept"]) and "10.0.1.6" in place.said, place.said
    many = [(1 + it / 1e5, p.wanted("10.0.1.6", f"239.1.{it >> 8 & 255}.{it & 255}")) for it in range(65537)]
    assert place.captured(framed(GOOD[0], *many, GOOD[2])) == (2, ["kept"])


@case
def capture_cut_anywhere(place):
    """A cut capture or text has no list, or the whole one."""
    file, text = p.pcap(framed(*GOOD)), p.text(GOOD)
    for at in range(0, len(file), 11):
        status, lines = place.captured((), file=file[:at])
        assert status in (1, 3) and lines is None, (at, place.said)
    for at in range(0, len(text), 23):
        status, lines = place.reports("--text", text=text[:at])
        assert (status, lines) in ((1, None), (3, None), (0, LISTED)), (at, place.said)


@case
def windows_in_a_row(place):
    """The list is the last one's, and what the earlier one had beyond it is named."""
    twice = [*GOOD[:2], (1.5, p.wanted("10.0.1.7", "239.7.7.7")), (20, p.asked()), (21, GOOD[1][1]), (40, p.later())]
    assert place.captured(framed(*twice), "--queries", "2") == (0, LISTED)
    assert "10.0.1.7 asked for 239.7.7.7" in place.said, place.said


@case
def flood_without_a_query(place):
    """It keeps nobody longer than --wait says."""
    place.write("flood", p.pcap([]))
    place.write("more", p.pcap(framed(*[(0, p.wanted("10.0.1.66", "239.1.1.1"))] * 2000))[24:])
    place.script("tcpdump", 'echo "listening on x" >&2; cat flood; while :; do cat more; done')
    begun = time.monotonic()
    assert place.reports("--wait", "3", "eth0")[0] in (1, 3) and time.monotonic() - begun < 12, place.said


@case
def file_that_is_a_pipe(place):
    """It is refused, and never waited for."""
    os.mkfifo(place.at("l1.pcap"))
    assert place.reports("--capture", "l1.pcap") == (3, None) and "a regular file" in place.said


# What comes late, and what is not read

def live(place, window, end):
    """Makes stand-ins for ip and tcpdump, which gives the capture of the window at once, and does this at its end."""
    place.script("ip", 'echo "    inet 10.0.1.9/24 scope global l1"')
    place.write("window", p.pcap(framed(*window)))
    place.script("tcpdump", f"""echo "listening on l1" >&2; trap '{end}; exit 0' TERM; cat window
while :; do sleep .1; done""")


ASKED = (0, p.asked(tenths=10)), (0.5, p.wanted("10.0.1.5", "239.1.1.1"))


@case
def answers_by_a_slow_way(place):
    """What the capture gave before its closing count is in the list, however late it comes."""
    late = framed((0.9, p.wanted("10.0.1.6", "239.2.2.2")))
    place.write("late", p.pcap(late)[24:])
    live(place, ASKED, "sleep 1; cat late; echo 3 packets captured >&2")
    assert place.reports("--wait", "9", "l1") == (0, [*LISTED, p.wants("239.2.2.2").hex()]), place.said


@case
def packets_that_the_capture_left_unread(place):
    """They may be answers: there is no list where more were received than captured."""
    for received, status in ((2, 0), (3, 1)):
        counts = f"echo 2 packets captured >&2; echo {received} packets received by filter >&2"
        live(place, ASKED, f"{counts}; echo 0 packets dropped by kernel >&2")
        assert place.reports("--wait", "9", "l1")[0] == status, place.said
    assert "1 packets were left unread" in place.said, place.said


@case
def windows_that_come_live(place):
    """The second one's list is given, and what the first one had beyond it is named."""
    place.write("more", p.pcap(framed((60, p.asked(tenths=10)), (60.5, p.wanted("10.0.1.7", "239.7.7.7"))))[24:])
    live(place, ASKED, "echo 4 packets captured >&2")
    place.script("tcpdump", """echo "listening on l1" >&2; trap 'echo 4 packets captured >&2; exit 0' TERM
cat window; sleep 4; cat more; while :; do sleep .1; done""")
    assert place.reports("--wait", "9", "--queries", "2", "l1") == (0, [p.wants("239.7.7.7").hex()]), place.said
    assert "10.0.1.5 asked for 239.1.1.1 in an earlier window" in place.said, place.said


@case
def query_of_either_end_of_a_link(place):
    """Both ends of a link with a peer are of the LAN, and nobody else is."""
    for sender, status in (("10.0.1.1", 0), ("10.0.1.2", 0), ("10.0.1.3", 1)):
        live(place, ((0, p.asked(sender, tenths=10)), ASKED[1]), "echo 2 packets captured >&2")
        place.script("ip", 'echo "    inet 10.0.1.1 peer 10.0.1.2/32 scope global ppp0"')
        assert place.reports("--wait", "4", "ppp0")[0] == status, (sender, place.said)


@case
def words_on_what_hosts_send(place):
    """They are few, however much is sent, and how much more there was is said."""
    leave = p.summed(b"\x17\0\0\0" + p.address("239.1.1.1"))
    many = [(1 + turn / 1e4, p.packet("10.0.1.66", "224.0.0.2", leave)) for turn in range(3000)]
    many += [(3 + turn / 1e4, p.wanted("10.0.1.66", f"232.1.{turn >> 8}.{turn & 255}")) for turn in range(3000)]
    assert place.captured(framed(*GOOD[:2], *many, GOOD[2]))[0] == 0, place.said[:2000]
    assert "and 2980 more leaves" in place.said and "and 2980 more such groups" in place.said, place.said[:9999]
    spoilt = [(5 + turn / 1e4, p.asked("10.0.1.66")) for turn in range(3000)]
    assert place.captured(framed(*GOOD[:2], *spoilt, GOOD[2]))[0] == 1 and len(place.said) < 9999, len(place.said)
    assert "and 2980 more of what spoils the list" in place.said, place.said
    twice = [*many[3000:], (20, p.asked()), (21, GOOD[1][1]), (40, p.later())]
    assert place.captured(framed(*GOOD[:2], *twice), "--queries", "2")[0] == 0
    assert "and 2980 more wants of an earlier window" in place.said and len(place.said) < 9999, place.said[:9999]


@case
def lists_of_many_lans_with_few_files(place):
    """As many are gathered side by side as a domain has, also where few files may be open at first."""
    lans = [f"l{it}" for it in range(90)]
    interfaces = ", ".join(f'{{router = "r1", device = "eth{it}", lan = "{it}"}}' for it in lans)
    place.write("site/topology", f'lans = {json.dumps(lans)}\nrouter = [{{name = "r1"}}]\ninterface = [{interfaces}]\n')
    place.script("limited", f'ulimit -Sn 64; exec {sys.executable} {TOOLS}/mcaudit-reports "$@"')
    live(place, ASKED, "echo 2 packets captured >&2")
    words = [place.at("bin", "limited"), "--all", "site", "--wait", "60", "--listen", "0", "r1=!env"]
    done = subprocess.run(words, cwd=place.folder, env=place.environment, capture_output=True, check=False, timeout=300)
    assert done.returncode == 0 and b"90 of 90 LANs gathered" in done.stdout, done


@case
def capture_of_many_interfaces(place):
    """pcapng may tell of any number of them, and only so many are kept."""
    block = p.pcapng((), names=[b""] * 2)[-20:]
    place.write("l1.pcap", p.pcapng(()) + block * 500000)
    status, most = place.run_measured("reports", "--capture", "l1.pcap")
    assert status == 3 and "interfaces" in place.said and most < 64 << 20, (status, most, place.said)
