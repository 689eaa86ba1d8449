#!/usr/bin/env python3
"""Tries what the guide says under "Upgrading from 0.2": each of its lines is a case, and each case one of its lines.

  python3 tests/tools/upgrading.py [CASE ...]

Commands and the key's line are taken from the guide itself. The last line counts: `N passed, M failed`. The status is 0
if none failed.
"""
import glob
import json
import os
import re
import shlex
import shutil
import signal
import subprocess
import sys
import time

sys.dont_write_bytecode = True
sys.path.insert(0, os.path.dirname(os.path.abspath(__file__)))
import packets as p  # noqa: E402 pylint: disable=wrong-import-position
from hostile_drafts import S, T, drafted, router  # noqa: E402 pylint: disable=wrong-import-position
from hostile_lists import live  # noqa: E402 pylint: disable=wrong-import-position
from place import (GOOD, HERE, LAST, LISTED, NETWORK, PROGRAM, TOOLS, TOP, collected, framed, kept,  # noqa: E402
                   run_cases)

with open(os.path.join(TOP, "docs", "GUIDE.md"), encoding="utf-8") as opened:
    GUIDE = opened.read()
CASES = {}  # by how the line begins


def line(start):
    """Makes a function the case of the line that begins so."""
    def added(function):
        """Adds it."""
        CASES[start] = function
        return function
    return added


def lines_of_the_guide(_):
    """Each is a case, and there are no others."""
    section = GUIDE.split("\n## Upgrading from 0.2\n")[1].split("\n## ")[0]
    found = re.findall(r"^- \*\*(.+?)\*\*", section, re.MULTILINE)
    assert found == list(CASES), (found, list(CASES))


@line("Keys that are restricted on routers stay as they are")
def restricted_keys(place):
    """The guide's key answers collect and the monitor, which say what it doesn't answer."""
    command = re.search(r'^restrict,command="(.*)" ssh-ed25519 ', GUIDE, re.MULTILINE)[1].replace('\\"', '"')
    place.routers("r1", "r2")
    place.site()
    place.script("forced", f"R=$1\nexport R\nexec sh -c {shlex.quote(command)}")
    ways = [f"{it}=!forced {it}" for it in ("r1", "r2")]
    for tool, answer in (("collect", "2 of 2 routers collected"), ("monitor", "verdict yes")):
        assert place.run(tool, "--pause", "0", "site", *ways) == 0, place.said
        assert answer in place.said and "whether these are routers of their own isn't known" in place.said, place.said


@line("Sets, `collected.json`, `audit.json` and `site.monitor.json` of 0.2.0 are read.")
def sets_of_before(place):
    """The monitor goes on from them, and a new set has the new version, and its audit the new format."""
    ways = place.routers("r1", "r2")
    kept(place)
    assert json.loads(place.read("site/collected.json"))["version"] == 1
    assert place.run("monitor", "--pause", "0", "site", *ways) == 0, place.said
    assert "nothing changed since" in place.said and "can't be read" not in place.said, place.said
    assert json.loads(place.read("site/collected.json"))["version"] == 2
    assert [json.loads(place.read(it).split("\n")[0])["format"] for it in (
        f"site.sets/{LAST}/audit.json", "site/audit.json")] == [1, 2]


@line("`mcaudit-collect --facts` brings `facts-NAME`")
def facts_beside(place):
    """In a run of its own, so that a restricted key's tables come as before; and four sets stay, of which the monitor
    says whether packets flow."""
    ways = place.routers("r1", "r2")
    kept(place)
    assert place.run("collect", "--pause", "0", "--facts", "site", *ways) == 0, place.said
    there = {it.partition("-")[0] for it in os.listdir(place.at("site"))}
    assert {"vif", "cache", "address", "route", "facts"} <= there, there
    for _ in range(2):
        time.sleep(1)  # a set counts where it was read in a later second than the one before
        assert place.run("monitor", "--pause", "0", "--keep", "1", "site", *ways) == 0, place.said
        assert "\npackets" in place.said, place.said
    assert len(os.listdir(place.at("site.sets"))) >= 4


@line("`--plugin` warns by default")
def warnings_of_ages(place):
    """Beyond 900 s and 3600 s, unless that is ended by the options; and the crontab gathers each half hour."""
    for tables, lists, words, status in ((860, 3560, (), 0), (920, 3560, (), 1), (860, 3620, (), 1),
                                         (920, 3620, ("--warn-age", "0"), 1), (920, 3620, ("--warn-reports", "0"), 1),
                                         (920, 3620, ("--warn-age", "0", "--warn-reports", "0"), 0)):
        shutil.copytree(NETWORK, place.at("site"))
        files = {}
        for path in glob.glob(place.at("site/*-*")):
            age = lists if os.path.basename(path).startswith("igmp-") else tables
            files[os.path.basename(path)] = {"by": "collect", "of": None, "time": int(time.time()) - age}
            os.utime(path, (time.time() - age,) * 2)
        place.write("site/collected.json", json.dumps({"files": files, "version": 2}))
        assert place.run("monitor", "--plugin", "--no-collect", *words, "site") == status, (tables, lists, place.said)
        shutil.rmtree(place.at("site"))
    minutes = re.search(r"^([0-9]+),([0-9]+) \* \* \* \* .* mcaudit-reports --all ", GUIDE, re.MULTILINE)
    assert int(minutes[2]) - int(minutes[1]) == 30, minutes


@line("Statuses")
def statuses(place):
    """A signal ends with 3, and a packet with a wrong checksum is left aside and named."""
    place.script("tcpdump", "echo begun > begun; exec sleep 60")
    for tool, words in (("collect", ("site", "r1=!tcpdump; :")), ("reports", ("--wait", "60", "lo"))):
        with place.begin(tool, *words) as running:
            place.await_file("begun")
            running.send_signal(signal.SIGTERM)
            said = running.communicate(timeout=20)[0]
            assert running.returncode == 3, (tool, running.returncode, said)
    whole = p.wanted("10.0.1.6", "239.1.1.2")
    wrong = 1.5, p.frame(whole[:26] + bytes([whole[26] ^ 1]) + whole[27:])
    status, lines = place.captured(sorted([*framed(*GOOD), wrong]), "--network", "10.0.1.0/24")
    assert (status, lines) == (0, LISTED) and "10.0.1.6" in place.said, (lines, place.said)


@line("A General Query counts")
def queries_that_count(place):
    """As the options say; and a text shows the link where it was recorded with its headers."""
    asked, *others = GOOD
    for sender, words, status in (("192.0.2.1", (), 0), ("192.0.2.1", ("--network", "10.0.1.0/24"), 1),
                                  ("0.0.0.0", (), 1), ("0.0.0.0", ("--network", "10.0.1.0/24"), 1),
                                  ("0.0.0.0", ("--querier", "0.0.0.0"), 0), ("10.0.1.1", (), 0)):
        for path in glob.glob(place.at("list")):
            os.unlink(path)
        frames = framed((asked[0], p.asked(sender)), *others)
        assert place.captured(frames, *words)[0] == status, (sender, words, place.said)
    assert "`tcpdump -n -tt -e -x`" in GUIDE
    text = p.text(GOOD)
    assert place.reports("--text", text=text)[0] == 0 and "tcpdump -e" in place.said, place.said
    groups = iter([b"01:00:5e:00:00:01", b"01:00:5e:00:00:16", b"01:00:5e:00:00:05"])
    links = re.sub(b" IP x > y: igmp", lambda _: b" 02:00:00:00:00:01 > %s, ethertype IPv4 (0x0800), length 60: x > y"
                   % next(groups), text)
    assert place.reports("--text", text=links) == (0, LISTED) and "tcpdump -e" not in place.said, place.said


@line("`mcaudit-reports --all` follows hosts that join and leave")
def changes_that_are_followed(place):
    """A host that joins is in the list, which --no-fold refuses; one without a change has what came."""
    joined = p.packet("10.0.0.6", p.ROUTERS, p.report(p.record(4, "239.2.2.2")))
    window = (0, p.asked("10.0.0.1", tenths=10)), (0.5, p.wanted("10.0.0.5", "239.1.1.1"))
    words = "reports", "--wait", "9", "--network", "10.0.0.0/8", "--all", "site", "r1=!env", "r2=!env"
    place.site()
    for some, options, status, lines in ((window, (), 0, LISTED), ((*window, (0.6, joined)), ("--no-fold",), 1, None),
                                         ((*window, (0.6, joined)), (), 0, [*LISTED, p.wants("239.2.2.2").hex()])):
        before = place.read("site/igmp-l1")
        live(place, some, "echo 3 packets captured >&2")
        assert place.run(*words, *options) == status, place.said
        after = place.read("site/igmp-l1")
        assert after == before if lines is None else after.splitlines() == lines, (after, place.said)


@line("A draft leaves services out")
def drafts_without_services(place):
    """It has them as comments, and --update prints them where the topology lists a flow of their group."""
    router(place, (S, "239.255.255.250"), (S, "239.1.1.1"))
    assert drafted(place, "--ttl", "4")[0] == 0 and place.topology["flow"] == [
        {"source": S, "group": "239.1.1.1", "ttl": 4}], place.topology
    assert drafted(place, "--ttl", "4", "--update")[0] == 0 and "+ flow" not in place.said, place.said
    text = place.read("site/topology").replace("\nflow = [\n", '\nflow = [\n{source = "%s", group = "239.255.255.250", '
                                               'ttl = 4},\n' % S)
    place.write("site/topology", text)
    router(place, (S, "239.255.255.250"), (T, "239.255.255.250"), (S, "239.1.1.1"))
    assert drafted(place, "--ttl", "4", "--update")[0] == 1, place.said
    assert f'+ flow {{source = "{T}", group = "239.255.255.250", ttl = 4}}' in place.said, place.said


@line("The tools need Python")
def pythons(place):
    """One that is too old is told so, what tools share is found in `share`, a router needs sh and cat, and captures are
    read elsewhere."""
    wanted = "python3 of 3.9 or later"
    for version, words, told in (((3, 8), [], f"mcaudit-monitor: {wanted}"), ((3, 9), [], "Try: mcaudit-monitor"),
                                 ((3, 8), ["--plugin"], f"MCAUDIT UNKNOWN - {wanted}")):
        code = (f"import sys\nsys.version_info = {version}\nfrom mcaudit_tools.start import run\n"
                "sys.exit(run('monitor', '0'))")
        done = subprocess.run([sys.executable, "-c", code, *words], cwd=TOOLS, env=place.environment,
                              capture_output=True, check=False)
        assert done.returncode == (3 if version < (3, 9) else 5), done
        assert told in (done.stdout if words else done.stderr).decode(), done
    subprocess.run(["make", "-s", "-C", TOP, "install", f"PROGRAM={HERE}/commands/mcaudit", "SOURCES=",
                    f"PREFIX={place.at('installed')}"], check=True, stdout=subprocess.DEVNULL)
    assert os.path.isdir(place.at("installed/share/mcaudit/mcaudit_tools"))
    for tool in glob.glob(place.at("installed/bin/mcaudit-*")):
        subprocess.run([tool, "--version"], check=True, stdout=subprocess.DEVNULL)
    command = re.search(r"gather elsewhere: `mcaudit-reports (-o .*? --capture .*?)`", GUIDE)[1]
    place.write("l1.pcap", p.pcap(framed(*GOOD)))
    os.mkdir(place.at("site"))
    assert place.run("reports", *command.split()) == 0, place.said
    assert place.read("site/igmp-l1").splitlines() == LISTED
    shutil.rmtree(place.at("site"))
    place.site()
    place.routers("r1", "r2")
    os.mkdir(place.at("router"))
    for name, path in (("sh", "/bin/sh"), ("cat", place.at("bin", "cat"))):
        os.symlink(path, place.at("router", name))
    place.script("plain", f"R=$1 PATH={place.at('router')} exec /bin/sh")
    collected(place, ["r1=!plain r1; :", "r2=!plain r2; :"])


@line("`audit --strict` ends with 1 too")
def strict_and_wants(place):
    """Where a LAN asks for a group of no flow beside a yes, until a range leaves it aside."""
    place.site()
    place.write("site/igmp-l2", place.read("site/igmp-l2") + p.wants("239.9.9.9").hex() + "\n")
    for words, status in (((), 0), (("--strict",), 1), (("--strict", "--ignore", "239.9.0.0/16"), 0)):
        done = subprocess.run([PROGRAM, "audit", *words, place.at("site")], capture_output=True, text=True, check=False)
        assert done.stdout.endswith("verdict yes\n") and done.returncode == status, (words, done)


@line("What reads the text or the JSON of `audit`")
def readers_of_audits(place):
    """The JSON and the text of a fault have what the changelog names, and not what they had."""
    with open(os.path.join(TOP, "CHANGELOG.md"), encoding="utf-8") as file:
        section = file.read().split("\nUpgrading\n")[1].split("\n## ")[0]
    place.site("r2")
    text = place.audited("--without", "r2", "site") + place.audited("site")
    said = place.audited("--json", "--travel", "site")
    for new, old in (("wrong: Missed l2", "no certificate"), ("unknown: Missed l2", "found ttl"),
                     ("\nexcluded r2\n", "\nwithout r2\n"), ("  excluded: r2", "  left out: "), ("unknown 1", "row (")):
        assert new in text and old not in text, (new, old, text)
    for key in ("name", "order", "unknown", "onto", "wanted", "shown_from", "at_ttl", "behind", "text", "asked"):
        assert f'"{key}":' in said and f"`{key}`" in section, (key, said)
    assert '"format":2' in said and "`format` is 2" in section and '"from_vif":' in place.audited("--json", NETWORK)


if __name__ == "__main__":
    sys.exit(run_cases([lines_of_the_guide, *CASES.values()]))
