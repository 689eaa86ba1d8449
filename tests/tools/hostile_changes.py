"""Tries mcaudit-try: what is judged is one moment of the site and the changes that were given, and nothing else is
read, written or waited for."""
import glob
import json
import os
import shutil
import signal
import time

from place import TOP, case

FAULTY = os.path.join(TOP, "examples", "faults", "duplicate-by-two-routers")
YES = "flow 10.0.0.5 239.1.2.3: fault gone: Duplicate hall\n" \
      "summary flows 1 right 1 wrong 0 unknown 0 unwanted 0 asked 0\nverdict yes\n"
MEND = "r2: remove eth0 10.0.0.5 239.1.2.3 eth1"
SLOW = "import os, time\nutime = os.utime\ndef slowly(*given, **more):\n    time.sleep(0.2)\n" \
       "    utime(*given, **more)\nos.utime = slowly\n"


def faulty(place, name="site"):
    """Makes a folder whose flow has a duplicate on hall."""
    shutil.copytree(FAULTY, place.at(name))


def texts(folder):
    """Returns what the files of a folder have, by name, or for others that they are there."""
    found = {}
    for name in os.listdir(folder):
        path = os.path.join(folder, name)
        found[name] = open(path, "rb").read() if os.path.isfile(path) and os.access(path, os.R_OK) else None
    return found


def while_copied(place, change):
    """Runs a try whose copying is slow, and does something as soon as a file is copied. Returns the status."""
    place.write("slow/sitecustomize.py", SLOW)
    os.makedirs(place.at("tmp"), exist_ok=True)
    place.environment.update(PYTHONPATH=place.at("slow"), TMPDIR=place.at("tmp"))
    with place.begin("try", "site", MEND) as running:
        until = time.monotonic() + 30
        while not glob.glob(place.at("tmp/.mcaudit-try.*/*")) and time.monotonic() < until:
            time.sleep(0.01)
        change()
        place.said = running.communicate(timeout=60)[0].decode()
    assert os.listdir(place.at("tmp")) == [], "the copy is left"
    return running.returncode


# One moment is judged

@case
def plain_site_written_while_it_is_copied(place):
    """There is no answer, of neither moment."""
    faulty(place)
    assert while_copied(place, lambda: place.write("site/cache-r3", texts(FAULTY)["cache-r3"] + b"\n")) == 3, place.said
    assert place.said.endswith("site was written while it was copied: try again\n"), place.said


@case
def file_that_comes_while_it_is_copied(place):
    """There is no answer, as where one goes."""
    faulty(place)
    assert while_copied(place, lambda: place.write("site/igmp-attic", "")) == 3, place.said
    assert "try again" in place.said, place.said
    assert while_copied(place, lambda: os.unlink(place.at("site/igmp-attic"))) == 3, place.said


@case
def link_that_moves_while_it_is_copied(place):
    """The set is judged to which the link led first."""
    faulty(place, "site.sets/a")
    faulty(place, "site.sets/b")
    place.write("site.sets/b/cache-r3", "none\n")
    os.symlink("site.sets/a", place.at("site"))

    def move():
        """Makes the link lead to the other set."""
        os.symlink("site.sets/b", place.at("new"))
        os.replace(place.at("new"), place.at("site"))
    assert (while_copied(place, move), place.said) == (0, YES)


@case
def set_removed_while_it_is_copied(place):
    """There is no answer, and it says why."""
    faulty(place, "site.sets/a")
    os.symlink("site.sets/a", place.at("site"))
    assert while_copied(place, lambda: shutil.rmtree(place.at("site.sets/a"))) == 3, place.said
    assert "the set was removed meanwhile" in place.said, place.said


# Nothing else is read or waited for

@case
def files_that_nobody_lists(place):
    """A pipe, a folder, a file that is too long and a link that leads nowhere are not read, and not kept."""
    faulty(place)
    os.mkfifo(place.at("site/igmp-attic"))
    os.mkdir(place.at("site/cache-r9"))
    os.symlink("nowhere", place.at("site/vif-r9"))
    with open(place.at("site/igmp-long"), "wb") as file:
        file.truncate(1 << 40)
    place.write("site/facts-r1", "@end\n")
    before = texts(FAULTY)
    assert (place.run("try", "site", MEND, "--keep", "kept"), place.said) == (0, YES)
    assert sorted(texts(place.at("kept"))) == sorted(before)
    assert {it for it in before if texts(place.at("kept"))[it] != before[it]} == {"cache-r2"}


@case
def listed_file_that_is_none(place):
    """mcaudit says what it is, and the tool waits for nothing."""
    for make, why in ((os.mkfifo, "not a regular file"), (os.mkdir, "not a regular file"),
                      (lambda path: os.symlink("nowhere", path), "no such file")):
        faulty(place)
        os.unlink(place.at("site/cache-r3"))
        make(place.at("site/cache-r3"))
        assert place.run("try", "site", MEND) == 3 and f"cache-r3: {why}" in place.said, place.said
        shutil.rmtree(place.at("site"))


@case
def changes_that_are_no_file(place):
    """A pipe is not waited for, and neither length nor number is without bounds."""
    faulty(place)
    os.mkfifo(place.at("pipe"))
    assert place.run("try", "site", "-f", "pipe") == 3 and "a regular file" in place.said, place.said
    assert place.run("try", "site", "--conf", "r2=pipe") == 3 and "a regular file" in place.said, place.said
    place.write("long", "#" * (1 << 20) + "\n")
    assert place.run("try", "site", "-f", "long") == 3 and "1048576" in place.said, place.said
    assert place.run("try", "site", "-f", "-", text=b"#" * ((1 << 20) + 1)) == 3 and "1048576" in place.said, place.said
    place.write("many", "r2: down\n" * 65537)
    assert place.run("try", "site", "-f", "many") == 5 and "65536" in place.said, place.said


@case
def includes_that_lead_elsewhere(place):
    """What lies outside of the root is never read, by whatever path, and a folder or a pipe is no file."""
    faulty(place)
    place.write("secret", "phyint eth0 enable\n")
    place.write("root/etc/x.conf", "\n")
    os.symlink("..", place.at("root/up"))
    os.mkfifo(place.at("root/pipe"))
    for pattern, why in (("/../secret", "leads out of root"), ("/up/secret", "leads out of root"),
                         ("/up/*", "leads out of root"), ("/etc", "a regular file"), ("/pipe", "a regular file")):
        place.write("r2.conf", f"include {pattern}\n")
        status = place.run("try", "site", "--conf", "r2=r2.conf", "--conf-root", "root")
        assert status == 3 and why in place.said and "phyint" not in place.said, (pattern, place.said)


# Nothing else is written

@case
def kept_folder_that_leads_into_the_site(place):
    """By whatever link: the site and its sets stay as they are."""
    faulty(place, "site.sets/a")
    os.symlink("site.sets/a", place.at("site"))
    os.symlink("site.sets/a", place.at("other"))
    for path in ("site/kept", "other/kept", "site.sets/a/kept", "site/../a/kept", "site.sets/a/./kept/"):
        assert place.run("try", "site", MEND, "--keep", path) == 3 and "never written" in place.said, place.said
    os.symlink("nowhere", place.at("link"))
    assert place.run("try", "site", MEND, "--keep", "link") == 3 and "is there already" in place.said, place.said
    assert texts(place.at("site")) == texts(FAULTY) and not os.path.lexists(place.at("nowhere"))


@case
def kept_folder_has_the_times(place):
    """Files that no change has written keep their times and where they come from; a written one has a new time."""
    faulty(place)
    names = [it for it in os.listdir(FAULTY) if it != "topology"]
    files = {it: {"by": "collect", "of": "r1", "time": 1700000000} for it in names}
    place.write("site/collected.json", json.dumps({"files": files, "version": 2}) + "\n")
    for name in names:
        os.utime(place.at("site", name), (1700000000, 1700000000))
    assert place.run("try", "site", MEND, "--keep", "kept") == 0, place.said
    assert place.read("kept/collected.json") == place.read("site/collected.json")
    written = {it for it in names if os.stat(place.at("kept", it)).st_mtime != 1700000000}
    assert written == {"cache-r2"}, written


@case
def ended_while_it_audits(place):
    """Nothing is left of the copy, and nothing is kept."""
    faulty(place)
    os.mkdir(place.at("tmp"))
    place.environment["TMPDIR"] = place.at("tmp")
    place.script("mcaudit", "echo > begun; exec sleep 60")
    for words in ((), ("--keep", "tmp/kept")):
        with place.begin("try", "site", MEND, *words) as running:
            while not os.path.exists(place.at("begun")):
                time.sleep(0.01)
            running.send_signal(signal.SIGTERM)
            assert running.wait(20) == 3
        os.unlink(place.at("begun"))
        assert os.listdir(place.at("tmp")) == [], "something is left"


# No yes is printed but that of the changed copy

@case
def answers_that_are_forged_or_cut(place):
    """A verdict that isn't the status's, one of another topology, and what is cut are never printed."""
    faulty(place)
    flow = {"copies": 1, "flow": 1, "group": "239.1.2.3", "right": True, "source": "10.0.0.5", "tree": 0, "ttl": 8,
            "wanted": []}
    domain = {"interfaces": [], "lans": ["studio"], "routers": [{"name": "r2", "order": "little"}], "sources": []}
    whole = [{"domain": domain, "format": 2, "words": []}, {"entries": [], "tree": 0}, flow,
             {"summary": {"flows": 1, "right": 1, "unknown": 0, "unwanted": 0, "wrong": 0}}, {"verdict": "yes"}]
    for lines, status in ((whole, 1), (whole[:-1], 0), (whole[1:], 0), ([*whole, whole[-1]], 0), (whole, 7),
                          (whole, 2)):
        place.write("answer", "".join(json.dumps(it) + "\n" for it in lines))
        place.script("mcaudit", f"cat answer; exit {status}")
        found = place.run("try", "site", "r2: threshold eth1 3")
        assert found in (2, 3) and "verdict yes" not in place.said, (lines, status, place.said)
    place.write("answer", "".join(json.dumps(it) + "\n" for it in whole))
    place.write("other", place.read("answer").replace('"ttl": 8', '"ttl": 9'))
    place.script("mcaudit", "if [ -f second ]; then cat other; else echo > second; cat answer; fi")
    assert place.run("try", "site", "r2: threshold eth1 3") == 2 and "verdict" not in place.said, place.said


@case
def devices_of_any_bytes(place):
    """A device is found by its bytes, of whatever alphabet, also where it looks like a comment."""
    faulty(place)
    vifs = place.read("site/vif-r2")
    for device in (b"wan-\xe9", "wan-é".encode(), b"#1", b'"x"', b"a\xa0b", b"\x1b[2J"):
        place.write("site/vif-r2", vifs.encode().replace(b"eth1 ", device.ljust(4) + b" "))
        place.write("site/topology", texts(FAULTY)["topology"])
        place.write("changes", b"r2: remove eth0 10.0.0.5 239.1.2.3 " + device + b"\n")
        assert place.run("try", "site", "-f", "changes", "--keep", "kept") == 0, (device, place.said)
        assert texts(place.at("kept"))["cache-r2"].endswith(b"0        0        0\n"), (device, "the entry is gone")
        assert "\x1b" not in place.said, place.said
        shutil.rmtree(place.at("kept"))


@case
def many_vifs(place):
    """The last of 32 is one as the first; a 33rd that a file asks for isn't made."""
    faulty(place)
    lines = "".join(f"{number:2} x{number:<9} {0:8} {0:7}  {0:8} {0:7} 00008 00000000 00000000\n"
                    for number in range(2, 31))
    vifs = texts(FAULTY)["vif-r2"].decode()
    place.write("site/vif-r2", vifs.replace(" 1 eth1", "31 eth1") + lines)
    place.write("site/cache-r2", texts(FAULTY)["cache-r2"].replace(b" 1:1", b"31:1"))
    assert (place.run("try", "site", MEND, "--keep", "kept"), place.said) == (0, YES)
    words = "r2: remove eth0 10.0.0.5 239.1.2.3 eth1", "r2: add eth0 10.0.0.5 239.1.2.3 eth1 ttl 1"
    assert place.run("try", "site", *words, "--keep", "again") == 1 and "nothing changes" in place.said, place.said
    assert texts(place.at("again")) == texts(place.at("site"))
    place.write("r2.conf", "".join(f"phyint x{number} enable\n" for number in range(2, 31)) +
                "phyint eth0 enable\nphyint eth1 enable\nphyint eth9 enable\n")
    more = "".join(f'{{router = "r2", device = "{it}", lan = "core"}}, ' for it in ("eth8", "eth9"))
    place.write("site/topology", place.read("site/topology").replace("interface = [", f"interface = [\n{more}"))
    assert place.run("try", "site", "--conf", "r2=r2.conf", "--keep", "conf") == 0, place.said
    assert place.read("conf/vif-r2").count("\n") == 33
    place.write("r2.conf", place.read("r2.conf") + "phyint eth8 enable\n")
    assert place.run("try", "site", "--conf", "r2=r2.conf") == 1 and "at most 32 vifs" in place.said, place.said
    assert place.said.endswith("not audited whole\n"), place.said
