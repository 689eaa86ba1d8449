"""Tries how old an answer is, and that what 0.2.0 kept is read."""
import glob
import json
import os
import re
import shutil
import time

from place import LAST, NETWORK, PROGRAM, TOLD, case, collected, kept


# Age is part of an answer

@case
def ages_of_a_site(place):
    """Old tables warn by default, a copy is as old as what it copies, and what was changed by hand as old as that."""
    shutil.copytree(NETWORK, place.at("site"), copy_function=shutil.copyfile)
    assert place.run("monitor", "--plugin", "--no-collect", "site") == 0 and "s old" in place.said, place.said
    for path in glob.glob(place.at("site/*")):
        os.utime(path, (1, 1e9))
    assert place.run("monitor", "--plugin", "--no-collect", "site") == 1, place.said
    assert place.run("monitor", "--plugin", "--no-collect", "--warn-age", "0", "--warn-reports", "0", "site") == 0
    origin = {"by": "collect", "of": "r1", "time": 1000000000}
    place.write("site/collected.json", json.dumps({"version": 2, "files": {it: origin for it in os.listdir(NETWORK)}}))
    shutil.copytree(place.at("site"), place.at("copy"), copy_function=shutil.copyfile)
    assert place.run("monitor", "--plugin", "--no-collect", "copy") == 1 and "tables of r1" in place.said, place.said
    for name in ("vif-r1", "cache-r1"):
        os.utime(place.at("site", name))
    assert place.run("monitor", "--plugin", "--no-collect", "site") == 1
    assert "tables of r2" in place.said and "tables of r1" not in place.said, place.said


def told_of_ages(place, *lost):
    """Makes a site whose tables are 5,000 s old, whose list of l1 is 9,000 s old, and whose list of l2 was decided."""
    shutil.rmtree(place.at("site.sets"), ignore_errors=True)
    os.path.islink(place.at("site")) and os.unlink(place.at("site"))
    place.site(*lost)
    now = int(time.time())
    tables = {f"{kind}-{it}": {"by": "collect", "of": it, "time": now - 5000}
              for kind in ("vif", "cache") for it in ("r1", "r2")}
    lists = {f"igmp-l{it}": {"by": by, "of": None, "time": now - 9000}
             for it, by in enumerate(("capture", "capture", "static"))}
    place.write("site/collected.json", json.dumps({"version": 2, "files": {**tables, **lists}}))
    for name, origin in {**tables, **lists}.items():
        os.utime(place.at("site", name), (0, origin["time"]))


@case
def ages_of_each_answer(place):
    """A yes and a no of the plugin, the text, the page and mcaudit-premises say how old it is, what was decided and
    what was not looked at, in one line, and so do the metrics."""
    def is_told():
        """Whether what was said has the ages, which grow as the case runs, the decided list and what is missing."""
        line = ("tables 8[34] min old; lists of 2 LANs 2 h old; decided, not gathered: l2; packets: not looked at "
                r"\([^)]*\); rp_filter, links, MTU, netfilter, ip mrule: not looked at \(r1 r2: not asked\)")
        return re.search(line, place.said)
    ways = place.routers("r1", "r2")
    for lost, status in (((), 1), (("r2",), 2)):
        told_of_ages(place, *lost)
        assert place.run("monitor", "--plugin", "--no-collect", "site") == status and is_told(), place.said
        assert place.run("premises", "site") == 0 and is_told(), place.said
        place.run("page", "--program", PROGRAM, "site")
        assert is_told() and "When this page was made, at 2" in place.said
        place.run("monitor", "--no-collect", "site")
        assert is_told(), place.said
    told_of_ages(place)
    place.run("monitor", "--pause", "0", "--prometheus", "m.prom", "site", *ways)
    metrics = dict(it.rsplit(" ", 1) for it in place.read("m.prom").splitlines() if it[0] != "#")
    assert 0 <= int(metrics['mcaudit_table_age_seconds{router="r1"}']) < 60
    assert 9000 <= int(metrics['mcaudit_reports_age_seconds{lan="l1"}']) < 9060, metrics
    assert metrics['mcaudit_reports_decided{lan="l2"}'] == "1"
    assert 'mcaudit_reports_age_seconds{lan="l2"}' not in metrics


@case
def list_that_a_person_wrote(place):
    """It isn't counted as gathered, and is named, by all tools that print what a verdict rests on, in JSON too."""
    told_of_ages(place)
    place.write("site/igmp-l1", "")
    line = ("lists of 1 LAN 2 h old; lists of 1 LAN written by hand [0-9]+ s ago: l1; decided, not gathered: l2; "
            "packets: not looked at ")
    for words in (("monitor", "--no-collect"), ("monitor", "--no-collect", "--plugin"), ("premises",),
                  ("premises", "--json"), ("page", "--program", PROGRAM)):
        place.run(*words, "site")
        assert re.search(line, place.said), (words, place.said)
    place.run("premises", "--json", "site")
    ages = json.loads(place.said.splitlines()[0])["ages"]
    assert [re.sub("[0-9]+ s ", "", it) for it in ages[1:3]] == [
        "lists of 1 LAN 2 h old", "lists of 1 LAN written by hand ago: l1"], ages


@case
def plugin_line_of_many_decided_lists(place):
    """It names what it has room for, and never lacks what is wrong or how old that is."""
    told_of_ages(place, "r2")
    found = json.loads(place.read("site/collected.json"))
    names = [f"lan-with-a-long-name-{it}" for it in range(40)]
    for name in names:
        place.write(f"site/igmp-{name}", "")
        found["files"][f"igmp-{name}"] = {"by": "static", "of": None, "time": int(time.time())}
    place.write("site/collected.json", json.dumps(found))
    topology = place.read("site/topology").replace("lans = [", "lans = [" + "".join(f'"{it}", ' for it in names), 1)
    place.write("site/topology", topology)
    assert place.run("monitor", "--plugin", "--no-collect", "site") == 2, place.said
    assert "1 of 1 flows wrong: " in place.said and "lists of 2 LANs 2 h old" in place.said, place.said
    assert "decided, not gathered: l" in place.said and " ..; packets: " in place.said, place.said
    assert len(place.said) < 600, place.said


@case
def times_that_are_none(place):
    """A collected.json of another version warns, and so does one file that is told or written of a later time, beside
    others of its router that are young. One of less than a minute ahead doesn't."""
    def of_r1(name, ahead):
        """Returns the place of a file, and what collected.json says of it."""
        return {name: {"by": "collect", "of": "r1", "time": int(time.time()) + ahead}}
    later, unknown = "tables of r1 are of a later time than now", "how old the files are isn't known"
    for files, version, by_hand, status, said in (
            ({}, 3, None, 1, unknown), ({}, 2, None, 0, "tables 30 s old"), (of_r1("vif-r1", 600), 2, None, 1, later),
            (of_r1("cache-r1", 600), 2, None, 1, later), ({}, 2, "cache-r1", 1, later), ({}, 2, "vif-r1", 1, later),
            (of_r1("vif-r1", 40), 2, None, 0, "OK"),
            ({}, 2, "igmp-l1", 1, "reports of l1 are of a later time than now")):
        shutil.rmtree(place.at("site"), ignore_errors=True)
        shutil.copytree(NETWORK, place.at("site"))
        place.write("site/collected.json", json.dumps({"version": version, "files": files}))
        for name in os.listdir(place.at("site")):
            when = time.time() + (600 if name == by_hand else -30)
            os.utime(place.at("site", name), (when, when))
        assert place.run("monitor", "--plugin", "--no-collect", "site") == status, (files, by_hand, place.said)
        assert re.search(said.replace("30 s", "3[0-9] s"), place.said), (files, by_hand, place.said)
        assert said != later or "tables of r1 of a later time than now" in place.said, (files, by_hand, place.said)


@case
def copy_with_one_time_ahead(place):
    """A copy of a set is as old as what it copies, also where one file of it is told of a later time than now."""
    shutil.copytree(NETWORK, place.at("site"))
    now = int(time.time())
    files = {name: {"by": "collect", "of": name.partition("-")[2], "time": now - 5000}
             for name in os.listdir(place.at("site")) if name.startswith(("vif-", "cache-"))}
    files["igmp-l1"] = {"by": "capture", "of": "r1", "time": now + 600}
    place.write("site/collected.json", json.dumps({"version": 2, "files": files}))
    for name in os.listdir(place.at("site")):
        os.utime(place.at("site", name), (now, now))
    assert place.run("monitor", "--plugin", "--no-collect", "site") == 1, place.said
    assert re.search("tables 8[34] min old", place.said), place.said
    assert "reports of l1 are of a later time than now" in place.said, place.said


@case
def metrics_of_times_that_are_none(place):
    """A list of a later time has the time 0 and the greatest age, so that whoever watches either is warned."""
    ways = place.routers("r1", "r2")
    place.site()
    for name, ahead in (("igmp-l1", 600), ("igmp-l2", -30)):
        os.utime(place.at("site", name), (time.time() + ahead, time.time() + ahead))
    place.run("monitor", "--pause", "0", "--prometheus", "m.prom", "site", *ways)
    metrics = dict(it.rsplit(" ", 1) for it in place.read("m.prom").splitlines() if it[0] != "#")
    read, age = ([int(metrics[f'mcaudit_reports_{kind}_seconds{{lan="{lan}"}}']) for lan in ("l1", "l2")]
                 for kind in ("read_timestamp", "age"))
    assert read[0] == 0 and age[0] > 1 << 30 and read[1] > 1 << 30 and 30 <= age[1] < 60, (read, age)


def told(place, name, age):
    """Makes the example's folder a site of this name, whose tables and lists are told and dated so many seconds old."""
    shutil.copytree(NETWORK, place.at(name))
    now = int(time.time())
    files = {it: {"by": "collect", "of": None, "time": now - age} for it in os.listdir(NETWORK) if "-" in it}
    place.write(f"{name}/collected.json", json.dumps({"version": 2, "files": files}))
    for it in files:
        os.utime(place.at(name, it), (now - age, now - age))


@case
def older_list_that_is_put_in_the_place_of_a_new_one(place):
    """It is as old as it is, also where whoever puts it there keeps its time."""
    told(place, "site", 100)
    assert place.run("monitor", "--plugin", "--no-collect", "site") == 0, place.said
    for name, what in (("igmp-l1", "reports of l1 are"), ("cache-r2", "tables of r2 are")):
        os.utime(place.at("site", name), (time.time() - 9000, time.time() - 9000))
        assert place.run("monitor", "--plugin", "--no-collect", "site") == 1 and what in place.said, place.said
        assert re.search(f"{what} 90[0-9][0-9] s old", place.said), place.said


@case
def copy_with_one_file_of_an_older_time(place):
    """The other files are as old as told, though one of them kept a time from before that."""
    told(place, "site", 5000)
    shutil.copytree(place.at("site"), place.at("copy"), copy_function=shutil.copyfile)
    for written in (time.time() - 20000, time.time()):
        os.utime(place.at("copy/igmp-l1"), (written, written))
        assert place.run("monitor", "--plugin", "--no-collect", "copy") == 1, place.said
        assert place.said.count("are 50") >= 2, place.said
        assert "tables of r1" in place.said and "tables of r2" in place.said, place.said


@case
def old_table_carried_by_hand_into_the_next_set(place):
    """A list that was put back by hand stays as old in the sets after it, and is told to be an operator's."""
    ways = place.routers("r1", "r2")
    place.site()
    collected(place, ways)
    assert place.run("reports", "-o", "site/igmp-l1", "--static", "239.1.2.3") == 0, place.said
    written = int(time.time()) - 7000
    os.utime(place.at("site/igmp-l1"), (written, written))
    collected(place, ways)
    found = json.loads(place.read("site/collected.json"))["files"]["igmp-l1"]
    assert found == {"by": "operator", "of": None, "time": written}, found


# What 0.2.0 kept

@case
def times_that_0_2_0_kept(place):
    """collected.json of version 1 is read: by the monitor and the page, of a copy too, and carried as version 2."""
    ways = place.routers("r1", "r2")
    kept(place)
    shutil.copytree(place.at("site"), place.at("copy"), copy_function=shutil.copyfile)
    for site in ("site", "copy"):
        assert place.run("monitor", "--plugin", "--no-collect", site) == 1, place.said
        told = re.findall("tables of r[12] are ([0-9]+) s old", place.said)
        assert len(told) == 2 and all(0 <= time.time() - TOLD - int(it) < 60 for it in told), place.said
    assert place.run("page", "--program", PROGRAM, "site") == 0 and "2025-11-28T01:40:24Z</td>" in place.said
    assert place.run("reports", "-o", "site/igmp-l1", "--static", "239.1.2.3") == 0, place.said
    files = json.loads(place.read("site/collected.json"))["files"]
    assert files["cache-r2"] == {"by": "collect", "of": "r2", "time": TOLD}, files
    assert files["igmp-l1"]["by"] == "static", files
    collected(place, ways)
    found = json.loads(place.read("site/collected.json"))
    assert found["version"] == 2, found
    assert found["files"]["igmp-l2"] == {"by": "unknown", "of": None, "time": TOLD - 2}, found
    assert found["files"]["vif-r1"]["time"] > TOLD + 60 and found["files"]["igmp-l1"]["by"] == "static", found


@case
def audits_that_0_2_0_kept(place):
    """They are compared with each other, shown, and with what is found now."""
    ways = place.routers("r1", "r2")
    kept(place)
    older = f"site.sets/{LAST.replace('25Z', '24Z')}/audit.json"
    assert place.run("diff", older, "site/audit.json") == 1, place.said
    assert place.said == "flow 10.0.0.5 239.1.2.3: fault gone: Missed l2\nverdict yes, was no\n", place.said
    assert place.run("diff", older.replace("24Z", "23Z"), "site/audit.json") == 0 and not place.said, place.said
    place.write("r2/ip_mr_cache", place.read("r2/ip_mr_cache").splitlines()[0] + "\n")
    assert place.run("monitor", "--pause", "0", "site", *ways) == 1, place.said
    assert f"changed since {LAST}:\nflow 10.0.0.5 239.1.2.3: new fault: Missed l2\n" in place.said, place.said


@case
def state_that_0_2_0_kept(place):
    """The monitor goes on from it: what it judged last, when anything changed, and in which order the sets came."""
    ways = place.routers("r1", "r2")
    kept(place)
    before = json.loads(place.read("site.monitor.json"))
    assert place.run("monitor", "--pause", "0", "--keep", "2", "site", *ways) == 0, place.said
    assert f"nothing changed since {LAST}" in place.said and "can't be read" not in place.said, place.said
    after = json.loads(place.read("site.monitor.json"))
    new = os.path.basename(os.path.realpath(place.at("site")))
    assert after["sets"] == [*before["sets"][-3:], new] == sorted(os.listdir(place.at("site.sets"))), after
    assert [after[it] for it in ("last_change", "last_fault_change", "judged")] == [
        before["last_change"], before["last_fault_change"], new], (before, after)
