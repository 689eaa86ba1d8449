"""Tries names, bounds and statuses: names are data, nobody waits without end, and what fails has its status."""
import glob
import json
import os
import re
import shutil
import signal
import subprocess
import sys
import time

import packets as p
from place import GOOD, HERE, LISTED, NETWORK, PROGRAM, TOOLS, TOP, case

FAST = "import signal\nsetitimer = signal.setitimer\n" \
       "signal.setitimer = lambda which, seconds: setitimer(which, seconds / 5)\n"


# Names are data

@case
def names_that_no_topology_has(place):
    """They reach no script and no path."""
    for name in ("x//p;1etouch${IFS}pwned;s/", "x/../../victim", "..", "a b", "-x/", "l" * 33):
        place.write("site/topology", f'version = 1\nlans = ["{name}"]\nrouter = [{{name = "r1"}}]\n'
                    f'interface = [{{router = "r1", device = "eth0", lan = "{name}"}}]\n')
        assert place.run("reports", "--all", "site", "--wait", "0", "r1=!false") == 3, place.said
        assert place.run("site", "lans", "site") == 3, place.said
        assert sorted(os.listdir(place.folder)) == ["bin", "site"]


@case
def code_in_the_present_folder(place):
    """What asks on a router imports nothing of it."""
    place.write("argparse.py", 'open("pwned", "w").close()\n')
    place.script("tcpdump", 'echo "listening on x" >&2; exec sleep 20')
    place.run("reports", "--ask", "--wait", "1", "lo")
    assert not os.path.exists(place.at("pwned"))


@case
def escapes_of_a_topology(place):
    """They come to no terminal."""
    place.write("site/topology", "# missing: \033]0;title\007\033[2J\nversion = 1\nlans = []\n")
    place.run("site", "init", "site", "r1=!false")
    assert "\033" not in place.said


@case
def sites_of_any_name(place):
    """A name that begins with - or has spaces and line feeds is one like others."""
    for name in ("./-x", "a b", "a\nb", "a;b"):
        place.write(f"{name}/topology", "")
        assert place.run("collect", "--adopt", name) == 0, place.said
        assert os.path.islink(place.at(name)) and os.path.exists(place.at(name, "topology"))


# Bounds

@case
def answers_without_end(place):
    """They are cut, whatever they are, and the others are collected."""
    ways = place.routers("r1")
    place.script("big", "head -c 60000000 /dev/zero | tr '\\0' x")
    begun = time.monotonic()
    words = "r2=!yes 2> gone; :", "r3=!yes escape 1>&2; :", "r4=!big; :"
    assert place.run("collect", "--timeout", "3", "--pause", "0", "site", *ways, *words) == 1
    assert time.monotonic() - begun < 15 and len(place.said) < 20000 and os.path.exists(place.at("site/vif-r1"))


@case
def table_over_the_limit(place):
    """It is refused by name."""
    place.script("large", """word=$(sed -n 's/.*"\\(mcaudit-[0-9a-f]*\\) end"/\\1/p')
printf '%s table ip_mr_vif 1\\n.\\n%s table ip_mr_cache 20000001\\n' "$word" "$word"
head -c 20000000 /dev/zero | tr '\\0' x; printf '.\\n%s table igmp 1\\n.\\n%s end\\n' "$word" "$word\"""")
    assert place.run("collect", "--pause", "0", "site", "r1=!large; :") == 1 and "ip_mr_cache" in place.said, place.said
    assert not os.path.exists(place.at("site/cache-r1"))


@case
def packet_without_end(place):
    """It is refused as soon as it is longer than any packet of IPv4."""
    begun = time.monotonic()
    status, lines = place.reports("--text", text=b"1.5 IP\n" + b"\t0x0001:  00\n" * 2000000)
    assert status == 3 and lines is None and "a packet of more than 65535 bytes" in place.said, (status, place.said)
    assert time.monotonic() - begun < 20


@case
def signals_after_what_failed(_):
    """A signal is heeded again behind steps that no signal may part, even where one of them failed."""
    script = """from mcaudit_tools.programs import RUNNING
RUNNING.grace = 7
try:
    with RUNNING.unheeded():
        raise OSError
except OSError:
    assert not RUNNING.is_unheeded and RUNNING.grace == 7"""
    subprocess.run([sys.executable, "-c", script], env={**os.environ, "PYTHONPATH": TOOLS}, check=True)


@case
def signals_within_steps_that_none_may_part(_):
    """They are heeded behind them, before another program begins."""
    script = """import os, signal, time
from mcaudit_tools.common import Ended
from mcaudit_tools.programs import RUNNING
RUNNING.heed_signals()
with RUNNING.unheeded():
    os.kill(os.getpid(), signal.SIGTERM)
    time.sleep(.1)
for wait in (lambda: RUNNING.begin(["true"]), lambda: RUNNING.rest(9)):
    try:
        wait()
        raise SystemExit("it was not heeded")
    except Ended:
        pass"""
    subprocess.run([sys.executable, "-c", script], env={**os.environ, "PYTHONPATH": TOOLS}, check=True)


@case
def signal_to_a_draft_that_measures(place):
    """It is heeded at once, though a router's packets are waited for in another thread."""
    ways = place.routers("r1", "r2")
    place.script("ip", """case $R in r1) one=10.0.0.1 two=10.0.1.1 ;; *) one=10.0.1.2 two=10.0.2.1 ;; esac
said='{"ifname":"%s","addr_info":[{"family":"inet","local":"%s","prefixlen":24}]}'
printf "[$said,$said]\\n" eth0 "$one" eth1 "$two\"""")
    place.script("cat", """case $1 in
    /proc/net/ip_mr_cache) echo x >> turns; sed "s/ 0 0 0 0 / 0 $(wc -l < turns) 0 0 /" "$R/ip_mr_cache" ;;
    /proc/net/ip_mr_vif) exec /bin/cat "$R/ip_mr_vif" ;;
    /proc/sys/kernel/random/boot_id) echo "$R" ;;
    *) exec /bin/cat "$@" ;;
esac""")
    place.script("tcpdump", "echo begun > begun; exec sleep 60")
    with place.begin("draft", "--measure", "60", "site", *ways) as running:
        place.await_file("begun")
        begun = time.monotonic()
        running.send_signal(signal.SIGTERM)
        said = running.communicate(timeout=90)[0].decode()
        assert running.returncode == 3 and time.monotonic() - begun < 8, (time.monotonic() - begun, said)
    assert not os.path.exists(place.at("site"))


@case
def topology_that_takes_long_to_read(place):
    """It is given up, by all who read it: a key of many parts takes more than its length in steps. (The timer is five
    times as fast, so that the 10 s are 2.)"""
    place.write("fast/sitecustomize.py", FAST)
    place.environment["PYTHONPATH"] = place.at("fast")
    place.write("site/topology", ".".join(["a"] * 200000) + " = 1\n")
    begun = time.monotonic()
    assert place.run("site", "lans", "site") == 3 and "takes more than 10 s" in place.said, place.said
    ways = place.routers("r1")
    assert place.run("collect", "--adopt", "--pause", "0", "site", *ways) == 1, place.said
    assert "takes more than 10 s" in place.said and 4 <= time.monotonic() - begun < 60, place.said


@case
def answers_have_one_time(place):
    """--timeout holds over the answer and what is done with it, also where the way goes on behind it."""
    place.routers("r1")
    place.script("lingers", "env R=r1 sh; sleep 8; exec >&- 2>&-; exec sleep 60")
    begun = time.monotonic()
    assert place.run("collect", "--timeout", "10", "--pause", "0", "site", "r1=!lingers; :") == 1, place.said
    assert "no whole answer in 10 s" in place.said and time.monotonic() - begun < 17, place.said


@case
def memory_of_a_collector(place):
    """It is at most 64 MiB, however long answers and their lines are and however many routers there are at once."""
    place.script("lines", """word=$(sed -n 's/.*"\\(mcaudit-[0-9a-f]*\\) end"/\\1/p')
printf '%s table ip_mr_vif 1\\n.\\n%s table ip_mr_cache 16000001\\n' "$word" "$word"
head -c 16000000 /dev/zero | tr '\\0' "$1"; printf '.\\n%s table igmp 1\\n.\\n%s end\\n' "$word" "$word\"""")
    place.script("long", "head -c 50000000 /dev/zero | tr '\\0' x")
    ways = [f"r{it}=!{way}" for it, way in enumerate(("lines x", "lines '\\n'", "long; :", "yes; :") * 3)]
    status, most = place.run_measured("collect", "--at-once", "100", "--timeout", "9", "--pause", "0", "site", *ways)
    assert status == 1 and most < 64 << 20, (status, most, place.said)


@case
def changes_beyond_number(place):
    """The first are told, and how many there are: a domain in which all has changed is judged all the same."""
    ways = place.routers("r1", "r2")
    place.site()
    assert place.run("monitor", "--pause", "0", "site", *ways) == 0, place.said
    shutil.copytree(TOOLS, place.at("tools"))
    place.write("tools/mcaudit-diff", """#!/bin/sh
yes 'flow 10.0.0.5 239.1.2.3: new fault: Missed l2' | head -n 99999; exit 1
""")
    for words, status in ((["--plugin", "--warn-reports", "0"], 0), ([], 0)):
        command = [sys.executable, place.at("tools", "mcaudit-monitor"), *words, "--pause", "0", "site", *ways]
        done = subprocess.run(command, cwd=place.folder, env=place.environment, capture_output=True, check=False)
        said = done.stdout.decode()
        assert done.returncode == status and ("changes 99999" in said or "more changes" in said), (done, said[-300:])
    assert said.count("new fault: Missed l2") + int(re.search("and ([0-9]+) more changes", said)[1]) == 99999
    assert json.loads(place.read("site.monitor.json"))["last_fault_change"]


# Statuses

@case
def topologies_and_audits_that_are_none(place):
    """They are refused with a sentence."""
    place.write("site/topology", "lans = " + "[" * 3000 + "]" * 3000 + "\n")
    assert place.run("site", "lans", "site") == 3 and place.run("draft", "--update", "site", "r1=!false") == 3
    head = '{"domain":{"interfaces":[],"lans":["a"],"routers":[],"sources":[]},"format":1}\n'
    for right in ("1e400", "1", "1" * 5000):
        counts = f'{{"summary":{{"flows":1,"right":{right},"unwanted":0,"wrong":0}}}}\n'
        place.write("audit", head + counts + '{"verdict":"yes"}\n')
        assert place.run("page", "--audit", "audit", "-o", "page.html") == 2, place.said
        assert place.run("diff", "audit", "audit") == 2, place.said
    place.write("audit", head + '{"summary":{"flows":0,"right":0,"unwanted":0,"wrong":0}}\n')
    assert place.run("page", "--audit", "audit", "-o", "page.html") == 2 and place.run("diff", "audit", "audit") == 2


@case
def packets_that_a_draft_measures(place):
    """Their times to live are read as those of a recorded text: no other packet's, and of no line that has no
    digits."""
    def lives_of(text):
        """Returns the times to live that are read, as text, or why none is."""
        code = ("import sys\nfrom mcaudit_tools import common\nfrom mcaudit_tools.draft import measure\n"
                "try:\n    lives = measure.times_to_live(sys.stdin.buffer.read())\n"
                "except common.Failed as fault:\n    sys.exit(print(fault))\n"
                "print(sorted((*map(str, key), *sorted(it)) for key, it in lives.items()))")
        done = subprocess.run([sys.executable, "-c", code], input=text, cwd=TOOLS, env=place.environment,
                              capture_output=True, check=True)
        return done.stdout.decode().strip()
    sent = [p.packet("10.0.0.5", "239.1.2.3", b"x" * 30, ttl, 17) for ttl in (7, 9)]
    assert lives_of(p.text(((0, sent[0]), (1, sent[1])))) == "[('10.0.0.5', '239.1.2.3', 7, 9)]"
    assert lives_of(p.text(((0, sent[0]), (1, p.with_a_bad_header(sent[1]))))) == "[('10.0.0.5', '239.1.2.3', 7)]"
    assert lives_of(p.text(((0, sent[0][:19]), (1, b"\x60" + sent[1][1:]), (2, b"")))) == "[]"
    assert lives_of(b"1.0 IP\n\t0x0000:  45zz\n") == "the text has a line of digits that are none"
    assert "65536" in lives_of(b"x" * 70000)


@case
def diff_that_crashes(place):
    """What changed is then unknown, and not nothing."""
    ways = place.routers("r1", "r2")
    place.site()
    assert place.run("monitor", "--pause", "0", "site", *ways) == 0, place.said
    shutil.copytree(TOOLS, place.at("tools"))
    place.write("tools/mcaudit-diff", "#!/bin/sh\nkill -SEGV $$\n")
    words = [sys.executable, place.at("tools", "mcaudit-monitor"), "--plugin", "--pause", "0", "site", *ways]
    done = subprocess.run(words, cwd=place.folder, env=place.environment, capture_output=True, check=False)
    assert done.returncode == 3 and done.stdout.startswith(b"MCAUDIT UNKNOWN"), done


def words_that_fail():
    """Yields a tool and words with which nothing comes of it."""
    yield from (("diff", "no", "no"), ("monitor", "--no-collect", "no"), ("monitor", "--plugin", "--no-collect", "no"),
                ("reports", "--capture", "no"), ("site", "lans", "no"), ("page", "no"), ("draft", "no", "r1=!false"),
                ("query", "no"), ("collect", "no/", "r1=!false", "--at-once", "0"))


@case
def failures_that_cannot_be_told(place):
    """They have the status of a failure, and never that of a verdict or a change, whatever standard error is."""
    for tool, *words in words_that_fail():
        for error in ("2> /dev/full", "2>&-", "2>&- < /dev/null", "<&- 2>&-", "> /dev/full 2> /dev/full"):
            done = subprocess.run(["sh", "-c", f'exec "$@" {error}', "sh", sys.executable, f"{TOOLS}/mcaudit-{tool}",
                                   *words], cwd=place.folder, env=place.environment, capture_output=True, check=False)
            wanted = (3, 5) if tool == "collect" else (3,)
            assert done.returncode in wanted and b"Traceback" not in done.stderr, (tool, words, error, done)
            assert b"mcaudit-" not in done.stdout, (tool, words, error, done)


@case
def words_beside_a_list_on_standard_output(place):
    """None comes among its lines, though standard error is closed."""
    place.write("l1.pcap", p.pcap([(at, p.frame(it)) for at, it in GOOD]))
    command = 'exec "$@" 2>&-', "sh", sys.executable, f"{TOOLS}/mcaudit-reports", "--capture", "l1.pcap"
    done = subprocess.run(["sh", "-c", *command], cwd=place.folder, env=place.environment, capture_output=True,
                          check=False)
    assert (done.returncode, done.stdout.decode().splitlines()) == (0, LISTED), done


@case
def inputs_and_outputs_that_are_closed_or_full(place):
    """Each has a sentence and the status 3, the help's and the version's too."""
    for tool in sorted(os.path.basename(it) for it in glob.glob(f"{TOOLS}/mcaudit-*")):
        for word in ("--help", "--version"):
            for output in ("/dev/full", "&-"):
                command = f'exec "$@" >{output}', "sh", sys.executable, f"{TOOLS}/{tool}", word
                done = subprocess.run(["sh", "-c", *command], env=place.environment, capture_output=True, check=False)
                assert done.returncode == 3 and b"standard output" in done.stderr, (tool, word, output, done)
                assert b"Traceback" not in done.stderr and b"Exception" not in done.stderr, (tool, word, output, done)
    for tool, *words in (("reports", "--text"), ("diff", "/dev/stdin", "no"), ("page", "--audit", "-")):
        done = subprocess.run(["sh", "-c", 'exec "$@" <&-', "sh", sys.executable, f"{TOOLS}/mcaudit-{tool}", *words],
                              env=place.environment, capture_output=True, check=False)
        assert done.returncode == 3 and b"standard input is closed" in done.stderr, (tool, done)


@case
def tools_that_are_not_installed_whole(place):
    """A missing or an empty module is told with the status 3, and to a monitor as UNKNOWN."""
    shutil.copytree(TOOLS, place.at("whole"))
    for path in glob.glob(place.at("whole/mcaudit-*")):
        place.write(f"bin/{os.path.basename(path)}", open(path, "rb").read())
    tools = sorted(os.path.basename(it) for it in glob.glob(place.at("bin/mcaudit-*")) if not it.endswith("query"))
    for broken in (None, "start.py", "common.py", "programs.py", "topology.py", "files.py"):
        shutil.rmtree(place.at("share"), ignore_errors=True)
        if broken:
            shutil.copytree(place.at("whole/mcaudit_tools"), place.at("share/mcaudit/mcaudit_tools"))
            place.write(f"share/mcaudit/mcaudit_tools/{broken}", "")
        for tool in tools:
            for words in (["--no-such-word"], ["--plugin"]):
                done = subprocess.run([sys.executable, place.at("bin", tool), *words], cwd=place.folder,
                                      env=place.environment, capture_output=True, check=False)
                is_plugin = tool == "mcaudit-monitor" and words == ["--plugin"]
                assert done.returncode == 3 or done.returncode == 5 and broken == "topology.py", (tool, broken, done)
                assert b"Traceback" not in done.stderr, (tool, broken, done)
                assert done.stdout.startswith(b"MCAUDIT UNKNOWN") or not is_plugin, (tool, broken, done)


@case
def escapes_of_paths_and_devices(place):
    """They come to no terminal, and a monitor has its one line."""
    name = "a\033[2J|\nb"
    for tool, *words in (("site", "lans", name), ("site", "init", name, "r1=!false"), ("reports", "--capture", name),
                         ("diff", name, name), ("monitor", "--no-collect", name), ("collect", name, "r1=!false"),
                         ("monitor", "--plugin", "--no-collect", name), ("page", name), ("draft", name, "r1=!false"),
                         ("reports", "-o", f"no{name}/x", "lo"), ("collect", "--routers", name, "site")):
        place.run(tool, *words)
        assert "\033" not in place.said, (tool, words, place.said)
        assert "--plugin" not in words or place.said.count("\n") == 1 == place.said.count("|") + 1, place.said
    for device in ("\\u009b2J", "\\u001b[2J", "a:b", "é" * 8, "a/b", ""):
        place.write("site/topology", f'lans = ["l1"]\nrouter = [{{name = "r1"}}]\n'
                    f'interface = [{{router = "r1", lan = "l1", device = "{device}"}}]\n')
        assert place.run("site", "lans", "site") == 3 and "valid name of a device" in place.said, (device, place.said)
        assert place.said.isascii() and place.said.count("\n") == 1 and place.said[:-1].isprintable(), place.said


@case
def sites_whose_names_are_no_text(place):
    """A name of any letters is one like others, and so is one of bytes that are no UTF-8, but that mcaudit judges none
    of those, and whoever runs it says so."""
    ways = place.routers("r1", "r2")
    for name in ("é\u202e\u2028b", os.fsdecode(b"s\xff\xe9")):
        is_text = name.isascii() or "\udcff" not in name
        shutil.copytree(NETWORK, place.at(name))
        assert place.run("collect", "--adopt", "--pause", "0", name, *ways) == 0, place.said
        assert place.run("reports", "-o", f"{name}/igmp-l2", "--static", "239.1.2.3") == 0, place.said
        assert place.run("site", "lans", name) == 0, place.said
        for tool, *words in (["monitor", "--pause", "0", "--prometheus", f"{name}.prom", name, *ways],
                             ["page", "--program", PROGRAM, name, "-o", f"{name}.html"], ["diff", name, name]):
            status = place.run(tool, *words)
            assert status == 0 if is_text else status in (3, 5) and place.said, (tool, place.said)


@case
def uninstall_of_a_path_with_spaces(place):
    """It takes away its own files alone."""
    place.write("with", "precious")
    for target in ("install", "uninstall"):
        subprocess.run(["make", "-s", "-C", TOP, target, f"PROGRAM={HERE}/commands/mcaudit", "SOURCES=", "PREFIX=/usr",
                        f"DESTDIR={place.at('with space')}"], check=True, stdout=subprocess.DEVNULL)
    assert place.read("with") == "precious"
    assert not [files for _, _, files in os.walk(place.at("with space")) if files]
