#!/usr/bin/env python3
"""Tries the pages of mcaudit-page in a headless Chromium, as a person uses them.

  python3 tests/page/run.py [PICTURES]

Of each folder of examples/faults the page has to open without a complaint and without asking for anything else, and to
show each line that explains its fault. Then: the search narrows the table; a click on a flow, and the keys alone, draw
its path and show what explains it; the steps of a travel go back and forth; what 0.2.0 answered is shown as far as it
says it; names that are markup are text; the policy lets no other script run; it prints; what it shows can be read on a
light page, a dark one and printed; and a page of 4,096 flows is there in 2 s, the best of three times: of a processor,
and by the clock too where the machine has nothing else to do. What audits the folders is tests/audited/answers.py. With
PICTURES, the pictures of docs/ are written into that folder.

The last line counts: `N passed, M failed`. The status is 0 if none failed.
"""
import json
import os
import re
import subprocess
import sys
import tempfile
import time

sys.dont_write_bytecode = True
HERE = os.path.dirname(os.path.abspath(__file__))
TOP = os.path.join(HERE, "..", "..")
sys.path += [os.path.join(TOP, "tests", *it) for it in ((), ("audited",), ("tools",))]
import answers
import large
from browser import Page
from case_files import text_at
from ended import status_of
from page import FAULTS, HOSTILE, TOOL, WORDS, turned

LIMIT = 2.0  # seconds until a page of the most flows can be used
TEXT = "document.getElementById('explained').innerText"
COUNT = "document.getElementById('count').textContent"
SHOWN = "[...document.querySelectorAll('#rows tbody tr')].filter(row => !row.hidden).map(row => row.innerText)"
TITLE = "document.getElementById('title').textContent"
GROUND = "Number(getComputedStyle(document.body).backgroundColor.match(/\\d+/)[0])"
BY_HAND = "[...document.querySelectorAll('form, .tools, .stepper')].filter(it => it.getClientRects().length).length"
WIDE = "document.getElementById('flow').offsetWidth > 0.95 * document.body.offsetWidth"
CUT = "[...document.querySelectorAll('.scroll, #view, .steps')].filter(it => it.scrollHeight > it.clientHeight + 2).length"
# the least contrast of a text that is shown, what has it, and how many texts there are (WCAG 2, section 1.4.3)
LEAST_CONTRAST = """(() => {
  const numbers = text => text.match(/[\\d.]+/g).map(Number);
  const curve = it => (it /= 255) <= 0.04045 ? it / 12.92 : ((it + 0.055) / 1.055) ** 2.4;
  const light = ([red, green, blue]) => 0.2126 * curve(red) + 0.7152 * curve(green) + 0.0722 * curve(blue) + 0.05;
  function ground(element) {
    const box = element.closest("#drawing .lan, #drawing .router");
    if (box) return numbers(getComputedStyle(box.querySelector("rect")).fill);
    for (let it = element; it; it = it.parentElement) {
      const colour = numbers(getComputedStyle(it).backgroundColor);
      if (colour[3] !== 0) return colour;
    }
    return [255, 255, 255];
  }
  const walk = document.createTreeWalker(document.body, NodeFilter.SHOW_TEXT);
  let least = 21, where = "", count = 0;
  while (walk.nextNode()) {
    const element = walk.currentNode.parentElement;
    if (!walk.currentNode.data.trim() || !element.getClientRects().length || element.closest(":disabled, title")) continue;
    const style = getComputedStyle(element), colour = numbers(element.closest("svg") ? style.fill : style.color);
    const [low, high] = [light(colour), light(ground(element))].sort((one, other) => one - other);
    count++;
    if (high / low < least) [least, where] = [high / low, walk.currentNode.data.trim().slice(0, 40)];
  }
  return [least, where, count];
})()"""
MARKED = "[...document.querySelectorAll('#drawing .{0}:is(g, path)')].map(it => it.id)"


class Check:
    """Counts what is so, and names what isn't."""

    def __init__(self, folder):
        """Takes the folder for the pages."""
        self.folder, self.passed, self.failed = folder, 0, 0

    def that(self, name, is_so):
        """Counts it."""
        self.passed, self.failed = self.passed + bool(is_so), self.failed + (not is_so)
        if not is_so:
            print(f"failed: {name}")

    def made(self, name, lines, *site):
        """Makes the page of an audit's lines, and returns its path."""
        path = os.path.join(self.folder, f"{name}.html")
        subprocess.run([sys.executable, TOOL, "--audit", "-", "-o", path, *site], input="".join(lines).encode(), check=False,
                       stdout=subprocess.DEVNULL)
        return path


def audited(name, *options):
    """The answer to an audit of the folder of examples/faults, in lines."""
    words = [os.path.join(FAULTS, name), "--travel", "--unlisted", *options, *WORDS.get(name, [])]
    return answers.audit(words).output().splitlines(keepends=True)


def look_at_faults(check, browser):
    """Opens the page of each folder of faults."""
    for name in sorted(it for it in os.listdir(FAULTS) if os.path.isdir(os.path.join(FAULTS, it))):
        path = check.made(name, audited(name, "--json"))
        browser.said.clear(), browser.asked.clear()
        browser.open(path)
        check.that(f"{name}: no complaint: {browser.said}", not browser.said)
        check.that(f"{name}: nothing else asked for: {browser.asked}", browser.asked == [f"file://{path}"])
        text = " ".join(browser.run(TEXT).split())
        lines = [line.strip() for line in audited(name) if line.startswith("  ")]
        for line in lines:
            if not line.startswith(("wanted", "excluded", "no multicast group")):
                check.that(f"{name}: {line}", " ".join(line.split()) in text)
        verdict = audited(name)[-1].split()[1]
        check.that(f"{name}: verdict", browser.run("document.querySelector('h1').innerText") == f"Verdict: {verdict}")
        found = re.search(r"(?:wrong|unknown): .*", audited(name)[0])
        finding = found[0] if found else "right"
        check.that(f"{name}: finding", finding in browser.run("document.getElementById('finding').innerText"))
        is_wrong = finding.startswith("wrong")
        check.that(f"{name}: faults in the graph", bool(browser.run(MARKED.format("fault"))) == is_wrong)
        check.that(f"{name}: doubts in the graph", bool(browser.run(MARKED.format("doubt"))) or finding[:7] != "unknown")


def look_at_steps(check, browser):
    """Goes back and forth in a travel."""
    browser.open(os.path.join(check.folder, "loop-of-three-routers.html"))
    said = "document.querySelector('.stepper output').textContent"
    check.that("the last step is shown at first", browser.run(said) == "step 5 of 5")
    check.that("the circle is marked", {"e2", "e3", "e4", "e5", "e6", "e7", "l1"} <= set(browser.run(MARKED.format("fault"))))
    check.that("what can be taken out is marked", "e7" in browser.run(MARKED.format("mend")))
    browser.click(".stepper button:nth-child(2)")
    browser.click(".stepper button:nth-child(2)")
    check.that("two steps back", browser.run(said) == "step 3 of 5")
    check.that("no fault is met yet", not browser.run(MARKED.format("fault")))
    check.that("the router of this step", browser.run(MARKED.format("now")) == ["r3"])
    browser.click(".steps li:first-child button")
    check.that("a step by its line", browser.run(said) == "step 1 of 5")
    check.that("the way so far", sorted(browser.run(MARKED.format("way"))) == ["e0", "e1", "p0", "p1", "r0"])
    browser.click(".stepper button:nth-child(4)")
    check.that("the last step again", browser.run(said) == "step 5 of 5")
    check.that("where a copy goes", "sends 1 copy onto annex by eth1" in browser.run(TEXT))
    browser.open(os.path.join(check.folder, "stray-to-the-register-vif.html"))
    check.that("by what it leaves", "1 copy leaves the known domain by pimreg" in browser.run(TEXT))


def look_at_format_1(check, browser):
    """Opens the page of what 0.2.0 answered, which doesn't say where copies went and came from."""
    lines = text_at("tests/tools/monitor/kept.base/before.json").decode().splitlines(keepends=True)
    browser.open(check.made("kept", lines))
    check.that("what explains a fault, in brief", "sent onto: hall r3 eth1" in browser.run(TEXT))
    browser.open(os.path.join(check.folder, "kept.html#flow-1"))
    check.that("who sends", "hall by r2, to eth1; reached with ttl 3 or more" in browser.run(TEXT))
    check.that("by what", sorted(browser.run(MARKED.format("way"))) == ["e1", "e4", "p1", "p4", "r0", "r1"])
    check.that("no complaint", not browser.said)


def look_at_table(check, browser):
    """Uses the table of a page of many flows, by the mouse and by the keys alone."""
    path = check.made("many", [json.dumps(line) + "\n" for line in large.lines(400)])
    browser.open(path)
    check.that("all flows at first", browser.run(COUNT) == "400 flows")
    check.that("the first that is not right", browser.run(TITLE).startswith("Flow 5: "))
    browser.run("document.getElementById('search').focus()")
    browser.type("239.1.0.1")
    rows = browser.run(SHOWN)
    check.that("the search narrows", 0 < len(rows) < 200 and all("239.1.0.1" in row for row in rows))
    check.that("and counts", browser.run(COUNT) == f"{len(rows)} of 400 flows")
    browser.type(" duplicate")
    check.that("by several words", browser.run(COUNT) == f"{len(browser.run(SHOWN))} of 400 flows" and
               all("Duplicate" in row for row in browser.run(SHOWN)))
    browser.run("document.getElementById('search').value = ''")
    browser.type("cache-d1")
    check.that("by what explains a fault", 0 < len(browser.run(SHOWN)) < 100)
    browser.run("document.getElementById('search').value = ''")
    browser.type(" ")
    browser.click("fieldset label:nth-of-type(4) span")
    check.that("by kind", all("Stray" in row for row in browser.run(SHOWN)) and browser.run(SHOWN))
    browser.click("fieldset label:nth-of-type(1) span")
    browser.click("#rows tbody tr:nth-child(3) td:nth-child(2)")
    check.that("a click shows a flow", browser.run(TITLE).startswith("Flow 3: ") and browser.run("location.hash") == "#flow-3")
    check.that("its way is drawn", len(browser.run(MARKED.format("way"))) > 4 and not browser.run(MARKED.format("fault")))
    check.that("its way is told", "core by head, from eth2 to eth8" in browser.run(TEXT))
    browser.run("document.getElementById('search').focus()")
    for _ in range(20):
        browser.key("Tab")
        if browser.run("document.activeElement.getAttribute('href')"):
            break
    check.that("Tab comes to the flows", browser.run("document.activeElement.getAttribute('href')") == "#flow-1")
    for _ in range(4):
        browser.key("ArrowDown")
    check.that("an arrow comes to the next one", browser.run("document.activeElement.getAttribute('href')") == "#flow-5")
    browser.key("Enter", "\r")
    check.that("Enter shows it", browser.run(TITLE).startswith("Flow 5: "))
    check.that("with its fault", browser.run(MARKED.format("fault")) and "has no entry for this flow" in browser.run(TEXT))
    check.that("no complaint", not browser.said)


def look_at_hostile_names(check, browser):
    """Opens pages of names that would be markup or script anywhere else."""
    known = ["eth0", "eth1", "studio", "hall", "core", "r1", "r2", "10.0.0.5", "239.1.2.3"]
    lines = [json.loads(line) for line in audited("loop-of-three-routers", "--json")]
    for number, hostile in enumerate(HOSTILE):
        names = {old: hostile + old for old in known}
        browser.said.clear(), browser.asked.clear()
        path = check.made(f"hostile-{number}", [json.dumps(turned(line, names)) + "\n" for line in lines])
        browser.open(path)
        browser.run("window.dispatchEvent(new Event('beforeprint'))")
        check.that(f"{hostile!r}: no complaint: {browser.said}", not browser.said)
        check.that(f"{hostile!r}: nothing else asked for", browser.asked == [f"file://{path}"])
        strange = browser.run("[...document.querySelectorAll('img, iframe, object, embed, link, script:not(:is(body > script))')].length")
        check.that(f"{hostile!r}: no element of it", strange == 0 and browser.run("document.querySelectorAll('svg').length") == 1)
        shown = browser.run("document.querySelector('#r0 .name').textContent")
        wanted = names["r1"].replace("\ud800", "?").replace("\0", "\ufffd")
        check.that(f"{hostile!r}: is text: {shown!r}", shown == wanted)


def look_at_policy(check, browser):
    """Puts a script into a page, which its policy doesn't let run."""
    browser.open(os.path.join(check.folder, "loop-of-three-routers.html"))
    browser.run("document.body.append(Object.assign(document.createElement('script'), {textContent: 'window.met = 1'}))")
    browser.run("document.body.insertAdjacentHTML('beforeend', '<img src=x onerror=\"window.met = 2\">')")
    browser.painted()
    check.that("no other script runs", browser.run("window.met === undefined"))
    browser.said.clear()


def look_at_prints(check, browser):
    """Prints a page."""
    browser.open(os.path.join(check.folder, "many.html"))
    browser.run("document.getElementById('search').focus()")
    browser.type("stray")
    path = os.path.join(check.folder, "print.pdf")
    browser.printed(path)
    check.that("a page is printed", os.path.getsize(path) > 20000)
    told = browser.run("document.querySelectorAll('#printed h3').length")
    check.that("with what explains each fault that was found", told == len(browser.run(SHOWN)))


def look_at_modes(check, browser):
    """Looks whether all that is shown can be read on a light page, a dark one, and printed from a dark one."""
    for name in "loop-of-three-routers", "missed-by-the-wrong-way", "nobody-wants-it":
        for media, scheme, is_dark in ("screen", "light", False), ("screen", "dark", True), ("print", "dark", False):
            browser.call("Emulation.setEmulatedMedia", media=media,
                         features=[{"name": "prefers-color-scheme", "value": scheme}])
            browser.open(os.path.join(check.folder, f"{name}.html"))
            told = f"{name}, {media} of a {scheme} page"
            least, where, count = browser.run(LEAST_CONTRAST)
            check.that(f"{told}: {where} has a contrast of {least:.2f}", count > 30 and least >= 4.5)
            check.that(f"{told}: its ground", (browser.run(GROUND) < 128) == is_dark)
            check.that(f"{told}: what is used by hand alone", bool(browser.run(BY_HAND)) == (media != "print"))
            check.that(f"{told}: nothing is cut", media != "print" or not browser.run(CUT))
            check.that(f"{told}: it has the whole width", media != "print" or browser.run(WIDE))
    browser.call("Emulation.setEmulatedMedia", media="", features=[])


def look_at_most_flows(check, browser):
    """Opens the page of the most flows there can be, thrice."""
    path = check.made("most", [json.dumps(line) + "\n" for line in large.lines(4096)])
    times, spent, searches = [], [], []
    for _ in range(3):
        times.append(browser.open(path))
        spent.append(browser.spent())
        browser.run("document.getElementById('search').focus()")
        begun = time.monotonic()
        browser.type("room-3-4-1")
        searches.append(time.monotonic() - begun)
        browser.call("Page.navigate", url="about:blank")
    print(f"4096 flows: there in {min(times):.2f} s, of a processor {min(spent):.2f} s; searched in {min(searches):.2f} s")
    is_idle = os.getloadavg()[0] < os.cpu_count()
    check.that("4,096 flows are there in time", min(spent) < LIMIT and (min(times) < LIMIT or not is_idle))
    check.that("and are searched in time", min(searches) < LIMIT / 2 or not is_idle)


def take_pictures(check, browser, folder):
    """Writes the pictures of docs/ into the folder."""
    check.made("page", audited("loop-of-three-routers", "--json"), "examples/faults/loop-of-three-routers")
    browser.call("Emulation.setScrollbarsHidden", hidden=True)
    for name, page in ("page", "page.html"), ("page-large", "most.html#flow-23"):
        browser.open(os.path.join(check.folder, page))
        browser.picture(os.path.join(folder, f"{name}.png"))


def main():
    """Tries all. Returns the status."""
    with tempfile.TemporaryDirectory(prefix="mcaudit-page-") as folder, Page(1440, 940) as browser:
        check = Check(folder)
        for look in (look_at_faults, look_at_steps, look_at_format_1, look_at_table, look_at_hostile_names,
                     look_at_policy, look_at_prints, look_at_modes, look_at_most_flows):
            look(check, browser)
        if len(sys.argv) > 1:
            take_pictures(check, browser, sys.argv[1])
    return status_of(check.passed, check.failed)


if __name__ == "__main__":
    sys.exit(main())
