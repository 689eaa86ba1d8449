#!/usr/bin/env python3
"""Looks whether mcaudit-page shows what an audit answers, without a browser.

  python3 tests/tools/page.py [PROGRAM]

The page of each folder of examples/faults has to have the verdict, each flow, each line that explains it, each step of
its travel and each unlisted flow, as tests/audited/answers.py works the text out. A page of what was tried says so. It has to be one file that asks for
nothing from elsewhere, with no elements but its own, whatever the names of the domain are. An answer of which something
is turned at random makes a page or is refused. And of random domains the arrows of a travel's steps are those that the
packet took, and those of a path the entries' own. Each colour of its style has another one for a dark page, and texts can be read in both.

PROGRAM audits the folders. Without it that is the built program, where that is there and knows the words, and else
answers.py. The last line counts: `N passed, M failed`. The status is 0 if none failed.
"""
import base64
import hashlib
import html.parser
import importlib
import json
import os
import random
import re
import subprocess
import sys
import tempfile
import types

sys.dont_write_bytecode = True
HERE = os.path.dirname(os.path.abspath(__file__))
TOP = os.path.join(HERE, "..", "..")
sys.path += [os.path.join(TOP, "tests"), os.path.join(TOP, "tests", "audited")]
import answers
import random_domains
from asked import SERVICES
from ended import status_of

TOOL = os.path.join(TOP, "tools", "mcaudit-page")
FAULTS = os.path.join(TOP, "examples", "faults")
BUILT = os.path.join(TOP, "crates", "mcaudit", "out", "mcaudit")
WORDS = {"left-out-router": ["--without", "r2"]}
DOMAINS = 400
TURNS = 600
ELEMENTS = {
    "html", "head", "meta", "title", "style", "body", "script", "header", "p", "div", "h1", "h2", "dl", "dt", "dd",
    "strong", "main", "section", "form", "label", "input", "fieldset", "legend", "span", "table", "thead", "tbody",
    "tr", "th", "td", "a", "b", "figure", "button", "svg", "defs", "marker", "path", "g", "rect", "text", "figcaption",
    "noscript", "ul", "li", "details", "summary", "code", "footer"}
READ_ON = {  # the colours of texts, by those of what they stand on
    "sheet": "ink soft way fault mend doubt yes later", "ground": "ink soft", "over": "ink way fault doubt yes later",
    "chosen": "ink way fault doubt yes", "yes": "on", "fault": "on", "ink": "on", "canvas": "way fault mend doubt yes",
    "router": "ink device absent fault mend", "lan": "ink", "carries": "ink", "fault-ground": "ink", "why-fault": "ink",
    "why-mend": "ink", "why-doubt": "ink", "why-way": "ink", "why-lit": "ink"}
ELSEWHERE = re.compile(r"https?:|//[a-z]|\bsrc\s*=|@import|<link|url\((?!#)", re.I)
DIGEST = re.compile(r"sha256-[A-Za-z0-9+/]{43}=")  # of the page's own style and scripts, in any letters
HOSTILE = ["<script>alert(1)</script>", "</script><img src=x onerror=alert(1)>", "<!--", "-->", "]]>",
           "\"><svg onload=alert(1)>", "'; alert(1); '", "\u2028\u2029", "&lt;b&gt;", "\ud800", "__proto__",
           "%s {0} ${1} \\u003c", "\x00\x01\x1b", "ü"]


def loaded_tool():
    """The names of the tool's modules."""
    sys.path.insert(0, os.path.join(TOP, "tools"))
    found = {}
    for name in ("answer", "graph", "remarks", "render"):
        found.update(vars(importlib.import_module(f"mcaudit_tools.page.{name}")))
    return types.SimpleNamespace(**found)


class Read(html.parser.HTMLParser):
    """What a page has: its elements, its texts, and the insides of its scripts and styles."""

    def __init__(self, page):
        super().__init__()
        self.elements, self.texts, self.insides, self.inside = [], [], {}, None
        self.feed(page)

    def handle_starttag(self, tag, attrs):
        self.elements.append((tag, dict(attrs)))
        self.inside = None
        if tag in ("script", "style"):
            self.inside = (tag, len(self.elements))
            self.insides[self.inside] = ""

    def handle_endtag(self, tag):
        self.inside = None

    def handle_data(self, data):
        if self.inside:
            self.insides[self.inside] += data
        else:
            self.texts.append(data)

    def handle_comment(self, data):
        self.elements.append(("a comment", {}))

    def data(self):
        """What the page's script draws."""
        number = next(n for n, (_, attrs) in enumerate(self.elements, 1) if attrs.get("id") == "data")
        return json.loads(self.insides["script", number])


class Check:
    def __init__(self, folder, program):
        self.folder, self.program = folder, program
        self.passed = self.failed = 0

    def that(self, name, is_so):
        self.passed, self.failed = self.passed + bool(is_so), self.failed + (not is_so)
        if not is_so:
            print(f"failed: {name}")

    def page(self, name, words):
        """Makes a page, and returns its text, and the status."""
        path = os.path.join(self.folder, "report.html")
        done = subprocess.run([sys.executable, TOOL, *words, "-o", path], capture_output=True, check=False)
        self.that(f"{name}: {done.stderr.decode()[:500]}", not done.stderr and os.path.exists(path))
        with open(path, encoding="utf-8") as file:
            text = file.read()
        os.unlink(path)
        return text, done.returncode

    def whole(self, name, page):
        """Looks whether the page is one file, of its own elements alone. Returns what is read of it."""
        read = Read(page)
        others = {tag for tag, _ in read.elements} - ELEMENTS
        self.that(f"{name}: no elements but its own: {others}", not others)
        self.that(f"{name}: three scripts", sum(tag == "script" for tag, _ in read.elements) == 3)
        words = {(key, value) for _, attrs in read.elements for key, value in attrs.items()
                 if key.startswith("on") or key in ("style", "src") or key.endswith("href") and value[:1] != "#"}
        self.that(f"{name}: nothing that runs or is fetched: {words}", not words)
        policy = next(attrs["content"] for _, attrs in read.elements
                      if attrs.get("http-equiv") == "Content-Security-Policy")
        for (tag, number), inside in read.insides.items():
            told = "'sha256-" + base64.b64encode(hashlib.sha256(inside.encode()).digest()).decode() + "'"
            is_data = read.elements[number - 1][1].get("id") == "data"
            self.that(f"{name}: the policy knows its {tag}", is_data or told in policy)
        self.that(f"{name}: the policy lets nothing else in", "default-src 'none'" in policy and "unsafe" not in policy)
        return read


def shown_lines(read):
    """The lines of audit's text that a page shows, worked out of what its script draws."""
    data, lines = read.data(), []
    for flow in data["flows"]:
        words = f"flow {flow['source']} {flow['group']} ttl {flow['ttl']}"
        if "kind" not in flow:
            said = "yes" if flow["state"] == "right" else data["right"]
            names = [data["lans"][lan] for lan in flow["wanted"]]
            lines += [f"{words} {said} copies {flow['copies']}",
                      f"  wanted {len(names)}: " + (answers.some(names) if names else "no report asks for it")]
            continue
        place = flow["place"].split(" (")[0]
        lines.append(f"{words} {flow['state']}: {flow['kind']} {place}")
        reason = data["reasons"][flow["why"]][1:]
        lines += ["  " + text.replace(data["mark"], f"({flow['source']},{flow['group']})") for text, _ in reason]
        for port, ttl, outcome, copies, strays, _ in data["travels"][flow["travel"]][1:]:
            router, device, *_ = data["ports"][port]
            said = f"sent {copies} strayed {strays}" if outcome == 0 else data["outcomes"][outcome]
            lines.append(f"event {data['routers'][router]} {device} ttl {ttl} {said}")
    return lines


def with_devices(domain, line):
    """An event's line with the device in the vif's place."""
    words = line.split(" ")
    if words[0] != "event":
        return line
    router = domain.routers.index(words[1])
    device = domain.tables[router].vifs.get(int(words[2]), (b"none",))[0]
    return " ".join([*words[:2], answers.device_text(answers.escaped(device), words[2]), *words[3:]])


def look_at_faults(check):
    """Looks at the page of each folder of examples/faults."""
    for name in sorted(it for it in os.listdir(FAULTS) if os.path.isdir(os.path.join(FAULTS, it))):
        folder, words = os.path.join(FAULTS, name), WORDS.get(name, [])
        audit = answers.audit([folder, "--travel", "--unlisted", *words])
        page, status = check.page(name, ["--program", check.program, folder, *words])
        read = check.whole(name, page)
        found = ELSEWHERE.findall(DIGEST.sub("", page))
        check.that(f"{name}: nothing from elsewhere: {found}", not found)
        lines = [with_devices(audit.domain, it) for it in audit.output().splitlines()]
        end = next(n for n, it in enumerate(lines) if it.startswith(("unlisted", "asked", "excluded", "summary")))
        check.that(f"{name}: flows, explanations and steps", shown_lines(read) == lines[:end])
        check.that(f"{name}: status", status == audit.status)
        said = "\n".join(read.texts)
        check.that(f"{name}: verdict", f"Verdict: {lines[-1].split(' ')[1]}\n" in said)
        for flow in audit.domain.flows:
            check.that(f"{name}: row", f"{answers.dotted(flow[0])}\n{answers.dotted(flow[1])}\n{flow[2]}\n" in said)
        for (group, source), routers in audit.unlisted:
            row = f"{answers.dotted(source)}\n{answers.dotted(group)}\n{len(routers)}\n{answers.some(routers)}"
            check.that(f"{name}: unlisted", row in said)
            check.that(f"{name}: byte order", (group >> 24 in range(224, 240)) != ("is the byte order" in said))
        for want in audit.asked.wants:
            source = "*" if want.source is None else answers.dotted(want.source)
            row = f"{source}\n{answers.dotted(want.group)}\n{len(want.lans)}\n{answers.some(want.lans)}"
            check.that(f"{name}: asked", f"{row}\n{want.text().partition(': ')[2].partition(': ')[2]}\n" in said)
        for group in audit.asked.services:
            check.that(f"{name}: service", f"{answers.dotted(group)} {SERVICES[group]} on " in said)
        check.that(f"{name}: wants", f"Asked for, no flow\n{audit.asked.count}\n" in said)
        for router in audit.left_out:
            check.that(f"{name}: excluded", f"Excluded: {router}." in said)


def turned(value, names):
    """The value with each text that is one of the names in the place of another."""
    if isinstance(value, dict):
        return {key: turned(it, names) for key, it in value.items()}
    if isinstance(value, list):
        return [turned(it, names) for it in value]
    return names.get(value, value) if isinstance(value, str) else value


def look_at_hostile_names(check, tool):
    """Looks at pages of names that would be markup or script anywhere else."""
    for place, example in enumerate(["loop-of-three-routers", "missed-by-the-wrong-way", "a-flow-that-is-not-listed"]):
        lines = answers.audit([os.path.join(FAULTS, example), "--json", "--travel", "--unlisted"]).output().splitlines()
        known = ["eth0", "eth1", "studio", "hall", "r1", "r2", "10.0.0.5", "239.1.2.3"]
        for number, hostile in enumerate(HOSTILE):
            alone = known[(number + 3 * place) % len(known)]
            for names in {alone: hostile}, {old: hostile + old for old in known}:
                audit = tool.audit_of(turned(json.loads(line), names) for line in lines)
                graph = tool.Graph(audit.domain, tool.roots_of(audit))
                graph.lay_out()
                folder = tool.Folder("a folder <b onclick=alert(1)>&amp;")
                page = tool.page_of(audit, graph, folder).encode("utf-8", "replace").decode()
                read = check.whole(f"{example} with {names}", page)
                told = json.dumps(read.data())
                check.that(f"{example}: {names} is there", all(json.dumps(it)[1:-1] in told for it in names.values()))


def look_at_tried(check, tool):
    """Looks at pages of what was tried: each says so first, with what was made, whatever that has in it, and what it
    rests on; and none has a verdict that was not audited whole."""
    lines = answers.audit([os.path.join(FAULTS, "nobody-wants-it"), "--json", "--travel", "--unlisted"]).output()
    for hostile in HOSTILE:
        for unaudited in ([], [f"r1: {hostile}"]):
            audit = tool.audit_of(map(json.loads, lines.splitlines()))
            graph = tool.Graph(audit.domain, tool.roots_of(audit))
            graph.lay_out()
            made = types.SimpleNamespace(site=f"a {hostile}", changes=[f"r2: down {hostile}"], unaudited=unaudited,
                                         assumed=[f"r2 {hostile}: threshold 1"])
            page = tool.page_of(audit, graph, tool.Folder("site"), made).encode("utf-8", "replace").decode()
            read = check.whole(f"tried with {hostile!r}", page)
            texts = "\n".join(read.texts).encode("utf-8", "replace").decode()
            wanted = ["Tried, not found", *made.changes, *made.assumed, *unaudited]
            check.that(f"tried with {hostile!r} is there", all(
                it.encode("utf-8", "replace").decode().replace("\x00", "") in texts.replace("\x00", "") for it in wanted))
            has_yes = "Verdict after what was tried: yes" in texts
            check.that("a verdict of what was audited whole alone", has_yes != bool(unaudited))
            check.that("no verdict of what was found", "Verdict: yes" not in texts and "<title>Tried: " in page)


def places_in(value):
    """Each place in a value: the object or list, and the key or number there."""
    children = value.items() if isinstance(value, dict) else enumerate(value) if isinstance(value, list) else ()
    for key, child in children:
        yield value, key
        yield from places_in(child)


def look_at_turned_answers(check, tool):
    """Looks whether each answer of which something is turned makes a page or is refused."""
    pick = random.Random(TURNS)
    strange = [None, True, 0, -1, 255, 10 ** 30, 1.5, float("nan"), "", "*", [], {}, [1], {"a": 1}, "r1", "hall",
               "eth1", "\ud800"]
    for number in range(TURNS):
        example = pick.choice(["loop-of-three-routers", "missed-by-the-wrong-way", "a-flow-that-is-not-listed"])
        answer = answers.audit([os.path.join(FAULTS, example), "--json", "--travel"])
        lines = list(map(json.loads, answer.output().splitlines()))
        for _ in range(pick.randint(1, 3)):
            value, key = pick.choice(list(places_in(lines)))
            if pick.random() < 0.2:
                del value[key]
            else:
                value[key] = pick.choice(strange)
        try:
            audit = tool.audit_of(lines)
            graph = tool.Graph(audit.domain, tool.roots_of(audit))
            check.that(f"turn {number} of {example}", graph.words() and tool.page_data(audit, graph))
        except tool.Refused:
            check.that(f"turn {number} of {example}", True)


def look_at_steps(check, name, answer, said, shown):
    """Looks whether steps show where each copy of a travel went. Returns how many that are."""
    count = 0
    for event, sent in zip(said.travel.events, shown):
        row = answer.domain.exact(answer.domain.routers.index(event["router"]), said.flow)
        pairs = row.pairs if event["outcome"] == "sent" else []
        wanted = [vif for vif, threshold in sorted(pairs) if event["ttl"] > threshold]
        check.that(f"{name}: {event} shows {sent}, not {wanted}", sent == wanted)
        count += len(wanted)
    return count


def look_at_paths(check, tool):
    """Looks whether the steps of random travels show where each copy went, and the entries of paths by which vif it came
    to its router; and that nothing of this is shown where an answer doesn't say it."""
    count = 0
    for number in range(DOMAINS):
        with tempfile.TemporaryDirectory(prefix="mcaudit-page-") as folder:
            random_domains.Made(number).write(folder)
            answer = answers.audit([folder, "--json", "--travel"])
        lines = list(map(json.loads, answer.output().splitlines()))
        audit = tool.audit_of(lines)
        vifs = [port.vif for port in audit.domain.ports]
        for said, flow in zip(answer.answers, audit.flows):
            name = f"domain {number} flow {flow['number']}"
            if "kind" not in flow:
                for lan, _, _, port, start in audit.trees[flow["tree"]]:
                    row = port is not None and answer.domain.exact(audit.domain.ports[port].router, said.flow)
                    wanted = row.incoming if row else None
                    check.that(f"{name}: {lan} from {wanted}", wanted == (None if start is None else vifs[start]))
                    count += wanted is not None
            else:
                steps = json.loads(list(audit.travels)[flow["travel"]])[1:]
                count += look_at_steps(check, name, answer, said, [[vifs[port] for port in step[5]] for step in steps])
        for line in lines:
            for one in [*line.get("entries", []), *line.get("events", [])]:
                one.pop("from_vif", one.pop("onto", None))
        audit = tool.audit_of(lines)
        arrows = [step[5] for text in audit.travels for step in json.loads(text)[1:]]
        check.that(f"domain {number}: nothing is guessed", not any(arrows) and
                   all(entry[4] is None for tree in audit.trees for entry in tree))
    print(f"arrows: {count}")
    check.that("there are arrows", count > DOMAINS)


def colours_of(block):
    """The colours that a block of the style has, by name."""
    found = {}
    for name, digits in re.findall(r"--([-a-z]+): #([0-9a-f]+);", block):
        digits = "".join(2 * it for it in digits) if len(digits) == 3 else digits
        found[name] = tuple(int(digits[at:at + 2], 16) / 255 for at in (0, 2, 4))
    return found


def contrast(one, other):
    """How far two colours are apart, from 1 to 21 (WCAG 2, section 1.4.3)."""
    def light(colour):
        red, green, blue = (it / 12.92 if it <= 0.04045 else ((it + 0.055) / 1.055) ** 2.4 for it in colour)
        return 0.2126 * red + 0.7152 * green + 0.0722 * blue + 0.05
    lower, higher = sorted((light(one), light(other)))
    return higher / lower


def look_at_colours(check):
    """Looks at the colours of the page's style: of a light page, which is printed too, and of a dark one."""
    with open(os.path.join(TOP, "tools", "mcaudit_tools", "page", "page.css"), encoding="utf-8") as file:
        style = file.read()
    blocks = re.findall(r":root \{(.*?)\}", style, re.DOTALL)
    check.that("two sets of colours", len(blocks) == 2)
    light, dark = map(colours_of, blocks)
    rest = style.replace(blocks[0], "").replace(blocks[1], "")
    check.that("the same names in both", light and light.keys() == dark.keys())
    is_for_screens = re.search(r"@media screen and \(prefers-color-scheme: dark\) \{\s*:root", style)
    check.that("the dark one is for screens alone", is_for_screens)
    check.that("no colour but these", not re.search(r":[^;{}]*(#[0-9a-f]{3,8}\b|rgba?\(|\b(white|black)\b)", rest))
    used = set(re.findall(r"var\(--([-a-z]+)\)", rest))
    check.that("each is used, and each that is used is there", used == set(light))
    for kind, colours in ("light", light), ("dark", dark):
        is_dark = contrast(colours["ground"], (0, 0, 0)) < 2
        check.that(f"the {kind} page is {kind}", is_dark == (kind == "dark"))
        for ground, texts in READ_ON.items():
            for text in texts.split():
                apart = contrast(colours[text], colours[ground])
                check.that(f"{kind}: {text} on {ground}: {apart:.2f}", apart >= 4.5)


def program_in(folder):
    """The program that audits: the one of the words, the built one, or answers.py in its place."""
    if len(sys.argv) > 1:
        return os.path.abspath(sys.argv[1])
    example = os.path.join(FAULTS, "nobody-wants-it")
    if os.access(BUILT, os.X_OK):
        words = [BUILT, "audit", example, "--json", "--travel", "--unlisted"]
        done = subprocess.run(words, capture_output=True, check=False)
        if done.returncode in (0, 1):
            return BUILT
    path = os.path.join(folder, "mcaudit")
    with open(path, "w", encoding="utf-8") as file:
        file.write(f'#!/bin/sh\nshift\nexec "{sys.executable}" "{TOP}/tests/audited/answers.py" "$@"\n')
    os.chmod(path, 0o755)
    return path


def main():
    with tempfile.TemporaryDirectory(prefix="mcaudit-page-") as folder:
        check, tool = Check(folder, program_in(folder)), loaded_tool()
        look_at_colours(check)
        look_at_faults(check)
        look_at_hostile_names(check, tool)
        look_at_tried(check, tool)
        look_at_turned_answers(check, tool)
        look_at_paths(check, tool)
    return status_of(check.passed, check.failed)


if __name__ == "__main__":
    sys.exit(main())
