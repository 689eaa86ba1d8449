#!/usr/bin/env python3
"""Runs the built program's `audit` on many domains, and compares what it says with answers.py.

  python3 tests/audited/run.py PROGRAM [COUNT [FIRST]]

The domains are those of examples/faults, and those of random_domains.py with the numbers from FIRST (0) on, COUNT (400)
of them. answers.py works the answers out from their definitions, and the program has to write the same bytes, as text
and as JSON, and end with the same status. In MANY further ones hosts ask for thousands of sources. An example is tried with all of WORDS and with its own, a random domain with
TRIED of WORDS, beginning at its number, so that each set comes for half of them. For the examples, whose answers
stand beside their folders and were read line by line against the tables, answers.py has to give these. Each kind of
finding has to come, each kind of line that explains one, a finding that isn't known to make its flow wrong, one that
is shown from some TTL on, and what the flow's own TTL shows then, each line of what is behind a stray, each place that
a want has and what is said of it, each line behind the flows, and two trees that differ in a `from_vif` alone, or the
domains would show too little. The last line counts the domains: `N passed, M failed`. The status is 0 if none failed and one
was run.
"""
import os
import subprocess
import sys
import tempfile
import tomllib

sys.dont_write_bytecode = True
import answers
import faults
import random_domains
from names import SHOWN_NAMES
from tried import counts, try_all

SECONDS = 60
COUNT = 400
# Sets of words: A and B stand for two of the domain's routers, and B is left out where there is one alone.
WORDS = (
    "", "--travel", "--faults --strict", "--unlisted",
    "--json", "--json --travel", "--json --faults --unlisted --strict",
    "--without=A", "--strict --without A --faults", "--without B --travel --without=A --unlisted",
    "--json --without=A", "--without=B --without A --travel --json",
    "--ignore 239.7.7.0/24 --strict --ignore=239.7.7.0/28", "--json --ignore=239.8.0.0/15 --without A --ignore 224.0.0.0/5",
)
TRIED = 7
# Pairs of sources that hosts ask for, and whether there are so many repeats that the program sorts them.
MANY = ((1_000, False), (6_000, False), (5_000, True))
FINDINGS = {"Duplicate", "Loop", "Stray", "Missed"}
LINES = {
    "sent_onto", "circle", "take_out", "on_no_lan", "register_vif", "tunnel", "no_device", "no_vif_line",
    "only_every_source", "least_ttl", "stopped_at", "gets_as_far_as", "not_taken", "left_out", "no_row", "unresolved",
    "every_source", "from_no_lan", "from_register", "from_tunnel", "from_no_device", "from_no_vif_line", "does_not_send",
    "stopped", "waits_for", "no_vif", "not_multicast", "expected_from_here", "no_router", "no_sender",
}
BEHIND = {"unlisted", "further rows", "without", "strict", "strict asked"}
FLOWS = {"unknown", "shown from", "at ttl Clean", "at ttl Missed", "at ttl Stray", "at ttl not told"}
STRAYS = {"behind Loop", "behind Duplicate", "behind shown_from", "behind strays", "behind open", "behind missed",
          "behind nothing"}
ASKED = {"answered", "answered by the LAN", "left aside", "service", "asked", "asked and more", "asked services and more",
         "forwarded by", "no outgoing LAN interface in", "no entry for it but (*,G) or (*,*) in", "no router forwards it",
         "no router with known tables forwards it", "listed for the group:", "SSM: routers ignore it", "a source",
         "any source"}
TREES = {"from_vif"}


def trees_of(audit, *left_out):
    """The different trees of a domain's right flows, by their entries without these keys."""
    return {str([[entry[key] for key in sorted(entry) if key not in left_out] for entry in answer.entries])
            for answer in audit.answers if answer.is_clean}


def kinds_of_fault(answer):
    """The kinds of lines of a flow with a finding."""
    kinds = {answer.travel.finding[0], *(line["kind"] for line in answer.why)}
    kinds |= {"unknown"} if answer.right is None else set()
    kinds |= {"shown from"} if answer.shown_from else set()
    if answer.at_ttl:
        kinds.add(f"at ttl {answer.at_ttl[0]}")
    elif answer.shown_from and answer.shown_from > answer.flow[2]:
        kinds.add("at ttl not told")
    return kinds | (answer.behind.kinds() if answer.behind else set())


def kinds_of_wants(asked):
    """The places that wants have, and the kinds of lines of them."""
    kinds = set(asked.places)
    for want in asked.wants:
        kinds |= {"any source" if want.source is None else "a source", want.what()[0], *(it[0] for it in want.remarks())}
    kinds |= {"asked and more"} if asked.more else set()
    return kinds | ({"asked services and more"} if len(asked.services) > SHOWN_NAMES else set())


def kinds_of(audit):
    """The findings in a domain, the kinds of lines that explain them, the lines behind the flows, and whether trees differ
    in a `from_vif` alone."""
    kinds = kinds_of_wants(audit.asked)
    for answer in audit.answers:
        kinds |= {"Clean"} if answer.is_clean else kinds_of_fault(answer)
    strict = ["strict asked" if line.endswith("no flow answers, status 1") else "strict" for line in audit.strict]
    behind = (audit.unlisted, audit.further, audit.left_out)
    kinds |= {*strict, *(name for name, is_there in zip(("unlisted", "further rows", "without"), behind) if is_there)}
    return kinds | (TREES if len(trees_of(audit)) > len(trees_of(audit, "from_vif")) else set())


def try_words(program, name, words):
    """Returns what is wrong with the program's answer of these words, or nothing, and what it shows."""
    wanted = answers.audit(words)
    run = subprocess.run([program, "audit", *words], capture_output=True, timeout=SECONDS, check=False)
    said = run.stdout.decode("latin-1")
    expected = wanted.output()
    if said == expected and run.returncode == wanted.status and not run.stderr:
        return None, kinds_of(wanted)
    return (f"{name}: {' '.join(words)}: wanted status {wanted.status}\n{expected}said status {run.returncode}\n{said}"
            + run.stderr.decode("latin-1"), kinds_of(wanted))


def routers_of(folder):
    with open(os.path.join(folder, "topology"), "rb") as file:
        return [router["name"] for router in tomllib.load(file).get("router", [])]


def words_of(text, routers, number):
    """A set's words for a domain with these routers and this number."""
    named = {letter: routers[(number + place) % len(routers)] for place, letter in enumerate("AB")} if routers else {}
    words = []
    for word in text.replace("--without ", "--without_").split():
        option, sign, router = word[:9], word[9:10], word[10:]
        if option != "--without":
            words.append(word)
        elif router != "B" or len(routers) > 1:
            router = named.get(router, router)
            words += [f"--without={router}"] if sign == "=" else ["--without", router]
    return words


def sets_of_example(own):
    """The sets of words for an example that needs these. Where it leaves out a router, whose files may be missing, these
    stand before each set that leaves out no other."""
    if "--without" in own:
        return [f"{own} {text}" for text in WORDS if "--without" not in text]
    return list(dict.fromkeys([*WORDS, own, f"{own} --json".strip()]))


def try_folder(program, name, folder, sets, number):
    """Returns what is wrong with the program's answers of a folder, in one text if anything is, and what is found in
    its domain."""
    routers, wrong, kinds = routers_of(folder), [], set()
    for place, text in enumerate(sets):
        words = words_of(text, routers, number)
        # the folder stands before the options and behind them
        words = [folder, *words] if (number + place) % 2 else [*words, folder]
        said, found = try_words(program, name, words)
        wrong += [said] if said else []
        kinds |= found
    return ["".join(wrong)] if wrong else [], kinds


def try_random(program, number):
    with tempfile.TemporaryDirectory(prefix="mcaudit-audited-") as folder:
        random_domains.Made(number).write(folder)
        sets = [WORDS[(number + place) % len(WORDS)] for place in range(TRIED)]
        return try_folder(program, f"domain {number}", folder, sets, number // len(WORDS))


def try_many(program, number):
    pairs, is_sorted = MANY[number]
    with tempfile.TemporaryDirectory(prefix="mcaudit-audited-") as folder:
        random_domains.ManyWants(number, pairs, is_sorted).write(folder)
        return try_folder(program, f"{pairs} pairs", folder, ["", "--json --unlisted"], number)


def try_example(program, name):
    folder, own = os.path.join(faults.FOLDER, name), faults.WORDS.get(name, "")
    for ending in ("txt", "json"):
        with open(f"{folder}.{ending}", encoding="latin-1") as file:
            stands = file.read()
        worked_out = faults.answer_of(name, ending)
        if worked_out != stands:
            return [f"{name}.{ending}: stands\n{stands}answers.py\n{worked_out}"], set()
    return try_folder(program, name, folder, sets_of_example(own), 0)


def main():
    program = os.path.abspath(sys.argv[1])
    count, first = counts(COUNT)
    examples = sorted(name for name in os.listdir(faults.FOLDER) if os.path.isdir(os.path.join(faults.FOLDER, name)))
    tries = [(try_example, program, name) for name in examples]
    tries += [(try_random, program, number) for number in range(first, first + count)]
    tries += [(try_many, program, number) for number in range(len(MANY))]
    return try_all(tries, len(tries) if examples else 0, FINDINGS | LINES | FLOWS | STRAYS | ASKED | BEHIND | TREES, "domain")


if __name__ == "__main__":
    sys.exit(main())
