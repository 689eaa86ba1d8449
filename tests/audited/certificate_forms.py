#!/usr/bin/env python3
"""Runs the built program's `check` on certificates in odd forms, and compares what it says with certificates.py.

  python3 tests/audited/certificate_forms.py PROGRAM [COUNT [FIRST]]

The domains are those of random_domains.py with the numbers from FIRST (0) on, as many as give COUNT (4000) forms at
FORMS each. A form is a certificate of the domain in either version, with what its flows reach or something else in its
entries; as `make` writes it or with blanks, escapes, keys in another order, and keys that come twice, the earlier one
with anything; some with something odd in it, as a number with an exponent, a key too many or garbage that nests as deep
as it may; and some damaged: cut off, with other bytes, or with bytes that are no UTF-8. certificates.py works out from
the bytes what `check` has to say, by Python's reader of JSON: the verdict of each flow, or the first fault. Each kind
of form has to come, each kind of fault and of place, and each reason. The last line counts the forms: `N passed,
M failed`. The status is 0 if none failed and one was tried.
"""
import os
import random
import subprocess
import sys
import tempfile

sys.dont_write_bytecode = True
import answers
import certificates
import random_domains
from tried import counts, try_all

SECONDS = 60
COUNT = 4000
FORMS = 20
BLANKS = ["", "", " ", "\t", "\n", "\r\n", "  \t "]
# what stands in a value's place, by what is odd about it
ODD = {
    "whole number": ["0", "1", "2", "31", "32", "255", "256", "4095", "4096", "10000", "18446744073709551616"],
    "fraction": ["1.0", "0.0", "1.5", "-2.5", "2.000000000000000000000000000001"],
    "exponent": ["1e0", "1E0", "1e+0", "1e-0", "10e-1", "0e999", "1e-400", "2E2"],
    "sign": ["-0", "-1", "-255", "-9223372036854775809"],
    "great number": ["1e308", "1.7976931348623157e308", "9" * 308],
    "word": ["null", "true", "false"],
    "empty": ["[]", "{}", '""', "[[]]", "[{}]", "[ ]", "{ }"],
    "other value": ["[1]", '{"lan":"l0"}', '[{"lan":"l0","need":1,"rank":0}]', '"l0"', '"r1"', '"239.1.2.3"'],
    "other text": ['"l9"', '"L0"', '"l0 "', '"10.0.0.05"', '"1"', '"é"', '"\x7f"', r'"\u00e9\/\b\f\n\r\t\"\\"'],
    "pair of surrogates": [r'"\ud83d\ude00"', r'"\uD83D\uDE00"', r'{"\ud83d\ude00":[1]}'],
}
# what stands there though it is no JSON
NO_JSON = {
    "number too great": ["1e309", "-1e400", "9" * 309, "1e99999999999999999999", "1.7976931348623159e308"],
    "no number": ["01", "+1", ".5", "1.", "1.e1", "1e", "1e+", "-", "--1", "0x1", "1_0", "NaN", "-Infinity"],
    "no word": ["nul", "True", "nullnull", "undefined", "", "tru e"],
    "no text": ['"', "'l0'", r'"\x41"', r'"\u12"', r'"\u12g4"', '"\\', '"a\nb"', '"\t"', '"\0"', r'"\U0001f600"'],
    "lone surrogate": [r'"\ud800"', r'"\udc00\ud800"', r'"\ud83dx"', r'"\ud83d\u0041"', r'{"\ude00":1}', r'["\uDBFF"]'],
    "no list": ["[1,]", "[,1]", "[1 2]", "[1", "1]", "[1}", "[1,,2]"],
    "no object": ['{"a"}', '{"a":}', '{"a":1,}', "{,}", '{"a" 1}', "{a:1}", '{"a":1;"b":2}', "{1:1}", '{"a"::1}'],
    "comment": ["/* */1", "1//", "#\n1"],
}
# what is put in among the bytes, by what is wrong with it
BYTES = {
    "no UTF-8": [b"\xff", b"\x80", b"\xc0\x80", b"\xed\xa0\x80", b"\xf4\x90\x80\x80", b"\xe2\x82", b"\xf8\x88\x80\x80"],
    "byte": [bytes([byte]) for byte in b'{}[],:"\\ \n\r\t\0\x0b\x1f\x7f0123456789.-+eEtfnaul'],
    "character": [character.encode() for character in "\xa0\u2028\ufeff\xe9\U0001f600"],
}
BEHIND = [b"\n", b" \t\r\n", b"x", b"}", b"]", b",", b"{}", b"\0", b"\x0b", b"\xff", b"1", b"\xc2\xa0"]
PLACES = ("top", "flow", "entry")
KINDS = {
    *ODD, *NO_JSON, *BYTES, "version 1", "version 2", "as written", "blank", "escape", "escape in a key", "other order",
    *(f"twice at {place}" for place in PLACES), *(f"odd at {place}" for place in PLACES), "odd, then twice",
    "twice, then odd", "key that is missing", "key that is unknown", "deep", "too deep", "entries", "trees", "flows",
    "byte order mark", "cut", "behind", "byte that is missing", "other byte",
}
ANSWERS = {
    "top", "flow", "flow entry", "tree", "tree entry", "TooMany", "NotJson", "BadKind", "MissingKey", "BadVersion",
    "UnknownKey", "WrongFlows", "BadNumber", "UnknownName", "verdict yes", "verdict no", "TwoEntries", "BadSource",
    "Wildcard", "Stray", "Extra", "WrongRank", "WrongNeed", "Unfed", "Missed", "Low",
}


class Raw(str):
    """A text that stands for itself."""


class Pairs(list):
    """The keys and values of an object, and where it is: `top`, `flow` or `entry`."""

    def __init__(self, place, pairs):
        super().__init__(pairs)
        self.place = place


def objects_in(value):
    """A value's objects, itself among them."""
    if isinstance(value, Pairs):
        yield value
        value = [one for _, one in value]
    if isinstance(value, list):
        for one in value:
            yield from objects_in(one)


class Form:
    """A text of a certificate of a domain, as bytes. `kinds` has what is seen in it."""

    def __init__(self, domain, seed):
        self.domain, self.pick = domain, random.Random(seed)
        self.kinds = set()
        is_plain = self.pick.random() < 0.2
        self.blanks = 0 if is_plain else self.pick.choice([0, 0.2, 1])
        self.escapes = 0 if is_plain else self.pick.choice([0, 0.1, 1])
        self.twice = 0 if is_plain else self.pick.choice([0, 0.1, 0.4])
        self.is_turned = not is_plain and self.pick.random() < 0.5
        version = self.pick.choice([1, 2])
        self.kinds |= {f"version {version}"} | ({"as written"} if is_plain and version == 2 else set())
        value = self.certificate(version)
        for _ in range(self.pick.choice([0, 0, 0, 1, 1, 2])):
            value = self.with_something_odd(value)
        self.text = (self.blank() + self.written(value) + self.blank()).encode()
        if self.pick.random() < 0.15:
            self.damage()

    def seen(self, kind, value):
        self.kinds.add(kind)
        return value

    # ---- the certificate

    def certificate(self, version):
        trees = [self.entries(flow) for flow in self.domain.flows]
        flows = []
        for number, (source, group, *_) in enumerate(self.domain.flows):
            last = ("reached", trees[number]) if version == 1 else ("tree", number)
            pairs = [("group", answers.dotted(group)), ("source", answers.dotted(source)), last]
            flows.append(Pairs("flow", sorted(pairs) if version == 1 else pairs))
        pairs = [("flows", flows), ("version", version)]
        return Pairs("top", pairs if version == 1 else [("flows", flows), ("trees", trees), ("version", version)])

    def entries(self, flow):
        """The entries of what a packet of the flow reaches, some of them with something else."""
        travel = answers.Travel(self.domain, flow, self.pick.choice([255, 255, flow[2]]))
        lans = sorted({copy[0] for copy in travel.carried})
        found = [answers.entry_of(self.domain, travel, travel.first_on(lan)) for lan in lans]
        for _ in range(self.pick.choice([0, 0, 0, 1, 2])):
            self.turn_something(found)
        return [self.entry(one) for one in found]

    def turn_something(self, entries):
        """Changes something of a list of entries that keeps it a list of entries."""
        where = self.pick.randrange(len(entries)) if entries else 0
        kind = self.pick.choice(["need", "rank", "sender", "lan", "out", "again", "more", "order"])
        if kind == "order" or not entries:
            self.pick.shuffle(entries)
        elif kind in ("again", "more"):
            more = entries[where] | ({} if kind == "again" else self.other("lan") | self.other("sender"))
            entries.insert(self.pick.randint(0, len(entries)), more)
        elif kind == "out":
            del entries[where]
        else:
            entries[where] = entries[where] | self.other(kind)

    def other(self, kind):
        if kind == "sender":
            router = self.pick.choice([None, *self.domain.routers])
            return {"router": router, "vif": None if router is None else self.pick.randrange(32)}
        values = {"need": [1, 2, 3, 255], "rank": [0, 1, 2, 254, 255], "lan": self.domain.lans}
        return {kind: self.pick.choice(values[kind])}

    @staticmethod
    def entry(found):
        keys = ["lan", "need", "rank"] + (["router", "vif"] if found["router"] is not None else [])
        return Pairs("entry", [(key, found[key]) for key in keys])

    # ---- what is odd in it

    def odd(self):
        """Something odd in place of a value."""
        odd = NO_JSON if self.pick.random() < 0.1 else ODD
        kind = self.pick.choice([*odd, "deep"])
        if kind != "deep":
            return Raw(self.seen(kind, self.pick.choice(odd[kind])))
        depth = 1000 if odd is NO_JSON else self.pick.choice([1, 10, *range(119, 129)])
        opened = [self.pick.choice(["[", '{"x":', '{"x":[],"y":', "[1,"]) for _ in range(depth)]
        closed = "".join("]" if one[0] == "[" else "}" for one in reversed(opened))
        return Raw(self.seen("deep" if odd is ODD else "too deep", "".join([*opened, "0", closed])))

    def with_something_odd(self, value):
        kind = self.pick.choice(["value", "value", "value", "key", "rows", "whole"])
        places = list(objects_in(value))
        if kind == "whole" and self.pick.random() < 0.3:
            return self.odd()
        if kind == "rows":
            self.change_rows(places)
        elif places:
            place = self.pick.choice(PLACES)
            pairs = self.pick.choice([one for one in places if one.place == place] or places)
            self.kinds.add(f"odd at {pairs.place}")
            self.change(pairs, kind)
        return value

    def change(self, pairs, kind):
        """Changes a key or a value of an object."""
        where = self.pick.randrange(len(pairs)) if pairs else 0
        if kind == "value" and pairs:
            pairs[where] = (pairs[where][0], self.odd())
        elif self.pick.random() < 0.5 and pairs:
            self.seen("key that is missing", pairs.pop(where))
        else:
            key = self.pick.choice(["x", "", "Lan", "lan ", "tree", "trees", "reached", "vif", "version\0", "\u00e9"])
            pairs.insert(where, (self.seen("key that is unknown", key), self.odd()))

    def change_rows(self, places):
        """Changes how many rows a list has."""
        lists = [(key, rows) for pairs in places for key, rows in pairs if isinstance(rows, list)]
        lists += [("tree", tree) for key, trees in lists if key == "trees" for tree in trees if isinstance(tree, list)]
        if not lists:
            return
        key, rows = self.pick.choice(lists)
        limits = {"flows": ("flows", 2, "{}"), "trees": ("trees", 4096, "[]")}
        kind, most, more = limits.get(key, ("entries", 1024, "{}"))
        way = self.pick.choice(["fewer", "odd", "another", "most", "too many"])
        if way == "fewer" and rows:
            rows.pop(self.pick.randrange(len(rows)))
        elif way == "odd":
            rows.insert(self.pick.randint(0, len(rows)), self.odd())
        else:
            count = {"most": most, "too many": most + 1}.get(way, len(rows) + 1)
            rows += [rows[0] if rows and kind != "trees" else Raw(more)] * (count - len(rows))
        self.kinds.add(kind)

    # ---- its text

    def blank(self):
        if self.pick.random() >= self.blanks:
            return ""
        blank = self.pick.choice(BLANKS)
        return self.seen("blank", blank) if blank else ""

    def written(self, value):
        if isinstance(value, Pairs):
            return self.object(value)
        if isinstance(value, list):
            return "[" + self.blank() + ",".join(self.blank() + self.written(one) + self.blank() for one in value) + "]"
        if isinstance(value, Raw) or not isinstance(value, str):
            return str(value)
        return self.string(value, "escape")

    def object(self, members):
        pairs = [(key, self.written(value)) for key, value in members]
        if self.is_turned:
            self.pick.shuffle(self.seen("other order", pairs))
        for key, _ in list(pairs):
            if self.pick.random() < self.twice:
                self.add_twice(pairs, key, members.place)
        return "{" + self.blank() + ",".join(map(self.pair, pairs)) + "}"

    def add_twice(self, pairs, key, place):
        """Puts a pair with this key, and with anything, before the one that is there, or now and then behind it."""
        where = next(at for at in reversed(range(len(pairs))) if pairs[at][0] == key)
        value = self.pick.choice([self.odd, lambda: pairs[where][1], lambda: self.pick.choice(pairs)[1]])()
        if self.pick.random() < 0.9:
            self.kinds |= {f"twice at {place}"} | ({"odd, then twice"} if isinstance(value, Raw) else set())
            pairs.insert(self.pick.randint(0, where), (key, value))
        else:
            pairs.insert(self.pick.randint(where + 1, len(pairs)), (self.seen("twice, then odd", key), value))

    def pair(self, pair):
        key, value = pair
        return f"{self.blank()}{self.string(key, 'escape in a key')}{self.blank()}:{self.blank()}{value}{self.blank()}"

    def string(self, text, kind):
        return '"' + "".join(self.character(c, kind) for c in text) + '"'

    def character(self, c, kind):
        if c >= " " and self.pick.random() >= self.escapes:
            return c
        form = self.pick.choice(["\\u{:04x}", "\\u{:04X}"])
        return self.seen(kind, form.format(ord(c)))

    # ---- what is damaged of it

    def damage(self):
        """Changes the bytes."""
        where = self.pick.randint(0, len(self.text))
        front, rest = self.text[:where], self.text[where:]
        kinds = [*BYTES, "byte", "other byte", "byte that is missing", "cut", "behind", "byte order mark"]
        kind = self.pick.choice(kinds)
        if kind in BYTES:
            self.text = front + self.pick.choice(BYTES[kind]) + rest
        elif kind == "other byte":
            self.text = front + self.pick.choice(BYTES["byte"]) + rest[1:]
        elif kind == "behind":
            self.text += self.pick.choice(BEHIND)
        elif kind == "byte order mark":
            self.text = "\ufeff".encode() + self.text
        else:
            self.text = front + (rest[1:] if kind == "byte that is missing" else b"")
        self.kinds.add(kind)


def bundle_of(made, folder):
    """The parts of a domain's bundle that stand before the certificate."""
    names = ["topology"]
    names += [f"{kind}/{router}" for router in made.routers for kind in ("vif", "cache")]
    names += [f"igmp/{lan}" for lan in made.lans]
    parts = [b"mcaudit bundle 1\n"]
    for name in names:
        with open(os.path.join(folder, name.replace("/", "-", 1)), "rb") as file:
            parts.append(part(name, file.read()))
    return b"".join(parts)


def part(name, text):
    return f"part {name} {len(text)}\n".encode() + text + b"\n"


def said(program, bundle):
    run = subprocess.run([program, "check"], input=bundle, capture_output=True, timeout=SECONDS, check=False)
    return run.returncode, run.stdout.decode(), run.stderr.decode()


def try_domain(program, number):
    """Returns what is wrong with the answers to a domain's forms, and the kinds that were seen."""
    made, wrong, kinds = random_domains.Made(number), [], set()
    with tempfile.TemporaryDirectory(prefix="mcaudit-certificates-") as folder:
        made.write(folder)
        domain, front = answers.Domain(folder), bundle_of(made, folder)
    for place in range(FORMS):
        form = Form(domain, number * FORMS + place)
        wanted, found = certificates.check(domain, form.text)
        kinds |= form.kinds | found
        answered = said(program, front + part("certificate", form.text) + b"end\n")
        if answered != wanted:
            wrong.append(f"form {place} of domain {number}: wanted {wanted}, said {answered}\n{form.text[:2000]!r}")
    return wrong, kinds


def main():
    program = os.path.abspath(sys.argv[1])
    count, first = counts(COUNT)
    numbers = range(first, first + count // FORMS)
    tries = [(try_domain, program, number) for number in numbers]
    return try_all(tries, len(numbers) * FORMS, KINDS | ANSWERS, "form")


if __name__ == "__main__":
    sys.exit(main())
