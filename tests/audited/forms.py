#!/usr/bin/env python3
"""Runs the built program's `audit` on topologies that are written in every form that TOML 1.1 allows.

  python3 tests/audited/forms.py PROGRAM [COUNT [FIRST]]

The domains are those of random_domains.py with the numbers from FIRST (0) on, as many as give COUNT (2000) forms at
FORMS each. A form is another text of the domain's topology: sections as lists or under headers, which may be mixed,
and rows on one line or many; keys bare or quoted; strings of all four kinds, with escapes and line feeds that don't
count; numbers in each base, with zeros before them and underscores; comments, blanks and commas wherever they may
stand; either end of a line, and a byte order mark. A dotted key makes a table that no topology has, so there is none.
None may be refused, and each has to be answered as the plain text is. Where a form is one of TOML 1.0 too, Python's
reader has to find in it what it finds in the plain text: that holds the forms to what they are meant to say. Each
kind of form has to come. The last line counts the forms: `N passed, M failed`. The status is 0 if none failed and one
was tried.
"""
import os
import random
import subprocess
import sys
import tempfile
import tomllib

sys.dont_write_bytecode = True
import random_domains
from tried import counts, try_all

SECONDS = 60
COUNT = 2000
FORMS = 8
WORDS = ["--travel", "--unlisted", "--json"]
REMARKS = ["", " [[flow]]", "x = \"", " '''", "\"\"\"", "\t{[.,=", " é = 1", " \\"]
SECTIONS = ("router", "interface", "source", "flow")
KINDS = {
    "byte order mark", "CRLF", "no last line feed", "comment", "list", "headers", "mixed headers", "line feed in a row",
    "comma behind a row", "comma behind a list", "bare key", "basic key", "literal key", "basic", "literal",
    "basic lines", "literal lines", "first line feed", "escape", "line feed that is cut", "quotes in lines", "decimal",
    "plus", "0x", "0o", "0b", "zeros", "underscores",
}


class Form:
    """A text of a domain's topology. `kinds` has what is seen in it, and `is_1_0` is false where TOML 1.0 hasn't that."""

    def __init__(self, made, seed):
        self.pick = random.Random(seed)
        self.kinds, self.is_1_0, self.has_1_1 = set(), True, self.pick.random() < 0.5
        self.line_feed = self.seen("CRLF", "\r\n") if self.pick.random() < 0.3 else "\n"
        self.remarks = self.pick.choice([0, 0.2, 0.6])
        self.is_plain_key = self.pick.random() < 0.3
        self.text = self.document(made)

    def seen(self, kind, text):
        self.kinds.add(kind)
        return text

    def beyond_1_0(self, kind, text):
        self.is_1_0 = False
        return self.seen(kind, text)

    # ---- what stands between

    def blank(self):
        return self.pick.choice(["", "", " ", "\t", "  \t "])

    def line_end(self):
        """A comment, or none, the end of the line, and lines of comment."""
        text = self.blank()
        while True:
            if self.pick.random() < self.remarks:
                text += self.seen("comment", "#" + self.pick.choice(REMARKS))
            text += self.line_feed + self.blank()
            if self.pick.random() > self.remarks:
                return text

    def gap(self):
        """What may stand between the values of a list."""
        return self.line_end() if self.pick.random() < 0.3 else self.blank()

    def row_gap(self, is_wide):
        """What may stand between the pairs of a row: line feeds in TOML 1.1 alone."""
        return self.beyond_1_0("line feed in a row", self.line_end()) if is_wide and self.pick.random() < 0.5 else self.blank()

    # ---- keys, strings and numbers

    def key(self, key):
        kind = "bare key" if self.is_plain_key else self.pick.choice(["bare key", "basic key", "literal key"])
        self.kinds.add(kind)
        if kind == "bare key":
            return key
        return f"'{key}'" if kind == "literal key" else f'"{self.escaped(key)}"'

    def escaped(self, text):
        """The content of a basic string: each character as it is, where it may stand so, or as one of its escapes."""
        chance = self.pick.choice([0, 0.2, 1])
        return "".join(self.character(c, chance) for c in text)

    def character(self, c, chance):
        number = ord(c)
        if c not in '"\\' and self.pick.random() >= chance:
            return c
        forms = [f"\\u{number:04x}", f"\\u{number:04X}", f"\\U{number:08x}"]
        forms += ["\\" + c] * 3 if c in '"\\' else []
        form = self.pick.choice(forms + ([f"\\x{number:02X}"] if self.has_1_1 and number < 256 else []))
        return self.beyond_1_0("escape", form) if form[1] == "x" else self.seen("escape", form)

    def string(self, text):
        kinds = ["basic", "basic lines"]
        kinds += ["literal", "literal lines"] if "'" not in text else []
        kind = self.pick.choice(kinds)
        self.kinds.add(kind)
        if kind == "basic":
            return f'"{self.escaped(text)}"'
        if kind == "literal":
            return f"'{text}'"
        first = self.seen("first line feed", self.line_feed) if self.pick.random() < 0.5 else ""
        if kind == "literal lines":
            return f"'''{first}{text}'''"
        return f'"""{first}{self.in_lines(text)}"""'

    def in_lines(self, text):
        """The content of a basic string of lines: a backslash at the end of a line cuts the blanks up to the next text, and
        one or two quotes may stand there as they are."""
        is_quoted = self.pick.random() < 0.5
        pieces = []
        for c in text:
            if self.pick.random() < 0.2:
                cut = "\\" + self.pick.choice(["", " ", "\t"]) + self.line_feed + self.pick.choice(["", "  ", self.line_feed])
                pieces.append(self.seen("line feed that is cut", cut))
            pieces.append(self.seen("quotes in lines", c) if c == '"' and is_quoted else self.character(c, 0.1))
        return "".join(pieces)

    def number(self, number):
        base = self.pick.choice(["", "", "0x", "0o", "0b"])
        if not base:
            self.kinds.add("decimal")
            return (self.seen("plus", "+") if self.pick.random() < 0.3 else "") + self.parted(str(number))
        digits = format(number, {"0x": self.pick.choice("xX"), "0o": "o", "0b": "b"}[base])
        if self.pick.random() < 0.5:
            digits = self.seen("zeros", "0" * self.pick.choice([1, 2, 30, 1021, 1022])) + digits
        return self.seen(base, base) + self.parted(digits)

    def parted(self, digits):
        if len(digits) < 2 or self.pick.random() < 0.5:
            return digits
        chance = self.pick.choice([0.2, 1])
        self.kinds.add("underscores")
        return digits[0] + "".join(("_" if self.pick.random() < chance else "") + digit for digit in digits[1:])

    # ---- rows and sections

    def pair(self, key, value):
        written = self.number(value) if isinstance(value, int) else self.string(value)
        return f"{self.key(key)}{self.blank()}={self.blank()}{written}"

    def pairs(self, row):
        pairs = list(row.items())
        self.pick.shuffle(pairs)
        return [self.pair(key, value) for key, value in pairs]

    def inline(self, row):
        is_wide = self.has_1_1 and self.pick.random() < 0.5
        text = "{" + self.row_gap(is_wide)
        text += ("," + self.row_gap(is_wide)).join(pair + self.row_gap(is_wide) for pair in self.pairs(row))
        if is_wide and self.pick.random() < 0.5:
            text += self.beyond_1_0("comma behind a row", "," + self.row_gap(is_wide))
        return text + "}"

    def values(self, values):
        """A list of these values."""
        text = "[" + self.gap() + ("," + self.gap()).join(value + self.gap() for value in values)
        if self.pick.random() < 0.5:
            text += self.seen("comma behind a list", ",") + self.gap()
        return text + "]"

    def under_header(self, name, row):
        pairs = "".join(self.blank() + pair + self.line_end() for pair in self.pairs(row))
        return f"{self.blank()}[[{self.blank()}{self.key(name)}{self.blank()}]]{self.line_end()}{pairs}"

    def document(self, made):
        rows = rows_of(made)
        lans = f"{self.key('lans')}{self.blank()}={self.blank()}{self.values([self.string(lan) for lan in made.lans])}"
        front = [self.pair("version", 1), lans]
        listed = {name for name in SECTIONS if self.pick.random() < 0.5}
        for name in SECTIONS:
            if name in listed:
                values = self.values([self.inline(row) for row in rows[name]])
                front.append(self.seen("list", f"{self.key(name)}{self.blank()}={self.blank()}{values}"))
        self.pick.shuffle(front)
        text = "".join(self.blank() + expression + self.line_end() for expression in front)
        text += "".join(self.under_header(name, row) for name, row in self.in_some_order(rows, listed))
        if self.pick.random() < 0.2:
            text = self.seen("no last line feed", text.rstrip("\r\n\t "))
        lead = self.seen("byte order mark", "\ufeff") if self.pick.random() < 0.2 else ""
        return lead + (self.line_end() if self.pick.random() < 0.3 else "") + text

    def in_some_order(self, rows, listed):
        """The rows that stand under headers, those of a section in order: section by section, or mixed."""
        left = {name: list(rows[name]) for name in SECTIONS if name not in listed}
        names = [name for name in left for _ in left[name]]
        self.kinds.update(["headers"] if names else [])
        self.pick.shuffle(names)
        if self.pick.random() < 0.5:
            order = list(dict.fromkeys(names))
            names.sort(key=order.index)
        elif len(left) > 1:
            self.kinds.add("mixed headers")
        return [(name, left[name].pop(0)) for name in names]


def rows_of(made):
    """The rows of a domain's sections, in order."""
    devices = [(router, random_domains.plain(device), lan)
               for router in made.routers for device, lan in made.interfaces[router].items()]
    return {
        "router": [{"name": name} | ({"order": made.orders[name]} if made.orders[name] == "big" else {}) for name in made.routers],
        "interface": [dict(zip(("router", "device", "lan"), row)) for row in devices],
        "source": [{"address": source, "lan": lan} for source, lan in made.sources.items()],
        "flow": [dict(zip(("source", "group", "ttl"), flow)) for flow in made.flows],
    }


def meaning_of(text):
    """What a text of TOML 1.0 says, where an order that isn't given is `little`."""
    table = tomllib.loads(text.removeprefix("\ufeff"))
    for router in table.get("router", []):
        router.setdefault("order", "little")
    return {"router": [], "interface": [], "source": []} | table


def answer(program, folder):
    run = subprocess.run([program, "audit", folder, *WORDS], capture_output=True, timeout=SECONDS, check=False)
    return run.returncode, run.stdout, run.stderr


def fault_of(program, folder, form, plain, wanted):
    """What is wrong with the answer to a form, or nothing."""
    if form.is_1_0 and meaning_of(form.text) != meaning_of(plain):
        return "another topology for Python"
    with open(os.path.join(folder, "topology"), "w", encoding="utf-8", newline="") as file:
        file.write(form.text)
    answered = answer(program, folder)
    return None if answered == wanted else f"status {answered[0]}: {answered[2].decode()}"


def try_domain(program, number):
    """Returns what is wrong with the answers to a domain's forms, and the kinds that were seen."""
    made, wrong, kinds = random_domains.Made(number), [], set()
    with tempfile.TemporaryDirectory(prefix="mcaudit-forms-") as folder:
        made.write(folder)
        plain, wanted = made.topology_text(), answer(program, folder)
        for place in range(FORMS):
            form = Form(made, number * FORMS + place)
            kinds |= form.kinds
            fault = fault_of(program, folder, form, plain, wanted)
            if fault or wanted[2]:
                wrong.append(f"form {place} of domain {number}: {fault or wanted[2].decode()}\n{form.text[:2000]}")
    return wrong, kinds


def main():
    program = os.path.abspath(sys.argv[1])
    count, first = counts(COUNT)
    numbers = range(first, first + count // FORMS)
    return try_all([(try_domain, program, number) for number in numbers], len(numbers) * FORMS, KINDS, "form")


if __name__ == "__main__":
    sys.exit(main())
