"""What a router says of itself in sections: its own words, believed of it alone and in bounds."""
import json
import re

from mcaudit_tools.common import clean
from mcaudit_tools.facts import END
from mcaudit_tools.files import whole

MOST_LINES = 1_000_000  # of what a router says
MOST_DEPTH = 32  # of JSON that a router answers
STRING = re.compile(r'"[^"]*"?')  # where no quote is escaped
AS_ONE = bytes.maketrans(b"{}", b"[]")
NO_BRACKETS = bytes(set(range(256)) - set(b"[]{}"))
UNREADABLE = ValueError, KeyError, TypeError, AttributeError, IndexError, RecursionError


def is_shallow(text):
    """Whether a text that may be JSON is nested no deeper than it may be: each turn takes away what is innermost."""
    unquoted = STRING.sub("", text.replace("\\\\", "").replace('\\"', ""))
    brackets = unquoted.encode("ascii", "replace").translate(AS_ONE, NO_BRACKETS)
    for _ in range(MOST_DEPTH):
        brackets = brackets.replace(b"[]", b"")
    return not brackets


def json_of(text):
    """Returns the value of JSON of a bounded depth; None where it is none."""
    try:
        return json.loads(text, parse_int=whole) if is_shallow(text) else None
    except (ValueError, RecursionError):
        return None


def json_lists(text):
    """Returns the values of a line in which lists of JSON follow each other."""
    value = json_of("[" + text.replace("][", "],[") + "]")
    return value if isinstance(value, list) else []


class Told:
    """The sections of a router's answer."""

    def __init__(self, text):
        """Takes the text of the answer."""
        self.sections, name = {}, None
        for line in text.split(b"\n")[:-1]:  # what has no end is cut
            if line.startswith(b"@"):
                name = line[1:].decode("ascii", "replace")
                self.sections.setdefault(name, [])
            elif line.startswith(b" ") and name is not None:
                self.sections[name].append(line[1:])
        self.is_whole = name == END
        if name is not None and not self.is_whole:
            self.sections[name].append(b"!cut short")

    def bytes(self, name):
        """Returns a section as bytes."""
        return b"\n".join(self.sections.get(name, ()))

    def text(self, name):
        """Returns a section as text."""
        return self.bytes(name).decode("ascii", "replace")

    def lines(self, name):
        """Returns the lines of a section, but for those that say why there are no more."""
        return [it for it in self.text(name).split("\n") if it and not it.startswith("!")]

    def fault(self, name):
        """Returns why a section isn't there, or not whole: None where it is."""
        if name not in self.sections:
            return "nothing shows it"
        for line in self.sections[name]:
            if line.startswith(b"!"):
                reason = clean(line[1:].decode("ascii", "replace"))[:80]
                return f"it ended with status {reason}" if reason.isdigit() else reason
        return None

    def failed(self):
        """Returns why the facts aren't all, or None."""
        if "failed" in self.sections:
            return clean(self.text("failed"))[:200]
        return None if self.is_whole else "the file is cut short"

    def json(self, name):
        """Returns the value of a section of JSON, or None."""
        return json_of(self.text(name)) if self.fault(name) is None else None
