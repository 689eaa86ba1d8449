"""The flows of a topology, at their places in its text: a time to live is written anew there, and a flow is added.

The text is never read as TOML here: that is the program's. It is looked for the tables of `flow`, one behind the other,
and whether a changed text has the flows that were meant is seen in an audit of it. Where that isn't so, or they aren't
found, the change is refused.
"""
import re

from mcaudit_tools.common import Refused

ODD = "the topology has its flows in a form that is not changed here: change it by hand in a copy"
PART = re.compile(r"""\"{3}(?:[^\\]|\\.)*?\"{3,5}|'{3}.*?'{3,5}|"(?:[^"\\\n]|\\.)*"|'[^'\n]*'|#[^\n]*""",
                  re.DOTALL)  # of a text: strings of four kinds, and comments
START = r"(?m)^\ufeff?[ \t]*"
KEY = r"""(?:flow|"flow"|'flow')"""
LIST = re.compile(rf"{START}{KEY}[ \t]*=[ \t]*\[")
HEADER = re.compile(rf"{START}\[\[[ \t]*{KEY}[ \t]*\]\]")
ANY_HEADER = re.compile(rf"{START}\[")
TABLE = re.compile(r"\{[^{}]*\}")
TTL = re.compile(r"""(?<![^\s{,])(?:ttl|"ttl"|'ttl')\s*=\s*([+0-9A-Za-z_]+)""")


class FlowText:
    """A topology's text, of which flows are changed."""

    def __init__(self, text):
        """Takes its bytes, which are UTF-8."""
        self.characters = text.decode()

    def text(self):
        """Returns its bytes."""
        return self.characters.encode()

    def plain(self):
        """Returns a text of the same length that has no comments, and in strings no marks of TOML."""
        def blank(found):
            """Returns what replaces a string or a comment."""
            text = found[0]
            return " " * len(text) if text[0] == "#" else text[0] + re.sub(r"\W", "_", text[1:-1]) + text[-1]
        return PART.sub(blank, self.characters)

    def tables(self, plain):
        """Returns the places, start and end, of the tables of the flows in their order."""
        first = LIST.search(plain)
        if first is not None:
            end = plain.find("]", first.end())
            return [it.span() for it in TABLE.finditer(plain, first.end(), end)] if end > 0 else []
        starts = [it.end() for it in HEADER.finditer(plain)]
        ends = [ANY_HEADER.search(plain, it) for it in starts]
        return [(start, end.start() if end else len(plain)) for start, end in zip(starts, ends)]

    def set_ttl(self, number, count, ttl):
        """Gives the flow of this number, counted from 1, of so many flows another time to live."""
        plain = self.plain()
        tables = self.tables(plain)
        found = TTL.search(plain, *tables[number - 1]) if len(tables) == count else None
        if found is None:
            raise Refused(ODD)
        self.characters = self.characters[:found.start(1)] + str(ttl) + self.characters[found.end(1):]

    def add(self, source, group, ttl):
        """Adds a flow behind the others."""
        plain, feed = self.plain(), "\r\n" if "\r\n" in self.characters else "\n"
        pairs = f'source = "{source}"', f'group = "{group}"', f"ttl = {ttl}"
        if HEADER.search(plain):
            gap = feed if self.characters.endswith("\n") else feed * 2
            self.characters += gap + "".join(it + feed for it in ("[[flow]]", *pairs))
            return
        first = LIST.search(plain)
        end = plain.find("]", first.end()) if first else -1
        if end < 0:
            raise Refused(ODD)
        last = len(plain[:end].rstrip())  # behind it are comments and blanks alone
        comma = "" if plain[last - 1] in ",[" else ","
        lead = "" if self.characters[:end].endswith(("\n", "[")) else feed
        table = f"{lead}{{{', '.join(pairs)}}},{feed}"
        self.characters = self.characters[:last] + comma + self.characters[last:end] + table + self.characters[end:]
