"""The texts of the tables whose head says `made: yes`, too large to stand there or too many: a row is the
name of a function of this file and its words. A function gets the table's text too, and gives the row's texts.

  python3 tests/cli/made.py NAME [WORD ..]      writes the first text of a function that needs no table's
"""
import re
import sys
import tomllib


def repeated(_base, byte, size):
    """A byte, in hexadecimal, so many times."""
    return [bytes.fromhex(byte) * int(size)]


def padded(base, byte, size):
    """The table's text with a byte, in hexadecimal, behind it up to a size."""
    return [base + bytes.fromhex(byte) * (int(size) - len(base))]


def cut(base, first, last):
    """The first bytes of the table's text, of each length from the first to the last one."""
    return [base[:length] for length in range(int(first), int(last) + 1)]


def parts(_base, count):
    """A bundle of so many empty parts."""
    return [b"mcaudit bundle 1\n" + b"part a 0\n\n" * int(count) + b"end\n"]


def ones(base, section, count):
    """The table's topology with so many numbers in place of what a list has."""
    text, changes = re.subn(rf"^{section} = \[.*?\]$", f"{section} = [{'1,' * int(count)}]", base.decode(), 1, re.M | re.S)
    assert changes == 1
    return [text.encode()]


def topology(_base, lans, routers, interfaces, sources, flows):
    """A topology of so many parts, each of which may stand there."""
    lan = "a-name-of-a-lan-of-32-bytes-"
    return ["\n".join([
        "version = 1",
        "lans = [" + "".join(f'"{lan}{n:04}",' for n in range(int(lans))) + "]",
        "router = [" + "".join(f'{{name = "r{n}"}},' for n in range(int(routers))) + "]",
        "interface = [" + "".join(f'{{router = "r{n % 256}", device = "eth{n // 256}", lan = "{lan}{n % 1024:04}"}},'
                                  for n in range(int(interfaces))) + "]",
        "source = [" + "".join(f'{{address = "10.0.{n // 256}.{n % 256}", lan = "{lan}1023"}},'
                               for n in range(int(sources))) + "]",
        "flow = [" + "".join(f'{{source = "10.0.15.255", group = "239.1.{n // 256}.{n % 256}", ttl = 3}},'
                             for n in range(int(flows))) + "]\n",
    ]).encode()]


def trailing(_base, *counts):
    """The same with a comma behind the last pair of each table: of topologies that are read it has the most marks."""
    return [topology(b"", *counts)[0].replace(b"}", b",}")]


def headed(_base, *counts):
    """The same with each row under a header whose letters are all escaped: of topologies that are read it has the most
    bytes that are compared."""
    table = tomllib.loads(topology(b"", *counts)[0].decode())
    lines = ["version = 1", f"lans = {table['lans']}"]
    for name in ("router", "interface", "source", "flow"):
        header = "".join(f"\\U{ord(letter):08x}" for letter in name)
        for row in table[name]:
            lines += [f'[["{header}"]]', *(f"{key} = {value!r}" for key, value in row.items())]
            lines += ["order = 'big'"] * (name == "router")
    return ["\n".join(lines + [""]).encode()]


def dotted(_base, marks):
    """A topology with so many marks whose keys have 80 parts, as many as a key may have: of what was tried, and isn't
    refused for its marks, this takes the most memory, since each part is a table of its own."""
    full, rest = divmod(int(marks), 80)
    lines = [f"{number:x}{'.a' * 79}=1\n" for number in range(full)]
    return ["".join(lines + [f"rest{'.a' * (rest - 1)}=1\n"] * (rest > 0)).encode()]


def dearest(_base):
    """A topology of 16,777,216 bytes: as many dotted keys as its marks allow, and then one long string."""
    front = dotted(b"", 131071)[0] + b'z="""'
    return [front + b"a" * (16777216 - len(front) - 4) + b'"""\n']


def below(_base, parts, size, pairs, *more):
    """A topology with a header whose key has so many parts of so many bytes, and below it so many pairs, for each of which
    the parts are looked up. More words: so many other headers stand before it, each of which differs from it in the end of
    its last part alone, so that it is compared with many of them."""
    front = ".".join(["a" * int(size)] * (int(parts) - 1) + ["a" * (int(size) - 6)])
    beside = "".join(f"[{front}{number:06}]\n" for number in range(int(*more or "0")))
    return [(beside + f"[{front}zzzzzz]\n" + "".join(f"{number:x}=1\n" for number in range(int(pairs)))).encode()]


def under(_base, pairs, before, key, behind=""):
    """A text with so many pairs below a header of 4,096 bytes, whose key is so many times a letter, or that between quotes.
    Before the header and behind it stands what the words say, where `\\n` is a line feed and `\\x20` a space."""
    before, behind = (word.encode().decode("unicode_escape").encode() for word in (before, behind))
    quote, letter = key[:-1], key[-1].replace("_", " ") if len(key) > 1 else key
    header = f"[{quote}{letter * (4094 - 2 * len(quote))}{quote}]".encode()
    return [before + header + behind + b"\n" + "".join(f"{number:x}=1\n" for number in range(int(pairs))).encode()]


def dots(base, before, count):
    """The table's topology, then what the word says, `\\n` in it a line feed, and so many dots."""
    return [base + before.replace("\\n", "\n").encode() + b"." * int(count)]


def named(_base, quotes, piece, count):
    """A topology with one LAN, whose name is so many times a piece, between quotes."""
    name = f"{quotes}{piece * int(count)}{quotes}"
    return [f"version = 1\nlans = [{name}]\nsource = [{{address = '10.0.0.5', lan = {name}}}]\n"
            "flow = [{source = '10.0.0.5', group = '239.1.2.3', ttl = 3}]\n".encode()]


def keyed(base, length):
    """The table's topology with a key of so many letters at its end."""
    return [base + b"k" * int(length) + b" = 1\n"]


def keyed_row(base, section, number, length):
    """The table's topology with a key of so many letters in a row of a section: where the rows are inline, and where they
    stand under headers."""
    key = "k" * int(length)
    rows = list(re.finditer(r"\{.*?\}", re.search(rf"^{section} = \[.*?\]$", base.decode(), re.M | re.S)[0]))
    row = rows[int(number) - 1][0]
    inline = base.decode().replace(row, row.replace("}", f", {key} = 1}}"))
    table = tomllib.loads(base.decode())
    lines = [f"version = {table.pop('version')}", f"lans = {table.pop('lans')}"]
    for name, each in ((name, each) for name in table for each in enumerate(table[name], 1)):
        lines += [f"[[{name}]]", *(f"{word} = {value!r}" for word, value in each[1].items())]
        lines += [f"{key} = 1"] * ((name, each[0]) == (section, int(number)))
    return [inline.encode(), "\n".join(lines + [""]).encode()]


def with_lan(base, name, length):
    """The table's topology with a LAN of so many letters, the first in its list or the last one."""
    first, last = (f'"{"a" * int(length)}", ', "") if name == "first" else ("", f', "{"a" * int(length)}"')
    return [re.sub(r"^lans = \[(.*)\]$", rf"lans = [{first}\1{last}]", base.decode(), 1, re.M).encode()]


def zeros(base, key, count):
    """The table's topology with so many zeros before a number, in each base, and as many with an underscore behind each."""
    number = re.search(rf"\b{key} = (\d+)", base.decode())
    for letter in "xob":
        for zero in ("0", "0_"):
            text = f"{key} = 0{letter}{zero * int(count)}{int(number[1]):{letter}}"
            yield base.decode().replace(number[0], text).encode()


def deepest(_base):
    """A topology whose tables stand some 6,400 deep in one another, as deep as the limits of TOML's reader let them: a
    header and a key of 80 parts, and 79 inline tables in one another, each with a key of 80 parts."""
    key = ".".join(["a"] * 80)
    return [f"[{key}]\n{key} = [{f'{{{key} = ' * 79}1{'}' * 79}]\n".encode()]


def alone(_base, name, *words):
    """A bundle that has nothing but a topology, the first text of another function."""
    text = globals()[name](b"", *words)[0]
    return [b"mcaudit bundle 1\npart topology %d\n%s\nend\n" % (len(text), text)]


def flow_of(_base, count, piece):
    """A certificate of version 1 whose flow has a piece so many times."""
    pieces = ",".join([piece] * int(count))
    return [f'{{"flows":[{{"group":"239.1.2.3","reached":[{pieces}],"source":"10.0.0.5"}}],"version":1}}'.encode()]


def trees_of(_base, count, piece):
    """A certificate of version 2 that has a piece so many times as its trees."""
    pieces = ",".join([piece] * int(count))
    flow = '{"group":"239.1.2.3","source":"10.0.0.5","tree":0}'
    return [f'{{"flows":[{flow}],"trees":[{pieces}],"version":2}}'.encode()]


def tree_of(base, count, piece):
    """A certificate of version 2 whose tree has a piece so many times."""
    return trees_of(base, "1", f"[{','.join([piece] * int(count))}]")


def last_of(base, *counts):
    """Version 2, whose flow names the last of so many trees, which has the entries of the base; the others are empty."""
    entries = base.partition(b'"reached":')[2].partition(b',"source"')[0]
    for count in map(int, counts):
        flow = b'{"group":"239.1.2.3","source":"10.0.0.5","tree":%d}' % (count - 1)
        trees = b",".join([b"[]"] * (count - 1) + [entries])
        yield b'{"flows":[%b],"trees":[%b],"version":2}' % (flow, trees)


def nested(_base, depth):
    """Lists in one another."""
    return [b"[" * int(depth) + b"]" * int(depth)]


if __name__ == "__main__":
    sys.stdout.buffer.write(globals()[sys.argv[1]](b"", *sys.argv[2:])[0])
