"""What all tools share: their failures, their arguments, and text that comes to a terminal."""
import argparse
import os
import re
import sys
import types

CUT = " .."  # stands for what is left out
SHOWN_NAMES = 8  # of a list of names, as mcaudit has it
NAME = re.compile(r"[A-Za-z0-9_.-]{1,32}")  # of a router or a LAN, as mcaudit has it; but for `.` and `..`


class Failed(Exception):
    """What couldn't be done, as a sentence, and the status that the tool ends with."""

    status, sentence = 3, ""

    def __init__(self, sentence=None, status=None):
        """Takes the sentence and the status, where they aren't those of its kind."""
        super().__init__(self.sentence if sentence is None else sentence)
        self.status = self.status if status is None else status


class Refused(Failed):
    """What is wrong with an input, as a sentence."""

    status = 2


class Wrong(Failed):
    """What is wrong with an argument, as a sentence."""

    status = 5


class Ended(Failed):
    """A signal ended the tool."""

    sentence = "ended by a signal"


PROGRAM = types.SimpleNamespace(name="mcaudit", version="")  # the tool that runs


def say(sentence):
    """Tells a person something that isn't the answer."""
    print(f"{PROGRAM.name}: {clean(sentence)}", file=sys.stderr, flush=True)


def tell_lines(name, sentences, answers):
    """Tells what is so of one name, and the sentences that are answers as such."""
    for sentence in sentences:
        print(clean(f"{name}: {sentence}"), file=sys.stdout if sentence in answers else sys.stderr, flush=True)


def clean(text, without=""):
    """Returns the text in printable characters of ASCII, each other one and each of those to be without as `?`."""
    return "".join(it if " " <= it <= "~" and it not in without else "?" for it in text)


def printable(text):
    """Returns the text with each character as `?` that may command a terminal, or has no bytes."""
    return "".join(it if it.isprintable() else "?" for it in text)


def some(names, between=" "):
    """Returns a list of names as mcaudit shows it."""
    rest = len(names) - SHOWN_NAMES
    return between.join(map(str, names[:SHOWN_NAMES])) + (f" and {rest} more" if rest > 0 else "")


def names_change(change, old, new):
    """Yields the change of a list of names, as what has gone and what has come."""
    gone, come = ([it for it in of if it not in others] for of, others in ((old, set(new)), (new, set(old))))
    if gone or come:
        yield change, gone, come


def clean_lines(data):
    """Returns the lines of bytes that another program wrote, each of them clean."""
    return [clean(it) for it in data.decode("ascii", "replace").replace("\r", "").split("\n") if it]


def from_hex(digits):
    """Returns the bytes of hexadecimal digits; that there are none of them is a ValueError."""
    return bytes.fromhex(digits.decode())


def cut(text, most):
    """Returns the text, or so many characters of it."""
    return text if len(text) <= most else text[:most] + CUT


def is_name(text):
    """Whether the text may name a router or a LAN, by the rule of mcaudit."""
    return isinstance(text, str) and NAME.fullmatch(text) is not None and text not in (".", "..")


def is_set_name(text):
    """Whether the text is the name of a set, which is the time at which it was made."""
    return re.fullmatch(r"\d{8}T\d{6}Z", text, re.ASCII) is not None


def name_fault(text):
    """Returns what is wrong with the name of a router, or None."""
    if not re.fullmatch(r"[A-Za-z0-9_.-]+", text):
        return "a name is letters, digits, -, _ and ."
    if text in (".", ".."):
        return "a name has a letter or digit"
    return None if is_name(text) else "a name has at most 32 letters"


def find_tool(name, about=""):
    """Returns the path of a tool, which lies beside the one that runs or on the path. Where it is missing, that is told
    with what is said about it."""
    found = os.path.join(os.path.dirname(os.path.realpath(sys.argv[0])), name)
    if not os.access(found, os.X_OK):
        import shutil  # (what it compresses by is loaded with it)  pylint: disable=import-outside-toplevel
        found = shutil.which(name)
    if not found:
        raise Failed(f"there is no {name} beside this program or on the path{about}")
    return found


class Parser(argparse.ArgumentParser):
    """Reads the arguments, and ends with status 5 where they are wrong."""

    def __init__(self, **about):
        """Takes what argparse takes, and fills in what all tools have alike."""
        about.setdefault("prog", PROGRAM.name)
        about.setdefault("formatter_class", argparse.RawDescriptionHelpFormatter)
        super().__init__(allow_abbrev=False, **about)

    def add_version(self):
        """Adds the option that prints the version."""
        version = f"%(prog)s {PROGRAM.version}"
        self.add_argument("--version", action="version", version=version, help="print the version")

    def add_options(self, rows, repeated=()):
        """Adds options: what each is called, its value or None for a flag, its help, and of a number the least, the
        most and what it is where it isn't given."""
        for option, value, about, *number in rows:
            how = "append" if option in repeated else "store" if value else "store_true"
            unit = "whole seconds, " if value == "SECONDS" else ""
            more = {"type": whole_number(*number[:2], unit), "default": number[2]} if number else {}
            self.add_argument(option, action=how, help=about, **({"metavar": value} if value else {}), **more)

    def print_help(self, file=None):
        """Prints the help. That a long one can't be written, argparse itself leaves aside."""
        try:
            print(self.format_help(), end="", file=file)
        except OSError as fault:
            raise Failed(f"standard output can't be written: {fault.strerror}") from fault

    def error(self, message):
        """Tells what is wrong."""
        print(f"{PROGRAM.name}: {clean(sentence_of(message))}\nTry: {PROGRAM.name} --help", file=sys.stderr)
        sys.exit(5)


def options_of(words, *names):
    """Returns those of the options that were given, as words of another tool."""
    found = []
    for name in names:
        value = getattr(words, name.removeprefix("--").replace("-", "_"))
        for one in value if isinstance(value, list) else [value]:
            if one is True:
                found.append(name)
            elif one is not None and one is not False:
                found += [name, one]
    return found


def sentence_of(message):
    """Returns what argparse says is wrong in the words of the tools."""
    for pattern, sentence in (
            (r"unrecognized arguments: (.*)", r"there is no option \1"),
            (r"argument (?:-\w/)?([-\w]+)(?:/[-\w]+)*: expected one argument", r"\1 requires a value"),
            (r"argument ([-\w]+): (takes .*)", r"\1 \2")):
        found = re.fullmatch(pattern, message, re.DOTALL)
        if found:
            return found.expand(sentence)
    return message


def whole_number(least, most, unit):
    """Returns what reads an argument that is a whole number of a unit, within these bounds and of no more digits than
    the greatest has."""
    def read(text):
        """Reads the argument."""
        if not (text.isascii() and text.isdigit() and len(text) <= len(str(most)) and least <= int(text) <= most):
            raise argparse.ArgumentTypeError(f"takes {unit}{least} to {most}")
        return int(text)
    return read
