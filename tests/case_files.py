"""Reads the cases of tests/cli and tests/tools. A case is one file, NAME.case.

  python3 tests/case_files.py PATH      prints the text at PATH, such as tests/cli/cases/version.case/stdout

A case starts with a description. Sections follow, each under a head line `== NAME ==` and up to the next head line. A
name with a slash is a file in a folder. The head line may say how the text is given:
  == NAME: VALUE ==           this one line, for a section that has only one (ONE_LINE)
  == NAME: as PATH ==         the text at PATH, from the top of the repository: a file, or a section of a case or of a
                              base (NAME.base: sections that cases share)
  == FOLDER/: as PATH ==      all files in that folder, or all sections under that name
  == NAME: none ==            no such file, where a folder included above has one
  == NAME: no line feed ==    the text without its final line feed
  == NAME: escaped ==         the text with escapes: \\\\ for a backslash, \\x00 for a byte
  == NAME: hex ==             the bytes in hexadecimal
  == NAME: by sh ==           the output of this shell script, run at the top of the repository
  == NAME: to run ==          the text of an executable file
A line of text that starts with `== `, or with backslashes and `== `, is written with one more backslash in front.
A case with any section that is not listed here fails.

Sections of both suites; all but the first may be left out where they are empty or 0:
  args                        the arguments, one a line
  stdin                       standard input
  stdout, stderr              the expected outputs; or stdout.has, stderr.has: lines that must occur in them
  status                      the expected exit status
  links                       symbolic links, lines `NAME TARGET`: in the folder (cli), or in the working folder (tools)
Of cli:
  folder/                     files of a folder, whose path replaces the word FOLDER in args
  folder.sh                   a script that gets this path and writes more files there, before the program runs
  stdin.pipe                  a script that writes standard input while the program runs, perhaps without end
  stdin.path, stdout.path     what to open as standard input, and as standard output, which is then not compared
  memory, stack, seconds      limits: KiB of memory and of stack, seconds of processor time
Of tools:
  place/                      files in the working folder; the stand-ins in tests/tools/commands say which they use
  routers/                    recorded texts of the routers, a folder each
  times                       when files there were written, lines `NAME YYYYMMDDhhmm`, in UTC
  before/, plain/             the files of the set to which the link `site` leads at first; or of a plain folder `site`
  after/                      for collect and monitor the expected files of the new set (without it, `site` must not
                              change), for draft and site those of disk/site, for other tools those of disk; the text
                              of a link is `link to TARGET`
  sets                        the expected number of sets, if not one for before/ and one for after/
  left/, gone                 expected files in the working folder; names that must not exist there
  ssh.words                   the expected arguments of ssh, a line for each call, sorted
  any.order                   why the lines of the outputs may come in any order, as those of collect always may
  output, path                where standard output goes: /dev/full or `closed`; the PATH of the tool
  limit, umask                the largest file, in blocks of 512 bytes; the umask
  term                        files: once all of them have content, the tool gets a TERM
  disk.size, disk.filled      disk/ is a file system of this size, with so many KB in use
In outputs, collected.json and topologies, TIME replaces each time, and N each rate and age.
"""
import glob
import os
import re
import subprocess
import sys
import threading

TOP = os.path.dirname(os.path.dirname(os.path.abspath(__file__)))
ONE_LINE = {"status", "memory", "stack", "seconds", "stdin.path", "stdout.path", "output", "limit", "umask", "path",
            "term", "sets", "disk.size", "disk.filled", "any.order"}
BOTH = {"note", "args", "stdin", "stdout", "stdout.has", "stderr", "stderr.has", "status", "links"}
CLI = BOTH | {"folder/", "folder.sh", "stdin.pipe", "stdin.path", "stdout.path", "memory", "stack", "seconds"}
TOOLS = BOTH | {"place/", "routers/", "times", "before/", "plain/", "after/", "sets", "left/", "gone", "ssh.words",
                "any.order", "output", "path", "limit", "umask", "term", "disk.size", "disk.filled"}
TIMES = [(re.compile(pattern, re.M), instead) for pattern, instead in (
    (rb"[0-9]+ (?:s|min|h|days)(?= old| ago| to [0-9]+ [a-z]+ (?:old|ago))", rb"N s"),
    (rb'"time":[0-9]+', rb'"time":TIME'), (rb"[0-9]{8}T[0-9]{6}Z", rb"TIME"),
    (rb'"[-0-9]{10}T[:0-9]{8}Z"', rb'"TIME"'), (rb"[0-9][0-9.]* packets/s", rb"N packets/s"),
    (rb"[0-9][0-9.]* [kM]?bit/s", rb"N bit/s"), (rb"^(mcaudit_[a-z_]*_seconds.* )[0-9]*$", rb"\1TIME"),
    (rb'("last_[a-z_]*": )[0-9]+', rb"\1TIME"))]
LOADED: dict[str, dict[str, bytes]] = {}
LOADING = threading.RLock()


class Fault(Exception):
    """A case file with an error."""


class Script(bytes):
    """A script whose output is the text."""


class Program(bytes):
    """The text of an executable file."""


def unescaped(text):
    """Decodes a text with escapes."""
    def byte_of(found):
        """Returns the byte of an escape."""
        if found[0] != b"\\\\" and not found[1]:
            raise Fault(f"{found[0]!r} is no escape")
        return bytes.fromhex(found[1].decode()) if found[1] else b"\\"
    return re.sub(rb"\\(?:x([0-9a-f]{2})|.?)", byte_of, text)


HOW = {
    "": lambda text: text,
    "no line feed": lambda text: text.removesuffix(b"\n"),
    "escaped": unescaped,
    "hex": lambda text: bytes.fromhex(text.decode()),
    "by sh": Script,
    "to run": Program,
}


def text_at(path):
    """Returns the text at a path from the top of the repository, or for a folder a dictionary of texts by name."""
    within = re.fullmatch(r"(.+?\.(?:case|base))/(.+)", path)
    if not within:
        return texts_below(path) if os.path.isdir(f"{TOP}/{path}") else read(f"{TOP}/{path}")
    texts, name = load(within[1]), within[2]
    if name in texts:
        return texts[name]
    found = {it.removeprefix(f"{name}/"): texts[it] for it in texts if it.startswith(f"{name}/")}
    if not found:
        raise Fault(f"there is no {path}")
    return found


def texts_below(folder):
    """Returns the texts of all files in a folder, by path from there."""
    paths = sorted(path for path in glob.glob(f"{TOP}/{folder}/**", recursive=True) if os.path.isfile(path))
    return {os.path.relpath(path, f"{TOP}/{folder}"): read(path) for path in paths}


def add(texts, name, how, text):
    """Adds a section, given in one of the ways that a head line can say."""
    if how not in HOW and text:
        raise Fault(f"{name}: {how}: this section takes no text")
    if how.startswith("as "):
        found = text_at(how[3:])
        if isinstance(found, dict) != name.endswith("/"):
            raise Fault(f"only one of {name} and {how[3:]} is a folder")
        texts.update({name + it: found[it] for it in found} if name.endswith("/") else {name: found})
    elif how == "none":
        del texts[name]
    elif how in HOW:
        texts[name] = HOW[how](text)
    elif name in ONE_LINE:
        texts[name] = how.encode() + b"\n"
    else:
        raise Fault(f"{name}: unknown form: {how}")


def load(path):
    """Returns the sections of a case or a base by name; the description is `note`."""
    with LOADING:
        if path in LOADED:
            return LOADED[path]
        note, *parts = re.split(rb"^== (.*)\n", read(f"{TOP}/{path}"), flags=re.M)
        texts, seen = {"note": note}, set()
        LOADED[path] = texts  # for sections that refer to earlier ones of the same file
        try:
            for head, text in zip(parts[::2], parts[1::2]):
                name, _, how = head.decode().removesuffix(" ==").partition(": ")
                if name in seen or not head.endswith(b" ==") or (text and not text.endswith(b"\n")):
                    raise Fault(f"{path}: {name}: a second section of this name, or a head or text without its end")
                seen.add(name)
                add(texts, name, how, re.sub(rb"^\\(?=\\*== )", b"", text, flags=re.M))
        except BaseException:
            del LOADED[path]
            raise
        return texts


def load_known(path, known):
    """Returns the sections of a case, which must all be known ones."""
    texts = load(path)
    for name in texts:
        if name not in known and not any(name.startswith(it) for it in known if it.endswith("/")):
            raise Fault(f"unknown section {name}")
    return {name: text_of(text) for name, text in texts.items()}


def read(path):
    """Returns a file's text."""
    with open(path, "rb") as file:
        return file.read()


def text_of(text):
    """Returns the text; for a script, its output."""
    if not isinstance(text, Script):
        return text
    return subprocess.check_output(["sh", "-c", text], cwd=TOP, stdin=subprocess.DEVNULL)


def lines_of(texts, name):
    """Returns the lines of a section; the last one may lack its line feed."""
    return texts[name].removesuffix(b"\n").split(b"\n") if texts.get(name) else []


def value_of(texts, name, otherwise=""):
    """Returns the line of a section with only one."""
    return texts.get(name, otherwise.encode()).decode().strip()


def write(texts, name, folder):
    """Writes a section as a file in a folder, empty if there is no such section. Returns its path."""
    path, text = os.path.join(folder, name), texts.get(name, b"")
    os.makedirs(os.path.dirname(path), exist_ok=True)
    with open(path, "wb") as file:
        file.write(text)
    if isinstance(text, Program):
        os.chmod(path, 0o755)
    return path


def write_folder(texts, name, folder):
    """Writes the sections under a name as files in a folder. Returns whether there are any."""
    inside = {it.removeprefix(f"{name}/"): text for it, text in texts.items() if it.startswith(f"{name}/")}
    for it in inside:
        write(inside, it, folder)
    return bool(inside)


def without_times(text):
    """Replaces each time in a text by TIME, and each rate and age by N."""
    for pattern, instead in TIMES:
        text = pattern.sub(instead, text)
    return text


def make_links(texts, folder):
    """Creates the symbolic links of a case in a folder."""
    for line in lines_of(texts, "links"):
        name, target = line.decode().split(" ", 1)
        os.symlink(target, f"{folder}/{name}")


if __name__ == "__main__":
    sys.stdout.buffer.write(text_of(text_at(sys.argv[1])))
