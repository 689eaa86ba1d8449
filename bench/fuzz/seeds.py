"""The texts that fuzzing begins with: those of examples/ and of the cases of tests/cli, taken as they lie there.

A domain is told as parts (server.c): a line `@NAME` before each part of a bundle. A folder's files are such parts, too.
"""
import glob
import hashlib
import os
import sys
import tomllib

TOP = os.path.dirname(os.path.dirname(os.path.dirname(os.path.abspath(__file__))))
sys.path.append(f"{TOP}/tests")
import case_files

MOST = 1 << 16  # bytes of a text; larger ones are left out, since they cost more than they show
MAGIC = b"mcaudit bundle 1\n"


def read(path):
    with open(path, "rb") as file:
        return file.read(MOST + 1)


def cases():
    """Yields the sections of each case of tests/cli."""
    for path in sorted(glob.glob(f"{TOP}/tests/cli/cases/*.case")):
        yield case_files.load(os.path.relpath(path, TOP))


def inputs_of(commands):
    """Yields the standard input of each case of these commands, but for what a script writes."""
    for case in cases():
        if case["args"].decode(errors="replace").split("\n")[0] not in commands:
            continue
        if isinstance(case.get("stdin", b""), case_files.Script):
            continue
        if "stdin" in case:
            yield case["stdin"][:MOST + 1]
        elif os.path.isfile(f"{TOP}/{case_files.value_of(case, 'stdin.path', 'nowhere')}"):
            yield read(f"{TOP}/{case_files.value_of(case, 'stdin.path')}")


def parts_of(bundle):
    """Returns the parts of a bundle, name and bytes, or nothing where its framing is wrong."""
    found, rest = [], bundle.removeprefix(MAGIC)
    while rest.startswith(b"part "):
        line, _, rest = rest.partition(b"\n")
        words = line.split(b" ")
        if len(words) != 3 or not words[2].isdigit():
            return []
        length = int(words[2])
        found.append((words[1], rest[:length]))
        rest = rest[length + 1:]
    return found if rest == b"end\n" else []


def texts_of(folder):
    """Returns the texts of a folder's files, by their names."""
    return {name: read(f"{folder}/{name}") for name in os.listdir(folder) if os.path.isfile(f"{folder}/{name}")}


def parts_in(texts):
    """Returns the parts that a folder's texts are, in the order of a bundle where the topology can be read."""
    names = {name.replace("-", "/", 1): text for name, text in texts.items()}
    try:
        topology = tomllib.loads(names["topology"].decode())
        order = ["topology"]
        for router in topology.get("router", []):
            order += [f"vif/{router['name']}", f"cache/{router['name']}"]
        order += [f"igmp/{lan}" for lan in topology["lans"]] + ["certificate"]
    except (KeyError, TypeError, ValueError):
        order = sorted(names)
    return [(name.encode(), names[name]) for name in order if name in names]


def folders():
    """Yields the texts of each folder, by their names."""
    for case in cases():
        texts = {name.removeprefix("folder/"): text[:MOST + 1] for name, text in case.items() if name.startswith("folder/")}
        if texts:
            yield {name: text for name, text in texts.items() if "/" not in name}
    for path in sorted(glob.glob(f"{TOP}/examples/*") + glob.glob(f"{TOP}/examples/faults/*")):
        if os.path.isfile(f"{path}/topology"):
            yield texts_of(path)
    for path in sorted(glob.glob(f"{TOP}/tests/cli/kernel_texts/*/")):
        yield texts_of(path)


def bundles():
    yield from inputs_of(("check", "make", "replay"))
    for path in sorted(glob.glob(f"{TOP}/examples/*.bundle")):
        yield read(path)


def domains(is_certified):
    """Returns each domain as parts, all or only those with a certificate; where that isn't asked for, without it."""
    found = []
    for parts in [*map(parts_of, bundles()), *map(parts_in, folders())]:
        if is_certified and b"certificate" not in dict(parts):
            continue
        told = b"".join(b"@" + name + b"\n" + text + b"\n" * (not text.endswith(b"\n") and bool(text))
                        for name, text in parts if is_certified or name != b"certificate")
        found.append(told)
    return found


def reports():
    """Returns the lists of reports: of the cases of `wants`, and of all domains."""
    lists = [*inputs_of(("wants",)), read(f"{TOP}/examples/reports")]
    for parts in [*map(parts_of, bundles()), *map(parts_in, folders())]:
        lists += [text for name, text in parts if name.startswith(b"igmp/")]
    return lists


def write(texts, folder):
    """Writes each different text, if it isn't empty or large, as a file of the folder. Returns how many there are."""
    os.makedirs(folder)
    different = {hashlib.sha1(text).hexdigest()[:12]: text for text in texts if 0 < len(text) <= MOST}
    for name, text in different.items():
        with open(f"{folder}/{name}", "wb") as file:
            file.write(text)
    return len(different)
