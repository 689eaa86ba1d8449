"""What run.py measured, as a page of tables in Markdown, and the bounds that it is held against."""
import datetime
import math
import os
import shutil
import subprocess
from typing import NamedTuple

import shapes

MIB = 2**20
LEAST = 0.01  # seconds of the smallest size below which growth says nothing
LEAST_BYTES = 10**6  # of an input below which the start of the process is most of what is measured
MEMORY_OF = ("check", "audit")  # with the input
BOUNDS = {"memory": 24, "forms": 2, "forms-memory": 32, "growth": 1.1, "explaining": 2, "explaining-memory": 32}
MEANING = {
    "memory": "MiB of any command on any shape, but for the forms of a certificate and for what explains faults",
    "forms": "a certificate in another form, of what it takes as written: a check's time without a replay's",
    "forms-memory": "MiB of a check with a certificate in any form",
    "growth": "growth of processor time with the input, as an exponent, up to four times the size",
    "explaining": "an audit of 4,096 flows with a fault each, of what it took the program before",
    "explaining-memory": "MiB of that audit, which holds its text of 13 MB whole before it writes any of it",
}


class Measure(NamedTuple):
    """What a command took at one size: the bytes and the lines that it read, the seconds of `wc -l` over them, and of
    each program the seconds and the most memory in KiB."""

    size: int
    lines: int
    counting: float
    seconds: list
    kib: list


def growth(sizes, value, at):
    """The exponent with which a value grows from the smallest size to another one, if the smallest shows anything."""
    first, last = sizes[0], sizes[at]
    if first.seconds[0] < LEAST:
        return None
    return math.log(value(last) / value(first)) / math.log(last.size / first.size)


def time_of(measure):
    """The seconds of the program, not of the earlier one."""
    return measure.seconds[0]


def memory_of(measure):
    """The memory of the program, not of the earlier one."""
    return measure.kib[0]


def milliseconds(seconds):
    """A time, with a decimal where it is short."""
    return f"{seconds * 1e3:,.0f}" if seconds >= 0.1 else f"{seconds * 1e3:.1f}"


def shown(value, form):
    """A number, or a dash where there is none."""
    return "–" if value is None else format(value, form)


def table(head, rows):
    """A table in Markdown, its first column to the left and the others to the right."""
    rule = ["---"] + ["---:"] * (len(head) - 1)
    return "".join(f"| {' | '.join(row)} |\n" for row in [head, rule, *rows])


def row_of(title, sizes, at):
    """A row: what a command took at the size at this place, and the growth up to there from the smallest."""
    whole = sizes[at]
    large = whole.size >= LEAST_BYTES
    row = [title, f"{whole.size / 1e6:.1f}"]
    row += [milliseconds(seconds) for seconds in reversed(whole.seconds)]
    if len(whole.seconds) > 1:
        row.append(f"{whole.seconds[0] / whole.seconds[1]:.2f}")
    row.append(shown(whole.size / 1e6 / whole.seconds[0] if large else None, ".0f"))
    row.append(shown(whole.seconds[0] / whole.counting if large else None, ".0f"))
    for kib in reversed(whole.kib):
        row.append(f"{kib / 1024:,.0f}")
    if len(whole.kib) > 1:
        row.append(f"{whole.kib[0] / whole.kib[1]:.2f}")
    for value in (time_of, memory_of):
        row += [shown(growth(sizes, value, place), ".2f") for place in (1, at)]
    return row


def head_of(programs):
    """The head of a table of such rows."""
    if programs == 1:
        took, memory = ["ms"], ["MiB"]
    else:
        took, memory = ["ms before", "ms", "ratio"], ["MiB before", "MiB", "ratio"]
    return ["", "MB", *took, "MB/s", "× `wc -l`", *memory, "time ×2", "time ×4", "memory ×2", "memory ×4"]


def table_of(taken, names, programs):
    """What the commands took on these shapes, at the whole size."""
    rows = []
    for name in names:
        for command, sizes in taken.get(name, {}).items():
            rows.append(row_of(f"{name}, `{command}`", sizes, 2))
    return table(head_of(programs), rows) if rows else "Not measured.\n"


def memory_table(taken, programs):
    """The memory of a shape with the size of its input."""
    rows = []
    for command, sizes in taken.get("campus", {}).items():
        for size in sizes if command in MEMORY_OF else []:
            memory = [f"{kib / 1024:,.0f}" for kib in reversed(size.kib)]
            rows.append([f"`{command}`", f"{size.size / MIB:.0f}", *memory, f"{size.kib[0] * 1024 / size.size:.2f}"])
    memory = ["MiB of memory"] if programs == 1 else ["MiB of memory before", "MiB of memory"]
    return table(["campus", "MiB of input", *memory, "memory / input"], rows) if rows else "Not measured.\n"


def reading_time(commands):
    """The seconds of a check with a certificate, without those of a replay, which reads all but that. A check also holds
    the verdicts, so this is rather too long."""
    return commands["check"][0].seconds[0] - commands["replay"][0].seconds[0]


def form_quotients(taken):
    """Of each form that isn't the one that make writes, the time by that of the one that it writes."""
    first, *others = shapes.FORMS
    for name in others if first in taken else []:
        if name in taken:
            yield name, reading_time(taken[name]) / reading_time(taken[first])


def time_and_memory(taken, programs, shown, command, words):
    """A command's time and memory for each size of the shapes shown, whose rows begin with words of the shape's name."""
    rows = []
    for name in shown:
        for size in taken.get(name, {}).get(command, []):
            took = [milliseconds(seconds) for seconds in reversed(size.seconds)]
            memory = [f"{kib / 1024:,.0f}" for kib in reversed(size.kib)]
            rows.append([words(name), f"{size.size / 1e6:.1f}", *took, *memory])
    head = ["ms", "MiB"] if programs == 1 else ["ms before", "ms", "MiB before", "MiB"]
    return head, rows


def forms_table(taken, programs):
    """What a check took with the certificate in each form."""
    head, rows = time_and_memory(taken, programs, shapes.FORMS, "check", lambda name: name.replace("-", " "))
    return table(["the certificate", "MB", *head], rows) if rows else "Not measured.\n"


def faulty_table(taken, programs):
    """What an audit took that explains a fault of each flow."""
    head, rows = time_and_memory(taken, programs, shapes.FAULTY, "audit", lambda name: f"{name}, `audit`")
    return table(["", "MB", *head], rows) if rows else "Not measured.\n"


def explaining_quotient(taken):
    """The time of an audit that explains faults, by that of the program before."""
    sizes = [size for name in shapes.FAULTY for size in taken.get(name, {}).get("audit", [])]
    return sizes[0].seconds[0] / sizes[0].seconds[1] if sizes and len(sizes[0].seconds) > 1 else None


def values_of(taken):
    """Whatever has a bound: its name, what it is of, and its value."""
    for name, quotient in form_quotients(taken):
        yield "forms", f"{name}, check", quotient
    for name in shapes.FORMS:
        if name in taken:
            yield "forms-memory", f"{name}, check", memory_of(taken[name]["check"][0]) / 1024
    for name in [*shapes.SHAPES, *shapes.UNKIND, *shapes.FAULTY]:
        bound = "explaining-memory" if name in shapes.FAULTY else "memory"
        for command, sizes in taken.get(name, {}).items():
            yield bound, f"{name}, {command}", max(map(memory_of, sizes)) / 1024
    explaining = explaining_quotient(taken)
    if explaining is not None:
        yield "explaining", "faulty, audit", explaining
    for name in [*shapes.SHAPES, *shapes.UNKIND]:
        for command, sizes in taken.get(name, {}).items():
            exponent = growth(sizes, time_of, 2)
            if exponent is not None:
                yield "growth", f"{name}, {command}", exponent


def missed_bounds(taken, names):
    """A line for each of these bounds that something misses, or that nothing was measured of."""
    values = [value for value in values_of(taken) if value[0] in names]
    measured = {name for name, _, _ in values}
    lines = [f"{name}: nothing was measured of it" for name in names if name not in measured]
    for name, of, value in values:
        if value > BOUNDS[name]:
            lines.append(f"{name}: {of}: {value:.3f} is above {BOUNDS[name]:.3f}")
    return lines


def bounds_table(taken):
    """The greatest value of each that has a bound."""
    rows = []
    for name, bound in BOUNDS.items():
        values = [(value, of) for other, of, value in values_of(taken) if other == name]
        value, of = max(values) if values else (None, "")
        kept = "–" if value is None else "kept" if value <= bound else "missed"
        rows.append([f"`{name}`: {MEANING[name]}", f"{bound:.3f}", shown(value, ".3f"), of, kept])
    return table(["", "bound", "greatest", "of", ""], rows)


def commit_here(folder):
    """The commit of this repository, where git tells it."""
    told = subprocess.run(
        ["git", "-C", folder, "describe", "--always", "--dirty"], stdout=subprocess.PIPE, stderr=subprocess.DEVNULL
    )
    return told.stdout.decode().strip() or "unknown"


def machine():
    """The machine, its kernel and the compiler, each as it names itself."""
    with open("/proc/cpuinfo", encoding="ascii", errors="replace") as file:
        models = [line.split(":", 1)[1].strip() for line in file if line.startswith("model name")]
    memory = os.sysconf("SC_PHYS_PAGES") * os.sysconf("SC_PAGE_SIZE") / 2**30
    compiler = "unknown, since rt is not on the path"
    if shutil.which("rt"):
        compiler = subprocess.run(["rt", "version"], stdout=subprocess.PIPE, check=True).stdout.decode().strip()
    model = models[0] if models else os.uname().machine
    system = f"{os.uname().sysname} {os.uname().release}"
    return f"{model}, {os.cpu_count()} processors, {memory:.0f} GiB; {system}; compiler {compiler}"


def line_of(name, commands):
    """What was measured of a shape, in a line for whoever waits."""
    took = (f"{command} {sizes[-1].seconds[0]:.2f} s" for command, sizes in commands.items())
    return f"{name}: {', '.join(took)}"


HEAD = """# What mcaudit takes

Written by `make bench`, which says at the head of `bench/shapes.py` what the shapes are.

- {day}, {machine}
- the program of {commits}; the best of {runs} runs of each command, load at the end {load:.1f}
- ms: processor time of the whole run, user and system. `wc -l`: the processor time of that program over the same bytes
- MiB: the most memory that the run had; below {floor:.0f} MiB it is unknown, since the process that starts it has as
  much
- ×2, ×4: the exponent with which time and memory grow with the input from a quarter of it to a half and to the
  whole: 1 is in proportion. It is left out where the quarter takes less than {least:.0f} ms
"""


def page_of(taken, commits, runs, floor):
    """The whole page."""
    programs = len(commits)
    head = HEAD.format(
        day=datetime.date.today().isoformat(),
        machine=machine(),
        commits=commits[0] if programs == 1 else f"{commits[0]}, and before it {commits[1]}",
        runs=runs,
        load=os.getloadavg()[0],
        floor=floor / 1024,
        least=LEAST * 1e3,
    )
    return "\n".join([
        head,
        "## The ten shapes\n",
        table_of(taken, shapes.SHAPES, programs),
        "## Memory with the input\n",
        memory_table(taken, programs),
        "## Tables of unkind rows\n",
        table_of(taken, shapes.UNKIND, programs),
        "## Reading a certificate\n",
        forms_table(taken, programs),
        "## Explaining faults\n",
        faulty_table(taken, programs),
        "## Bounds\n",
        "`bench/run.py PROGRAM --bounds NAMES` fails where one of those named is missed.\n",
        bounds_table(taken),
    ])
