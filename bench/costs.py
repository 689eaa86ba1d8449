"""What a byte and a line of the input cost each command, in nanoseconds and in instructions, as tables in Markdown."""
import counts
import results

TIMES = """## What a byte and a line cost, in nanoseconds

Of the processor time at the whole size. A line is one of the input: a row of a cache, mostly, or of a vif table, or a
report.
"""
COUNTS = """## What a byte and a line cost, in instructions

At a tenth of that size, counted by valgrind. These counts repeat, whatever else the machine does, so a change is
judged by them.
"""


def times_of(taken):
    """The costs of each command in nanoseconds, where the start of the process is little of them."""
    for name, commands in taken.items():
        for command, sizes in commands.items():
            whole = max(sizes[:3], key=lambda it: it.size)
            if whole.size >= results.LEAST_BYTES:
                yield f"{name}, `{command}`", whole.size, whole.lines, [it * 1e9 for it in whole.seconds]


def counts_of(counted):
    """The costs of each command in instructions, in the same way."""
    for name, commands in counted.items():
        for command, count in commands.items():
            if count.size >= counts.SHARE * results.LEAST_BYTES:
                yield f"{name}, `{command}`", count.size, count.lines, count.instructions


def table_of(costs, programs):
    """A table of such costs."""
    rows = []
    for title, size, lines, values in costs:
        row = [title, f"{size / 1e6:.1f}", f"{lines:,}"]
        for amount, form in ((size, ",.3f"), (lines, ",.1f")):
            row += [results.shown(None if value is None else value / amount, form) for value in reversed(values)]
        if programs > 1:
            row.append(results.shown(values[0] / values[1] if all(values) else None, ".3f"))
        rows.append(row)
    each = ["a byte", "a line"]
    if programs > 1:
        each = ["a byte before", "a byte", "a line before", "a line", "of before"]
    return results.table(["", "MB", "lines", *each], rows) if rows else "Not measured.\n"


def page_of(taken, counted, notes, programs):
    """Both tables, and what wasn't counted."""
    times, steps = table_of(times_of(taken), programs), table_of(counts_of(counted), programs)
    return "\n".join([TIMES, times, COUNTS, *(f"{line}\n" for line in notes), steps])
