#!/usr/bin/env python3
"""Writes the manual page of each tool, of what reads its arguments and prints its --help: so the two can't disagree.

  python3 packaging/man_pages.py [FOLDER]     writes FOLDER/mcaudit-TOOL.1, of docs/ without it

It runs after each change of a help, and tests/tools/run.sh sees that it did.
"""
import argparse
import ast
import importlib.machinery
import importlib.util
import os
import re
import sys

sys.dont_write_bytecode = True
TOP = os.path.join(os.path.dirname(os.path.abspath(__file__)), "..")
TOOLS = os.path.join(TOP, "tools")
sys.path.insert(0, TOOLS)
from mcaudit_tools.common import PROGRAM  # noqa: E402 pylint: disable=wrong-import-position
from mcaudit_tools.start import module_of  # noqa: E402 pylint: disable=wrong-import-position


class Caught(Exception):
    """What would read the arguments."""


def catch(parser, *_):
    """Stands for the reading of arguments."""
    raise Caught(parser)


argparse.ArgumentParser.parse_args = catch  # type: ignore
argparse.ArgumentParser.parse_intermixed_args = catch  # type: ignore


def parser_of(tool):
    """Returns what reads the arguments of a tool."""
    name = tool.removeprefix("mcaudit-")
    PROGRAM.name = tool
    if importlib.util.find_spec(f"mcaudit_tools.{name}"):
        read = module_of(name).read_arguments
    else:
        loader = importlib.machinery.SourceFileLoader("alone", os.path.join(TOOLS, tool))
        module = importlib.util.module_from_spec(importlib.util.spec_from_loader("alone", loader))
        loader.exec_module(module)
        read = module.words_of
    try:
        read()
    except Caught as caught:
        return caught.args[0]
    raise SystemExit(f"{tool} reads no arguments")


def about(tool):
    """Returns what a tool's script says first of it."""
    with open(os.path.join(TOOLS, tool), encoding="utf-8") as file:
        words = ast.get_docstring(ast.parse(file.read()), True)
    return " ".join(words.partition("\n\n")[0].split()).partition(": ")[2].rstrip(".")


def escaped(text):
    """Returns text as roff has it."""
    text = text.replace("\\", "\\e").replace("-", "\\-")
    return "\\&" + text if text[:1] in (".", "'") else text


def paragraphs(text):
    """Yields the lines of roff of a text: its paragraphs, in which lines that are set in stay as they are."""
    for paragraph in re.split(r"\n\s*\n", (text or "").strip("\n")):
        lines, is_kept = [".PP"], False
        for line in paragraph.split("\n"):
            if line.startswith("  ") != is_kept:
                is_kept = not is_kept
                lines += [".RS", ".nf"] if is_kept else [".fi", ".RE"]
            lines.append(escaped(line.strip() if not is_kept else line[2:]))
        yield from lines + ([".fi", ".RE"] if is_kept else [])


def places(parser):
    """Returns the arguments that have places, as a synopsis has them."""
    found = []
    for action in parser._get_positional_actions():  # pylint: disable=protected-access
        name = action.metavar or action.dest
        found.append({"?": f"[{name}]", "*": f"[{name} ...]", argparse.PARSER: f"{name} ..."}.get(action.nargs, name))
    return " ".join(found)


def synopsis(parser):
    """Yields the lines of roff of a synopsis."""
    usage = parser.usage or f"{parser.prog} [option ...] {places(parser)}"
    for number, line in enumerate(usage.replace("%(prog)s", parser.prog).strip().split("\n")):
        name, _, rest = line.strip().partition(" [")
        yield from [".br"] * bool(number) + [f".B {escaped(name)}", escaped(f"[{rest}")]


def options(parser):
    """Yields the lines of roff of the arguments."""
    formatter = parser._get_formatter()  # pylint: disable=protected-access
    for action in parser._actions:  # pylint: disable=protected-access
        if action.help == argparse.SUPPRESS or isinstance(action, argparse._SubParsersAction):  # pylint: disable=W0212
            continue
        value = "" if action.nargs == 0 else action.metavar or action.dest.upper()
        heads = [f"\\fB{escaped(it)}\\fR" + (f" \\fI{escaped(value)}\\fR" if value else "")
                 for it in action.option_strings]
        told = formatter._expand_help(action) if action.help else ""  # pylint: disable=protected-access
        if heads or told:
            yield from [".TP", ", ".join(heads) or f"\\fI{escaped(value)}\\fR", escaped(" ".join(told.split()))]


def commands(parser):
    """Yields the lines of roff of the commands that a tool has."""
    for action in parser._actions:  # pylint: disable=protected-access
        if isinstance(action, argparse._SubParsersAction):  # pylint: disable=protected-access
            for one in action.choices.values():
                yield f".SH {escaped(one.prog.rpartition(' ')[2].upper())}"
                yield from [*synopsis(one), *paragraphs(one.description), *options(one)]


def epilog(parser):
    """Yields the lines of roff of what stands behind the options."""
    for paragraph in filter(None, (parser.epilog or "").split("\n\n")):
        if paragraph.startswith("Statuses"):
            yield ".SH EXIT STATUS"
        elif paragraph.startswith("Examples:"):
            yield ".SH EXAMPLES"
            paragraph = paragraph.partition("\n")[2]
        yield from paragraphs(paragraph)


def page_of(tool, others):
    """Returns the manual page of a tool."""
    parser = parser_of(tool)
    told = list(epilog(parser))
    lines = [f'.\\" Written by packaging/man_pages.py, of what {tool} --help says.',
             f'.TH {escaped(tool.upper())} 1 "" "mcaudit" "User Commands"', ".SH NAME",
             f"{escaped(tool)} \\- {escaped(about(tool))}", ".SH SYNOPSIS", *synopsis(parser), ".SH DESCRIPTION",
             *paragraphs(parser.description), ".SH OPTIONS", *options(parser), *commands(parser)]
    lines += ([".SH NOTES"] if told and not told[0].startswith(".SH") else []) + told
    lines += [".SH SEE ALSO", *(f".BR {escaped(it)} (1)," for it in ["mcaudit", *others][:-1]),
              f".BR {escaped(others[-1])} (1)"]
    return "\n".join(lines) + "\n"


def main():
    """Writes the pages. Returns the status."""
    folder = sys.argv[1] if len(sys.argv) > 1 else os.path.join(TOP, "docs")
    tools = sorted(it for it in os.listdir(TOOLS) if re.fullmatch(r"mcaudit-[a-z]+", it))
    for tool in tools:
        page = page_of(tool, [it for it in tools if it != tool])
        with open(os.path.join(folder, f"{tool}.1"), "w", encoding="ascii") as file:
            file.write(page)
    return 0


if __name__ == "__main__":
    sys.exit(main())
