#!/usr/bin/env python3
"""Looks at the shape of the tools' Python: what is too long or too wide, and what stands twice.

  python3 tests/house/tools.py lines|functions|modules|copies

A line is printed for each line of more than 120 characters, each function of more than 40 lines, each module of more
than 340, or each block of 4 lines or more that stands in another function too, whatever its variables are called.
Looked at are the package and the scripts below tools/, and for the lines all that is there but the first line of the
completion of zsh, which zsh reads as one.
"""
import ast
import copy
import os
import sys

TOP = os.path.join(os.path.dirname(os.path.abspath(__file__)), "..", "..")
WIDTH, FUNCTION, MODULE = 120, 40, 340
LEAST, MOST = 4, 3  # lines and statements of a block that counts as a copy


def files():
    """Yields the name and the text of each file below tools/."""
    for folder, folders, names in os.walk(os.path.join(TOP, "tools")):
        folders[:] = sorted(it for it in folders if it != "__pycache__")
        for name in sorted(names):
            path = os.path.join(folder, name)
            with open(path, encoding="utf-8") as file:
                yield os.path.relpath(path, TOP), file.read()


def modules():
    """Yields the name, the text and the tree of each file of Python."""
    for name, text in files():
        if name.endswith(".py") or text.startswith("#!/usr/bin/env python3\n"):
            yield name, text, ast.parse(text)


def functions():
    """Yields where each function stands, with its tree."""
    for name, _, tree in modules():
        for it in ast.walk(tree):
            if isinstance(it, ast.FunctionDef):
                yield f"{name}:{it.lineno}: {it.name}", it


def long_lines():
    """Yields the lines that are too wide."""
    for name, text in files():
        for number, line in enumerate(text.split("\n"), 1):
            if len(line) > WIDTH and not line.startswith("#compdef "):
                yield f"{name}:{number}"


def long_functions():
    """Yields the functions that are too long."""
    return (where for where, it in functions() if it.end_lineno - it.lineno >= FUNCTION)


def long_modules():
    """Yields the modules that are too long."""
    return (name for name, text, _ in modules() if text.count("\n") > MODULE)


class Renamed(ast.NodeTransformer):
    """Calls the variables of a function by their order alone."""

    def __init__(self, function):
        """Takes the function."""
        self.names = {it.arg: None for it in ast.walk(function) if isinstance(it, ast.arg)}
        self.names |= {it.id: None for it in ast.walk(function)
                       if isinstance(it, ast.Name) and isinstance(it.ctx, ast.Store)}
        self.order = {}

    def visit_Name(self, node):  # pylint: disable=invalid-name
        """Renames a variable."""
        name = f"_{self.order.setdefault(node.id, len(self.order))}" if node.id in self.names else node.id
        return ast.Name(name, node.ctx)


def blocks(function):
    """Yields the statements in a row, a few at most, of which a function has enough lines."""
    for node in ast.walk(function):
        for statements in (getattr(node, it, None) for it in ("body", "orelse", "finalbody")):
            for first in range(len(statements) if isinstance(statements, list) else 0):
                for count in range(1, MOST + 1):
                    block = statements[first:first + count]
                    if len(block) == count and block[-1].end_lineno - block[0].lineno + 1 >= LEAST:
                        yield block


def copies():
    """Yields the blocks that stand in another function too."""
    known = {}
    for where, function in functions():
        for block in blocks(function):
            text = ast.dump(Renamed(function).visit(ast.Module(copy.deepcopy(block), [])))
            if known.setdefault(text, where) != where:
                yield f"{where} from line {block[0].lineno}, as {known[text]}"


KINDS = {"lines": long_lines, "functions": long_functions, "modules": long_modules, "copies": copies}


def main():
    """Prints what is found. Returns the status."""
    if len(sys.argv) != 2 or sys.argv[1] not in KINDS:
        print(f"Usage: tools.py {'|'.join(KINDS)}", file=sys.stderr)
        return 2
    found = list(KINDS[sys.argv[1]]())
    print("".join(f"{it}\n" for it in found), end="")
    return 1 if found else 0


if __name__ == "__main__":
    sys.exit(main())
