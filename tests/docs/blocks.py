"""The blocks of commands that documents show."""


def commands_of(block):
    """Returns the commands of a block, each with what is shown below it."""
    commands = []
    for line in block.splitlines(keepends=True):
        if line.startswith("$ "):
            commands.append([line[2:].rstrip("\n"), ""])
        else:
            commands[-1][1] += line
    return commands
