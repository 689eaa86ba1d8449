"""Runs one of the tools from its script, and turns whatever ends it into a status and a sentence.

This file alone is read by a Python that is too old for the others, so it has nothing that one of 3.6 can't read.
"""
import importlib
import io
import os
import signal
import sys

if signal.getsignal(signal.SIGINT) is signal.default_int_handler:
    # until it is heeded it ends the tool as the others do, without a trace
    signal.signal(signal.SIGINT, signal.SIG_DFL)

LEAST = (3, 9)
FAILED = 3
NOT_WHOLE = "it is not installed whole: {}: {}"


def fail(program, sentence):
    """Tells why nothing came of it, in printable characters of ASCII. Returns the status, also where that can't be
    told."""
    sentence = "".join(it if " " <= it <= "~" else "?" for it in sentence)
    is_plugin = program == "mcaudit-monitor" and "--plugin" in sys.argv[1:] and sys.stdout is not None
    line = "MCAUDIT UNKNOWN - " + sentence.replace("|", "?") if is_plugin else program + ": " + sentence
    try:
        print(line, file=sys.stdout if is_plugin else sys.stderr, flush=True)
    except OSError:
        give_up(1 if is_plugin else 2)
    return FAILED


def finish_output(program, status):
    """Sees that all that was printed has come where it should. Returns the status."""
    try:
        if sys.stdout is not None:
            sys.stdout.flush()
    except OSError as fault:
        give_up(1)
        return fail(program, "standard output can't be written: {}".format(fault.strerror))
    return status


def give_up(number):
    """Gives up what can't be printed on a descriptor, so that the interpreter doesn't try it once more at its end."""
    os.dup2(os.open(os.devnull, os.O_WRONLY), number)


def open_closed():
    """Opens what is closed of the standard input and outputs, so that no file of the tool is taken for one of them."""
    for number in range(3):
        try:
            os.fstat(number)
        except OSError:
            os.open(os.devnull, os.O_RDWR)
    if sys.stderr is None:
        sys.stderr = open(os.devnull, "w")  # noqa: SIM115 pylint: disable=consider-using-with,unspecified-encoding


def buffer_output():
    """Sees that what is printed is written whole or fails: without a buffer (PYTHONUNBUFFERED) a part may be lost. What
    has no bytes is printed by an escape."""
    if isinstance(sys.stdout.buffer, io.RawIOBase):
        buffer = io.BufferedWriter(io.FileIO(sys.stdout.fileno(), "wb", closefd=False))
        sys.stdout = io.TextIOWrapper(buffer, encoding=sys.stdout.encoding)
    if isinstance(sys.stdout, io.TextIOWrapper):
        sys.stdout.reconfigure(errors="backslashreplace")


def module_of(name):
    """Returns the module of the tool with this name; of a package that is its `main`, so that whoever takes another
    module of it doesn't load the tool too."""
    module = importlib.import_module("mcaudit_tools." + name)
    return importlib.import_module(module.__name__ + ".main") if hasattr(module, "__path__") else module


def run(name, version):
    """Runs the tool of the module with this name, whose script says this version. Returns its status."""
    program = "mcaudit-" + name
    open_closed()
    if sys.version_info < LEAST:
        return fail(program, "python3 of {}.{} or later is required, this is {}.{}".format(*LEAST, *sys.version_info))
    try:
        common = importlib.import_module("mcaudit_tools.common")
        running = importlib.import_module("mcaudit_tools.programs").RUNNING
        main = module_of(name).main
    except Exception as fault:  # pylint: disable=broad-exception-caught
        return fail(program, NOT_WHOLE.format(type(fault).__name__, fault))
    try:
        if sys.stdout is None:
            raise common.Failed("standard output is closed")
        buffer_output()
        common.PROGRAM.name, common.PROGRAM.version = program, version
        running.heed_signals()
        status = main()
    except SystemExit as end:
        status = end.code or 0
    except common.Ended as fault:
        return fault.status
    except common.Failed as fault:
        try:
            sys.stdout.flush()
        except (OSError, AttributeError):
            give_up(1)
        return fail(program, str(fault)) and fault.status
    except (BrokenPipeError, OSError) as fault:
        give_up(1)
        return fail(program, "{}: {}".format(type(fault).__name__, fault.strerror or fault))
    except MemoryError:
        return fail(program, "no memory is left")
    except Exception as fault:  # pylint: disable=broad-exception-caught
        sentence = NOT_WHOLE if isinstance(fault, ImportError) else "{}: {}"
        return fail(program, sentence.format(type(fault).__name__, fault))
    finally:
        running.end_all()
    return finish_output(program, status)
