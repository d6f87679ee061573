"""The command `wisavulome`: its subcommands, and how it ends."""

import argparse
import importlib
import os
import signal
import sys

from . import VERSION
from .failure import REFUSED, UNWRITTEN, Failure, OutputClosed
from .library import Library, LibraryMissing, Refused
from .output import Standard, complain, hold_descriptors

COMMANDS = ("fit", "run", "audit", "sweep", "write", "draw", "capture", "wave", "windows")

ABOUT = """A proved model of contention on one pair: CSMA/CD, bit time by bit time. A sheet says
which station sits where, and the gap, slot and jam figures; a plan says who offers which frame
when. Every answer is the library's. 'wisavulome COMMAND --help' says more."""


class Parser(argparse.ArgumentParser):
    """A parser whose help goes through our standard output, so that a failure to write it shows up."""

    output = None

    def __init__(self, *words, **more):
        super().__init__(*words, allow_abbrev=False, **more)

    def _print_message(self, message, file=None):
        if file in (None, sys.stdout) and Parser.output is not None:
            Parser.output.write(message)
        else:
            complain(message.rstrip("\n"))

    def error(self, message):
        complain(f"{self.prog}: {message}")
        complain(f"Try '{self.prog} --help'.")
        raise SystemExit(REFUSED)


class Subparsers:
    """Adds the parser of each subcommand in one way."""

    def __init__(self, parser):
        self.parsers = parser.add_subparsers(dest="command", metavar="COMMAND", parser_class=Parser, required=True)

    def add(self, name, short, about):
        """A subcommand with its line in the list, and its help."""
        return self.parsers.add_parser(
            name, help=short, description=about, formatter_class=argparse.RawDescriptionHelpFormatter
        )


def module_of(command):
    """The module of a subcommand."""
    return importlib.import_module(f".{command}", __package__)


def build_parser(words):
    """The parser of the command. Where the first word is a subcommand, only that one is loaded."""
    parser = Parser(prog="wisavulome", description=ABOUT, formatter_class=argparse.RawDescriptionHelpFormatter)
    parser.add_argument("--version", action="version", version=f"wisavulome {VERSION}")
    subparsers = Subparsers(parser)
    asked = words[:1] if words and words[0] in COMMANDS else COMMANDS
    for command in asked:
        module_of(command).add_parser(subparsers)
    return parser


def perform(words, output):
    """Does what the words ask; answers the exit status."""
    try:
        arguments = build_parser(words).parse_args(words)
    except SystemExit as left:
        return left.code or 0
    return module_of(arguments.command).run(Library(), arguments, output)


def main(words=None):
    """The command. Whatever happens it ends in one of the four statuses, and with no traceback."""
    output = Parser.output = Standard()
    hold_descriptors()
    signal.signal(signal.SIGTERM, terminate)
    try:
        status = perform(sys.argv[1:] if words is None else words, output)
        output.flush()
        return status
    except OutputClosed:
        return UNWRITTEN
    except (Failure, LibraryMissing, Refused) as why:
        return fail(output, str(why), getattr(why, "status", REFUSED))
    except RecursionError:
        return fail(output, "the input is nested too deep", REFUSED)
    except MemoryError:
        return fail(output, "there is not enough memory", REFUSED)
    except KeyboardInterrupt:
        return end_by(signal.SIGINT, output)
    except Terminated:
        return end_by(signal.SIGTERM, output)


def fail(output, message, status):
    """Says why, after what was already written."""
    try:
        output.flush()
    except OutputClosed:
        pass
    except Failure as why:
        complain(f"wisavulome: {why}")
        status = UNWRITTEN
    complain(f"wisavulome: {message}")
    return status


class Terminated(BaseException):
    """The command is asked to end; files that are half written are taken away first."""


def terminate(_number, _frame):
    """The handler of that signal."""
    raise Terminated


def end_by(number, output):
    """Ends by the signal itself, as a shell expects."""
    output.kept.clear()
    signal.signal(number, signal.SIG_DFL)
    os.kill(os.getpid(), number)
    return REFUSED
