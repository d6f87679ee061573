"""Sheets and plans from files: octets, text, or a drawing that carries its octets."""

import errno
import os
import re
import sys
from dataclasses import dataclass
from pathlib import Path

from . import text
from .failure import Failure
from .library import Refused
from .output import complain
from .refusals import InputRefused

MOST = 1 << 24  # octets of a file that are read
CONTROL = re.compile(rb"[\x00-\x08\x0b\x0e-\x1f\x7f]")  # octets that no text has
LETTER = re.compile(rb"[A-Za-z]")  # every line of a text begins with a word
LEAST_TEXT = len("D 1")  # octets; a word and a number
DRAWING = re.compile(rb"<svg[\s>]")
CARRIED = re.compile(rb"<(?:[a-z]+:)?octets[^>]*>([0-9a-fA-F\s]*)</")


@dataclass(frozen=True)
class Source:
    """A sheet or plan as octets, and how it was given: 'octets', 'text' or 'drawing'."""

    name: str
    octets: bytes
    form: str

    def refuse(self, refusal):
        """The failure for a refusal of this input."""
        return InputRefused(self.name, self.octets, refusal.number)


def shown(path):
    """A file's name for people."""
    return "standard input" if path == "-" else str(path) or "''"


def open_file(path):
    """A file, or standard input where the path is '-', opened for reading octets."""
    try:
        if path != "-":
            return open(path, "rb")
        if sys.stdin is None:
            raise OSError(errno.EBADF, os.strerror(errno.EBADF))
        return sys.stdin.buffer
    except OSError as why:
        raise Failure(f"{shown(path)} cannot be read: {why.strerror}") from why
    except ValueError as why:
        raise Failure(f"{shown(path)!r} is no file name") from why


def read_file(path):
    """The octets of a file, or of standard input where the path is '-'."""
    with open_file(path) as opened:
        try:
            octets = opened.read(MOST + 1)
        except OSError as why:
            raise Failure(f"{shown(path)} cannot be read: {why.strerror}") from why
    if len(octets) > MOST:
        raise Failure(f"{shown(path)} has over {MOST} octets: it is no sheet and no plan")
    return octets


def read_source(library, path, given=None):
    """The sheet or plan in a file, whatever its form.

    A plan always has an octet that no text has; a text has a letter and is no shorter than a word and a number. A sheet
    that could be a text is tried as both.
    """
    given = read_file(path) if given is None else given
    name = shown(path)
    if DRAWING.search(given[:4096]):
        return Source(name, carried(name, given), "drawing")
    if CONTROL.search(given) or not LETTER.search(given) or len(given) < LEAST_TEXT:
        return Source(name, given, "octets")
    try:
        return Source(name, from_text(given), "text")
    except text.Unwritable as why:
        if reads_as_sheet(library, given):
            return Source(name, given, "octets")
        raise Failure(f"{name}: {why}") from why


def from_text(given):
    """The octets of a text; Unwritable where it is none."""
    plan = text.parse(given.decode("utf-8-sig", "replace"), whole=False)
    if not plan.stations and not plan.figures and plan.run is None:
        raise text.Unwritable("line 1: no station, figure or 'run' stands in it")
    if not text.is_sheet(plan) and plan.run is None:
        raise text.Unwritable("it has draws or offers but no 'run' line")
    return text.encode_given(plan)


def reads_as_sheet(library, octets):
    """Whether the library reads a sheet from the octets."""
    try:
        library.read_sheet(octets)
        return True
    except Refused:
        return False


def carried(name, given):
    """The octets that a drawing carries as data."""
    found = CARRIED.findall(given)
    if len(found) != 1:
        raise Failure(f"{name}: the drawing carries no sheet or plan of ours")
    try:
        return bytes.fromhex(found[0].decode())
    except ValueError as why:
        raise Failure(f"{name}: the octets that the drawing carries are damaged") from why


def read_layout(library, source):
    """The layout of a source's sheet, or the failure with its place."""
    try:
        return library.read_sheet(source.octets)
    except Refused as refusal:
        raise source.refuse(refusal) from refusal


def is_sheet_alone(source, layout):
    """Whether nothing follows the sheet."""
    return len(source.octets) == layout.used


def read_plan_source(library, path):
    """The plan in a file, checked by the library."""
    return take_plan(library, read_source(library, path))


def take_plan(library, source):
    """The source, if it is a plan that the library takes."""
    layout = read_layout(library, source)
    if is_sheet_alone(source, layout):
        raise Failure(
            f"{source.name}: refused 9: this is a sheet alone; a plan has draws, offers and bit times after it "
            f"(it ends before D, at octet {layout.used})"
        )
    try:
        library.read_plan(source.octets)
    except Refused as refusal:
        raise source.refuse(refusal) from refusal
    return source


def each_plan(library, paths):
    """The plan of each file. One that is refused is said, and the others go on; a single one is a failure."""
    for path in paths:
        try:
            yield read_plan_source(library, path)
        except Failure as why:
            if len(paths) == 1:
                raise
            complain(f"wisavulome: {why}")
            yield None


def files_in(folder, pattern):
    """The files of a folder and of those in it, in the order of their names; hidden ones are left out."""
    found = []
    for here, folders, names in os.walk(folder):
        folders[:] = sorted(each for each in folders if not each.startswith("."))
        found += [Path(here, each) for each in names if not each.startswith(".") and Path(each).match(pattern)]
    return sorted(path for path in found if path.is_file())
