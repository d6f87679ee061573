"""Standard output and output files. What cannot be written is said, and no half file stays."""

import os
import stat
import sys
import tempfile
import time
from contextlib import contextmanager, suppress

from .failure import UNWRITTEN, Failure, OutputClosed

FULL = 1 << 16  # octets kept before they are written
PATIENCE = 2.0  # seconds before progress is shown


def printable(words):
    """Words for people: what cannot be printed is a question mark."""
    return "".join(letter if letter.isprintable() else "?" for letter in words)


def as_octets(content):
    """Text as UTF-8; octets as they are."""
    return content.encode("utf-8", "surrogateescape") if isinstance(content, str) else content


class Standard:
    """Standard output, written by its descriptor, so that every failure shows up here."""

    def __init__(self, descriptor=1):
        self.descriptor = descriptor
        self.kept = bytearray()
        self.closed = not is_open(descriptor)

    def write(self, content):
        """Keeps the content, and writes when there is much of it."""
        self.kept += as_octets(content)
        if len(self.kept) >= FULL:
            self.flush()

    def flush(self):
        """Writes all that is kept."""
        kept, self.kept = memoryview(bytes(self.kept)), bytearray()
        if kept and self.closed:
            raise Failure("standard output is closed: the output was not written", UNWRITTEN)
        while kept:
            kept = kept[self.put(kept) :]

    def put(self, octets):
        """Writes some octets and answers how many."""
        try:
            return os.write(self.descriptor, octets)
        except BrokenPipeError as why:
            raise OutputClosed from why
        except OSError as why:
            raise Failure(f"standard output could not be written: {why.strerror}", UNWRITTEN) from why


def is_open(descriptor):
    """Whether a descriptor is open."""
    try:
        os.fstat(descriptor)
        return True
    except OSError:
        return False


def hold_descriptors():
    """Opens /dev/null in the place of closed standard descriptors, so that no file of ours takes their number.

    Standard output that was closed is opened for reading only: writing to it fails, as it should.
    """
    for descriptor in range(3):
        if not is_open(descriptor):
            opened = os.open(os.devnull, os.O_WRONLY if descriptor != 1 else os.O_RDONLY)
            if opened != descriptor:
                os.dup2(opened, descriptor)
                os.close(opened)


def write_whole(path, content, standard):
    """Writes a whole output, or its parts in turn, to a file, or to standard output where the path is None or '-'.

    A file is written beside its place and then moved there. A device or a pipe is written as it is.
    """
    parts = map(as_octets, [content] if isinstance(content, (str, bytes)) else content)
    if path in (None, "-"):
        for part in parts:
            standard.write(part)
        standard.flush()
        return
    try:
        if is_special(path):
            with open(path, "wb") as opened:
                opened.writelines(parts)
        else:
            replace_file(os.path.realpath(path), parts)
    except BrokenPipeError as why:
        raise OutputClosed from why
    except OSError as why:
        raise Failure(f"{path} could not be written: {why.strerror}", UNWRITTEN) from why


def is_special(path):
    """Whether something stands at the path that is no regular file."""
    try:
        return not stat.S_ISREG(os.stat(path).st_mode)
    except FileNotFoundError:
        return False


def replace_file(path, parts):
    """Puts a new file in the place, all of it or nothing."""
    folder = os.path.dirname(path)
    descriptor, beside = tempfile.mkstemp(prefix=".wisavulome-", dir=folder)
    try:
        with os.fdopen(descriptor, "wb") as opened:
            opened.writelines(parts)
            os.fchmod(opened.fileno(), mode_for(path))
        os.replace(beside, path)
    except BaseException:
        with suppress(OSError):
            os.unlink(beside)
        raise


def mode_for(path):
    """The permissions of the file that is there, or those of a new one."""
    try:
        return stat.S_IMODE(os.stat(path).st_mode)
    except FileNotFoundError:
        mask = os.umask(0)
        os.umask(mask)
        return 0o666 & ~mask


def complain(message):
    """A message on standard error; where that is closed, nothing."""
    with suppress(OSError, ValueError, AttributeError):
        os.write(2, as_octets(message + "\n"))


class Progress:
    """How far long work is, on standard error where that is a terminal."""

    def __init__(self, what, total):
        self.what = what
        self.total = total
        self.begun = self.shown = time.monotonic()
        self.used = False
        self.terminal = sys.stderr is not None and os.isatty(2)

    def at(self, count):
        """Shows the count, once a second, after some seconds."""
        now = time.monotonic()
        if self.terminal and now - self.begun > PATIENCE and now - self.shown > 1.0:
            self.shown, self.used = now, True
            with suppress(OSError):
                os.write(2, f"\r{self.what} {count} of {self.total}".encode())

    def end(self):
        """Clears the line."""
        if self.used:
            with suppress(OSError):
                os.write(2, b"\r\x1b[K")


@contextmanager
def progress(what, total):
    """Progress that is cleared in the end, whatever happens."""
    shown = Progress(what, total)
    try:
        yield shown
    finally:
        shown.end()
