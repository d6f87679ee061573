"""What the tests of the command share. They need the shared library, and fail where it is missing."""

import os
import subprocess
import sys
import tempfile
import unittest
from pathlib import Path

ROOT = Path(__file__).resolve().parent.parent.parent
TOOL = ROOT / "tools" / "wisavulome"
WORKED = ROOT / "docs" / "worked.txt"
STORED = ROOT / "stored" / "level00"
EVERY_LEVEL = os.environ.get("WISAVULOME_LEVELS") == "all"  # `make check-command` sets it

sys.path.insert(0, str(ROOT / "python"))

from wisavulome.library import Library, Refused  # noqa: E402

TWO = "station at 0 02:00:00:00:00:01 draws 0\nstation at 10 02:00:00:00:00:02 draws 1\n"
SHEET = TWO.replace(" draws 0", "").replace(" draws 1", "")
OTHERS = ("sheet", "owner")  # the first letters of stored inputs that are no run inputs
# Station 0 has a late collision in step 350; its last jam bit goes out in step 382. {} is late-end.
LATE_PLAN = (
    "slot 64\nlate-end {}\n"
    + TWO.replace("at 10", "at 200")
    + "offer at 0 station 0 to station 1 value length data 46 zeros\n"
    + "offer at 150 station 1 to station 0 value length data 46 zeros\nrun 3000\n"
)


def stored(name):
    """The octets of a stored run input."""
    return (STORED / f"{name}.in").read_bytes()


def folders():
    """The folders of stored cases, each with its level."""
    for folder in sorted(STORED.parent.glob("level*")):
        yield int(folder.name.removeprefix("level")), folder


def run_inputs():
    """The stored run inputs of every level, each with its level."""
    for level, folder in folders():
        for path in sorted(folder.glob("*.in")):
            if not path.name.startswith(OTHERS):
                yield level, path


def stored_cases():
    """Every stored case of every level: its name (folder/file), its octets, what is printed."""
    for _level, path in run_inputs():
        name = f"{path.parent.name}/{path.stem}"
        yield name, path.read_bytes(), path.with_suffix(".out").read_text()


def taken_cases(library):
    """The stored cases that the library does not refuse."""
    for name, octets, _printed in stored_cases():
        try:
            library.read_plan(octets)
        except Refused:
            continue
        yield name, octets


def stepped_cases(library):
    """The stored cases that make a step: those of no bit times cannot be shown. In the gate those of level 0 alone."""
    for name, octets in taken_cases(library):
        if (EVERY_LEVEL or name.startswith(STORED.name)) and library.read_plan(octets).times > 0:
            yield name, octets


def call(*words, given=b"", **more):
    """The command as a program: status, standard output, standard error."""
    done = subprocess.run([str(TOOL), *map(str, words)], input=given, capture_output=True, check=False, **more)
    return done.returncode, done.stdout.decode(), done.stderr.decode()


class CommandTest(unittest.TestCase):
    """A test with a library and a folder of its own."""

    @classmethod
    def setUpClass(cls):
        cls.library = Library()

    def setUp(self):
        folder = tempfile.TemporaryDirectory()
        self.addCleanup(folder.cleanup)
        self.folder = Path(folder.name)

    def file(self, name, content):
        """A file of the test's folder."""
        path = self.folder / name
        path.write_bytes(content.encode() if isinstance(content, str) else content)
        return path

    def shell(self, script):
        """A shell script with the command as $W, in the test's folder."""
        done = subprocess.run(
            ["bash", "-c", script], cwd=self.folder, capture_output=True, check=False, env=dict(os.environ, W=str(TOOL))
        )
        return done.returncode, done.stdout.decode(), done.stderr.decode()
