"""The rows of a sweep: a CSV line for each set and offer, in files that can be continued and merged."""

import re

from .failure import UNWRITTEN, Failure

COLUMNS = ("sweep", "set", "offer", "outcome", "attempts", "delay", "got", "lost", "on-its-way")
HEADER = ",".join(COLUMNS) + "\n"
LINE = re.compile(r"([0-9a-f]{16}),([0-9]+),([0-9]+),([a-z0-9 -]+),([0-9]+),([0-9]*),([0-9]+),([0-9]+),([0-9]+)")


def row_line(row):
    """A row as a line."""
    return ",".join("" if value is None else str(value) for value in row) + "\n"


def parse_row(line):
    """A line as a row, or None."""
    found = LINE.fullmatch(line)
    if not found:
        return None
    key, number, offer, outcome, attempts, delay, *counts = found.groups()
    return (key, int(number), int(offer), outcome, int(attempts), int(delay) if delay else None, *map(int, counts))


def read_rows(path):
    """The rows of a file."""
    try:
        with open(path, "rb") as opened:
            return parse_rows(path, opened.read())
    except OSError as why:
        raise Failure(f"{path} cannot be read: {why.strerror}") from why


def parse_rows(path, content):
    """The rows of a file's octets. A last line without its end is left out: its writer was interrupted."""
    lines = content.decode("utf-8", "replace").split("\n")[:-1]
    if not lines or lines[0] + "\n" != HEADER:
        raise Failure(f"{path}: line 1: this is no file of rows, which begins with '{HEADER.strip()}'")
    rows = []
    for number, line in enumerate(lines[1:], 2):
        row = parse_row(line)
        if row is None:
            raise Failure(f"{path}: line {number}: this is no row of a sweep")
        rows.append(row)
    return rows


class Rows:
    """The rows of the sets from `first` to below `past`, of a sweep with this key and so many offers."""

    def __init__(self, key, offers, first, past):
        self.key = key
        self.offers = offers
        self.first = first
        self.past = past
        self.there = []

    def belongs(self, path, row):
        """A row of another sweep is refused."""
        if row[0] != self.key:
            raise Failure(f"{path}: its rows are of another sweep (plan, draws or seed differ)")
        if not 1 <= row[2] <= self.offers:
            raise Failure(f"{path}: offer {row[2]} is not in the plan")

    def open(self, path):
        """The file for new rows. What it has of this sweep stays, in `there`; a set that is not whole is made again."""
        try:
            opened = open(path, "a+b", buffering=0)
        except OSError as why:
            raise Failure(f"{path} could not be written: {why.strerror}", UNWRITTEN) from why
        try:
            if opened.seekable() and opened.tell():
                self.take_over(path)
                opened.truncate(len(HEADER.encode()) + sum(len(row_line(row)) for row in self.there))
            else:
                opened.write(HEADER.encode())
        except OSError as why:
            opened.close()
            raise Failure(f"{path} could not be written: {why.strerror}", UNWRITTEN) from why
        return opened

    def take_over(self, path):
        """The whole sets of a file that was begun, which stand in order."""
        rows = read_rows(path)
        wanted = ((number, offer) for number in range(self.first, self.past) for offer in range(1, self.offers + 1))
        for row, pair in zip(rows, wanted):
            self.belongs(path, row)
            if (row[1], row[2]) != pair:
                raise Failure(
                    f"{path}: set {row[1]}, offer {row[2]} stands where set {pair[0]}, offer {pair[1]} should"
                )
        if len(rows) > (self.past - self.first) * self.offers:
            raise Failure(f"{path} has more sets than are asked for")
        self.there = rows[: len(rows) - len(rows) % self.offers]

    def merged(self, paths):
        """The rows of many files, in order; each set once, or several times the same."""
        found = {}
        for path in paths:
            for row in read_rows(path):
                self.belongs(path, row)
                if self.first <= row[1] < self.past and found.setdefault(row[1:3], row) != row:
                    raise Failure(f"{path}: set {row[1]}, offer {row[2]} is not what another file says of it")
        pairs = [(number, offer) for number in range(self.first, self.past) for offer in range(1, self.offers + 1)]
        missing = next((pair for pair in pairs if pair not in found), None)
        if missing:
            raise Failure(f"set {missing[0]}, offer {missing[1]} is in none of the files")
        self.there = [found[pair] for pair in pairs]
        return self.there

    def kept(self):
        """The rows as a file."""
        return HEADER + "".join(map(row_line, self.there))
