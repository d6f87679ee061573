"""Rows as a table for people, or as CSV."""

import csv
import io
import re

from .output import printable

NUMBER = re.compile(r"\(?[0-9]+(\.[0-9]+)?\)?")


def as_csv(header, rows):
    """Rows as CSV, with a line of names; None is an empty field."""
    out = io.StringIO()
    writer = csv.writer(out, lineterminator="\n")
    writer.writerow(header)
    writer.writerows(["" if value is None else value for value in row] for row in rows)
    return out.getvalue()


def as_table(header, rows):
    """Rows in columns: numbers to the right, words to the left; None is a dash."""
    cells = [[shown(value) for value in row] for row in rows]
    widths = [max(len(line[at]) for line in [list(header), *cells]) for at in range(len(header))]
    right = [all(is_number(row[at]) for row in rows) for at in range(len(header))]
    lines = [list(header), *cells]
    return "".join(line_of(line, widths, right) for line in lines)


def line_of(line, widths, right):
    """One line of a table."""
    cells = [cell.rjust(width) if to_right else cell.ljust(width) for cell, width, to_right in zip(line, widths, right)]
    return "  ".join(cells).rstrip() + "\n"


def is_number(value):
    """Whether a value is shown as a number."""
    return value is None or isinstance(value, int) or bool(NUMBER.fullmatch(str(value)))


def shown(value):
    """A value as a table shows it."""
    return "-" if value is None else printable(str(value))
