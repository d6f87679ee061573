"""`wisavulome windows`: the run program's text as a log, and windows over it.

An entry is six octets: time (4, high octet first), station, event (from 1 on, in the order of a run's tallies).
"""

import re
from dataclasses import dataclass

from .failure import GOOD, Failure
from .library import EVENTS, MAX_WINDOWS, entry_of
from .output import printable, write_whole
from .source import open_file, read_file, shown
from .table import as_csv, as_table

HELP = f"""Reads the text that the run program prints into the entries of a log, and prints for each
window how many events of every word it holds. WINDOWS has a line for each window: station, first
time, time past the last; '#' begins a comment. A window holds what its station reported from the
first time on and before the time past the last. More than {MAX_WINDOWS} windows are looked up {MAX_WINDOWS} at a time.

Lines of refused offers and 'end' are left out of the log. A line that is no event and none of the
run program's others is an error with its number. N, the number of stations, is that of the lines
'stations' (the largest), or what --stations says.

Exit status: 0 good, 2 refused or the call is wrong, 3 the output could not be written."""

PART = 1 << 20  # octets that are read at a time
MOST_TIME, MOST_STATION = 2**32 - 1, 255
WORDS = "|".join(EVENTS).encode()
# An event, with its time, station and word; the line `stations`, with N; or another line of the run program.
ENTRY = re.compile(
    rb"^(?:([0-9]{1,99}) ([0-9]{1,99}) (%s) [0-9]+"
    rb"|stations ([0-9]{1,3}) fit (?:yes|no)|end [0-9]+|[0-9]+ [0-9]+ refused [0-9]+)\r?\n" % WORDS,
    re.M,
)
NUMBERS = {word.encode(): number for number, word in enumerate(EVENTS, 1)}
HEADER = ["station", "first", "past", *EVENTS]


def add_parser(subparsers):
    """The arguments of the subcommand."""
    parser = subparsers.add("windows", "the run program's text as a log, and windows over it", HELP)
    parser.add_argument("log", metavar="LOG", help="what the run program printed")
    parser.add_argument("windows", metavar="WINDOWS", nargs="?", help="the windows, one on a line")
    parser.add_argument("--stations", metavar="N", type=int, help="the number of stations (default: what LOG says)")
    parser.add_argument("--csv", action="store_true", help="print CSV")
    parser.add_argument("--entries", metavar="FILE", help="write the entries of the log as octets")


@dataclass(frozen=True)
class Log:
    """The entries of a log as octets, and the number of stations, None where no line says it."""

    entries: bytes
    stations: int


def run(library, arguments, output):
    """The subcommand; answers the exit status."""
    if arguments.windows is None and arguments.entries is None:
        raise Failure("windows needs WINDOWS, or --entries")
    log = read_log(shown(arguments.log), chunks_of(arguments.log))
    if arguments.entries is not None:
        write_whole(arguments.entries, log.entries, output)
    if arguments.windows is not None:
        given = read_windows(shown(arguments.windows), read_file(arguments.windows).decode("utf-8-sig", "replace"))
        stations = log.stations if arguments.stations is None else arguments.stations
        if stations is None or not 0 <= stations <= MOST_TIME:
            raise Failure("the number of stations: LOG has no line 'stations', or --stations is none")
        output.write((as_csv if arguments.csv else as_table)(HEADER, looked_up(library, log.entries, stations, given)))
    return GOOD


def looked_up(library, entries, stations, windows):
    """For each window its three numbers and how many events of every word it holds."""
    parts = [windows[at : at + MAX_WINDOWS] for at in range(0, len(windows), MAX_WINDOWS)] or [[]]
    counts = [each for part in parts for each in library.windows(entries, stations, part)]
    return [[*window, *held] for window, held in zip(windows, counts)]


def chunks_of(path):
    """The whole lines of a file, many at a time; a log may be long."""
    kept = b""
    with open_file(path) as opened:
        for part in iter(lambda: read_part(path, opened), b""):
            lines, end, kept_next = (kept + part).rpartition(b"\n")
            yield lines + end
            kept = kept_next
    if kept:
        yield kept + b"\n"


def read_part(path, opened):
    """The next octets of a file."""
    try:
        return opened.read(PART)
    except OSError as why:
        raise Failure(f"{shown(path)} cannot be read: {why.strerror}") from why


def read_log(name, chunks):
    """The run program's text as a log."""
    entries = bytearray()
    most = None
    number = 1
    for chunk in chunks:
        found = ENTRY.findall(chunk)
        lines = chunk.count(b"\n")
        if len(found) != lines:
            refuse_line(name, number, chunk)
        for time, station, word, stations in found:
            if word:
                entries += entry(name, number, int(time), int(station), word)
            elif stations:
                most = max(most or 0, int(stations))
        number += lines
    return Log(bytes(entries), most)


def entry(name, number, time, station, word):
    """The six octets of an event."""
    if time > MOST_TIME or station > MOST_STATION:
        raise Failure(f"{name}: from line {number} on: time {time} or station {station} is too large for an entry")
    return entry_of(time, station, NUMBERS[word])


def refuse_line(name, first, chunk):
    """The first line that is none of the run program's."""
    for number, line in enumerate(chunk.split(b"\n"), first):
        if not ENTRY.fullmatch(line + b"\n"):
            shown_line = clipped(line.decode("utf-8", "replace"))
            raise Failure(f"{name}: line {number}: '{shown_line}' is no event (time, station, word, number)")


def read_windows(name, content):
    """The windows: station, first time, time past the last."""
    windows = []
    for number, line in enumerate(content.removesuffix("\n").split("\n"), 1):
        words = line.partition("#")[0].split()
        if not words:
            continue
        if len(words) != 3 or not all(re.fullmatch(r"[0-9]{1,10}", word) and int(word) <= MOST_TIME for word in words):
            raise Failure(
                f"{name}: line {number}: '{clipped(line)}' is no window (station, first time, time past the last)"
            )
        windows.append(tuple(map(int, words)))
    return windows


def clipped(line):
    """A line for a message, not too long."""
    line = printable(line)
    return line if len(line) <= 60 else line[:57] + "..."
