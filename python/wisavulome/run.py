"""`wisavulome run`: what the run program prints, and the same with offers, counters and held frames."""

import json

from .course import follow
from .failure import GOOD, NO, REFUSED
from .library import COUNTERS, LATE
from .source import each_plan
from .table import as_csv

HELP = """Prints what the run program 'simulate' prints for a plan, given as octets or as text
(docs/RUN-INPUT.md); '-' is standard input.

With --offers each line ends in the offers that it concerns, counted from 1. CSV and JSON lines
always have them. --counters and --held add, after the run, a line for each station's counters,
and a line for each frame that a station holds: 'held S to-send OFFER' (accepted, not yet sent,
given up or late-ended) and 'held S received OCTETS' (received, and still readable, whole with its
check sequence).

Exit status: 0 the run was made, 1 a late collision ended it early (on a sheet with late-end 1 none
does), 2 the plan is refused or the call is wrong, 3 the output could not be written."""

COLUMNS = ["kind", "time", "station", "word", "number", "offers"]


def add_parser(subparsers):
    """The arguments of the subcommand."""
    parser = subparsers.add("run", "what the run program prints, from text or octets", HELP)
    parser.add_argument(
        "files", nargs="+", metavar="PLAN", help="a plan as text or octets; of several each has a heading"
    )
    parser.add_argument(
        "--format", choices=["text", "csv", "json"], default="text", help="json: a JSON object on each line"
    )
    parser.add_argument("--offers", action="store_true", help="in text: each line with the offers that it concerns")
    parser.add_argument("--counters", action="store_true", help="with the counters of each station")
    parser.add_argument("--held", action="store_true", help="with the frames that stations hold at the end")


def run(library, arguments, output):
    """The subcommand; answers the exit status, of several plans the highest."""
    status = GOOD
    rows = []
    for source in each_plan(library, arguments.files):
        if source is None:
            status = REFUSED
            continue
        course = follow(library, source.octets)
        status = max(status, NO if ended_by_late(course) else GOOD)
        records = records_of(library, course, arguments)
        named = {"plan": source.name} if len(arguments.files) > 1 else {}
        if arguments.format == "text":
            write_text(records, named, arguments, output)
        elif arguments.format == "json":
            write_json(records, named, output)
        else:
            rows += [{**named, **record} for record in records]
    if arguments.format == "csv":
        write_csv(rows, arguments, output)
    return status


def ended_by_late(course):
    """Whether a late collision ended the run; it may have done so in the last step that was asked."""
    return course.layout.late_ends_run and any(event.word == LATE for event in course.events)


def records_of(library, course, arguments):
    """The run as records, in the order in which they are printed."""
    stations = range(len(course.layout.taps))
    yield {"kind": "stations", "number": len(stations), "word": "yes" if course.layout.fits else "no"}
    for event in course.events:
        yield {
            "kind": "refused" if event.word == "refused" else "event",
            "time": event.time,
            "station": event.station,
            "word": event.word,
            "number": event.number,
            "offers": list(event.offers),
        }
    yield {"kind": "end", "time": course.clock}
    if arguments.counters:
        for station in stations:
            yield {"kind": "counters", "station": station, "counters": library.counters(course.area, station)}
    if arguments.held:
        yield from held(library, course)


def held(library, course):
    """The frames that stations hold at the end: to send, then received."""
    for station in range(len(course.layout.taps)):
        for fate in course.fates:
            if fate.offer.station == station and fate.made and fate.refusal is None and not fate.ending:
                yield {
                    "kind": "held",
                    "station": station,
                    "word": "to-send",
                    "offers": [fate.number],
                    "frame": fate.frame.hex(),
                }
        frame = library.read_frame(course.area, station)
        if frame is not None:
            yield {"kind": "held", "station": station, "word": "received", "frame": frame.hex()}


def text_line(record, with_offers):
    """A record as the run program prints it; counters and held frames in the same manner."""
    kind = record["kind"]
    if kind == "stations":
        return f"stations {record['number']} fit {record['word']}"
    if kind == "end":
        return f"end {record['time']}"
    if kind == "counters":
        return " ".join(["counters", str(record["station"]), *(str(record["counters"][name]) for name in COUNTERS)])
    if kind == "held":
        what = record["frame"] if record["word"] == "received" else record["offers"][0]
        return f"held {record['station']} {record['word']} {what}"
    line = f"{record['time']} {record['station']} {record['word']} {record['number']}"
    return f"{line} offer {','.join(map(str, record['offers']))}" if with_offers and record["offers"] else line


def write_text(records, named, arguments, output):
    """The run as text; of several plans with a heading."""
    if named:
        output.write(f"==> {named['plan']} <==\n")
    for record in records:
        output.write(text_line(record, arguments.offers) + "\n")


def write_json(records, named, output):
    """The run as JSON lines."""
    for record in records:
        output.write(json.dumps({**named, **record}) + "\n")


def write_csv(records, arguments, output):
    """The run as CSV. Counters and frames have columns of their own, where they are asked for."""
    names = (["plan"] if len(arguments.files) > 1 else []) + COLUMNS
    names += (["frame"] if arguments.held else []) + (list(COUNTERS) if arguments.counters else [])
    rows = []
    for record in records:
        flat = {**record, **record.get("counters", {})}
        flat["offers"] = " ".join(map(str, record.get("offers", [])))
        rows.append([flat.get(name) for name in names])
    output.write(as_csv(names, rows))
