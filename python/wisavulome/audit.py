"""`wisavulome audit`: for each offer of a plan what came of it, and who got the frame."""

import json

from . import text
from .course import addressees, follow
from .failure import GOOD, NO, REFUSED
from .library import REFUSALS
from .source import each_plan
from .table import as_csv, as_table

HELP = """Says for each offer of a plan what came of it, and of each addressee of a sent frame
whether it got the frame.

outcome      sent, given-up, late-end (a late collision closed the frame), late (its collision was
             late, and the run ended before the frame did), held (not yet sent), refused N, not made
             (its step never ran)
attempts     how often the frame started
delay        bit times from the offer's step to the step that reports its end
addressees   of each: got, lost, or on its way (the run ended before the frame could be there). A
             frame is lost where its sender reports sent and the addressee, in the step in which it
             should report the frame, does not. On a sheet that fits nothing is lost.

Exit status: 0 nothing lost, 1 a frame is lost, given up or late-ended or a collision was late, 2
the plan is refused or the call is wrong, 3 the output could not be written."""

HEADER = ["offer", "time", "station", "destination", "outcome", "attempts", "delay", "addressees"]
COUNTS = ["got", "lost", "on-its-way"]


def add_parser(subparsers):
    """The arguments of the subcommand."""
    parser = subparsers.add("audit", "for each offer what came of it, and who got the frame", HELP)
    parser.add_argument(
        "files", nargs="+", metavar="PLAN", help="a plan as text or octets; of several each has a heading"
    )
    parser.add_argument(
        "--format", choices=["table", "csv", "json"], default="table", help="json: a JSON object on each line"
    )


def run(library, arguments, output):
    """The subcommand; answers the exit status, of several plans the highest."""
    status = GOOD
    rows = []
    for source in each_plan(library, arguments.files):
        if source is None:
            status = REFUSED
            continue
        course = follow(library, source.octets)
        status = max(status, status_of(course))
        name = source.name if len(arguments.files) > 1 else None
        if arguments.format == "table":
            write_table(course, name, output)
        elif arguments.format == "json":
            write_json(course, name, output)
        else:
            rows += csv_rows(course, name)
    if arguments.format == "csv":
        output.write(as_csv((["plan"] if len(arguments.files) > 1 else []) + HEADER[:-1] + COUNTS + HEADER[-1:], rows))
    return status


def status_of(course):
    """1 where a frame is lost, given up or late-ended, or a collision was late."""
    return NO if any(is_bad(fate) for fate in course.fates) else GOOD


def is_bad(fate):
    """Whether an offer did not come to a good end."""
    return bool(fate.count("lost") or fate.late or (fate.ending and fate.ending.word != "sent"))


def deliveries_words(course, fate):
    """What each addressee got, in words."""
    if fate.deliveries:
        return ", ".join(f"station {each.station} {each.state} {each.time}" for each in fate.deliveries)
    if fate.ending and fate.ending.word == "sent":
        return "none"
    if fate.refusal is not None:
        return REFUSALS.get(fate.refusal, "")
    wanted = addressees(course, fate)
    return "not sent to " + ", ".join(f"station {number}" for number in wanted) if wanted and fate.made else ""


def row_of(course, fate):
    """An offer as a row of the table."""
    offer = fate.offer
    to = text.render_destination(course.plan, offer.destination)
    tried = len(fate.attempts) if fate.made and fate.refusal is None else None
    return [fate.number, offer.time, offer.station, to, fate.outcome, tried, fate.delay, deliveries_words(course, fate)]


def write_table(course, name, output):
    """The offers as a table, and a last line that says how it went; of several plans with a heading."""
    if name:
        output.write(f"==> {name} <==\n")
    fit = "yes" if course.layout.fits else "no"
    output.write(f"stations {len(course.layout.taps)} fit {fit} end {course.clock}\n")
    output.write(as_table(HEADER, [row_of(course, fate) for fate in course.fates]))
    output.write(summary(course) + "\n")


def summary(course):
    """How it went, in a line."""
    lost = [fate.number for fate in course.fates if fate.count("lost")]
    parts = []
    if lost:
        parts.append(f"LOST: reported sent, not received: offer {', '.join(map(str, lost))}")
    late = [fate.number for fate in course.fates if fate.late]
    if late:
        parts.append(f"late collision: offer {', '.join(map(str, late))}")
    ended = [fate.number for fate in course.fates if fate.ending and fate.ending.word != "sent"]
    if ended:
        parts.append(f"not delivered: offer {', '.join(map(str, ended))}")
    return "; ".join(parts) if parts else "nothing lost"


def csv_rows(course, name):
    """A row for each offer; addressees by how many they are."""
    for fate in course.fates:
        counts = [fate.count("got"), fate.count("lost"), fate.count("on its way")]
        yield ([name] if name else []) + row_of(course, fate)[:-1] + counts + [deliveries_words(course, fate)]


def write_json(course, name, output):
    """An object for each offer."""
    for fate in course.fates:
        record = {"plan": name} if name else {}
        record.update(zip(HEADER[:-1], row_of(course, fate)))
        record["late"] = fate.late
        record["starts"] = [attempt.start for attempt in fate.attempts]
        record["addressees"] = [
            {"station": each.station, "state": each.state, "time": each.time} for each in fate.deliveries
        ]
        output.write(json.dumps(record) + "\n")
