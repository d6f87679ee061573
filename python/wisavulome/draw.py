"""`wisavulome draw`: SVG of a sheet, a run or a sweep."""

from .course import follow
from .draw_run import draw_run
from .draw_sheet import draw_sheet
from .draw_sweep import draw_sweep
from .failure import GOOD, Failure
from .fit import judge_source
from .output import printable, write_whole
from .rows import HEADER as ROWS_HEADER
from .rows import parse_rows
from .source import is_sheet_alone, read_file, read_layout, read_source, shown, take_plan
from .window import HELP as WINDOW_HELP
from .window import window_of

HELP = """Draws a sheet, a run or a sweep as SVG, by what FILE is: a sheet, a plan, or the rows of
'wisavulome sweep --rows'. With --sheet the sheet of a plan is drawn.

Sheet: the pair with its taps, distances, addresses, figures given or default, both inequalities
as bars with their margins. Run: position across, bit times down; packet and jam bits are slanted
bands; collisions, late ones, sent, got, lost, given up, late-end are marked. Sweep: for each
offer the distribution of its delays. The octets of sheet or plan stand in the drawing as data:
'wisavulome fit DRAWING' reads them. The same input gives the same drawing.

Exit status: 0 drawn, 2 refused or usage, 3 the output could not be written; then no half file
stays."""

MOST_HEIGHT = 100000


def add_parser(subparsers):
    """The arguments of the subcommand."""
    parser = subparsers.add("draw", "a sheet, a run or a sweep as SVG", HELP)
    parser.add_argument("file", metavar="FILE", help="a sheet, a plan, or rows of a sweep")
    parser.add_argument("-o", "--output", metavar="FILE", help="where to write; standard output if absent")
    parser.add_argument("--sheet", action="store_true", help="of a plan: draw its sheet")
    parser.add_argument("--window", metavar="A:B", help=f"of a run: {WINDOW_HELP}")
    parser.add_argument("--height", type=int, help="of a run: the points that the window is high")
    parser.add_argument("--title", help="a title of your own")


def run(library, arguments, output):
    """The subcommand; answers the exit status."""
    if arguments.height is not None and not 100 <= arguments.height <= MOST_HEIGHT:
        raise Failure(f"--height {arguments.height} is outside 100..{MOST_HEIGHT}")
    write_whole(arguments.output, drawing(library, arguments), output)
    return GOOD


def drawing(library, arguments):
    """The drawing of what the file is."""
    given = read_file(arguments.file)
    name = shown(arguments.file)
    if given.startswith(ROWS_HEADER.encode()):
        refuse_window(arguments, "the rows of a sweep")
        rows = parse_rows(name, given)
        if not rows:
            raise Failure(f"{name}: it has no rows")
        sets = len({row[1] for row in rows})
        return draw_sweep(rows, title_of(arguments, f"Sweep of {sets} sets of draws"))
    source = read_source(library, arguments.file, given)
    layout = read_layout(library, source)
    if arguments.sheet or is_sheet_alone(source, layout):
        refuse_window(arguments, "a sheet")
        verdict = judge_source(library, source)
        title = title_of(arguments, f"Sheet of {len(layout.taps)} stations")
        return draw_sheet(verdict, source.octets[: layout.used], title)
    take_plan(library, source)
    course = follow(library, source.octets)
    title = title_of(arguments, f"Run of {len(course.fates)} offers, {len(layout.taps)} stations")
    return draw_run(course, window_of(arguments.window, course.clock), source.octets, title, arguments.height)


def title_of(arguments, usual):
    """The title that is asked for, as far as it can be printed."""
    return printable(arguments.title) if arguments.title else usual


def refuse_window(arguments, what):
    """Only a run has a window and a height."""
    if arguments.window is not None or arguments.height is not None:
        raise Failure(f"{what} has no --window and no --height: those are of a run")
