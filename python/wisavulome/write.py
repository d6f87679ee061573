"""`wisavulome write`: the shortest sheet, and text forms both ways."""

from . import text
from .failure import GOOD
from .library import Refused
from .output import write_whole
from .source import is_sheet_alone, read_layout, read_source

HELP = """Writes a sheet or plan in another form. By default it writes the shortest sheet with the
same layout, as octets: figures that are their defaults are left out. With --as text or --as
octets it writes the sheet or plan as it is.

Exit status: 0 written, 2 refused or the call is wrong, 3 the output could not be written."""


def add_parser(subparsers):
    """The arguments of the subcommand."""
    parser = subparsers.add("write", "the shortest sheet; text forms both ways", HELP)
    parser.add_argument("file", metavar="FILE", help="a sheet or plan as text, octets or drawing")
    parser.add_argument(
        "--as",
        dest="form",
        choices=["text", "octets"],
        help="the same sheet or plan in this form, figures as they are given",
    )
    parser.add_argument("-o", "--output", metavar="FILE", help="where to write; standard output if absent")


def run(library, arguments, output):
    """The subcommand; answers the exit status."""
    source = read_source(library, arguments.file)
    layout = read_layout(library, source)
    if not is_sheet_alone(source, layout):
        check_plan(library, source)
    write_whole(arguments.output, written(library, source, layout, arguments.form), output)
    return GOOD


def check_plan(library, source):
    """What follows the sheet must be a plan."""
    try:
        library.read_plan(source.octets)
    except Refused as refusal:
        raise source.refuse(refusal) from refusal


def written(library, source, layout, form):
    """The sheet or plan in the form that is asked for."""
    if form == "octets":
        return source.octets
    if form == "text":
        return text_of(source.octets, layout)
    return library.write_sheet(source.octets[: layout.used]) + source.octets[layout.used :]


def text_of(octets, layout):
    """The text of a sheet alone or of a plan."""
    if len(octets) > layout.used:
        return text.read(octets)[0]
    plan = text.Plan()
    text.decode_sheet(plan, text.Octets(octets))
    return text.render(plan, [])
