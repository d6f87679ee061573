"""`wisavulome fit`: whether sheets fit, why, and by how much."""

import os
from dataclasses import dataclass

from . import text
from .failure import GOOD, NO, REFUSED, Failure
from .library import FIGURES, HEADER_BITS, MAX_POSITION
from .output import progress
from .source import files_in, read_layout, read_source
from .table import as_csv, as_table

SLOT_CLAUSE = "2 x S + G <= slot"
JAM_CLAUSE = f"G <= {HEADER_BITS} + jam"

HELP = """Says of each sheet whether it fits, why, and by how much. A sheet or plan is given as
octets, as text (docs/RUN-INPUT.md), or as a drawing made by 'wisavulome draw'; '-' is standard
input. A folder stands for all files in it.

S is the last position less the first, G is gap1 + gap2. A layout fits if 2 x S + G <= slot and G
<= 64 + jam. A margin is how much is left of the right side; below 0 the layout does not fit. The
longest span is the one with the last tap as far out as it still fits, by the library's margin. In a
table a default stands in parentheses.

Exit status: 0 all fit, 1 one does not, 2 one is refused or the call is wrong, 3 the output could
not be written."""


def header_of(is_csv):
    """The names of the columns."""
    figures = [figure.name for figure in FIGURES] + (["given"] if is_csv else [])
    return ["sheet", "stations", *figures, "S", "G", "slot-margin", "jam-margin", "longest-span", "fit", "why"]


@dataclass(frozen=True)
class Verdict:
    """A sheet with what is said of it."""

    name: str
    layout: object
    given: frozenset  # the figures that stand in the sheet
    farthest: int  # position of the last tap, or None

    @property
    def slot_margin(self):
        """slot less 2 x S + G."""
        return self.layout.figures["slot"] - 2 * self.layout.span - self.layout.gap

    @property
    def jam_margin(self):
        """64 + jam less G."""
        return HEADER_BITS + self.layout.figures["jam"] - self.layout.gap

    @property
    def longest_span(self):
        """The span with the last tap as far out as it still fits."""
        return None if self.farthest is None else self.farthest - self.layout.taps[0].position

    @property
    def failing(self):
        """The clauses that do not hold."""
        margins = {SLOT_CLAUSE: self.slot_margin, JAM_CLAUSE: self.jam_margin}
        return [clause for clause, margin in margins.items() if margin < 0]


def add_parser(subparsers):
    """The arguments of the subcommand."""
    parser = subparsers.add("fit", "whether sheets fit, why, and by how much", HELP)
    parser.add_argument("files", nargs="+", metavar="FILE", help="a sheet, a plan, a drawing or a folder of them")
    parser.add_argument("--difference", action="store_true", help="what differs between two sheets")
    parser.add_argument("--pattern", default="*", help="of a folder only files of such names, for example '*.sheet'")
    form = parser.add_mutually_exclusive_group()
    form.add_argument("--table", action="store_true", help="a line for each sheet, also where there is one sheet")
    form.add_argument("--csv", action="store_true", help="a line for each sheet, as CSV")


def run(library, arguments, output):
    """The subcommand; answers the exit status."""
    if arguments.difference:
        return difference(library, arguments, output)
    paths = [path for given in arguments.files for path in files_of(given, arguments.pattern)]
    if len(paths) == 1 and paths == arguments.files and not arguments.table and not arguments.csv:
        verdict = judge(library, paths[0])
        output.write(report(verdict))
        return GOOD if verdict.layout.fits else NO
    return collection(library, paths, arguments.csv, output)


def files_of(given, pattern):
    """A file, or the files of a folder."""
    if given == "-" or not os.path.isdir(given):
        return [given]
    found = files_in(given, pattern)
    if not found:
        raise Failure(f"{given} has no file of the name {pattern}")
    return [str(path) for path in found]


def judge(library, path):
    """What is said of the sheet in a file."""
    return judge_source(library, read_source(library, path))


def judge_source(library, source):
    """What is said of a sheet that was read."""
    layout = read_layout(library, source)
    given = frozenset(text.decode(source.octets[: layout.used])[0].figures)
    verdict = Verdict(source.name, layout, given, library.farthest_last_tap(source.octets[: layout.used]))
    if layout.fits != (not verdict.failing):
        raise Failure(
            f"{source.name}: the library's verdict and the margins of this command differ: "
            "they are of different versions"
        )
    return verdict


def report(verdict):
    """One sheet on some lines."""
    layout = verdict.layout
    figures = layout.figures
    lines = [f"{verdict.name}: fit {yes_or_no(layout)}"]
    for figure in FIGURES:
        origin = "given" if figure.name in verdict.given else "default"
        lines.append(f"  {figure.name:<14}{figures[figure.name]:>5}  {origin}")
    for number, tap in enumerate(layout.taps):
        lines.append(f"  {f'station {number}':<14}{tap.position:>5}  {text.render_address(tap.address)}")
    lines.append(f"  {'span S':<14}{layout.span:>5}")
    lines.append(f"  {'gap G':<14}{layout.gap:>5}")
    lines.append(clause_line(SLOT_CLAUSE, 2 * layout.span + layout.gap, figures["slot"], verdict.slot_margin))
    lines.append(clause_line(JAM_CLAUSE, layout.gap, HEADER_BITS + figures["jam"], verdict.jam_margin))
    lines.append(f"  {longest(verdict)}")
    return "".join(line + "\n" for line in lines)


def clause_line(clause, left, right, margin):
    """A clause with its numbers, its margin, and whether it holds."""
    sign = "<=" if margin >= 0 else ">"
    return f"  {clause}: {left} {sign} {right}, margin {margin}, {'yes' if margin >= 0 else 'no'}"


def longest(verdict):
    """The longest span in words."""
    if verdict.farthest is None:
        return "longest span: none; it fits with the last tap nowhere past the one before it"
    moved = verdict.farthest - verdict.layout.taps[-1].position
    end = ", the last position that a sheet can hold" if verdict.farthest == MAX_POSITION else ""
    where = f"last tap at {verdict.farthest}{end}"
    way = "it may move outward by" if moved >= 0 else "it must move inward by"
    return f"longest span: {verdict.longest_span} ({where}; {way} {abs(moved)})"


def yes_or_no(layout):
    """The library's answer."""
    return "yes" if layout.fits else "no"


def row_of(verdict, is_csv):
    """A sheet as a row. In a table a default stands in parentheses, in CSV the given figures are listed."""
    layout = verdict.layout
    figures = [layout.figures[figure.name] for figure in FIGURES]
    if not is_csv:
        figures = [
            number if figure.name in verdict.given else f"({number})" for figure, number in zip(FIGURES, figures)
        ]
    given = [" ".join(figure.name for figure in FIGURES if figure.name in verdict.given)] if is_csv else []
    why = "; ".join(f"not {clause}" for clause in verdict.failing)
    margins = [verdict.slot_margin, verdict.jam_margin, verdict.longest_span]
    return [verdict.name, len(layout.taps), *figures, *given, layout.span, layout.gap, *margins, yes_or_no(layout), why]


def collection(library, paths, is_csv, output):
    """Many sheets, a row each; what is refused is a row too."""
    header = header_of(is_csv)
    rows = []
    status = GOOD
    with progress("sheet", len(paths)) as shown:
        for count, path in enumerate(paths):
            shown.at(count)
            try:
                verdict = judge(library, path)
                rows.append(row_of(verdict, is_csv))
                status = max(status, GOOD if verdict.layout.fits else NO)
            except Failure as why:
                rows.append(refused_row(path, str(why), len(header)))
                status = REFUSED
    output.write((as_csv if is_csv else as_table)(header, rows))
    return status


def refused_row(path, why, columns):
    """The row of what is no sheet."""
    name = "standard input" if path == "-" else path
    reason = why[len(name) + 2 :] if why.startswith(name + ": ") else why
    return [name, *[None] * (columns - 3), "refused", reason]


def difference(library, arguments, output):
    """What differs between two sheets. They say the same where the library writes the same shortest sheet for both."""
    if len(arguments.files) != 2:
        raise Failure("fit --difference needs two sheets")
    sources = [read_source(library, path) for path in arguments.files]
    one, other = (judge_source(library, source) for source in sources)
    same = library.write_sheet(sources[0].octets) == library.write_sheet(sources[1].octets)
    rows = [] if same else [row for row in compared(one, other) if row[1] != row[2]]
    header = ["what", one.name, other.name]
    if arguments.csv:
        output.write(as_csv(header, rows))
    else:
        output.write(as_table(header, rows) if rows else f"{one.name} and {other.name} say the same\n")
    return GOOD if one.layout.fits and other.layout.fits else NO


def compared(one, other):
    """What both sheets say, row by row. Stations are compared by their address."""
    for figure in FIGURES:
        yield [figure.name, *(figure_words(each, figure.name) for each in (one, other))]
    seats = [
        {tap.address: f"station {number} at {tap.position}" for number, tap in enumerate(each.layout.taps)}
        for each in (one, other)
    ]
    for address in dict.fromkeys([*seats[0], *seats[1]]):
        yield [text.render_address(address), seats[0].get(address), seats[1].get(address)]
    yield ["stations", len(one.layout.taps), len(other.layout.taps)]
    yield ["S", one.layout.span, other.layout.span]
    yield ["G", one.layout.gap, other.layout.gap]
    yield ["slot-margin", one.slot_margin, other.slot_margin]
    yield ["jam-margin", one.jam_margin, other.jam_margin]
    yield ["longest-span", one.longest_span, other.longest_span]
    yield ["fit", yes_or_no(one.layout), yes_or_no(other.layout)]


def figure_words(verdict, name):
    """A figure with its origin."""
    return f"{verdict.layout.figures[name]} {'given' if name in verdict.given else 'default'}"
