"""`wisavulome wave`: a run as a VCD wave, made by single steps of the library."""

from . import VERSION
from .course import advance_to, follow, make_due, packet_of
from .failure import GOOD
from .heard import Hearing
from .library import (
    BIT_TIME_NS,
    COLLISIONS,
    DEFERENCE,
    JAM,
    LATE,
    ONE,
    RECEIVER,
    SEVERAL,
    SILENCE,
    SPOILED,
    TRANSMITTER,
    ZERO,
)
from .output import progress, write_whole
from .source import read_plan_source
from .window import HELP as WINDOW_HELP
from .window import window_of

HELP = """Writes a run as a VCD wave, which GTKWave (vcd2fst), sigrok-cli and PulseView read. A
unit of time is a bit time, 100 ns. Of each station K these one-bit wires stand, each for the step
that begins there:

sK_tx          it emits
sK_tx_bit      the packet bit that it emits
sK_tx_jam      it emits jam
sK_rx          it hears another
sK_rx_bit      the bit that it hears, from one alone
sK_rx_jam      it hears jam, from one alone
sK_rx_many     it hears two or more
sK_carrier     busy: it hears another, or emitted in the step before
sK_collision   its collision is in this step
sK_late        and it is late
sK_quiet, sK_busy, sK_gap   its deference at the end of the step

--vectors adds sK_tx_symbol and sK_rx_symbol (0 silence, 1 a zero, 2 a one, 3 jam, 4 several),
sK_gap_count, sK_attempts, sK_transmitter (0 no frame, 1 waiting, 2 backing off, 3 sending, 4
heading, 5 jamming, 6 jamming with the frame's end after it) and sK_receiver (0 listening, 1
readable, 2 seeking, 3 collecting).

Exit status: 0 written, 2 refused or usage, 3 the output could not be written; then no half file
stays."""

WIRES = ("tx", "tx_bit", "tx_jam", "rx", "rx_bit", "rx_jam", "rx_many", "carrier", "collision", "late", *DEFERENCE)
VECTORS = {"tx_symbol": 3, "rx_symbol": 3, "gap_count": 9, "attempts": 5, "transmitter": 3, "receiver": 2}
FIRST, LAST = 33, 126  # the characters of an identifier


def add_parser(subparsers):
    """The arguments of the subcommand."""
    parser = subparsers.add("wave", "a run as a VCD wave", HELP)
    parser.add_argument("file", metavar="PLAN", help="a plan as text or octets")
    parser.add_argument("-o", "--output", metavar="FILE", help="where to write; standard output if absent")
    parser.add_argument("--window", metavar="A:B", help=WINDOW_HELP)
    parser.add_argument("--vectors", action="store_true", help="with vectors: symbols, counts and states")


def run(library, arguments, output):
    """The subcommand; answers the exit status."""
    source = read_plan_source(library, arguments.file)
    course = follow(library, source.octets)
    window = window_of(arguments.window, course.clock)
    write_whole(arguments.output, wave(library, course, source.octets, window, arguments.vectors), output)
    return GOOD


def identifier(number):
    """A short name for a signal."""
    name = ""
    while True:
        number, digit = divmod(number, LAST - FIRST + 1)
        name += chr(FIRST + digit)
        if number == 0:
            return name
        number -= 1


def wave(library, course, octets, window, with_vectors):
    """The wave of a run's window, part by part."""
    names = [*WIRES, *(VECTORS if with_vectors else ())]
    stations = range(len(course.layout.taps))
    yield head(stations, names) + f"#{window[0]}\n$dumpvars\n"
    before = [[None] * len(names) for _station in stations]
    for time, states in steps(library, course, octets, window, with_vectors):
        changes = []
        for station, state in enumerate(states):
            for at, value in enumerate(state):
                if value != before[station][at]:
                    changes.append(shown(value, names[at], identifier(station * len(names) + at)))
            before[station] = state
        if time == window[0]:
            yield "".join(changes) + "$end\n"
        elif changes:
            yield f"#{time}\n" + "".join(changes)
    yield f"#{window[1]}\n"


def shown(value, name, mark):
    """A change of value."""
    return f"b{value:b} {mark}\n" if name in VECTORS else f"{value:d}{mark}\n"


def head(stations, names):
    """What stands before the values."""
    lines = [f"$version wisavulome {VERSION} $end", f"$timescale {BIT_TIME_NS} ns $end", "$scope module pair $end"]
    for station in stations:
        lines.append(f"$scope module station{station} $end")
        for at, name in enumerate(names):
            width = VECTORS.get(name, 1)
            part = f" [{width - 1}:0]" if name in VECTORS else ""
            lines.append(f"$var wire {width} {identifier(station * len(names) + at)} s{station}_{name}{part} $end")
        lines.append("$upscope $end")
    return "\n".join([*lines, "$upscope $end", "$enddefinitions $end", ""])


def steps(library, course, octets, window, with_vectors):
    """Each step of the window with the values of all stations.

    Steps in which all are quiet are made at once: no value changes in them.
    """
    area = advance_to(library, octets, window[0])
    emissions = Emissions(course, window)
    symbols = Symbols(course)
    stations = range(len(course.layout.taps))
    time = window[0]
    with progress("bit time", window[1] - window[0]) as meter:
        while time < window[1]:
            meter.at(time - window[0])
            make_due(library, area, course.plan, time)
            before = [library.station(area, station) for station in stations]
            events = {(station, word) for station, word, _number in library.step(area)}
            after = [library.station(area, station) for station in stations]
            values = []
            for station in stations:
                sides = before[station], after[station]
                pair = emissions.symbol(station, time), symbols.heard(station, time, before[station].hears)
                row = wires(*sides, *pair, [word for one, word in events if one == station])
                values.append(row + (vectors(after[station], *pair) if with_vectors else []))
            yield time, values
            time += 1
            if not events and all(is_at_rest(each, with_vectors) for each in before + after):
                time += library.run(area, max(0, min(next_change(course, time), window[1]) - time))


def is_at_rest(state, with_vectors):
    """Whether a station is quiet, emits nothing, and hears nothing next.

    A vector also shows the end of a backoff, so with vectors none may run.
    """
    rests = state.deference == "quiet" and not state.emitted and state.hears == SILENCE
    return rests and not (with_vectors and state.transmitter == "backing off")


def next_change(course, time):
    """The next step, from this one on, in which an offer is made or an attempt starts."""
    starts = [attempt.start for attempt in course.attempts if attempt.start >= time]
    offers = [offer.time for offer in course.plan.offers if offer.time >= time]
    return min(starts + offers, default=course.clock)


def wires(before, after, symbol, heard, words):
    """The one-bit values of a station in a step."""
    hit = [word for word in words if word in COLLISIONS]
    return [
        after.emitted, symbol == ONE, symbol == JAM,
        heard != SILENCE, heard == ONE, heard == JAM, heard == SEVERAL,
        heard != SILENCE or before.emitted,
        bool(hit), LATE in hit,
        *(after.deference == phase for phase in DEFERENCE),
    ]  # fmt: skip


def vectors(after, symbol, heard):
    """The vectors of a station in a step."""
    states = [TRANSMITTER.index(after.transmitter), RECEIVER.index(after.receiver)]
    return [symbol, heard, after.gap_count, after.attempts, *states]


class Symbols:
    """What each station hears. A delay line does not tell jam from several at once: there it is derived, slowly."""

    def __init__(self, course):
        self.course = course
        self.hearings = {}

    def heard(self, station, time, place):
        """The symbol that a station hears in a step, of the place of its delay line."""
        if place != SPOILED:
            return place
        if station not in self.hearings:
            self.hearings[station] = Hearing(self.course, station)
        return self.hearings[station].symbol(time)


class Emissions:
    """What each station emits, step by step; the steps are asked in order."""

    def __init__(self, course, window):
        self.packets = {}
        self.fates = course.fates
        self.waiting = [[] for _tap in course.layout.taps]
        for attempt in reversed(course.attempts):
            if attempt.end > window[0]:
                self.waiting[attempt.station].append(attempt)

    def symbol(self, station, time):
        """The symbol that a station emits in a step."""
        waiting = self.waiting[station]
        while waiting and waiting[-1].end <= time:
            waiting.pop()
        if not waiting or time < waiting[-1].start:
            return SILENCE
        attempt = waiting[-1]
        if time >= attempt.jam_start:
            return JAM
        if attempt.offer not in self.packets:
            self.packets[attempt.offer] = packet_of(self.fates[attempt.offer - 1])
        return (ZERO, ONE)[self.packets[attempt.offer][time - attempt.start]]
