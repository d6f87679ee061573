"""The calls of the shared library, and every number that they use.

The table below is the only place with sizes, codes and words of the C interface (crates/capi/wisavulome.h). A
request that adds an event word, a counter or a figure changes one line here.
"""

import ctypes
import os
import struct
from dataclasses import dataclass
from pathlib import Path
from typing import NamedTuple

# ---- the table

SONAME = "libwisavulome.so.1"
VARIABLE = "WISAVULOME_LIBRARY"

AREA_FORMAT = 2
REFUSAL = 0x80000000
WORD = 4  # octets of a number in an output

# The octets that each call asks of what is lent to it.
SIZES = {
    "area": 57344,
    "store": 229412,
    "sheet": 196,
    "write": 128,
    "client": 8,
    "step": 256,
    "run": 52,
    "counters": 68,
    "station": 64,
    "frame": 1522,
    "plan": 216,
    "piece": 2048,
    "progress": 16,
}

MAX_MARKS = 4  # of a store
NAME_OCTETS = 8  # of a mark, after the octet that says whether it stands
MAX_STATIONS = 16
MAX_DRAWS = 16  # D
MAX_OFFERS = 64
MAX_PLAN = 16384  # octets of a run input
LAST_CLOCK = 16777216
ENTRY_OCTETS = 6  # of a log: time (4), station, event
MAX_WINDOWS = 64  # of one call
WINDOW_NUMBERS = 3  # station, first time, time past the last
MAX_POSITION = 255
NO_MARGIN = 256  # the margin of a layout that does not fit
MAX_LENGTH = 1500  # the largest length/type value that is a length
MIN_TYPE = 1536  # a value from this on is a type
MIN_FRAME = 64  # octets
FRAME_OVERHEAD = 18  # octets of a frame besides data and pad
HEADER_BITS = 64  # of a packet, before the frame
BIT_TIME_NS = 100


@dataclass(frozen=True)
class Figure:
    """An optional field of a sheet: its octets, its range, what it is where it is absent, and where
    wisavulome_read_sheet writes it."""

    name: str
    octets: int
    least: int
    most: int
    absent: int
    out_at: int


# The one at place i follows if bit i of the map stands.
FIGURES = (
    Figure("slot", 2, 64, 512, 512, 0),
    Figure("gap1", 1, 0, 255, 64, 4),
    Figure("gap2", 1, 1, 255, 32, 8),
    Figure("jam", 1, 1, 64, 32, 12),
    Figure("attempt-limit", 1, 1, 16, 16, 16),
    Figure("backoff-limit", 1, 1, 10, 10, 20),
    Figure("late-end", 1, 0, 1, 0, 192),  # 0: a late collision is retried; 1: it closes the frame
)

# Where wisavulome_read_sheet writes N, whether the layout fits, and the stations: position, then address.
COUNT_AT, FITS_AT, TAPS_AT, TAP_OCTETS = 24, 28, 32, 10

# Event words by their code in a step's output; code 0 is no event.
TRANSMIT = ("collision", "late", "sent", "given-up", "late-end")
RECEIVE = ("got ok", "got too-long", "got alignment", "got check", "got length")
EVENTS = TRANSMIT + RECEIVE  # the order of a run's tallies, and of a log's event numbers, which begin at 1
COLLISIONS = ("collision", "late")
ENDINGS = ("sent", "given-up", "late-end")  # the words after which a station has no frame
LATE = "late"  # it ends a run where late-end is 0 (Layout.late_ends_run)

STATUSES = ("fragment", "frameTooLong", "frameCheckError", "alignmentError", "lengthError", "receiveOK")
RECEIVE_OK = STATUSES[-1]

COUNTERS = (
    "offered",
    "attempts",
    "collisions",
    "late",
    "sent",
    "sent-after-one",
    "sent-after-several",
    "octets-sent",
    "deferred",
    "excessive",
    "received",
    "octets-received",
    "too-long",
    "check",
    "alignment",
    "length",
    "late-ended",
)

REFUSALS = {
    1: "the work area is too short",
    2: "the work area holds what no call would leave",
    3: "the sheet is too short",
    4: "map bit 7 stands",
    5: "a field is out of its range",
    6: f"the number of stations is outside 2..{MAX_STATIONS}",
    7: "positions do not strictly rise",
    8: "an address is a group's or repeats",
    9: f"D is outside 1..{MAX_DRAWS}, or the draws are not N x D numbers",
    10: "no such station",
    11: "data over 1500 octets (1504 with the value 8100 hexadecimal), or a value that is neither their size nor a type",
    12: "the station still has a frame",
    13: f"the clock would pass {LAST_CLOCK}",
    14: "the station holds no readable frame",
    15: "the lent output or store is too short",
    16: f"the plan is over {MAX_PLAN} octets, is short, has octets left over, "
    f"over {MAX_OFFERS} offers, or offer times that fall; over {MAX_WINDOWS} windows",
    17: "no mark of that name",
    18: "a new name while four others stand",
    20: "a window's second time is below its first",
    21: "the times of the log's entries fall",
}

# The functions: for each its arguments in order. A slice, a buffer and an array of numbers are two C arguments, pointer
# and length.
CALLS = {
    "read_sheet": ("slice", "buffer"),
    "fits": ("slice",),
    "margin": ("slice",),
    "check_layout": ("slice",),
    "write_sheet": ("slice", "buffer"),
    "read_plan": ("slice", "buffer"),
    "build": ("u64", "u64", "u16", "slice", "buffer"),
    "status": ("slice", "u32"),
    "reception_status": ("slice", "u32", "u32"),
    "client_data": ("slice", "u32", "buffer"),
    "start": ("buffer", "slice", "u32", "slice"),
    "check_area": ("buffer",),
    "offer": ("buffer", "u32", "u64", "u16", "slice"),
    "step": ("buffer", "buffer"),
    "run": ("buffer", "u32", "buffer"),
    "run_stepwise": ("buffer", "u32", "buffer"),
    "read_frame": ("buffer", "u32", "buffer"),
    "counters": ("buffer", "u32", "buffer"),
    "station": ("buffer", "u32", "buffer"),
    "mark": ("buffer", "buffer", "u64"),
    "return": ("buffer", "buffer", "u64"),
    "drop": ("buffer", "u64"),
    "begin": ("slice", "buffer", "buffer", "buffer"),
    "advance": ("slice", "buffer", "buffer", "buffer"),
    "print": ("slice", "buffer", "buffer"),
    "windows": ("slice", "u32", "numbers", "numbers"),
    "crc32": ("slice",),
}

# The states of a station by their code.
DEFERENCE = ("quiet", "busy", "gap")
# ending: it jams after a late collision that closes the frame
TRANSMITTER = ("no frame", "waiting", "backing off", "sending", "heading", "jamming", "ending")
RECEIVER = ("listening", "readable", "seeking", "collecting")
SILENCE, ZERO, ONE, JAM, SEVERAL = range(5)  # what a station hears, as heard.py and the waves number it
SPOILED = 3  # of a station's state: jam, or several at once; the other codes are SILENCE, ZERO and ONE

# ---- failures


class LibraryMissing(Exception):
    """The shared library, or a function of it, is not there."""


class Refused(Exception):
    """A call was refused, by this number."""

    def __init__(self, number):
        super().__init__(f"refused {number}: {REFUSALS.get(number, 'a refusal that this version does not know')}")
        self.number = number


# ---- finding and loading it


def candidates():
    """Where the shared library may lie, in the order in which it is looked for."""
    module = Path(__file__).resolve().parent
    installed = [module / SONAME]
    if module.parent.name in ("site-packages", "dist-packages"):
        installed += [folder / SONAME for folder in list(module.parents)[1:3]]
    return installed + [module.parents[1] / "target" / SONAME]


def load():
    """The shared library."""
    chosen = os.environ.get(VARIABLE)
    paths = [Path(chosen)] if chosen else [path for path in candidates() if path.is_file()]
    if not paths:
        raise LibraryMissing(
            f"the shared library {SONAME} is not there. In the repository: 'tools/staticlib', then 'make library'. "
            f"Or name it in the environment variable {VARIABLE}"
        )
    try:
        return ctypes.CDLL(str(paths[0].absolute()))
    except OSError as why:
        raise LibraryMissing(f"the shared library cannot be loaded: {why}") from why


def declare(loaded, name, kinds):
    """The function of that name with its C types; None where the library has none."""
    types = {"u16": [ctypes.c_uint16], "u32": [ctypes.c_uint32], "u64": [ctypes.c_uint64]}
    types["numbers"] = [ctypes.POINTER(ctypes.c_uint32), ctypes.c_size_t]
    slices = [ctypes.c_char_p, ctypes.c_size_t]
    try:
        function = loaded["wisavulome_" + name]
    except AttributeError:
        return None
    function.argtypes = [kind for each in kinds for kind in types.get(each, slices)]
    function.restype = ctypes.c_uint32
    return function


def as_arguments(kinds, values):
    """The C arguments for values: octets and buffers with their lengths."""
    for kind, value in zip(kinds, values):
        if kind in ("slice", "buffer"):
            yield value if kind == "buffer" else bytes(value)
            yield len(value)
        elif kind == "numbers":
            yield value
            yield len(value)
        else:
            yield value


def buffer_of(name):
    """A lent buffer of the size that the table gives for it."""
    return ctypes.create_string_buffer(SIZES[name])


def words_of(octets):
    """The numbers of an output, four octets each."""
    return struct.unpack(f">{len(octets) // WORD}I", octets)


def word_at(octets, at):
    """The number of an output that begins at an octet."""
    return struct.unpack_from(">I", octets, at)[0]


# ---- what calls answer


@dataclass(frozen=True)
class Tap:
    """A station of a layout."""

    position: int
    address: bytes


@dataclass(frozen=True)
class Layout:
    """What a sheet says: its figures by name, its stations, and whether it fits."""

    figures: dict
    taps: tuple
    fits: bool
    used: int = 0  # octets of the sheet

    @property
    def span(self):
        """S, last position less first."""
        return self.taps[-1].position - self.taps[0].position

    @property
    def gap(self):
        """G, gap1 + gap2."""
        return self.figures["gap1"] + self.figures["gap2"]

    @property
    def late_ends_run(self):
        """Whether a run ends early after a late collision."""
        return self.figures["late-end"] == 0

    def distance(self, one, other):
        """The bit times between two stations."""
        return abs(self.taps[one].position - self.taps[other].position)


@dataclass(frozen=True)
class PlanHead:
    """What a run input says besides its offers."""

    layout: Layout
    depth: int  # D
    draws_at: int
    offers: int
    offers_at: int
    times: int


class StationState(NamedTuple):
    """A station's state after the last step, number by number as wisavulome_station writes it. A flag is 0 or 1."""

    deference: str
    own_stretch: int  # flag: it emitted itself in the busy stretch
    gap_count: int
    transmitter: str
    transmitter_number: int
    receiver: str
    receiver_number: int
    spoiled: int  # flag
    own_reception: int  # flag: it emitted itself in the reception
    frame: int  # octets
    attempts: int
    draw: int
    deferred: int  # flag
    emitted: int  # flag
    hears: int  # in the next step: SILENCE, ZERO, ONE or SPOILED
    clock: int

    @classmethod
    def of(cls, numbers):
        """The state that these numbers stand for."""
        deference, stretch, gap, transmitter, count, receiver, *rest = numbers
        return cls(DEFERENCE[deference], stretch, gap, TRANSMITTER[transmitter], count, RECEIVER[receiver], *rest)


def entry_of(time, station, event):
    """The octets of a log's entry; events are numbered from 1 on, as EVENTS has them."""
    return struct.pack(">IBB", time, station, event)


def layout_of(octets, used):
    """The layout that wisavulome_read_sheet wrote."""
    figures = {figure.name: word_at(octets, figure.out_at) for figure in FIGURES}
    places = [TAPS_AT + TAP_OCTETS * number for number in range(word_at(octets, COUNT_AT))]
    taps = tuple(Tap(word_at(octets, at), octets[at + WORD : at + TAP_OCTETS]) for at in places)
    return Layout(figures, taps, bool(word_at(octets, FITS_AT)), used)


class Library:
    """The shared library's calls, on octets. What is refused raises Refused."""

    def __init__(self):
        loaded = load()
        self.functions = {}
        for name, kinds in CALLS.items():
            function = declare(loaded, name, kinds)
            if function is None and name in CALLS:
                raise LibraryMissing(f"the shared library has no function wisavulome_{name}: it is of another version")
            self.functions[name] = function

    def has(self, name):
        """Whether the library has the call of that name."""
        return self.functions.get(name) is not None

    def call(self, name, *values):
        """The answer of a call."""
        kinds = CALLS[name]
        if not self.has(name):
            raise LibraryMissing(f"this library has no function wisavulome_{name} yet")
        answer = self.functions[name](*as_arguments(kinds, values))
        if name != "crc32" and answer >= REFUSAL:
            raise Refused(answer - REFUSAL)
        return answer

    def crc32(self, octets):
        """The CRC-32 of octets."""
        return self.call("crc32", octets)

    def read_sheet(self, sheet):
        """The layout of a sheet; more octets may follow it."""
        out = buffer_of("sheet")
        used = self.call("read_sheet", sheet, out)
        return layout_of(out.raw, used)

    def fits(self, sheet):
        """Whether the layout of a sheet fits."""
        return self.call("fits", sheet) == 1

    def margin(self, sheet):
        """How far the last tap may move outward so that the layout of a sheet still fits, or None: it does not fit."""
        margin = self.call("margin", sheet)
        return None if margin == NO_MARGIN else margin

    def farthest_last_tap(self, sheet):
        """The largest position of the last tap with which the layout fits, or None.

        It is the margin of the sheet with that tap next to the one before it: so it is also found where the tap
        must move inward.
        """
        layout = self.read_sheet(sheet)
        nearest = layout.taps[-2].position + 1
        moved = sheet[: layout.used - 7] + bytes([nearest]) + sheet[layout.used - 6 : layout.used]
        margin = self.margin(moved)
        return None if margin is None else nearest + margin

    def write_sheet(self, sheet):
        """The shortest sheet with the layout of this one."""
        out = buffer_of("write")
        size = self.call("write_sheet", sheet, out)
        return out.raw[:size]

    def read_plan(self, plan):
        """What a run input says besides its offers."""
        out = buffer_of("plan")
        self.call("read_plan", plan, out)
        head = SIZES["sheet"]
        depth, draws_at, offers, offers_at, times = words_of(out.raw[head:])[:5]
        return PlanHead(layout_of(out.raw, 0), depth, draws_at, offers, offers_at, times)

    def build(self, destination, source, value, data):
        """The frame of these, with its check sequence."""
        out = buffer_of("frame")
        numbers = [int.from_bytes(address, "big") for address in (destination, source)]
        size = self.call("build", *numbers, value, data, out)
        return out.raw[:size]

    def opened(self, frame, excess):
        """The status of a frame with its excess bits, and the client data, None unless it is receiveOK."""
        status = STATUSES[self.call("status", frame, excess)]
        if status != RECEIVE_OK:
            return status, None
        out = buffer_of("client")
        self.call("client_data", frame, excess, out)
        at, size = words_of(out.raw)
        return status, frame[at : at + size]

    def print_run(self, plan):
        """All that is printed for a run input."""
        return b"".join(text for text, _progress in self.pieces(plan, buffer_of("area")))

    def print_whole(self, plan, room):
        """All that is printed for a run input by one call, into an output of so many octets, and the area after it."""
        area = buffer_of("area")
        out = ctypes.create_string_buffer(room)
        size = self.call("print", plan, area, out)
        return out.raw[:size], area

    def pieces(self, plan, area):
        """What is printed for a run input, piece by piece: the text, and what is left (offers, bit times)."""
        progress = buffer_of("progress")
        out = buffer_of("piece")
        size = self.call("begin", plan, area, progress, out)
        _at, offers, times, ended = words_of(progress.raw)
        yield out.raw[:size], (offers, times)
        while not ended:
            size = self.call("advance", plan, area, progress, out)
            _at, offers, times, ended = words_of(progress.raw)
            yield out.raw[:size], (offers, times)

    def offer(self, area, station, destination, value, data):
        """Offers a frame to a station."""
        self.call("offer", area, station, int.from_bytes(destination, "big"), value, data)

    def windows(self, log, stations, windows):
        """How many events of each word every window holds; log is octets, a window three numbers."""
        numbers = [number for window in windows for number in window]
        given = (ctypes.c_uint32 * len(numbers))(*numbers)
        out = (ctypes.c_uint32 * (len(EVENTS) * len(windows)))()
        self.call("windows", log, stations, given, out)
        return [tuple(out[at : at + len(EVENTS)]) for at in range(0, len(out), len(EVENTS))]

    def step(self, area):
        """One bit time: the events, each a station, a word and its number."""
        out = buffer_of("step")
        self.call("step", area, out)
        words = words_of(out.raw)
        for station in range(MAX_STATIONS):
            sent, sent_number, got, got_number = words[4 * station : 4 * station + 4]
            if sent:
                yield station, TRANSMIT[sent - 1], sent_number
            if got:
                yield station, RECEIVE[got - 1], got_number

    def run(self, area, count):
        """A run of so many bit times; answers the steps made."""
        return self.run_counted(area, count)[0]

    def run_counted(self, area, count):
        """A run of so many bit times: the steps made, and by word how many events came."""
        out = buffer_of("run")
        steps = self.call("run", area, count, out)
        return steps, dict(zip(EVENTS, words_of(out.raw)))

    def clock(self, area):
        """The clock of a work area."""
        return self.station(area, 0).clock

    def counters(self, area, station):
        """A station's counters, by name."""
        out = buffer_of("counters")
        self.call("counters", area, station, out)
        return dict(zip(COUNTERS, words_of(out.raw)))

    def read_frame(self, area, station):
        """The frame that a station received and still holds, or None."""
        out = buffer_of("frame")
        try:
            size = self.call("read_frame", area, station, out)
        except Refused as refusal:
            if refusal.number == 14:
                return None
            raise
        return out.raw[:size]

    def station(self, area, station):
        """A station's state."""
        out = buffer_of("station")
        self.call("station", area, station, out)
        return StationState.of(words_of(out.raw))
