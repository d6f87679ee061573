"""Lists of library calls as text, one answer a line: `tools/replay`, and the stored cases (stored/levelNN/*.calls).

A line is a call, its words parted by spaces; empty lines and lines that begin with `#` have no answer. Every call is
answered by `ok` and what follows here, `refused n`, or `malformed` where it is no call. A session has a work area and
a second one, and a store of marks, all zero at first and just as long as refusals 1 and 15 ask for.

    area LEN                                a new area, all zero
    sheet OCTETS                            octets used, `yes` or `no` (fits), LAYOUT
    write ROOM LAYOUT                       the shortest sheet's octets
    build DEST SOURCE VALUE OCTETS ROOM     the frame's octets
    open OCTETS EXCESS                      `fragment`, `too-long`, `check`, `alignment`, `length`, or `ok` and the data
    fresh SHEET D DRAWS                     reads the sheet, then makes a fresh start
    offer STATION DEST VALUE OCTETS
    step                                    the events as the run program prints them, parted by ` | `
    run N, skip N                           steps made, TALLY
    read STATION ROOM                       length and octets of the frame
    counters STATION                        the counters, parted by commas
    clock                                   the clock
    windows N ENTRIES WINDOWS               for each window its counts, parted by commas, in TALLY's order
    store LEN                               a new store, all zero
    mark NAME, return NAME, drop NAME
    poke PLACE OCTET NAME                   another hand writes octet and name of place 0..3 of the store
    second CALL                             the same on the second area: area, fresh, offer, step, run, skip, read,
                                            counters, clock

Numbers are decimal. Octets are two hexadecimal digits each, `-` for none, or COUNT*HH; DEST and SOURCE are six, NAME
eight. DRAWS are numbers parted by commas, or `-`. LAYOUT: slot, gap1, gap2, jam, attempt limit, backoff limit,
late-end, E, then POSITION/ADDRESS/OWNER of each station, parted by commas; what the library does not have is 0. TALLY:
WORD=COUNT of each event word. ENTRIES are time:station:word, WINDOWS station:first:past, parted by commas, or `-`. A
new call is a function here and a line of the table at the end.
"""

import ctypes
import re
import struct
from dataclasses import dataclass
from typing import Callable

from . import library
from .library import COUNT_AT, COUNTERS, EVENTS, MAX_MARKS, MAX_STATIONS, NAME_OCTETS, RECEIVE, SIZES, STATUSES
from .library import TAP_OCTETS, TAPS_AT, Refused, buffer_of, entry_of

MOST = 2**32 - 1
ADDRESS_OCTETS = 6
NEWEST = 99  # a level past the last
# The level of requests from which a word or a counter is answered; what is not here stands from level 0 on.
SINCE = {"late-end": 1, "late-ended": 1}
# The figures of a layout in the order in which it is written; one that the library has not is 0.
FIGURES = ("slot", "gap1", "gap2", "jam", "attempt-limit", "backoff-limit", "late-end", "extension")
STATUS_WORDS = dict(zip(STATUSES, ("fragment", "too-long", "check", "alignment", "length", "ok")))


class Malformed(Exception):
    """A line that is no call."""


# ---- words of a call


def number(word):
    """A number; one that is too large for any call is the largest, which is refused as it would be."""
    if not re.fullmatch(r"[0-9]+", word):
        raise Malformed(word)
    return min(int(word), MOST)


def size(word):
    """The octets of a new area or of a lent output."""
    asked = number(word)
    if asked > 1 << 24:
        raise Malformed(word)
    return asked


def double(word):
    """A number of two octets."""
    value = number(word)
    if value >= 1 << 16:
        raise Malformed(word)
    return value


def octets(word):
    """Octets: HH.., COUNT*HH or `-`."""
    found = re.fullmatch(r"-|((?:[0-9a-f]{2})+)|([0-9]{1,6})\*([0-9a-f]{2})", word)
    if not found:
        raise Malformed(word)
    if found[3]:
        return bytes.fromhex(found[3]) * int(found[2])
    return bytes.fromhex(found[1] or "")


def address(word):
    """An address, as the number that a call takes."""
    given = octets(word)
    if len(given) != ADDRESS_OCTETS:
        raise Malformed(word)
    return int.from_bytes(given, "big")


def mark_name(word):
    """The name of a mark, as the number that a call takes."""
    given = octets(word)
    if len(given) != NAME_OCTETS:
        raise Malformed(word)
    return int.from_bytes(given, "big")


def below(limit):
    """A number below a limit."""

    def checked(word):
        value = number(word)
        if value >= limit:
            raise Malformed(word)
        return value

    return checked


def draws(word):
    """Draws parted by commas, or `-`; two octets each."""
    values = [] if word == "-" else [double(each) for each in word.split(",")]
    return struct.pack(f">{len(values)}H", *values)


def triples(word):
    """Words of three parts each, parted by commas, or `-`."""
    found = [] if word == "-" else [each.split(":") for each in word.split(",")]
    if any(len(each) != 3 for each in found):
        raise Malformed(word)
    return found


def entries(word):
    """The entries of a log, as octets. No layout has 255 stations: a station past an octet is the largest of one."""
    numbers = {event_word(name): at for at, name in enumerate(EVENTS, 1)}
    found = triples(word)
    if not all(each[2] in numbers for each in found):
        raise Malformed(word)
    return b"".join(entry_of(number(time), min(number(at), 255), numbers[name]) for time, at, name in found)


def spans(word):
    """Windows: station, first time, time past the last."""
    return [tuple(map(number, each)) for each in triples(word)]


# ---- parts of an answer


def shown_octets(given):
    """Octets as they are answered."""
    return given.hex() or "-"


def shown_layout(layout):
    """A layout: its figures, then its stations."""
    taps = [f"{tap.position}/{tap.address.hex()}/{getattr(tap, 'owner', 0)}" for tap in layout.taps]
    return " ".join([*(str(layout.figures.get(name, 0)) for name in FIGURES), ",".join(taps) or "-"])


def is_in(level, name):
    """Whether a word or a counter is answered at a level."""
    return SINCE.get(name, 0) <= level


def shown_tally(level, tally):
    """How many events of each word came."""
    return " ".join(f"{event_word(name)}={tally[name]}" for name in EVENTS if is_in(level, name))


def event_word(name):
    """An event's word without `got`."""
    return name.removeprefix("got ") if name in RECEIVE else name


def shown_counters(level, counters):
    """The counters, parted by commas."""
    return ",".join(str(counters[name]) for name in COUNTERS if is_in(level, name))


# ---- the calls: each is handed the session, which area it is for, and its words; it answers what follows `ok`


class Session:
    """What a list of calls has: the library, the level of requests, and its areas."""

    def __init__(self, library, level=NEWEST):
        self.library = library
        self.level = level
        self.areas = [buffer_of("area"), buffer_of("area")]
        self.store = buffer_of("store")


def lend(asked):
    """A buffer of so many octets, all zero."""
    return ctypes.create_string_buffer(asked)


def new_area(session, at, length):
    """A new area."""
    session.areas[at] = lend(length)


def sheet(session, _at, given):
    """Reads a sheet."""
    layout = session.library.read_sheet(given)
    return f"{layout.used} {'yes' if layout.fits else 'no'} {shown_layout(layout)}"


def write(session, _at, room, *layout):
    """Writes the sheet of a layout: as the reader gives it first, for refusals 5 to 8, then spelled out."""
    *figures, _extension, stations = layout
    taps = [] if stations == "-" else [tap(each) for each in stations.split(",")]
    session.library.call("check_layout", layout_octets(figures, taps))
    out = lend(room)
    used = session.library.call("write_sheet", spelled_sheet(figures, taps), out)
    return out.raw[:used].hex()


def tap(word):
    """A station of a layout: position and address."""
    position, where, _owner = word.split("/")
    return number(position), octets(where)


def layout_octets(figures, taps):
    """A layout as wisavulome_read_sheet writes it."""
    raw = bytearray(SIZES["sheet"])
    for figure, value in zip(library.FIGURES, figures):
        struct.pack_into(">I", raw, figure.out_at, value)
    struct.pack_into(">I", raw, COUNT_AT, len(taps))
    for i, (position, where) in enumerate(taps[:MAX_STATIONS]):
        struct.pack_into(">I6s", raw, TAPS_AT + TAP_OCTETS * i, position, where)
    return bytes(raw)


def spelled_sheet(figures, taps):
    """The sheet of a layout with every figure spelled out."""
    spelled = [value.to_bytes(figure.octets, "big") for figure, value in zip(library.FIGURES, figures)]
    stations = [bytes([position]) + where for position, where in taps]
    return bytes([2 ** len(figures) - 1]) + b"".join(spelled) + bytes([len(taps)]) + b"".join(stations)


def build(session, _at, destination, source, value, data, room):
    """Builds a frame."""
    out = lend(room)
    used = session.library.call("build", destination, source, value, data, out)
    return out.raw[:used].hex()


def opened(session, _at, frame, excess):
    """Opens a frame."""
    status, data = session.library.opened(frame, excess)
    word = STATUS_WORDS[status]
    return word if data is None else f"{word} {shown_octets(data)}"


def fresh(session, at, given, depth, drawn):
    """Reads a sheet and makes a fresh start."""
    session.library.read_sheet(given)
    session.library.call("start", session.areas[at], given, depth, drawn)


def offer(session, at, station, destination, value, data):
    """Offers a frame."""
    session.library.call("offer", session.areas[at], station, destination, value, data)


def step(session, at):
    """One bit time."""
    events = session.library.step(session.areas[at])
    return " | ".join(f"{station} {word} {value}" for station, word, value in events)


def run(session, at, count):
    """A run."""
    steps, tally = session.library.run_counted(session.areas[at], count)
    return f"{steps} {shown_tally(session.level, tally)}"


def read(session, at, station, room):
    """Reads a received frame."""
    out = lend(room)
    used = session.library.call("read_frame", session.areas[at], station, out)
    return f"{used} {out.raw[:used].hex()}"


def counters(session, at, station):
    """A station's counters."""
    return shown_counters(session.level, session.library.counters(session.areas[at], station))


def clock(session, at):
    """The clock of an area."""
    return str(session.library.clock(session.areas[at]))


def windows(session, _at, stations, log, given):
    """Many windows over one log."""
    if stations > 255:
        raise Malformed(stations)
    return " ".join(",".join(map(str, counts)) for counts in session.library.windows(log, stations, given))


def new_store(session, _at, length):
    """A new store."""
    session.store = lend(length)


def mark(session, at, name):
    """Marks the area."""
    session.library.call("mark", session.areas[at], session.store, name)


def go_back(session, at, name):
    """Puts a marked area back."""
    session.library.call("return", session.areas[at], session.store, name)


def drop(session, _at, name):
    """Drops a mark."""
    session.library.call("drop", session.store, name)


def poke(session, _at, place, octet, name):
    """Another hand writes octet and name of a place; nothing past the end of a store that is too short."""
    at = place * (SIZES["store"] // MAX_MARKS)
    written = (bytes([octet]) + name.to_bytes(NAME_OCTETS, "big"))[: max(0, len(session.store) - at)]
    ctypes.memmove(ctypes.byref(session.store, at), written, len(written))


# ---- the table


@dataclass(frozen=True)
class Call:
    """A call: its function, what its words are, and whether it may be made on the second area."""

    function: Callable
    words: tuple = ()
    on_area: bool = False


CALLS = {
    "area": Call(new_area, (size,), True),
    "sheet": Call(sheet, (octets,)),
    "write": Call(write, (size, number, number, number, number, number, number, number, number, str)),
    "build": Call(build, (address, address, double, octets, size)),
    "open": Call(opened, (octets, number)),
    "fresh": Call(fresh, (octets, number, draws), True),
    "offer": Call(offer, (number, address, double, octets), True),
    "step": Call(step, (), True),
    "run": Call(run, (number,), True),
    "skip": Call(run, (number,), True),
    "read": Call(read, (number, size), True),
    "counters": Call(counters, (number,), True),
    "clock": Call(clock, (), True),
    "windows": Call(windows, (number, entries, spans)),
    "store": Call(new_store, (size,)),
    "mark": Call(mark, (mark_name,)),
    "return": Call(go_back, (mark_name,)),
    "drop": Call(drop, (mark_name,)),
    "poke": Call(poke, (below(MAX_MARKS), below(256), mark_name)),
}


def parsed(line):
    """The call of a line: what it is, the area that it is for, and what it is handed."""
    words = line.split()
    at = 1 if words[0] == "second" else 0
    name, given = (words[at : at + 1] or [""])[0], words[at + 1 :]
    call = CALLS.get(name)
    if call is None or len(given) != len(call.words) or (at and not call.on_area):
        raise Malformed(line)
    return call, at, [kind(word) for kind, word in zip(call.words, given)]


def answer(session, line):
    """The answer of one call."""
    try:
        call, at, given = parsed(line)
        return f"ok {call.function(session, at, *given) or ''}".rstrip()
    except Malformed:
        return "malformed"
    except Refused as refusal:
        return f"refused {refusal.number}"


def replay(library, text, level=NEWEST):
    """The answers of a list of calls, line by line."""
    session = Session(library, level)
    for line in text.splitlines():
        if line.strip() and not line.startswith("#"):
            yield answer(session, line)
