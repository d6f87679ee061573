"""Run inputs and sheets as text, and back.

A run input is what the run program reads: sheet, draws, offers, bit times. The text has one line for each thing;
'#' begins a comment, blank lines do not count (docs/RUN-INPUT.md has the table):

    slot 512                                    also gap1, gap2, jam, attempt-limit, backoff-limit, late-end
    station at 0  02:00:00:00:00:01 draws 0     position, address, draws; stations are numbered from 0 as they stand
    station at 10 02:00:00:00:00:02 draws 1
    offer at 0 station 0 to station 1 value 0x0800 data 46 zeros
    run 1500                                    bit times

The text of a sheet alone has no draws, no offers and no 'run' line. Any numbers that fit their fields are written,
also those that the model refuses.
"""

import re
from dataclasses import dataclass, field
from itertools import groupby
from typing import Optional

from . import library

# The sheet's optional fields: the one at place i follows if bit i of the map stands.
FIGURES = tuple(figure.name for figure in library.FIGURES)

# Octets of each field, high octet first, in the order of a run input. Data has as many octets as its size says.
WIDTHS = {
    "map": 1,
    **{figure.name: figure.octets for figure in library.FIGURES},
    "N": 1,
    "position": 1,
    "address": 6,
    "D": 1,
    "draw": 2,
    "offer count": 2,
    "time": 4,
    "station": 1,
    "destination": 6,
    "value": 2,
    "size": 2,
    "bit times": 4,
}

BROADCAST = b"\xff" * WIDTHS["address"]
LONG_RUN = 8  # this many equal octets in a row, or more, are read as 'N of XX'


@dataclass
class Station:
    """A station of the sheet, with its draws."""

    position: int
    address: bytes
    draws: list = field(default_factory=list)


@dataclass
class Offer:
    """An offer; what the octets do not hold is None, and the data may be fewer than its size."""

    time: Optional[int] = None
    station: Optional[int] = None
    destination: Optional[bytes] = None
    value: Optional[int] = None
    size: Optional[int] = None
    data: Optional[bytes] = None


@dataclass
class Plan:
    """A run input; what the text or the octets do not hold (yet) is None or missing."""

    figures: dict = field(default_factory=dict)
    stations: list = field(default_factory=list)
    depth: Optional[int] = None  # D
    offers: list = field(default_factory=list)
    run: Optional[int] = None  # bit times


# From text to a plan.


class Unwritable(Exception):
    """A text that cannot be written: its line and why."""


class Words:
    """The words of one line, taken from left to right."""

    def __init__(self, line, words):
        self.line = line
        self.words = words
        self.place = 0

    def fail(self, why):
        """Refuse the text because of this line."""
        raise Unwritable(f"line {self.line}: {why}")

    def peek(self, ahead=0):
        """The next word, or one further on; None past the line's end."""
        place = self.place + ahead
        return self.words[place] if place < len(self.words) else None

    def take(self, wanted):
        """The next word, which must be there."""
        word = self.peek()
        if word is None:
            self.fail(f"ends where {wanted} should stand")
        self.place += 1
        return word

    def skip(self, word):
        """Whether the next word is this one; if so it is taken."""
        found = self.peek() == word
        self.place += found
        return found

    def expect(self, word):
        """Take the next word, which must be this one."""
        found = self.take(f"'{word}'")
        if found != word:
            self.fail(f"'{found}' stands where '{word}' should")

    def fit(self, name, number):
        """The number, if the field of that name can hold it."""
        most = 256 ** WIDTHS[name] - 1
        if number > most:
            self.fail(f"{name} {number} is too wide for its field (at most {most})")
        return number

    def number(self, name):
        """The next word, as a number for the field of that name."""
        word = self.take(name)
        if not re.fullmatch(r"[0-9]{1,99}|0[xX][0-9a-fA-F]{1,99}", word):
            self.fail(f"'{word}' is no number for {name} (decimal, or hexadecimal after 0x)")
        return self.fit(name, int(word, 16 if word[:2] in ("0x", "0X") else 10))

    def address(self):
        """The next word, as an address."""
        word = self.take("an address")
        if not re.fullmatch(r"[0-9a-fA-F]{2}((:[0-9a-fA-F]{2}){5}|(-[0-9a-fA-F]{2}){5})", word):
            self.fail(f"'{word}' is no address (six octets in hexadecimal with colons or dashes between)")
        return bytes.fromhex(word.replace(":", "").replace("-", ""))

    def octets(self, word):
        """This word, as octets in hexadecimal."""
        if not re.fullmatch(r"([0-9a-fA-F]{2})+", word):
            self.fail(f"'{word}' is no data (two hexadecimal digits for each octet, 'N zeros', 'N of XX' or 'empty')")
        return bytes.fromhex(word)

    def end(self):
        """Nothing more may stand on the line."""
        if self.peek() is not None:
            self.fail(f"'{self.peek()}' stands after the line's last word")


def parse_figure(plan, words, name):
    """An optional field of the sheet: its name was taken, its number follows."""
    plan.figures[name] = words.number(name)


def parse_depth(plan, words, _name):
    """D n: needed only where no station shows it."""
    set_depth(plan, words, words.number("D"))


def parse_station(plan, words, _name):
    """station [at] position address [draws draw...]"""
    words.fit("N", len(plan.stations) + 1)
    words.skip("at")
    station = Station(words.number("position"), words.address())
    if words.peek() is not None:
        words.expect("draws")
        station.draws.append(words.number("draw"))
        while words.peek() is not None:
            station.draws.append(words.number("draw"))
    set_depth(plan, words, words.fit("D", len(station.draws)))
    plan.stations.append(station)


def set_depth(plan, words, depth):
    """D is the same for all stations."""
    if plan.depth not in (None, depth):
        words.fail(f"{depth} draws, where the lines above have {plan.depth} for each station")
    plan.depth = depth


def parse_offer(plan, words, _name):
    """offer [at] time station k to destination value v data ..."""
    words.fit("offer count", len(plan.offers) + 1)
    offer = Offer()
    words.skip("at")
    offer.time = words.number("time")
    words.expect("station")
    offer.station = words.number("station")
    words.expect("to")
    offer.destination = parse_destination(plan, words)
    words.expect("value")
    is_length = words.skip("length")
    if not is_length:
        offer.value = words.number("value")
    words.expect("data")
    offer.data = parse_data(words)
    offer.size = len(offer.data)
    if is_length:
        offer.value = offer.size
    plan.offers.append(offer)


def parse_destination(plan, words):
    """broadcast, station k (one written above), or an address."""
    if words.skip("broadcast"):
        return BROADCAST
    if not words.skip("station"):
        return words.address()
    number = words.number("station")
    if number >= len(plan.stations):
        words.fail(f"no station {number} stands above, so it has no address")
    return plan.stations[number].address


def parse_data(words):
    """empty, or pieces one after another: hexadecimal octets, 'N zeros', 'N of XX'."""
    if words.skip("empty"):
        return b""
    data = bytearray(parse_piece(words))
    while words.peek() is not None:
        data += parse_piece(words)
    words.fit("size", len(data))
    return bytes(data)


def parse_piece(words):
    """One piece of data."""
    if words.peek(1) not in ("zeros", "of"):
        return words.octets(words.take("data"))
    count = words.number("size")
    if words.skip("zeros"):
        return bytes(count)
    words.expect("of")
    octet = words.octets(words.take("an octet"))
    if len(octet) != 1:
        words.fail(f"'{octet.hex()}' is not one octet")
    return octet * count


def parse_run(plan, words, _name):
    """run n: the bit times."""
    plan.run = words.number("bit times")


LINES = {name: parse_figure for name in FIGURES}
LINES.update({"D": parse_depth, "station": parse_station, "offer": parse_offer, "run": parse_run})
OFTEN = ("station", "offer")  # every other line stands once


def parse(text, whole=True):
    """The plan that a text writes down; where it need not be whole, the 'run' line may be missing."""
    plan = Plan()
    seen = set()
    lines = text.rstrip("\n").split("\n")
    for line, content in enumerate(lines, 1):
        words = Words(line, content.partition("#")[0].split())
        if words.peek() is None:
            continue
        name = words.take("a word")
        if name not in LINES:
            words.fail(f"'{name}' is no word that begins a line ({', '.join(LINES)})")
        if name in seen and name not in OFTEN:
            words.fail(f"'{name}' stands for the second time")
        seen.add(name)
        LINES[name](plan, words, name)
        words.end()
    if whole and plan.run is None:
        Words(len(lines), []).fail("ends without a 'run' line")
    return plan


# From a plan to octets.


def put(name, number):
    """A number in the field of that name."""
    return number.to_bytes(WIDTHS[name], "big")


def encode(plan):
    """The octets of a whole plan."""
    parts = encode_sheet(plan)
    parts.append(put("D", plan.depth or 0))
    parts += [put("draw", draw) for station in plan.stations for draw in station.draws]
    parts.append(put("offer count", len(plan.offers)))
    for offer in plan.offers:
        parts += encode_offer(offer)
    parts.append(put("bit times", plan.run))
    return b"".join(parts)


def encode_given(plan):
    """The octets of what is there: a sheet alone, or a whole plan."""
    return b"".join(encode_sheet(plan)) if is_sheet(plan) else encode(plan)


def is_sheet(plan):
    """Whether a plan is a sheet alone."""
    return plan.run is None and not plan.offers and not plan.depth


def encode_sheet(plan):
    """Map, optional fields, N, stations."""
    parts = [put("map", sum(1 << bit for bit, name in enumerate(FIGURES) if name in plan.figures))]
    parts += [put(name, plan.figures[name]) for name in FIGURES if name in plan.figures]
    parts.append(put("N", len(plan.stations)))
    for station in plan.stations:
        parts += [put("position", station.position), station.address]
    return parts


def encode_offer(offer):
    """Time, station, destination, value, size, data."""
    return [
        put("time", offer.time),
        put("station", offer.station),
        offer.destination,
        put("value", offer.value),
        put("size", offer.size),
        offer.data,
    ]


# From octets to a plan.


class Short(Exception):
    """The octets end too soon: where."""


class Octets:
    """Octets, taken from the first on; 'part' is what is being read."""

    def __init__(self, octets):
        self.octets = octets
        self.place = 0
        self.enter("the map")

    def enter(self, part):
        """A new part begins here."""
        self.part = part
        self.start = self.place

    def left(self):
        """How many octets follow."""
        return len(self.octets) - self.place

    def ahead(self, count):
        """The next octets without taking them; fewer where they end."""
        return self.octets[self.place : self.place + count]

    def take(self, count):
        """The next octets, as many as asked or else Short."""
        if count > self.left():
            word = "in" if len(self.octets) > self.start else "before"
            raise Short(f"ends {word} {self.part}, at octet {len(self.octets)}")
        taken = self.ahead(count)
        self.place += count
        return taken

    def field(self, name):
        """The field of that name, as octets."""
        return self.take(WIDTHS[name])

    def number(self, name):
        """The field of that name, as a number."""
        return int.from_bytes(self.field(name), "big")


def decode(octets):
    """What can be read of the octets, and why they are no whole run input: a list of reasons, empty if they are one."""
    plan = Plan()
    reasons = []
    source = Octets(octets)
    try:
        decode_sheet(plan, source)
        decode_draws(plan, source)
        decode_offers(plan, source)
        source.enter("the bit times")
        plan.run = source.number("bit times")
        if source.left():
            reasons.append(f"octets left over: {source.left()}, at octet {source.place}")
    except Short as short:
        reasons.append(str(short))
    for bit in range(len(FIGURES), 8):
        if octets and octets[0] >> bit & 1:
            reasons.append(f"map bit {bit} stands, at octet 0: it means nothing and has no word")
    return plan, reasons


def decode_sheet(plan, source):
    """Map, optional fields, N, stations; unknown map bits add nothing."""
    bits = source.number("map")
    for bit, name in enumerate(FIGURES):
        if bits >> bit & 1:
            source.enter(name)
            plan.figures[name] = source.number(name)
    source.enter("N")
    count = source.number("N")
    for number in range(count):
        source.enter(f"station {number} (N is {count})")
        plan.stations.append(Station(source.number("position"), source.field("address")))


def decode_draws(plan, source):
    """D, and the draws station by station."""
    source.enter("D")
    plan.depth = source.number("D")
    for number, station in enumerate(plan.stations):
        source.enter(f"the draws of station {number} (D is {plan.depth})")
        for _ in range(plan.depth):
            station.draws.append(source.number("draw"))


def decode_offers(plan, source):
    """Offer count, offers; they are counted from 1. Of the last one a part may be there."""
    source.enter("the offer count")
    count = source.number("offer count")
    for number in range(1, count + 1):
        source.enter(f"offer {number} of {count}")
        offer = Offer(source.number("time"))
        plan.offers.append(offer)
        offer.station = source.number("station")
        offer.destination = source.field("destination")
        offer.value = source.number("value")
        offer.size = source.number("size")
        offer.data = source.ahead(offer.size)
        source.take(offer.size)


# From a plan to text.


def render(plan, reasons):
    """The text of a plan, with the reasons why it is not whole."""
    lines = [f"{name} {plan.figures[name]}" for name in FIGURES if name in plan.figures]
    lines += [render_station(number, station) for number, station in enumerate(plan.stations)]
    if plan.depth and not plan.stations:
        lines.append(f"D {plan.depth}")
    lines += [render_offer(plan, offer) for offer in plan.offers]
    if plan.run is not None:
        lines.append(f"run {plan.run}")
    lines += [f"# {reason}" for reason in reasons]
    return "".join(line + "\n" for line in lines)


def render_station(number, station):
    """A station's line; a comment tells its number."""
    words = [f"station at {station.position:<3}", render_address(station.address)]
    if station.draws:
        words += ["draws", *map(str, station.draws)]
    return " ".join(words) + f"  # station {number}"


def render_address(address):
    """An address with colons."""
    return address.hex(":")


def render_offer(plan, offer):
    """An offer's line; one that is not whole is a comment."""
    words = [f"offer at {offer.time}"]
    if offer.station is not None:
        words.append(f"station {offer.station}")
    if offer.destination is not None:
        words.append(f"to {render_destination(plan, offer.destination)}")
    if offer.value is not None:
        words.append(f"value {render_value(offer.value, offer.size)}")
    if offer.data is None:
        return "# " + " ".join(words)
    words.append(f"data {render_data(offer.data)}")
    if len(offer.data) < offer.size:
        return "# " + " ".join(words) + f" (size {offer.size})"
    return " ".join(words)


def render_destination(plan, destination):
    """broadcast, the first station of that address, or the address."""
    if destination == BROADCAST:
        return "broadcast"
    for number, station in enumerate(plan.stations):
        if station.address == destination:
            return f"station {number}"
    return render_address(destination)


def render_value(value, size):
    """length, a type in hexadecimal, or what else it may be in decimal."""
    if value == size and value <= library.MAX_LENGTH:
        return "length"
    return f"0x{value:04x}" if value >= library.MIN_TYPE else str(value)


def render_data(data):
    """Data in pieces: long runs of one octet by their number, all else in hexadecimal."""
    pieces = []
    plain = ""
    for octet, run in groupby(data):
        count = len(list(run))
        if count < LONG_RUN:
            plain += f"{octet:02x}" * count
            continue
        pieces += [plain, f"{count} of {octet:02x}" if octet else f"{count} zeros"]
        plain = ""
    pieces.append(plain)
    return " ".join(filter(None, pieces)) or "empty"


# Both ways at once.


def write(text):
    """The octets of a text; Unwritable if there are none."""
    return encode(parse(text))


def read(octets):
    """The text of octets, and whether they are a whole run input."""
    plan, reasons = decode(octets)
    return render(plan, reasons), not reasons
