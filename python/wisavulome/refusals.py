"""Where a refused sheet or plan goes wrong: which field, which offer, which octet.

The library refuses and says by which number; here only the place is looked for.
"""

from . import library, text
from .failure import Failure


class InputRefused(Failure):
    """A sheet or plan is refused: the message names the input, the number, and the place."""

    def __init__(self, name, octets, number):
        known = library.REFUSALS.get(number, "a refusal that this version does not know")
        where = place(octets, number)
        super().__init__(f"{name}: refused {number}: {known}" + (f" ({where})" if where else ""))
        self.number = number


class Walk:
    """The fields of a run input or sheet, each with its octet and its number."""

    def __init__(self, octets):
        self.fields = {}
        self.stations = self.offers = 0
        self.source = text.Octets(octets)
        self.end = None
        try:
            self.sheet()
            self.rest()
        except text.Short as short:
            self.end = str(short)

    def take(self, name, width):
        """The next field, kept under its name."""
        at = self.source.place
        octets = self.source.field(width)
        self.fields[name] = at, int.from_bytes(octets, "big")
        return self.fields[name][1]

    def sheet(self):
        """Map, figures, N, stations."""
        bits = self.take("map", "map")
        for bit, name in enumerate(text.FIGURES):
            if bits >> bit & 1:
                self.source.enter(name)
                self.take(name, name)
        self.source.enter("N")
        count = self.take("N", "N")
        for number in range(count):
            self.source.enter(f"station {number} (N is {count})")
            self.take(f"position {number}", "position")
            self.take(f"address {number}", "address")
            self.stations = number + 1

    def rest(self):
        """D, draws, offers, bit times."""
        self.source.enter("D")
        depth = self.take("D", "D")
        for number in range(self.stations):
            self.source.enter(f"the draws of station {number} (D is {depth})")
            self.source.take(depth * text.WIDTHS["draw"])
        self.source.enter("the offer count")
        count = self.take("offer count", "offer count")
        for number in range(1, count + 1):
            self.source.enter(f"offer {number} of {count}")
            self.take(f"time {number}", "time")
            self.offers = number
            self.source.take(sum(text.WIDTHS[name] for name in ("station", "destination", "value")))
            self.source.take(self.take(f"size {number}", "size"))
        self.source.enter("the bit times")
        self.take("bit times", "bit times")

    def at(self, name):
        """The octet of a field."""
        return self.fields[name][0]

    def value(self, name):
        """The number of a field, or None."""
        return self.fields.get(name, (None, None))[1]


def place(octets, number):
    """Where an input that is refused by this number goes wrong, in words; empty where that is not known."""
    walk = Walk(octets)
    finder = FINDERS.get(number)
    return (finder(walk) if finder else None) or ""


def short(walk):
    """The octets end too soon."""
    return walk.end


def unknown_bits(walk):
    """A map bit that stands for nothing."""
    bits = [bit for bit in range(len(text.FIGURES), 8) if walk.value("map") >> bit & 1]
    return f"map bit {bits[0]} stands, at octet 0" if bits else None


def figure_range(walk):
    """A figure out of its range."""
    values = {}
    for figure in library.FIGURES:
        given = walk.value(figure.name)
        values[figure.name] = figure.absent if given is None else given
        if not figure.least <= values[figure.name] <= figure.most:
            return f"{figure.name} is {given}, outside {figure.least}..{figure.most}, at octet {walk.at(figure.name)}"
    if values["gap1"] > 2 * values["gap2"]:
        field = "gap1" if walk.value("gap1") is not None else "gap2"
        return f"gap1 {values['gap1']} is over 2 x gap2 = {2 * values['gap2']}, at octet {walk.at(field)}"
    return None


def station_count(walk):
    """N out of its range."""
    return f"N is {walk.value('N')}, at octet {walk.at('N')}"


def falling_position(walk):
    """A position that is not above the one before it."""
    for number in range(1, walk.stations):
        before, here = walk.value(f"position {number - 1}"), walk.value(f"position {number}")
        if here <= before:
            return f"station {number} is at {here}, not above {before}, at octet {walk.at(f'position {number}')}"
    return None


def bad_address(walk):
    """An address that is a group's, or that a station before it has."""
    seen = {}
    for number in range(walk.stations):
        at, address = walk.fields[f"address {number}"]
        if address >> 40 & 1:
            return f"the address of station {number} is a group's, at octet {at}"
        if address in seen:
            return f"station {number} has the address of station {seen[address]}, at octet {at}"
        seen[address] = number
    return None


def bad_draws(walk):
    """D out of its range, or draws that are missing."""
    depth = walk.value("D")
    if depth is not None and not 1 <= depth <= library.MAX_DRAWS:
        return f"D is {depth}, at octet {walk.at('D')}"
    return walk.end


def bad_times(walk):
    """Too many bit times."""
    return f"the bit times are {walk.value('bit times')}, at octet {walk.at('bit times')}"


def bad_plan(walk):
    """A plan that is too long, has too many offers, falling times, missing octets or octets left over."""
    size = len(walk.source.octets)
    if size > library.MAX_PLAN:
        return f"it has {size} octets"
    count = walk.value("offer count")
    if count is not None and count > library.MAX_OFFERS:
        return f"the offer count is {count}, at octet {walk.at('offer count')}"
    for number in range(2, walk.offers + 1):
        before, here = walk.value(f"time {number - 1}"), walk.value(f"time {number}")
        if here < before:
            return f"offer {number} is at time {here}, below {before}, at octet {walk.at(f'time {number}')}"
    if walk.end is None and walk.source.left():
        return f"octets left over: {walk.source.left()}, at octet {walk.source.place}"
    return walk.end


FINDERS = {
    3: short,
    4: unknown_bits,
    5: figure_range,
    6: station_count,
    7: falling_position,
    8: bad_address,
    9: bad_draws,
    13: bad_times,
    16: bad_plan,
}
