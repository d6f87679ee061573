"""What a station hears, derived from who emitted what; and what it collects of it.

The rules are those of docs/INDEX.md, "One bit time": bits after the first 10101011 are collected; a jam bit, or any symbol
heard from two or more, is stored as 0 and never matches the delimiter. The tests hold this against the delay lines
and buffers of the library.
"""

from .course import packet_of
from .library import JAM, ONE, SEVERAL, SILENCE, ZERO
from .packet import PREAMBLE, octets_of_bits

DELIMITER = list(PREAMBLE[-8:])


class Hearing:
    """What reaches one station, step by step."""

    def __init__(self, course, station):
        self.spans = []
        packets = {}
        for attempt in course.attempts:
            if attempt.station == station:
                continue
            away = course.layout.distance(attempt.station, station)
            bits = packets.setdefault(attempt.offer, packet_of(course.fates[attempt.offer - 1]))
            self.spans.append((attempt.start + away, attempt.jam_start + away, attempt.end + away, bits))

    def symbol(self, time):
        """The symbol that is heard in a step."""
        heard = SILENCE
        for start, jam, end, bits in self.spans:
            if start <= time < end:
                if heard != SILENCE:
                    return SEVERAL
                heard = JAM if time >= jam else (ZERO, ONE)[bits[time - start]]
        return heard

    def begin(self, time):
        """The first step of the unbroken stretch that ends before a step."""
        while self.symbol(time - 1) != SILENCE:
            time -= 1
        return time


def collected(course, event):
    """The whole octets that a station collected in the reception that an event ends."""
    hearing = Hearing(course, event.station)
    return collect(map(hearing.symbol, range(hearing.begin(event.time), event.time)))


def collect(symbols):
    """The whole octets that are collected of the symbols of a reception."""
    bits = None
    row = []
    for symbol in symbols:
        if bits is not None:
            bits.append(int(symbol == ONE))
            continue
        row = (row + [symbol - ZERO])[-8:] if symbol in (ZERO, ONE) else []
        if row == DELIMITER:
            bits = []
    return octets_of_bits(bits or [])
