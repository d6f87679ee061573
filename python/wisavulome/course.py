"""A run of a plan, followed by the library's own pieces: every event with the offer that it concerns.

A transmit event concerns the frame of its station's last accepted offer (docs/DELIVERY.md). A `got ok`
concerns the frame that was reported sent in the step that many bit times before. A `got` with an error concerns
every offer that was heard in its reception.
"""

import re
from dataclasses import dataclass, field
from typing import Optional

from . import text
from .library import COLLISIONS, ENDINGS, EVENTS, HEADER_BITS, LATE, Refused, buffer_of
from .packet import packet_bits

GOT_OK = "got ok"
LINE = re.compile(rf"([0-9]+) ([0-9]+) ({'|'.join(EVENTS)}|refused) ([0-9]+)")


@dataclass
class Event:
    """A line of the run: an event, or an offer's refusal. The offers are counted from 1."""

    time: int
    station: int
    word: str
    number: int
    offers: tuple = ()

    def line(self):
        """The line as it is printed."""
        return f"{self.time} {self.station} {self.word} {self.number}"


@dataclass
class Attempt:
    """A start of a frame: packet bits from `start` on, then jam bits. `cut` is the first step that was not made."""

    offer: int
    station: int
    start: int
    packet: int
    jam: int
    cut: int
    collision: Optional[Event] = None

    @property
    def jam_start(self):
        """The step of the first jam bit."""
        return min(self.start + self.packet, self.cut)

    @property
    def end(self):
        """The step after the last bit that went out."""
        return min(self.start + self.packet + self.jam, self.cut)


@dataclass
class Delivery:
    """What came of a sent frame at one addressee: 'got', 'lost' or 'on its way', and the step of it."""

    station: int
    state: str
    time: int


@dataclass
class Fate:
    """What came of an offer."""

    number: int
    offer: text.Offer
    made: bool = False
    refusal: Optional[int] = None
    frame: bytes = b""
    attempts: list = field(default_factory=list)
    ending: Optional[Event] = None
    deliveries: list = field(default_factory=list)

    @property
    def late(self):
        """Whether an attempt had a late collision."""
        return any(attempt.collision and attempt.collision.word == LATE for attempt in self.attempts)

    @property
    def outcome(self):
        """One word or two for what came of it."""
        if not self.made:
            return "not made"
        if self.refusal is not None:
            return f"refused {self.refusal}"
        if self.ending:
            return self.ending.word
        return LATE if self.late else "held"

    @property
    def delay(self):
        """The bit times from the offer's step to the step that ended it."""
        return self.ending.time - self.offer.time if self.ending else None

    def count(self, state):
        """How many addressees are in a state."""
        return sum(delivery.state == state for delivery in self.deliveries)


@dataclass
class Course:
    """A run that was made."""

    layout: object
    plan: text.Plan
    asked: int  # bit times
    clock: int
    events: list
    fates: list
    area: object

    @property
    def attempts(self):
        """All attempts, in the order in which they start."""
        every = [attempt for fate in self.fates for attempt in fate.attempts]
        return sorted(every, key=lambda attempt: (attempt.start, attempt.station))

    @property
    def ended_early(self):
        """Whether a late collision ended the run."""
        return self.clock < self.asked


def parse_line(line):
    """The event or refusal that a line prints, or None."""
    found = LINE.fullmatch(line)
    if not found:
        return None
    return Event(int(found[1]), int(found[2]), found[3], int(found[4]))


def follow(library, octets):
    """Runs a plan that the library takes."""
    head = library.read_plan(octets)
    plan = text.decode(octets)[0]
    area = buffer_of("area")
    fates = [Fate(number, offer) for number, offer in enumerate(plan.offers, 1)]
    course = Course(head.layout, plan, head.times, 0, [], fates, area)
    holder = [None] * len(head.layout.taps)  # each station's last accepted offer
    left = head.offers
    for piece, (offers, _times) in library.pieces(octets, area):
        if offers < left:
            left = offers
            make_offer(library, course, holder, course.fates[head.offers - offers - 1], piece)
            continue
        for line in piece.decode().splitlines():
            take_line(course, holder, line)
    finish(library, course, holder)
    return course


def make_offer(library, course, holder, fate, piece):
    """An offer was made: it is accepted where the piece is empty."""
    fate.made = True
    if piece:
        event = parse_line(piece.decode().rstrip("\n"))
        event.offers = (fate.number,)
        fate.refusal = event.number
        course.events.append(event)
        return
    offer = fate.offer
    fate.frame = library.build(offer.destination, course.layout.taps[offer.station].address, offer.value, offer.data)
    holder[offer.station] = fate


def take_line(course, holder, line):
    """A line of a step, or the last line."""
    if line.startswith("end "):
        course.clock = int(line[4:])
    event = parse_line(line)
    if event is None:
        return
    course.events.append(event)
    if event.word in COLLISIONS or event.word in ENDINGS:
        fate = holder[event.station]
        event.offers = (fate.number,)
        note_transmit(course, fate, event)


def note_transmit(course, fate, event):
    """The attempt that a transmit event tells of, and the end of a frame."""
    whole = HEADER_BITS + 8 * len(fate.frame)
    if event.word in COLLISIONS:
        packet = max(event.number, HEADER_BITS)
        start = event.time - event.number + 1
        attempt = Attempt(fate.number, event.station, start, packet, course.layout.figures["jam"], course.asked, event)
        fate.attempts.append(attempt)
    elif event.word == "sent":
        fate.attempts.append(Attempt(fate.number, event.station, event.time - whole + 1, whole, 0, course.asked))
    if event.word in ENDINGS:
        fate.ending = event


def finish(library, course, holder):
    """What only the end of the run tells: attempts still going on, what was cut, who got what."""
    for station, fate in enumerate(holder):
        if fate is None or fate.ending:
            continue
        state = library.station(course.area, station)
        if state.transmitter == "sending":
            start = course.clock - state.transmitter_number + 1  # its number is that of the next bit
            whole = HEADER_BITS + 8 * len(fate.frame)
            fate.attempts.append(Attempt(fate.number, station, start, whole, 0, course.clock))
    for attempt in course.attempts:
        attempt.cut = course.clock
    got = {(event.time, event.station): event for event in course.events if event.word == GOT_OK}
    for fate in course.fates:
        deliver(course, fate, got)
    for event in course.events:
        if not event.offers:
            event.offers = heard_in(course, event)


def addressees(course, fate):
    """The stations that a frame is addressed to."""
    offer = fate.offer
    wanted = [
        number for number, tap in enumerate(course.layout.taps) if offer.destination in (tap.address, text.BROADCAST)
    ]
    return [number for number in wanted if number != offer.station]


def deliver(course, fate, got):
    """What came of a sent frame at each addressee."""
    if not fate.ending or fate.ending.word != "sent":
        return
    for station in addressees(course, fate):
        time = fate.ending.time + 1 + course.layout.distance(fate.offer.station, station)
        event = got.get((time, station))
        if event:
            event.offers = (fate.number,)
        state = "got" if event else "lost" if time < course.clock else "on its way"
        fate.deliveries.append(Delivery(station, state, time))


def heard_in(course, event):
    """The offers whose bits were heard in the reception that an event ends."""
    spans = []
    for attempt in course.attempts:
        if attempt.station != event.station:
            away = course.layout.distance(attempt.station, event.station)
            spans.append((attempt.start + away, attempt.end + away, attempt.offer))
    begin = event.time
    offers = set()
    while True:
        joined = [span for span in spans if span[0] < begin <= span[1] and span[1] <= event.time]
        if not joined:
            return tuple(sorted(offers))
        offers.update(span[2] for span in spans if span[1] >= begin and span[0] < event.time and span[1] <= event.time)
        begin = min(span[0] for span in joined)


def packet_of(fate):
    """The bits of the packet of an offer's frame."""
    return packet_bits(fate.frame)


def advance_to(library, octets, clock):
    """The area of a plan's run after so many bit times; an early end stops it. Offers at that time are not made yet."""
    area = buffer_of("area")
    shorter = octets[: -text.WIDTHS["bit times"]] + text.put("bit times", clock)
    for _piece in library.pieces(shorter, area):
        pass
    return area


def offers_at(plan, clock):
    """The offers of a plan that are made just before the step of a clock."""
    return [offer for offer in plan.offers if offer.time == clock]


def make_due(library, area, plan, clock):
    """Makes the offers that are due; refused ones change nothing."""
    for offer in offers_at(plan, clock):
        try:
            library.offer(area, offer.station, offer.destination, offer.value, offer.data)
        except Refused:
            pass
