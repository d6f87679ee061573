"""The drawing of a run: position across, bit times down.

An attempt is a band that slants away from its station: at a place x bit times off, its bits pass x bit times later.
Packet bits are light, jam bits dark. Nothing is drawn past the last step that was made.
"""

from . import text
from .library import COLLISIONS, LATE
from .svg import Box, Svg, spread, text_width

LEFT, ROOM, MARGIN = 96, 640, 170
RED, GREEN, ORANGE, GREY = "#cc0000", "#1a7f37", "#c05a00", "#777777"
COLOURS = (
    "#1b6ca8", "#c0392b", "#2e8b57", "#8e44ad", "#b8860b", "#008b8b", "#d2527f", "#5d6d7e",
    "#6b8e23", "#a0522d", "#4169e1", "#b03060", "#20855a", "#7d3c98", "#cd6600", "#2f4f4f",
)  # fmt: skip
STEPS = (1, 2, 5)
CLOSE = 90  # points between two stations
AT_TAP = 5  # up to this many stations have their addresses above their lines


class View:
    """How bit times and positions lie in the drawing."""

    def __init__(self, layout, first, past, height):
        self.layout = layout
        self.first, self.past = first, past
        self.near, self.far = layout.taps[0].position, layout.taps[-1].position
        self.top = 118
        wanted = min(max(320, 0.9 * (past - first)), 1600) if height is None else height
        self.scale = wanted / (past - first)
        self.bottom = self.top + wanted

    def x(self, position):
        """The place of a position on the pair."""
        return LEFT + ROOM * (position - self.near) / (self.far - self.near)

    def y(self, time):
        """The place of the begin of a step."""
        return self.top + self.scale * (time - self.first)

    def holds(self, time):
        """Whether a step is in the window."""
        return self.first <= time < self.past


def draw_run(course, window, octets, title, height=None):
    """The drawing of a run as text."""
    first, past = window
    view = View(course.layout, first, past, height)
    svg = Svg(LEFT + ROOM + MARGIN)
    draw_head(svg, course, title)
    draw_axis(svg, view)
    draw_columns(svg, course, view)
    for number, attempt in enumerate(course.attempts, 1):
        draw_attempt(svg, view, attempt, number)
    for tap in course.layout.taps:
        svg.line(view.x(tap.position), view.top, view.x(tap.position), view.bottom, stroke="#222", stroke_width=1.2)
    draw_end(svg, course, view)
    left_out = draw_marks(svg, view, marks_of(course, view))
    below = draw_foot(svg, course, view, left_out)
    return svg.finished(below, title, octets, "plan")


def draw_head(svg, course, title):
    """The title, and what the sheet says."""
    layout = course.layout
    figures = layout.figures
    svg.text(LEFT, 24, title, 15, bold=True)
    words = (
        f"slot {figures['slot']}, gap {figures['gap1']} + {figures['gap2']}, jam {figures['jam']}, span {layout.span}: "
    )
    svg.text(LEFT, 44, words + f"fit {'yes' if layout.fits else 'no'}", 12, fill="#000" if layout.fits else RED)


def draw_axis(svg, view):
    """Bit times down the left side."""
    step = tick_step(view)
    svg.text(LEFT - 20, view.top - 14, "bit times", 10, "end", fill=GREY)
    time = -(-view.first // step) * step
    while time <= view.past:
        svg.line(LEFT - 8, view.y(time), LEFT + ROOM, view.y(time), stroke="#e4e4e4")
        svg.text(LEFT - 14, view.y(time) + 4, str(time), 10, "end", fill="#555")
        time += step


def tick_step(view):
    """The bit times between two lines: 1, 2 or 5 with zeros, at least 34 points apart."""
    power = 1
    while True:
        for step in STEPS:
            if step * power * view.scale >= 34:
                return step * power
        power *= 10


def draw_columns(svg, course, view):
    """The stations above their lines."""
    taps = course.layout.taps
    with_addresses = len(taps) <= AT_TAP
    labels = [f"{number} at {tap.position}" if with_addresses else str(number) for number, tap in enumerate(taps)]
    addresses = [text.render_address(tap.address) for tap in taps]
    widths = [
        max(text_width(label, 11, True), text_width(address, 9, mono=True) if with_addresses else 0)
        for label, address in zip(labels, addresses)
    ]
    places = [view.x(tap.position) for tap in taps]
    for number, (x, place) in enumerate(zip(spread(places, widths, LEFT - 60, LEFT + ROOM + 60), places)):
        svg.text(x, 70, labels[number], 11, "middle", bold=True, fill=COLOURS[number])
        if with_addresses:
            svg.text(x, 83, addresses[number], 9, "middle", mono=True, fill="#555")
        svg.add(
            "path",
            d=f"M{x:.2f} 87V92L{place:.2f} {view.top - 8}V{view.top}",
            fill="none",
            stroke="#222",
            stroke_width=0.8,
        )


# ---- bands


def draw_attempt(svg, view, attempt, number):
    """The band of an attempt: packet bits, then jam bits."""
    if attempt.start >= view.past:
        return
    colour = COLOURS[attempt.station]
    parts = [(attempt.start, attempt.jam_start, 0.26), (attempt.jam_start, attempt.end, 0.6)]
    shapes = [
        (shape, opacity) for begin, end, opacity in parts if begin < end for shape in band(view, attempt, begin, end)
    ]
    if not shapes:
        return
    svg.open(
        "g",
        class_="attempt",
        data_number=number,
        data_station=attempt.station,
        data_offer=attempt.offer,
        data_start=attempt.start,
        data_jam=attempt.jam_start,
        data_end=attempt.end,
    )
    svg.open(
        "title",
        f"station {attempt.station}, offer {attempt.offer}: packet bits from {attempt.start} to {attempt.jam_start - 1}"
        + (f", jam to {attempt.end - 1}" if attempt.end > attempt.jam_start else ""),
    )
    for shape, opacity in shapes:
        points = " ".join(f"{view.x(place):.2f},{view.y(time):.2f}" for place, time in shape)
        svg.add("polygon", points=points, fill=colour, fill_opacity=opacity)
    for begin in sorted({attempt.start, attempt.jam_start, attempt.end}):
        draw_edge(svg, view, attempt, begin, colour)
    svg.close("g")


def band(view, attempt, begin, end):
    """The shapes of bits from a step to before another: one to each side of the station, cut to the window."""
    own = view.layout.taps[attempt.station].position
    for side in (view.near, view.far):
        away = abs(side - own)
        if away == 0:
            continue
        corners = [(own, begin), (side, begin + away), (side, end + away), (own, end)]
        shape = cut(cut(corners, view.first, 1), view.past, -1)
        if len(shape) > 2:
            yield shape


def cut(corners, limit, sign):
    """The part of a convex shape whose times are not before (sign 1) or not after (sign -1) a limit."""
    kept = []
    for at, (place, time) in enumerate(corners):
        before_place, before_time = corners[at - 1]
        if (sign * (time - limit) >= 0) != (sign * (before_time - limit) >= 0):
            part = (limit - before_time) / (time - before_time)
            kept.append((before_place + part * (place - before_place), limit))
        if sign * (time - limit) >= 0:
            kept.append((place, time))
    return kept


def draw_edge(svg, view, attempt, begin, colour):
    """The line along which a step's symbol travels, cut to the window."""
    own = view.layout.taps[attempt.station].position
    for side in (view.near, view.far):
        reach = min(abs(side - own), view.past - begin)
        skip = max(0, view.first - begin)
        if reach > skip:
            way = 1 if side > own else -1
            ends = [(view.x(own + way * far), view.y(begin + far)) for far in (skip, reach)]
            svg.line(*ends[0], *ends[1], stroke=colour, stroke_width=0.8, stroke_opacity=0.8)


# ---- marks


def marks_of(course, view):
    """What is marked: step, station, kind, words. The most important come first, so that they have their labels."""
    marks = []
    for event in course.events:
        if event.station >= len(course.layout.taps):
            continue  # an offer to a station that is not there
        kind = kind_of(event.word)
        marks.append((event.time, event.station, kind, f"{event.word} {event.number}"))
    for fate in course.fates:
        marks += [
            (each.time, each.station, "lost", f"lost, offer {fate.number}")
            for each in fate.deliveries
            if each.state == "lost"
        ]
    order = ["late", "lost", "given-up", "error", "sent", "got", "collision", "refused"]
    return sorted((mark for mark in marks if view.holds(mark[0])), key=lambda mark: (order.index(mark[2]), mark))


def kind_of(word):
    """The kind of mark for an event word."""
    if word in COLLISIONS:
        return "late" if word == LATE else "collision"
    if word.startswith("got"):
        return "got" if word == "got ok" else "error"
    return {"sent": "sent", "refused": "refused"}.get(word, "given-up")


def is_crowded(view):
    """Whether a label alone does not show whose it is: many stations, or two close to each other."""
    places = [view.x(tap.position) for tap in view.layout.taps]
    return len(places) > AT_TAP or min(b - a for a, b in zip(places, places[1:])) < CLOSE


def draw_marks(svg, view, marks):
    """All marks, then their labels where there is room; answers how many labels were left out."""
    for time, station, kind, words in marks:
        x, y = view.x(view.layout.taps[station].position), view.y(time)
        draw_mark(svg, kind, x, y, f"{time}, station {station}: {words}")
        svg.taken.append(Box(x - 5, y - 5, x + 5, y + 5))
    limits = Box(4, view.top - 6, svg.width - 4, view.bottom + 10)
    left_out = 0
    many = is_crowded(view)  # then a label tells its station, and has its colour
    for time, station, kind, words in marks:
        words = f"{time} {station} {words}" if many else f"{time} {words}"
        x, y = view.x(view.layout.taps[station].position), view.y(time)
        own = COLOURS[station] if many else "#000"
        fill = {"late": RED, "lost": RED, "given-up": RED, "error": ORANGE}.get(kind, own)
        candidates = [
            (x + side * 8, y + 4 + lift, "start" if side > 0 else "end")
            for lift in (0, -8, 9, -16, 18)
            for side in (1, -1)
        ]
        left_out += not svg.label(
            candidates, words, limits, fill=fill, stroke="#fff", stroke_width=3, paint_order="stroke"
        )
    return left_out


def draw_mark(svg, kind, x, y, title):
    """The mark of a kind."""
    if kind in ("collision", "late"):
        colour, size = ("#000", 5) if kind == "collision" else (RED, 6)
        svg.add(
            "path",
            title,
            d=f"M{x - size:.2f} {y - size:.2f}l{2 * size} {2 * size}m{-2 * size} 0l{2 * size} {-2 * size}",
            class_=kind,
            fill="none",
            stroke=colour,
            stroke_width=2,
        )
    elif kind == "sent":
        svg.add("circle", title, class_=kind, cx=x, cy=y, r=4.5, fill=GREEN)
    elif kind in ("got", "error", "lost"):
        fill = {"got": GREEN, "error": ORANGE, "lost": "#fff"}[kind]
        svg.add(
            "path",
            title,
            d=f"M{x - 5:.2f} {y - 4:.2f}h10l-5 9z",
            class_=kind,
            fill=fill,
            stroke=RED if kind == "lost" else fill,
            stroke_width=1.6,
        )
    else:
        fill = RED if kind == "given-up" else "#fff"
        svg.add(
            "rect",
            title,
            class_=kind,
            x=x - 4,
            y=y - 4,
            width=8,
            height=8,
            fill=fill,
            stroke=RED if kind == "given-up" else GREY,
        )


# ---- below the run


def ends_early(course, view):
    """Whether the drawing ends where a late collision ended the run."""
    return course.ended_early and view.past == course.clock


def draw_end(svg, course, view):
    """A line where the run ended early; no label lies on it."""
    if ends_early(course, view):
        svg.line(LEFT - 8, view.bottom, LEFT + ROOM, view.bottom, stroke=RED, stroke_width=1.5, stroke_dasharray="6 3")
        svg.taken.append(Box(LEFT + 6, view.bottom - 1, LEFT + ROOM - 6, view.bottom + 1))


def draw_foot(svg, course, view, left_out):
    """How the run ended, what the marks mean, and the stations where they are many."""
    y = view.bottom + 26
    if ends_early(course, view):
        svg.text(
            LEFT,
            y,
            f"ended early at {course.clock}, after a late collision; {course.asked} bit times were asked",
            11,
            fill=RED,
        )
        y += 20
    if left_out:
        svg.text(
            LEFT,
            y,
            f"labels left out for want of room: {left_out}; a narrower --window or a larger --height shows them",
            11,
            fill=GREY,
        )
        y += 20
    y = draw_legend(svg, y)
    return draw_stations(svg, course.layout, y) + 8 if len(course.layout.taps) > AT_TAP else y


def draw_legend(svg, y):
    """What the marks mean, in rows."""
    entries = [
        ("collision", "collision"),
        ("late", "late collision"),
        ("sent", "sent"),
        ("got", "got ok"),
        ("error", "got, with an error"),
        ("lost", "lost"),
        ("given-up", "given up, late-end"),
        ("refused", "offer refused"),
    ]
    for at, (kind, words) in enumerate(entries):
        x = LEFT + 150 * (at % 4)
        draw_mark(svg, kind, x + 6, y + 20 * (at // 4) - 4, words)
        svg.text(x + 18, y + 20 * (at // 4), words, 11)
    y += 40
    for x, opacity, words in [(LEFT, 0.26, "packet bits"), (LEFT + 150, 0.6, "jam bits")]:
        svg.add("rect", x=x, y=y - 9, width=12, height=10, fill=COLOURS[0], fill_opacity=opacity)
        svg.text(x + 18, y, words, 11)
    return y + 20


def draw_stations(svg, layout, top):
    """The stations as a list; answers where it ends."""
    half = (len(layout.taps) + 1) // 2
    for number, tap in enumerate(layout.taps):
        x, y = LEFT + 330 * (number // half), top + 17 * (number % half)
        svg.text(x + 14, y, str(number), 11, "end", bold=True, fill=COLOURS[number])
        svg.text(x + 64, y, f"at {tap.position}", 11, "end")
        svg.text(x + 76, y, text.render_address(tap.address), 10, mono=True)
    return top + 17 * half
