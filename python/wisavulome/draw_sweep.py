"""The drawing of a sweep: for each offer the distribution of its delays."""

from .svg import Svg

LEFT, ROOM, WIDTH = 90, 640, 900
BINS = 80
ROW, BAR = 84, 48
STEPS = (1, 2, 5)
BLUE, RED, GREY = "#1b6ca8", "#cc0000", "#777777"


def draw_sweep(rows, title):
    """The drawing of a sweep's rows as text."""
    offers = sorted({row[2] for row in rows})
    delays = {
        offer: sorted(row[5] for row in rows if row[2] == offer and row[3] == "sent" and row[5] is not None)
        for offer in offers
    }
    longest = max((each[-1] for each in delays.values() if each), default=0)
    width = bin_width(longest)
    svg = Svg(WIDTH)
    svg.text(LEFT, 30, title, 15, bold=True)
    svg.text(LEFT, 50, f"delays of sent frames, in bit times; a bar is {width} wide", 12, fill="#444")
    past = width * (longest // width + 1)
    for at, offer in enumerate(offers):
        draw_offer(svg, 70 + ROW * at, offer, [row for row in rows if row[2] == offer], delays[offer], (width, past))
    bottom = 70 + ROW * len(offers)
    draw_axis(svg, bottom, past)
    return svg.finished(bottom + 40, title, None, "sweep")


def bin_width(longest):
    """A round width, so that there are at most so many bars."""
    power = 1
    while True:
        for step in STEPS:
            if step * power * BINS > longest:
                return step * power
        power *= 10


def draw_offer(svg, top, offer, rows, delays, scale):
    """One offer: bars, median, and what came of it in all sets."""
    width, past = scale
    base = top + 18 + BAR
    svg.text(LEFT - 10, base, f"offer {offer}", 12, "end", bold=True)
    counts = {}
    for delay in delays:
        counts[delay // width] = counts.get(delay // width, 0) + 1
    most = max(counts.values(), default=1)
    for place in sorted(counts):
        height = BAR * counts[place] / most
        svg.add(
            "rect",
            f"{place * width} to {(place + 1) * width - 1}: {counts[place]}",
            class_="bar",
            data_offer=offer,
            data_from=place * width,
            data_count=counts[place],
            x=LEFT + ROOM * place * width / past,
            y=base - height,
            width=max(ROOM * width / past - 0.5, 0.5),
            height=height,
            fill=BLUE,
        )
    svg.line(LEFT, base, LEFT + ROOM, base, stroke="#222")
    svg.text(LEFT, top + 12, outcome_words(rows, delays), 11, fill="#000")
    if delays:
        middle = LEFT + ROOM * (delays[(len(delays) - 1) // 2] + 0.5) / past
        svg.line(middle, base - BAR, middle, base + 4, stroke=RED, stroke_width=1.2, stroke_dasharray="3 2")
        svg.text(LEFT + ROOM + 8, base - BAR + 10, f"most {most}", 10, fill=GREY)


def outcome_words(rows, delays):
    """What came of an offer in all sets."""
    outcomes = {}
    for row in rows:
        word = "refused" if row[3].startswith("refused") else row[3]
        outcomes[word] = outcomes.get(word, 0) + 1
    words = [f"{word} {outcomes[word]}" for word in sorted(outcomes)]
    lost = sum(row[7] > 0 for row in rows)
    if lost:
        words.append(f"LOST {lost}")
    if delays:
        middle = delays[(len(delays) - 1) // 2]
        words.append(f"delay {delays[0]} to {delays[-1]}, median {middle}")
    return "; ".join(words)


def draw_axis(svg, y, past):
    """Delays across, in bit times."""
    step = next(step * 10**power for power in range(20) for step in STEPS if ROOM * step * 10**power / past >= 70)
    for delay in range(0, past + 1, step):
        x = LEFT + ROOM * delay / past
        svg.line(x, y, x, y + 5, stroke="#222")
        svg.text(x, y + 18, str(delay), 10, "middle", fill="#555")
