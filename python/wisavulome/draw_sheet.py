"""The drawing of a sheet: pair, taps, distances, addresses, figures, and both inequalities as bars."""

from . import text
from .library import FIGURES, HEADER_BITS
from .svg import Svg, spread, text_width

WIDTH, LEFT, RIGHT = 900, 60, 840
ROOM = RIGHT - LEFT
DARK, LIGHT, WIRE, RED, GREEN, GREY = "#1b6ca8", "#7fb2d6", "#303030", "#cc0000", "#1a7f37", "#808080"
AT_TAP = 6  # up to this many stations have their addresses at their taps


def draw_sheet(verdict, octets, title):
    """The drawing of a sheet as text."""
    layout = verdict.layout
    svg = Svg(WIDTH)
    svg.text(LEFT, 32, title, 17, bold=True)
    places = [LEFT + ROOM * (tap.position - layout.taps[0].position) / layout.span for tap in layout.taps]
    bottom = draw_pair(svg, layout, places)
    below = max(draw_figures(svg, verdict, bottom + 34), draw_bars(svg, verdict, bottom + 34))
    if len(layout.taps) > AT_TAP:
        below = draw_stations(svg, layout, below + 24)
    below = draw_octets(svg, octets, below + 24)
    return svg.finished(below + 12, title, octets, "sheet")


def draw_pair(svg, layout, places):
    """The pair with its taps; answers where it ends."""
    labels = [f"station {number}" for number in range(len(layout.taps))]
    addresses = [text.render_address(tap.address) for tap in layout.taps]
    with_addresses = len(layout.taps) <= AT_TAP
    if not with_addresses:
        labels = [str(number) for number in range(len(layout.taps))]
    widths = [
        max(text_width(label, 12, True), text_width(address, 10, mono=True) if with_addresses else 0)
        for label, address in zip(labels, addresses)
    ]
    tops = spread(places, widths, LEFT - 40, RIGHT + 40)
    wire = 144
    svg.line(LEFT, wire, RIGHT, wire, stroke=WIRE, stroke_width=5, stroke_linecap="round")
    for number, (place, top) in enumerate(zip(places, tops)):
        svg.text(top, 66, labels[number], 12, "middle", bold=True)
        if with_addresses:
            svg.text(top, 82, addresses[number], 10, "middle", mono=True)
        svg.add("path", d=f"M{top:.2f} 88V98L{place:.2f} 116V{wire}", fill="none", stroke=WIRE, stroke_width=1.5)
        svg.add("rect", x=place - 4, y=112, width=8, height=9, fill=DARK)
        svg.add("circle", cx=place, cy=wire, r=4, fill=WIRE)
    draw_positions(svg, layout, places, wire)
    return draw_distances(svg, layout, places, wire + 58)


def draw_positions(svg, layout, places, wire):
    """Where each tap is."""
    labels = [f"at {tap.position}" for tap in layout.taps]
    under = spread(places, [text_width(label, 11) for label in labels], LEFT - 40, RIGHT + 40)
    for place, x, label in zip(places, under, labels):
        svg.add("path", d=f"M{place:.2f} {wire + 4}L{x:.2f} {wire + 18}", fill="none", stroke=GREY, stroke_width=0.7)
        svg.text(x, wire + 30, label, 11, "middle")


def draw_distances(svg, layout, places, y):
    """The distances between neighbours, and the span."""
    steps = [(places[i], places[i + 1]) for i in range(len(places) - 1)]
    labels = [str(layout.distance(i, i + 1)) for i in range(len(places) - 1)]
    middles = [(a + b) / 2 for a, b in steps]
    under = spread(middles, [text_width(label, 11) for label in labels], LEFT - 40, RIGHT + 40)
    for (a, b), middle, x, label in zip(steps, middles, under, labels):
        inset = min(3, (b - a) / 4)
        svg.line(a + inset, y, b - inset, y, stroke=GREY)
        svg.add("path", d=f"M{middle:.2f} {y + 1}L{x:.2f} {y + 8}", fill="none", stroke=GREY, stroke_width=0.5)
        svg.text(x, y + 18, label, 11, "middle", fill="#444")
    svg.line(LEFT, y + 32, RIGHT, y + 32, stroke=WIRE, stroke_width=1.2)
    svg.text((LEFT + RIGHT) / 2, y + 48, f"span S = {layout.span} bit times", 12, "middle")
    return y + 52


def draw_figures(svg, verdict, top):
    """The figures, given or default."""
    for row, figure in enumerate(FIGURES):
        y = top + 19 * row
        given = figure.name in verdict.given
        svg.text(LEFT, y, figure.name, 12)
        svg.text(LEFT + 150, y, str(verdict.layout.figures[figure.name]), 12, "end", bold=given)
        svg.text(LEFT + 160, y, "given" if given else "default", 11, fill="#000" if given else GREY)
    return top + 19 * len(FIGURES)


def draw_bars(svg, verdict, top):
    """Both inequalities as bars, and the verdict; answers where they end."""
    layout = verdict.layout
    slot, jam = layout.figures["slot"], layout.figures["jam"]
    total = 2 * layout.span + layout.gap
    words = f"2 x S + G = 2 x {layout.span} + {layout.gap} = {total}, slot {slot}"
    bar(svg, top, words, [(2 * layout.span, DARK), (layout.gap, LIGHT)], slot, verdict.slot_margin)
    gap1, gap2 = layout.figures["gap1"], layout.figures["gap2"]
    words = f"G = {gap1} + {gap2} = {layout.gap}, {HEADER_BITS} + jam = {HEADER_BITS + jam}"
    bar(svg, top + 74, words, [(layout.gap, LIGHT)], HEADER_BITS + jam, verdict.jam_margin)
    longest = "no span fits" if verdict.farthest is None else f"longest span {verdict.longest_span}"
    svg.text(380, top + 150, f"{longest}, with the last tap moved", 12)
    fits = layout.fits
    svg.text(RIGHT, top + 150, f"fit {'yes' if fits else 'no'}", 18, "end", bold=True, fill=GREEN if fits else RED)
    return top + 156


def bar(svg, top, words, parts, limit, margin):
    """A bar of parts, the limit as a line across it, and the margin."""
    left, room = 380, 440
    scale = room / max(limit, sum(part for part, _fill in parts))
    svg.text(left, top, words, 12)
    svg.add("rect", x=left, y=top + 10, width=limit * scale, height=14, fill="#eeeeee")
    x = left
    for part, fill in parts:
        svg.add("rect", x=x, y=top + 10, width=part * scale, height=14, fill=fill)
        x += part * scale
    svg.line(left + limit * scale, top + 5, left + limit * scale, top + 29, stroke=RED, stroke_width=2)
    good = margin >= 0
    svg.text(
        left,
        top + 40,
        f"margin {margin}" if good else f"over by {-margin}: margin {margin}",
        12,
        fill="#000" if good else RED,
    )


def draw_stations(svg, layout, top):
    """The stations as a list, where there is no room at the taps; answers where it ends."""
    half = (len(layout.taps) + 1) // 2
    for number, tap in enumerate(layout.taps):
        x = LEFT + (number // half) * (ROOM / 2)
        y = top + 18 * (number % half)
        svg.text(x + 14, y, str(number), 12, "end", bold=True)
        svg.text(x + 70, y, f"at {tap.position}", 12, "end")
        svg.text(x + 84, y, text.render_address(tap.address), 11, mono=True)
    return top + 18 * half


def draw_octets(svg, octets, top):
    """The sheet's octets in hexadecimal."""
    shown = octets.hex()
    for row, at in enumerate(range(0, len(shown), 120)):
        svg.text(LEFT, top + 14 * row, shown[at : at + 120], 10, mono=True, fill="#666")
    return top + 14 * ((len(shown) + 119) // 120)
