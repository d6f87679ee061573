"""Plans and drawings that the tests of the drawings share."""

import xml.etree.ElementTree as tree

from wisavulome.svg import text_box

SVG = "{http://www.w3.org/2000/svg}"


def plan_text(positions, offers, times, draws=(3, 1, 2, 0)):
    """A plan: stations at these positions, offers (time, station, destination), bit times."""
    lines = []
    for number, position in enumerate(positions):
        own = [(draw * (number + 3) + number) % 1024 for draw in draws]
        lines.append(f"station at {position} 02:00:00:00:00:{number + 1:02x} draws {' '.join(map(str, own))}")
    lines += [f"offer at {time} station {station} to {to} value 0x0800 data 46 zeros" for time, station, to in offers]
    return "\n".join([*lines, f"run {times}", ""])


ONE_APART = plan_text(range(16), [(2 * i, i, f"station {(i + 1) % 16}") for i in range(16)], 9000)
FAR_APART = plan_text(
    [0, 1, 2, 3, 60, 61, 62, 63, 120, 121, 180, 181, 200, 253, 254, 255], [(0, i, "broadcast") for i in range(16)], 6000
)
THREE = plan_text([0, 120, 200], [(0, 0, "station 1"), (100, 1, "broadcast"), (150, 2, "station 0")], 3000)


def parsed(drawing):
    """The root element of a drawing."""
    return tree.fromstring(drawing)


def texts(root):
    """The text elements of a drawing."""
    return list(root.iter(SVG + "text"))


def overlaps(root):
    """Pairs of texts that lie on each other."""
    boxes = []
    for each in texts(root):
        mono = "Mono" in each.get("font-family", "")
        box = text_box(
            float(each.get("x")),
            float(each.get("y")),
            each.text or "",
            float(each.get("font-size")),
            each.get("text-anchor", "start"),
            each.get("font-weight") == "bold",
            mono,
        )
        boxes.append((each.text, box))
    return [(one[0], other[0]) for at, one in enumerate(boxes) for other in boxes[:at] if one[1].meets(other[1])]


def outside(root):
    """Texts that do not lie within the drawing."""
    width, height = float(root.get("width")), float(root.get("height"))
    return [
        each.text
        for each in texts(root)
        if not (0 <= float(each.get("x")) <= width and 0 <= float(each.get("y")) <= height)
    ]
