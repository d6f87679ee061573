"""A small writer of SVG: shapes, text with its measure, and labels that do not lie on each other.

Nothing here depends on time, place or order of a dictionary: the same calls give the same octets.
"""

from xml.sax.saxutils import escape, quoteattr

SPACE = "urn:wisavulome:octets"
FONT = "DejaVu Sans, Verdana, Arial, sans-serif"
MONO = "DejaVu Sans Mono, Menlo, Consolas, monospace"
NARROW, SLIM, WIDE = "ijlI.,:;'|!", "ftr()[]-/ ", "mwMW@%"


def number(value):
    """A coordinate with at most two places."""
    shown = f"{value:.2f}".rstrip("0").rstrip(".")
    return "0" if shown in ("-0", "") else shown


def letter_width(letter):
    """The width of a letter, in parts of the font's size; rather too wide than too narrow."""
    if letter in NARROW:
        return 0.34
    if letter in SLIM:
        return 0.43
    if letter in WIDE:
        return 0.98
    return 0.72 if letter.isupper() else 0.64


def text_width(content, size, bold=False, mono=False):
    """The width of a text on one line."""
    if mono:
        return 0.61 * size * len(content)
    return size * sum(map(letter_width, content)) * (1.12 if bold else 1.0)


class Box:
    """A rectangle that is taken."""

    def __init__(self, left, top, right, bottom):
        self.left, self.top, self.right, self.bottom = left, top, right, bottom

    def meets(self, other):
        """Whether two rectangles lie on each other."""
        return (
            self.left < other.right and other.left < self.right and self.top < other.bottom and other.top < self.bottom
        )

    def within(self, other):
        """Whether this one lies inside another."""
        return (
            other.left <= self.left
            and self.right <= other.right
            and other.top <= self.top
            and self.bottom <= other.bottom
        )


def text_box(x, y, content, size, anchor="start", bold=False, mono=False):
    """The rectangle of a text whose base line begins, has its middle, or ends at x."""
    width = text_width(content, size, bold, mono)
    left = x - {"start": 0, "middle": width / 2, "end": width}[anchor]
    return Box(left, y - 0.8 * size, left + width, y + 0.25 * size)


def spread(wanted, widths, left, right, apart=4):
    """Places for labels in a row, in their order: each as near to where it is wanted as the others let it."""
    places = []
    edge = left
    for centre, width in zip(wanted, widths):
        place = max(centre, edge + width / 2)
        places.append(place)
        edge = place + width / 2 + apart
    edge = right
    for at in range(len(places) - 1, -1, -1):
        places[at] = min(places[at], edge - widths[at] / 2)
        edge = places[at] - widths[at] / 2 - apart
    return places


class Svg:
    """A drawing: elements in the order in which they are added."""

    def __init__(self, width):
        self.width = width
        self.parts = []
        self.taken = []
        self.depth = 1

    def open(self, tag, content=None, **attributes):
        """An element that stays open, or one with content."""
        shown = "".join(
            f" {name.rstrip('_').replace('_', '-')}={quoteattr(as_text(value))}" for name, value in attributes.items()
        )
        if content is None:
            self.parts.append(f"{'  ' * self.depth}<{tag}{shown}>")
            self.depth += 1
        else:
            self.parts.append(f"{'  ' * self.depth}<{tag}{shown}>{escape(content)}</{tag}>")

    def close(self, tag):
        """Closes an element."""
        self.depth -= 1
        self.parts.append(f"{'  ' * self.depth}</{tag}>")

    def add(self, tag, title=None, **attributes):
        """An empty element, or one with a title that viewers show on pointing."""
        shown = "".join(
            f" {name.rstrip('_').replace('_', '-')}={quoteattr(as_text(value))}" for name, value in attributes.items()
        )
        inner = f"><title>{escape(title)}</title></{tag}>" if title else "/>"
        self.parts.append(f"{'  ' * self.depth}<{tag}{shown}{inner}")

    def line(self, x1, y1, x2, y2, **attributes):
        """A line."""
        self.add("line", x1=x1, y1=y1, x2=x2, y2=y2, **attributes)

    def text(self, x, y, content, size=11, anchor="start", bold=False, mono=False, fill="#000", **attributes):
        """A text on one line; its rectangle is taken."""
        box = text_box(x, y, content, size, anchor, bold, mono)
        self.taken.append(box)
        more = {"font_family": MONO} if mono else {}
        if bold:
            more["font_weight"] = "bold"
        if anchor != "start":
            more["text_anchor"] = anchor
        self.open("text", content, x=x, y=y, font_size=size, fill=fill, **more, **attributes)
        return box

    def is_free(self, box):
        """Whether no text or mark lies there."""
        return not any(box.meets(other) for other in self.taken)

    def label(self, candidates, content, limits, size=10, **attributes):
        """A text at the first candidate (x, y, anchor) where it lies on nothing; answers whether there was one."""
        for x, y, anchor in candidates:
            box = text_box(x, y, content, size, anchor)
            if box.within(limits) and self.is_free(box):
                self.text(x, y, content, size, anchor, **attributes)
                return True
        return False

    def finished(self, height, title, octets, form):
        """The drawing as a file, with the octets that it was made of."""
        head = [
            '<?xml version="1.0" encoding="UTF-8"?>',
            f'<svg xmlns="http://www.w3.org/2000/svg" width="{number(self.width)}" height="{number(height)}" '
            f'viewBox="0 0 {number(self.width)} {number(height)}" font-family={quoteattr(FONT)}>',
            f"  <title>{escape(title)}</title>",
        ]
        if octets is not None:
            head.append(f'  <metadata><w:octets xmlns:w="{SPACE}" form="{form}">{octets.hex()}</w:octets></metadata>')
        head.append(f'  <rect width="{number(self.width)}" height="{number(height)}" fill="#fff"/>')
        return "\n".join([*head, *self.parts, "</svg>", ""])


def as_text(value):
    """An attribute's value."""
    return number(value) if isinstance(value, (int, float)) else str(value)
