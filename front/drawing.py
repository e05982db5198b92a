"""Parts of a picture in SVG: elements, scales, axes. Colours and patterns are classes that the page's style gives a light and a dark scheme."""

import itertools
from xml.sax.saxutils import escape, quoteattr

DIGIT = 7.0  # the width of a character of an axis label, at most, in the picture's units


def element(name, /, *children, **attributes):
    """An element as text. Children are elements already; an underscore at the end of a name, or between its parts, is for Python's sake."""
    parts = "".join(f" {key.rstrip('_').replace('_', '-')}={quoteattr(_shown(value))}" for key, value in attributes.items() if value is not None)
    inner = "".join(children)
    return f"<{name}{parts}>{inner}</{name}>" if inner or name in ("title", "desc") else f"<{name}{parts}/>"


def _shown(value):
    return f"{value:.2f}".rstrip("0").rstrip(".") if isinstance(value, float) else str(value)


def text(x, y, words, kind="label", anchor=None):
    return element("text", escape(str(words)), x=float(x), y=float(y), class_=kind, text_anchor=anchor)


def box(x, y, width, height, kind, **more):
    return element("rect", x=float(x), y=float(y), width=float(width), height=float(height), class_=kind, **more)


def line(x1, y1, x2, y2, kind):
    return element("line", x1=float(x1), y1=float(y1), x2=float(x2), y2=float(y2), class_=kind)


def path(commands, kind):
    return element("path", d=commands, class_=kind)


def hatch(name, kind):
    """A pattern of slanted lines."""
    strokes = element("path", d="M-1,1 l2,-2 M0,6 l6,-6 M5,7 l2,-2", class_=kind)
    return element("pattern", strokes, id=name, width=6, height=6, patternUnits="userSpaceOnUse")


def picture(name, width, height, title, description, *parts):
    """A picture that a screen reader names and describes."""
    heading = element("title", escape(title), id=f"{name}-title") + element("desc", escape(description), id=f"{name}-desc")
    return element(
        "svg",
        heading,
        *parts,
        xmlns="http://www.w3.org/2000/svg",
        viewBox=f"0 0 {width} {_shown(float(height))}",
        role="img",
        aria_labelledby=f"{name}-title {name}-desc",
    )


class Scale:
    """Numbers from first to last over a stretch of the picture."""

    def __init__(self, first, last, start, end):
        self.first, self.last, self.start = first, last, start
        self.unit = (end - start) / (last - first)

    def at(self, number):
        return self.start + (number - self.first) * self.unit

    def clipped(self, low, high):
        """The part of a stretch that is shown, None where none is."""
        low, high = max(low, self.first), min(high, self.last)
        return (low, high) if low < high else None


def label_width(number):
    return DIGIT * len(f"{number:,}")


def marks(first, last, unit, room=None):
    """The numbers of an axis that get a label: multiples of the least of 1, 2, 5, 10 and so on that leaves each so much room, else its own width."""
    room = room or label_width(last) + 12
    step, factors = 1, itertools.cycle((2, 2.5, 2))
    while step * unit < room:
        step = int(step * next(factors))
    return range(-(-first // step) * step, last + 1, step)


def ticks_axis(scale, y):
    """Numbers of ticks: in the middle of each where there is room, else at the start of some."""
    if scale.unit >= label_width(scale.last) + 6:
        return "".join(text(scale.at(tick + 0.5), y + 14, f"{tick:,}", anchor="middle") for tick in range(scale.first, scale.last))
    parts = []
    for tick in marks(scale.first, scale.last, scale.unit):
        parts.append(line(scale.at(tick), y, scale.at(tick), y + 4, "axis"))
        parts.append(text(scale.at(tick), y + 16, f"{tick:,}", anchor="middle"))
    return "".join(parts)
