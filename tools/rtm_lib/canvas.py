"""A drawing as a list of shapes, each with its place, so that any part of it can be written as SVG.

The canvas remembers where each text stands and where each stroke goes. So a test can see, without a browser, that no
text lies on another and no line runs through one.
"""

from __future__ import annotations

from dataclasses import dataclass, field
from html import escape
from typing import Dict, List, Optional, Sequence, Tuple

from .labels import CHIP_SIDES, LABEL_LETTER, Chip

Point = Tuple[float, float]

# Layers, from the ground up.
(GROUND, LEADERS, BOXES, MARKS, RAILS, BIRTHS, THREADS, RETRIES, ABORTS, WORDS, RINGS) = range(11)

# From a row's middle to the baseline of its text.
BASELINE = 3.7
# Shapes are found by slices of this height.
SLICE = 400.0


def number(value: float) -> str:
    """A coordinate in as few letters as need be."""
    text = "%.2f" % value
    return text.rstrip("0").rstrip(".") if "." in text else text


def sans_width(text: str, size: float) -> float:
    """What a text in the page's sans-serif face takes at most: such faces differ, and nothing may touch it."""
    em = sum(1.02 if letter == "@" else 0.95 if letter in "MW" else 0.35 if letter in " .,:ijl1I"
             else 0.76 if letter.isupper() or letter in "#$" else 0.62 for letter in text)
    return em * size


@dataclass(frozen=True)
class Shape:
    """A piece of SVG, and the rows that it reaches over."""

    layer: int
    top: float
    bottom: float
    markup: str


@dataclass(frozen=True)
class TextBox:
    """Where a text stands."""

    left: float
    top: float
    right: float
    bottom: float
    text: str


@dataclass(frozen=True)
class Stroke:
    """Where a line goes, by its corners."""

    style: str
    points: Tuple[Point, ...]


@dataclass
class Canvas:
    """Shapes, and where texts and strokes are."""

    shapes: List[Shape] = field(default_factory=list)
    texts: List[TextBox] = field(default_factory=list)
    strokes: List[Stroke] = field(default_factory=list)
    slices: Dict[int, List[int]] = field(default_factory=dict)
    sliced: int = -1

    def add(self, layer: int, top: float, bottom: float, markup: str) -> None:
        self.shapes.append(Shape(layer, top, bottom, markup))

    def rect(self, layer: int, style: str, left: float, top: float, width: float, height: float,
             radius: float = 0) -> None:
        rounded = ' rx="%s"' % number(radius) if radius else ""
        self.add(layer, top, top + height, '<rect class="%s" x="%s" y="%s" width="%s" height="%s"%s/>' % (
            style, number(left), number(top), number(width), number(height), rounded))

    def circle(self, layer: int, style: str, x: float, y: float, radius: float) -> None:
        self.add(layer, y - radius, y + radius, '<circle class="%s" cx="%s" cy="%s" r="%s"/>' % (
            style, number(x), number(y), number(radius)))

    def path(self, layer: int, style: str, top: float, bottom: float, data: str, hover: str = "") -> None:
        """A path that no text need be kept from: a mark or an edge."""
        title = "<title>%s</title>" % escape(hover) if hover else ""
        self.add(layer, top, bottom, '<path class="%s" d="%s"%s' % (
            style, data, ">%s</path>" % title if title else "/>"))

    def line(self, layer: int, style: str, points: Sequence[Point], radius: float = 0, hover: str = "") -> None:
        """A line through corners, which are rounded; no text may lie on it."""
        kept = [points[0]]
        for point in points[1:]:
            if point != kept[-1]:
                kept.append(point)
        if len(kept) < 2:
            return
        self.strokes.append(Stroke(style, tuple(kept)))
        ys = [y for _, y in kept]
        self.path(layer, style, min(ys) - 4, max(ys) + 4, rounded_path(kept, radius), hover)

    def text(self, layer: int, style: str, x: float, middle: float, text: str, width: Optional[float] = None,
             anchor: str = "start", rise: float = BASELINE) -> None:
        """A text with its baseline under the middle of a row."""
        if width is None:
            width = LABEL_LETTER * len(text)
        left = x - width if anchor == "end" else x - width / 2 if anchor == "middle" else x
        self.texts.append(TextBox(left, middle - 5.5, left + width, middle + 5.5, text))
        self.add(layer, middle - 8, middle + 8, '<text class="%s" x="%s" y="%s">%s</text>' % (
            style, number(x), number(middle + rise), escape(text, quote=False)))

    def chip(self, x: float, middle: float, chip: Chip) -> None:
        """A chip; one that comes from a rule says on hover which."""
        self.texts.append(TextBox(x, middle - 6.5, x + chip.width, middle + 6.5, chip.text))
        style = "chip " + chip.style
        markup = ('<rect class="%s" x="%s" y="%s" width="%s" height="13" rx="3"/>'
                  '<text class="chip-text %s" x="%s" y="%s">%s</text>') % (
            style, number(x), number(middle - 6.5), number(chip.width), chip.style,
            number(x + CHIP_SIDES / 2), number(middle + 3), escape(chip.text, quote=False))
        if chip.rule is not None:
            markup = '<g class="of-rule"><title>%s</title>%s</g>' % (escape(chip.rule.hover), markup)
        self.add(WORDS, middle - 7, middle + 7, markup)

    def part(self, top: float, bottom: float) -> str:
        """All shapes that reach into a part, from the ground up."""
        if self.sliced != len(self.shapes):
            self.slice_up()
        places = {place for number in range(int(top // SLICE), int(bottom // SLICE) + 1)
                  for place in self.slices.get(number, ())}
        chosen = [self.shapes[place] for place in sorted(places)]
        return "".join(shape.markup for shape in sorted(chosen, key=lambda shape: shape.layer)
                       if shape.bottom > top and shape.top < bottom)

    def slice_up(self) -> None:
        """Notes which shapes reach into which slice of the height: a part is found without going through all."""
        self.slices = {}
        for place, shape in enumerate(self.shapes):
            for number in range(int(shape.top // SLICE), int(shape.bottom // SLICE) + 1):
                self.slices.setdefault(number, []).append(place)
        self.sliced = len(self.shapes)


def rounded_path(points: Sequence[Point], radius: float) -> str:
    """Path data through right-angled corners."""
    data = "M%s %s" % (number(points[0][0]), number(points[0][1]))
    for position in range(1, len(points)):
        before, here = points[position - 1], points[position]
        last = position == len(points) - 1
        if radius and not last:
            after = points[position + 1]
            bend = min(radius, length(before, here) / 2, length(here, after) / 2)
            stop, start = toward(here, before, bend), toward(here, after, bend)
            data += straight(before, stop) + "Q%s %s %s %s" % (
                number(here[0]), number(here[1]), number(start[0]), number(start[1]))
        else:
            data += straight(before, here)
    return data


def straight(before: Point, here: Point) -> str:
    if before[1] == here[1]:
        return "H" + number(here[0])
    if before[0] == here[0]:
        return "V" + number(here[1])
    return "L%s %s" % (number(here[0]), number(here[1]))


def length(one: Point, other: Point) -> float:
    return abs(one[0] - other[0]) + abs(one[1] - other[1])


def toward(start: Point, goal: Point, distance: float) -> Point:
    """The point at a distance from one corner on the way to the next."""
    whole = length(start, goal) or 1.0
    part = distance / whole
    return (start[0] + (goal[0] - start[0]) * part, start[1] + (goal[1] - start[1]) * part)
