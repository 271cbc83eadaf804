"""The strip of a folded trace: each unit a column, all entries from above to below, coloured by how errors ended."""

from __future__ import annotations

from html import escape
from typing import Dict, List, Optional, Tuple

from .canvas import number
from .history import History
from .labels import LABEL_LETTER
from .rows import Rows
from .trace import MASTER

COLUMN = 6
HEIGHT = 600
TOP = 22
MOST_TICKS = 6
TICK_LETTER = 6.4

Bar = Tuple[int, int, int, int]


class Strip:
    """Bars in whole pixels; equal ones are drawn once."""

    def __init__(self, rows: Rows) -> None:
        self.rows = rows
        self.history: History = rows.history
        self.units = [unit for unit in self.history.units if unit != MASTER]
        self.left = int(TICK_LETTER * len(format(self.history.length, ","))) + 12
        self.place = {unit: place for place, unit in enumerate(self.units)}

    @property
    def width(self) -> int:
        return max(self.left + COLUMN * len(self.units) + 8, self.left + 90)

    def y(self, index: Optional[int]) -> int:
        """The pixel of an entry."""
        length = max(self.history.length, 1)
        return TOP + round((length if index is None else max(index, 0)) * HEIGHT / length)

    def bar(self, unit: str, born: Optional[int], ended: Optional[int], width: int) -> Bar:
        x = self.left + COLUMN * self.place[unit] + (COLUMN - width) // 2
        top, foot = self.y(born), self.y(ended)
        return (x, top, width, max(foot - top, 1))

    def bars(self) -> Dict[str, List[Bar]]:
        """The bars of the four colours."""
        bars: Dict[str, List[Bar]] = {"runs": [], "retried": [], "lost": [], "ends": []}
        for unit in self.units:
            lane = self.history.lanes[unit]
            stops = lane.begun if lane.begun is not None else lane.ended
            bars["runs"].append(self.bar(unit, lane.born, stops, 4))
            if lane.begun is not None:
                bars["ends"].append(self.bar(unit, lane.begun, lane.ended, 4))
        for error in self.history.errors:
            if error.bracket_depth == 0 and error.unit in self.place and error.ending in ("RETRY", "BEGIN"):
                kind, width = ("retried", 4) if error.ending == "RETRY" else ("lost", 6)
                bars[kind].append(self.bar(error.unit, error.born, error.ended, width))
        return bars

    def paths(self) -> str:
        pieces = []
        for kind, bars in self.bars().items():
            data = "".join("M%d %dh%dv%dh-%dz" % (x, y, width, height, width)
                           for x, y, width, height in dict.fromkeys(bars))
            if data:
                pieces.append('<path class="strip-%s" d="%s"/>' % (kind, data))
        return "".join(pieces)

    def ticks(self) -> str:
        """Lines with the numbers of entries."""
        length = self.history.length
        step = next(base * 10 ** power for power in range(9) for base in (1, 2, 5)
                    if length / (base * 10 ** power) <= MOST_TICKS)
        marks = [index for index in range(0, length, step) if length - index > step / 2] + [length]
        right = self.left + COLUMN * len(self.units)
        return "".join('<path class="strip-tick" d="M%d %dH%d"/><text class="strip-word" x="%s" y="%s">%s</text>' % (
            self.left - 4, self.y(index), right,
            number(self.left - 7 - LABEL_LETTER * len(format(index, ","))), number(self.y(index) + 3.5),
            format(index, ",")) for index in marks)

    def names(self) -> str:
        """The first and the last unit's name, and frames around those that the picture shows."""
        first, last = self.units[0], self.units[-1]
        pieces = ['<text class="bold" x="%d" y="14">%s</text>' % (self.left, escape(first))]
        end = self.left + COLUMN * len(self.units) - LABEL_LETTER * len(last)
        if last != first and end > self.left + LABEL_LETTER * (len(first) + 1):
            pieces.append('<text class="bold" x="%s" y="14">%s</text>' % (number(end), escape(last)))
        for unit in self.rows.units:
            if unit in self.place and len(self.rows.units) < len(self.units):
                x, top, _, height = self.bar(unit, self.history.lanes[unit].born, self.history.lanes[unit].ended, 6)
                pieces.append('<rect class="strip-shown" x="%s" y="%d" width="%s" height="%d"/>' % (
                    number(x - 0.5), top - 1, 7, height + 2))
        return "".join(pieces)


def strip_of(rows: Rows) -> str:
    """The strip as a piece of the page."""
    strip = Strip(rows)
    if not strip.units:
        return ""
    return ('<div class="strip"><h2>All entries</h2><svg width="%d" height="%d" role="img" '
            'aria-label="All entries of all units, by how their errors ended">%s%s%s</svg></div>') % (
        strip.width, TOP + HEIGHT + 12, strip.ticks(), strip.paths(), strip.names())


def strip_width(rows: Rows) -> float:
    """The room that the strip takes beside the picture."""
    return Strip(rows).width + 12 + 26.0
