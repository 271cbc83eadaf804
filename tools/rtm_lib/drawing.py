"""Draws a layout on a canvas: grounds, boxes, marks, rails and words. Arrows are drawn in arrows.py."""

from __future__ import annotations

from typing import List, Optional

from .arrows import draw_arrows
from .canvas import (BOXES, GROUND, LEADERS, MARKS, RAILS, RINGS, WORDS, Canvas, number, sans_width)
from .history import Box, History
from .labels import Chip, gap, pill_name, runs
from .layout import NAME_SIZE, Column, Layout
from .rows import HEAD, ROW, Row, Rows
from .trace import MASTER

ROUTINE_TOP = 2.0
ROUTINE_FOOT = 1.5
HEADER_BAND = 17.0
RING = 5.5
PILL_LETTER = 6.9
PILL_SIDES = 6.0
RESOURCE_LETTERS = {"ENQ": "E", "STOR": "S", "DSN": "D", "TIMR": "T"}


class Drawing:
    """The picture of some rows."""

    def __init__(self, layout: Layout) -> None:
        self.layout = layout
        self.rows: Rows = layout.rows
        self.history: History = layout.rows.history
        self.canvas = Canvas()
        self.hidden = self.rows.fold_place

    def draw(self) -> Canvas:
        """All of it."""
        for column in self.layout.order:
            for unit in column.units:
                self.lane(unit, column)
        for box in self.history.boxes:
            place = self.layout.column(box.unit)
            if place is not None and self.rows.reaches(box.born, box.ended) and not self.is_folded(box):
                self.box(box, place)
        for row in self.rows.rows:
            self.row(row, self.layout.columns[row.unit])
        self.rails()
        self.memory_end()
        draw_arrows(self)
        return self.canvas

    def is_folded(self, box: Box) -> bool:
        """A box that a fold has borne isn't drawn."""
        return box.born in self.hidden

    # Lanes

    def lane(self, unit: str, column: Column) -> None:
        """The ground of a unit's life, its pill, and the double line from BEGIN to DONE."""
        lane = self.history.lanes[unit]
        top = self.birth_middle(unit)
        foot = self.rows.foot(lane.ended) - 1 if lane.ended is not None else self.rows.foot_of_all
        if unit == MASTER and self.history.lines[-1].entry.verb == "MEMEND":
            foot = min(foot, self.rows.middle(self.history.length - 1))
        self.canvas.rect(GROUND, "lane", column.left, top, column.width, max(foot - top, 4), 3)
        self.pill(unit, column, top)
        if lane.begun is not None and self.rows.reaches(lane.begun, lane.done):
            self.ending(unit, column)
        if lane.done is not None and self.rows.shows(lane.done):
            middle = self.rows.foot(lane.done) - 1
            self.canvas.line(MARKS, "finish", [(column.left, middle), (column.right, middle)])

    def birth_middle(self, unit: str) -> float:
        """The height of a unit's pill: the row of the entry that bore it, or the head."""
        born = self.history.lanes[unit].born
        if born is None or not self.rows.shows(born):
            return self.rows.top(born) - ROW / 2 - (5 if self.rows.top(born) == HEAD else 0)
        return self.rows.middle(born)

    def pill(self, unit: str, column: Column, middle: float) -> None:
        name = pill_name(unit)
        left, width = column.boxes_left, 2 * PILL_SIDES + PILL_LETTER * len(name)
        self.canvas.rect(WORDS, "pill", left, middle - 8, width, 16, 8)
        self.canvas.text(WORDS, "pill-text", left + PILL_SIDES, middle, name, width - PILL_SIDES, rise=4)
        beside = runs(self.history, unit)
        if beside:
            self.canvas.text(WORDS, "beside", left + width + 6, middle, beside, sans_width(beside, 10.5), rise=3.5)

    def pill_end(self, unit: str) -> float:
        """Where a pill's words end."""
        column = self.layout.columns[unit]
        beside = runs(self.history, unit)
        width = 2 * PILL_SIDES + PILL_LETTER * len(pill_name(unit))
        return column.boxes_left + width + (6 + sans_width(beside, 10.5) if beside else 0)

    def ending(self, unit: str, column: Column) -> None:
        lane = self.history.lanes[unit]
        x = column.mark(0)
        top = self.rows.middle(lane.begun) + 4 if self.rows.shows(lane.begun or 0) else self.rows.top(lane.begun)
        stop = lane.done if lane.done is not None else lane.purged
        foot = self.rows.middle(stop) - 4 if stop is not None and self.rows.shows(stop) else self.rows.top(stop)
        self.canvas.path(MARKS, "ending", top, foot, "M%s %sV%sm3 0V%s" % (
            number(x - 1.5), number(top), number(foot), number(top)))

    # Boxes

    def box(self, box: Box, column: Column) -> None:
        left, right = column.box_left(box.depth), column.box_right(box.depth)
        if box.kind == "RB":
            top = HEAD - 1 if self.rows.foot(box.born) == HEAD else self.rows.foot(box.born) + 1
            self.request_block(box, left, right, top, self.box_foot(box))
        else:
            top = self.rows.top(box.born) + ROUTINE_TOP
            self.routine(box, left, right, top, self.box_foot(box))

    def box_foot(self, box: Box) -> float:
        """Where a box ends: at the foot of the line that closes it, or above the line that ends all."""
        if box.ended is None or box.ended > self.rows.last:
            return self.rows.foot_of_all
        if box.ending in ("BEGIN", "PURGE"):
            return self.rows.top(box.ended) - 1
        if box.ending == "RETRY":
            return self.rows.foot(box.ended)
        return self.rows.foot(box.ended) - (1 if box.ending == "RETURN" else ROUTINE_FOOT)

    def is_open_above(self, box: Box) -> bool:
        """Whether a box was there before the first row."""
        return box.born < self.rows.first and self.rows.first > 0

    def request_block(self, box: Box, left: float, right: float, top: float, foot: float) -> None:
        if foot - top < 4:
            return
        self.canvas.rect(BOXES, "block", left, top, right - left, foot - top, 3)
        sides = "M%s %sV%sq0 -3 3 -3H%sq3 0 3 3V%s" % (
            number(left), number(foot), number(top + 3), number(right - 3), number(foot))
        if self.is_open_above(box):
            sides = "M%s %sV%sM%s %sV%s" % (number(left), number(foot), number(top), number(right), number(top),
                                            number(foot))
            self.edge("block-edge dashed", left, right, top)
        self.canvas.path(BOXES, "block-edge", top, foot, sides)
        whole = box.ending == "RETURN" and box.ended is not None and box.ended <= self.rows.last
        self.edge("block-edge" if whole else "block-edge dashed", left, right, foot)

    def edge(self, style: str, left: float, right: float, y: float) -> None:
        self.canvas.path(BOXES, style, y - 1, y + 1, "M%s %sH%s" % (number(left), number(y), number(right)))

    def routine(self, box: Box, left: float, right: float, top: float, foot: float) -> None:
        """A routine's box, with its kind at the left edge and a header band."""
        kind = box.kind.lower()
        frame = "routine %s%s" % (kind, " shielded" if box.shield is not None else "")
        closed = box.ending == "LEAVE" and box.ended is not None and box.ended <= self.rows.last
        if closed and not self.is_open_above(box):
            self.canvas.rect(BOXES, frame, left, top, right - left, foot - top, 3)
        else:
            self.canvas.rect(BOXES, "routine-ground", left, top, right - left, foot - top, 3)
            self.canvas.path(BOXES, frame + " sides", top, foot, "M%s %sV%sM%s %sV%s" % (
                number(left), number(top), number(foot), number(right), number(top), number(foot)))
            self.edge(frame + " sides" + (" dashed" if self.is_open_above(box) else ""), left, right, top)
            self.edge(frame + " sides" + ("" if closed else " dashed"), left, right, foot)
        if self.rows.shows(box.born):
            if box.is_bare:
                self.edge("no-sdwa", left, right, top + HEADER_BAND)
            else:
                self.canvas.rect(BOXES, "band " + kind, left, top, right - left, HEADER_BAND, 3)
        self.kind_edge(kind, left, top, foot)
        if box.ordinal and self.rows.shows(box.born):
            middle = self.rows.middle(box.born)
            self.canvas.circle(RINGS, "ring", left, middle, RING if box.ordinal < 10 else RING + 1.5)
            self.canvas.text(RINGS, "ring-text", left, middle, str(box.ordinal), RING, "middle", rise=3)

    def kind_edge(self, kind: str, left: float, top: float, foot: float) -> None:
        """The left edge tells the kind by its pattern, also without colour."""
        if kind == "frr":
            data = "M%s %sV%sM%s %sV%s" % (number(left + 1.5), number(top), number(foot),
                                           number(left + 5), number(top), number(foot))
        else:
            data = "M%s %sV%s" % (number(left + 2), number(top), number(foot))
        self.canvas.path(BOXES, "kind-edge " + kind, top, foot, data)

    # Rows

    def row(self, row: Row, column: Column) -> None:
        middle = HEAD + ROW * self.rows_place(row) + ROW / 2
        if row.line is None:
            self.band(row, column, middle)
        else:
            self.mark(row, column, middle)
        self.leader(row, column, middle)
        self.words(row, middle)
        if row.line is not None and row.line.name_at_right:
            right = column.box_right(row.line.depth) - 5
            if row.index in self.layout.arrows_at_right:
                right = self.layout.label_end(row) + 10 + sans_width(row.line.name_at_right, NAME_SIZE)
            self.canvas.text(WORDS, "name", right, middle, row.line.name_at_right,
                             sans_width(row.line.name_at_right, NAME_SIZE), "end", rise=3.5)

    def rows_place(self, row: Row) -> int:
        return int((self.rows.top(row.index) - HEAD) / ROW)

    def words(self, row: Row, middle: float) -> None:
        x = self.layout.label_x(row)
        items = self.layout.items[row.index]
        for position, item in enumerate(items):
            x += gap(items[position - 1], item) if position else 0.0
            if isinstance(item, Chip):
                self.canvas.chip(x, middle, item)
            else:
                self.canvas.text(WORDS, item.style, x, middle, item.text)
            x += item.width

    def label_end(self, row: Row) -> float:
        """Where all that stands in a row ends, its name at the right too."""
        end = self.layout.label_end(row)
        if row.line is not None and row.line.name_at_right:
            end += 10 + sans_width(row.line.name_at_right, NAME_SIZE)
            if row.index not in self.layout.arrows_at_right:
                end = max(end, self.layout.columns[row.unit].box_right(row.line.depth) - 5)
        return end

    def band(self, row: Row, column: Column, middle: float) -> None:
        """A fold: a band between two waves, across its box."""
        assert row.fold is not None
        left, right = column.box_left(row.fold.depth), column.box_right(row.fold.depth)
        self.canvas.rect(BOXES, "fold", left, middle - 7, right - left, 14)
        for y in (middle - 7, middle + 7):
            waves = "".join("q2 -2 4 0t4 0" for _ in range(int((right - left) / 8)))
            self.canvas.path(BOXES, "wave", y - 2, y + 2, "M%s %s%s" % (number(left), number(y), waves))

    def mark(self, row: Row, column: Column, middle: float) -> None:
        assert row.line is not None
        verb, x = row.line.entry.verb, column.mark(row.line.depth)
        if verb in ("ENTER", "LEAVE", "ARRIVE"):
            return
        if verb in ("ERROR", "LAND"):
            self.diamond(verb, x, middle)
        elif verb in ("BEGIN",):
            self.canvas.rect(MARKS, "square hollow", x - 4, middle - 4, 8, 8)
        elif verb in ("DONE", "MEMEND"):
            self.canvas.rect(MARKS, "square", x - 4.5, middle - 4.5, 9, 9)
        else:
            self.canvas.circle(MARKS, "dot", x, middle, 1.8 if verb == "RELEASE" else 2.5)

    def diamond(self, verb: str, x: float, middle: float) -> None:
        top, foot = middle - 6, middle + 6
        shape = "M%s %sl6 6l-6 6l-6 -6z" % (number(x), number(top))
        if verb == "ERROR":
            self.canvas.path(MARKS, "error-mark", top, foot, shape)
            self.canvas.path(MARKS, "error-cross", top, foot, "M%s %sl4.6 4.6m0 -4.6l-4.6 4.6" % (
                number(x - 2.3), number(middle - 2.3)))
        else:
            self.canvas.path(MARKS, "error-mark landed", top, foot, shape)
            self.canvas.circle(MARKS, "landed-dot", x, middle, 2)

    def leader(self, row: Row, column: Column, middle: float) -> None:
        """Dots from the line's text to its lane; they pass under all boxes and stop for a pill on their way."""
        start = self.layout.text_right if self.layout.is_wide else self.layout.text_end(row) + 8
        depth = row.line.depth if row.line is not None else 0
        stop = column.box_left(depth) + 1
        if row.line is not None and row.line.ordinal and row.line.entry.verb == "ENTER":
            stop = column.mark(depth - 1) - 2
        if row.line is not None and row.line.entry.verb == "ARRIVE":
            stop = column.left - 2
        if row.index in self.layout.rail_columns:
            stop = column.rail_x(self.layout.rail_columns[row.index]) - 8
        for unit in self.born_at(row.index):
            pill = self.layout.columns[unit].boxes_left - 4
            if start < pill < stop:
                self.canvas.line(LEADERS, "leader", [(start, middle), (pill, middle)])
                start = self.pill_end(unit) + 4
        if stop > start:
            self.canvas.line(LEADERS, "leader", [(start, middle), (stop, middle)])

    def born_at(self, index: int) -> List[str]:
        return [birth.unit for birth in self.history.births
                if birth.born == index and birth.unit in self.layout.columns]

    # Holdings

    def rails(self) -> None:
        """Each holding from its GET to what gave it back."""
        for rail in self.history.rails:
            place = self.layout.rail_columns.get(rail.born)
            column = self.layout.column(rail.unit)
            if place is None or column is None:
                continue
            x = column.rail_x(place)
            top = self.rows.top(rail.born)
            if self.rows.shows(rail.born):
                middle = self.rows.middle(rail.born)
                self.rail_head(rail.resource, x, middle)
                self.hairline(x + 6, column.mark(self.history.lines[rail.born].depth) - 4, middle)
                top = middle + 6
            elif rail.born < self.rows.first:
                # It was held before the part that is drawn.
                self.rail_head(rail.resource, x, HEAD - 7)
                top = HEAD - 1
            self.rail_foot(rail.ended, rail.ending, x, top, column)

    def rail_head(self, resource: str, x: float, middle: float) -> None:
        letter = RESOURCE_LETTERS.get(resource, "?")
        self.canvas.rect(RAILS, "rail-head", x - 5, middle - 6, 10, 12, 2)
        self.canvas.text(RAILS, "rail-letter", x, middle, letter, 6, "middle", rise=3.2)

    def rail_foot(self, ended: Optional[int], ending: str, x: float, top: float, column: Column) -> None:
        if ended is None or not self.rows.has_row(ended):
            self.canvas.line(RAILS, "rail", [(x, top), (x, self.rows.top(ended))])
            return
        middle = self.rows.middle(ended)
        line = self.history.lines[ended]
        if ending == "FREE":
            self.canvas.line(RAILS, "rail", [(x, top), (x, middle - 3.2)])
            self.canvas.circle(RAILS, "rail-freed", x, middle, 3.2)
            if not self.rows.shows(ended):
                return
            self.hairline(x + 5, column.mark(line.depth) - 4, middle)
            return
        self.canvas.line(RAILS, "rail", [(x, top), (x, middle)])
        self.canvas.rect(RAILS, "rail-released", x - 4, middle - 2.5, 8, 5)
        if not self.rows.shows(ended):
            return
        releaser = self.layout.column(line.entry.unit)
        if releaser is None:
            return
        if releaser.mark(0) > x:
            self.hairline(x + 5, releaser.mark(0) - 4, middle)
        else:
            row = self.rows.rows[self.rows.place[ended]]
            self.hairline(x - 5, self.label_end(row) + 4, middle)

    def hairline(self, start: float, stop: float, y: float) -> None:
        self.canvas.line(RAILS, "hairline", [(start, y), (stop, y)])

    # Memory end

    def memory_end(self) -> None:
        """A dashed rule where memory end begins, a heavy one where the address space has ended."""
        if not self.layout.order:
            return
        left, right = self.layout.order[0].left, max(column.right for column in self.layout.order)
        begins = self.history.memory_end
        if begins is not None and self.rows.shows(begins):
            y = self.rows.foot(begins) - 1
            self.canvas.line(BOXES, "memory-begins", [(left, y), (right, y)])
        for row in self.rows.rows:
            if row.line is not None and row.line.entry.verb == "MEMEND":
                y = self.rows.middle(row.index)
                column = self.layout.columns[MASTER]
                self.canvas.line(MARKS, "memory-ended", [(left, y), (column.mark(0) - 8, y)])
                self.canvas.line(MARKS, "memory-ended", [(self.label_end(row) + 6, y), (right, y)])


def draw(layout: Layout) -> Canvas:
    """The canvas of a layout."""
    return Drawing(layout).draw()
