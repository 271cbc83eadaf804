"""Where everything stands: lanes from left to right, with room for what waits, what is held and what is said."""

from __future__ import annotations

from dataclasses import dataclass
from typing import Dict, Iterator, List, Optional, Tuple

from .canvas import sans_width
from .history import Rail
from .labels import (LABEL_LETTER, TRACE_LETTER, Chip, Item, Word, cut_to, is_cut, items_of, least_width, pill_name,
                     runs, width_of)
from .rows import Row, Rows
from .trace import MASTER

# What fits into a window of 1280 pixels beside its scroll bar.
PAGE = 1264.0
MARGIN = 12.0
LANE_GAP = 8.0
PENDING_LEFT = 12.0
PENDING_RIGHT = 10.0
RAIL = 10.0
BEFORE_BOXES = 5.0
STEP = 19.0
STEP_RIGHT = 3.0
MARK = 10.0
LABEL = 20.0
VERDICT = 17.0
LEAST_LANE = 90.0
LEAST_LABEL = 80.0
LEAST_TEXT = 100.0
NAME_SIZE = 10.0
HEADER_SIZE = 11.5
ARROW_ROOM = 14.0


@dataclass
class Column:
    """A lane's place from left to right. The master may share one with a unit that ended before."""

    units: List[str]
    pending_left: int = 0
    pending_right: int = 0
    rails: int = 0
    left: float = 0.0
    width: float = 0.0

    @property
    def right(self) -> float:
        return self.left + self.width

    @property
    def boxes_left(self) -> float:
        return self.left + self.left_parts

    @property
    def left_parts(self) -> float:
        return PENDING_LEFT * self.pending_left + RAIL * self.rails + BEFORE_BOXES

    def box_left(self, depth: int) -> float:
        return self.boxes_left + STEP * depth

    def box_right(self, depth: int) -> float:
        return self.right - PENDING_RIGHT * self.pending_right - 4 - STEP_RIGHT * depth

    def mark(self, depth: int) -> float:
        """The middle of the marks of a depth."""
        return self.box_left(depth) + MARK

    def rail_x(self, number: int) -> float:
        """Rail columns are counted from the boxes outward."""
        return self.boxes_left - BEFORE_BOXES - RAIL * number - 3

    def pending_x(self, number: int, at_right: bool) -> float:
        """Pending columns are counted from the boxes outward."""
        if at_right:
            return self.right - PENDING_RIGHT * (self.pending_right - 1 - number) - 3
        return self.left + PENDING_LEFT * (self.pending_left - 1 - number) + 5


@dataclass
class Layout:
    """The picture's columns, what stands in each row, and how wide all is."""

    rows: Rows
    columns: Dict[str, Column]
    order: List[Column]
    items: Dict[int, List[Item]]
    rail_columns: Dict[int, int]
    pending_columns: Dict[int, Tuple[int, bool]]
    text_right: float = 0.0
    width: float = 0.0
    page: float = PAGE

    def __post_init__(self) -> None:
        self.rows_of: Dict[str, List[Row]] = {}
        for row in self.rows.rows:
            self.rows_of.setdefault(row.unit, []).append(row)
        # The deepest box of each unit, also where a part of a trace has no line in it.
        self.deepest: Dict[str, int] = {}
        for box in self.rows.history.boxes:
            if self.rows.reaches(box.born, box.ended) and box.born not in self.rows.fold_place:
                self.deepest[box.unit] = max(self.deepest.get(box.unit, 0), box.depth)
        # Lines at whose right an abort's arrow comes in.
        self.arrows_at_right = {abort.landed for number, abort in enumerate(self.rows.history.aborts)
                                if self.pending_columns.get(number, (0, False))[1]}

        largest = max(self.rows.order[-1:] + list(self.rows.fold_place) + [0])
        self.index_letters = len(str(largest))

    def text_end(self, row: Row) -> float:
        """Where a row's words in the trace's column end; indexes are set flush right."""
        padding = self.index_letters - len(str(row.index)) if row.line is not None else self.index_letters + 1
        return MARGIN + TRACE_LETTER * (padding + len(text_of(row)))

    @property
    def is_wide(self) -> bool:
        """Whether the page scrolls sideways, under the trace's column."""
        return self.width > self.page

    def column(self, unit: str) -> Optional[Column]:
        return self.columns.get(unit)

    def rows_in(self, column: Column) -> Iterator[Row]:
        """The rows of a column, of all units in it."""
        for unit in column.units:
            yield from self.rows_of.get(unit, [])

    def label_x(self, row: Row) -> float:
        """Where a row's label begins."""
        column = self.columns[row.unit]
        if row.line is None:
            return column.box_left(depth_of(row)) + VERDICT
        left = column.box_left(row.line.depth)
        verb = row.line.entry.verb
        return left + (MARK if verb == "ENTER" else VERDICT if verb == "LEAVE" else LABEL)

    def label_end(self, row: Row) -> float:
        """Where a row's label and chips end."""
        return self.label_x(row) + width_of(self.items[row.index])


def fold_items(row: Row) -> List[Item]:
    """The chip and the words of a fold's band."""
    assert row.fold is not None
    return [Chip("\u00d7%d" % row.fold.rounds, "verdict stop"), Word(row.fold.says, "remark")]


def make_columns(rows: Rows) -> Tuple[Dict[str, Column], List[Column]]:
    """A column for each unit; the master takes the last one whose unit was done before."""
    columns: Dict[str, Column] = {}
    order: List[Column] = []
    history = rows.history
    for unit in rows.units:
        if unit == MASTER:
            ended = [column for column in order
                     if is_done_before(rows, column.units[0], history.memory_end or 0)]
            if ended:
                ended[-1].units.append(unit)
                columns[unit] = ended[-1]
                continue
        column = Column([unit])
        columns[unit] = column
        order.append(column)
    return columns, order


def is_done_before(rows: Rows, unit: str, index: int) -> bool:
    done = rows.history.lanes[unit].done
    return done is not None and done < index


def lowest_free(ends: List[float], born: float) -> int:
    """The first column that is free from then on; a new one where none is."""
    for number, end in enumerate(ends):
        if end < born:
            return number
    ends.append(0.0)
    return len(ends) - 1


def place_rails(rows: Rows, columns: Dict[str, Column]) -> Dict[int, int]:
    """The column of each holding, by the entry that bore it."""
    places: Dict[int, int] = {}
    ends: Dict[str, List[float]] = {}
    for rail in rows.history.rails:
        column = columns.get(rail.unit)
        if column is None or not is_rail_shown(rows, rail):
            continue
        taken = ends.setdefault(rail.unit, [])
        number = lowest_free(taken, rail.born)
        taken[number] = float("inf") if rail.ended is None else rail.ended
        places[rail.born] = number
        column.rails = max(column.rails, number + 1)
    return places


def is_rail_shown(rows: Rows, rail: Rail) -> bool:
    """A holding that a fold has got isn't drawn; the fold's band says that it is there."""
    return rows.reaches(rail.born, rail.ended) and rail.born not in rows.fold_place


def place_aborts(rows: Rows, columns: Dict[str, Column]) -> Dict[int, Tuple[int, bool]]:
    """The pending column of each abort that was queued, and whether it is at the lane's right."""
    places: Dict[int, Tuple[int, bool]] = {}
    ends: Dict[Tuple[str, bool], List[float]] = {}
    position = {unit: number for number, unit in enumerate(rows.units)}
    for number, abort in enumerate(rows.history.aborts):
        column = columns.get(abort.unit)
        if column is None or abort.fate != "QUEUED" or not rows.reaches(abort.born, abort.ended):
            continue
        at_right = position.get(abort.poster, -1) > position[abort.unit]
        taken = ends.setdefault((abort.unit, at_right), [])
        place = lowest_free(taken, abort.born)
        taken[place] = float("inf") if abort.ended is None else abort.ended
        places[number] = (place, at_right)
        if at_right:
            column.pending_right = max(column.pending_right, place + 1)
        else:
            column.pending_left = max(column.pending_left, place + 1)
    return places


def header_of(rows: Rows, column: Column) -> str:
    """The name above a lane: its unit, those like it, and the master where it comes after."""
    unit = column.units[0]
    name = pill_name(unit)
    like = rows.like.get(unit, [])
    if len(like) == 1:
        name += ", and %s like it" % like[0]
    elif like:
        name += ", and %s to %s like it" % (like[0], like[-1])
    return name + ", then * master" if MASTER in column.units[1:] else name


def beside_label(layout: Layout, row: Row) -> float:
    """The room that a row needs behind its label and chips: a program's name, an arrow that comes in."""
    room = 8.0
    if row.line is not None and row.line.name_at_right:
        room += 10 + sans_width(row.line.name_at_right, NAME_SIZE)
    if row.index in layout.arrows_at_right:
        room += ARROW_ROOM
    return room


def needed_width(layout: Layout, column: Column, room: float) -> float:
    """What a lane's pills, header and rows need, where no card's text takes more than so much room."""
    parts = column.left_parts
    right = PENDING_RIGHT * column.pending_right + 4
    width = max(LEAST_LANE, parts + sans_width(header_of(layout.rows, column), HEADER_SIZE) + 6)
    for unit in column.units:
        pill = 14 + 6.9 * len(pill_name(unit))
        beside = runs(layout.rows.history, unit)
        width = max(width, parts + pill + (6 + sans_width(beside, 10.5) if beside else 0) + 8)
    deepest = max([layout.deepest.get(unit, 0) for unit in column.units])
    width = max(width, parts + (STEP + STEP_RIGHT) * deepest + LABEL + right)
    for row in layout.rows_in(column):
        end = layout.label_x(row) - column.left + least_width(layout.items[row.index], room)
        width = max(width, end + beside_label(layout, row) + STEP_RIGHT * depth_of(row) + right)
    return width


def depth_of(row: Row) -> int:
    """The depth of the box that a row is in."""
    if row.line is not None:
        return row.line.depth
    return row.fold.depth if row.fold is not None else 0


def lay_out(rows: Rows, page: float = PAGE) -> Layout:
    """Finds the widths. Where all is too wide, one bound on the cards' texts is lowered until it fits; then each
    text takes what its lane has."""
    columns, order = make_columns(rows)
    rail_columns = place_rails(rows, columns)
    pending_columns = place_aborts(rows, columns)
    whole = {row.index: items_of(row.line) if row.line is not None else fold_items(row) for row in rows.rows}
    layout = Layout(rows, columns, order, whole, rail_columns, pending_columns, page=page)
    layout.text_right = max([layout.text_end(row) for row in rows.rows] + [folded_text(rows), LEAST_TEXT]) + 8
    room = widest_label(whole)
    spread(layout, room)
    while layout.width > page and room > LEAST_LABEL:
        room = max(LEAST_LABEL, room - LABEL_LETTER)
        spread(layout, room)
    layout.items = {row.index: fitted(layout, row) for row in rows.rows}
    return layout


def folded_text(rows: Rows) -> float:
    """The room that the lines in folds take when they are opened."""
    entries = rows.history.trace.entries
    return MARGIN + TRACE_LETTER * max([len(entries[index].line) for index in rows.fold_place] + [0])


def fitted(layout: Layout, row: Row) -> List[Item]:
    """A row's items, with a card's text cut to what its lane has."""
    column = layout.columns[row.unit]
    behind = beside_label(layout, row) - 4
    return cut_to(layout.items[row.index], column.box_right(depth_of(row)) - behind - layout.label_x(row))


def text_of(row: Row) -> str:
    """A row's words in the trace's column."""
    if row.line is not None:
        return row.line.entry.line
    return "%s %s" % (row.fold.text, row.unit) if row.fold is not None else ""


def widest_label(items: Dict[int, List[Item]]) -> float:
    widths = [item.width for row in items.values() for item in row if is_cut(item)]
    return max(widths + [LEAST_LABEL])


def spread(layout: Layout, room: float) -> None:
    """Sets the columns side by side."""
    left = layout.text_right + 8
    for column in layout.order:
        column.left = left
        column.width = needed_width(layout, column, room)
        left = column.right + LANE_GAP
    layout.width = left
