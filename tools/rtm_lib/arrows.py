"""Draws what leads from one line to another: births, errors' threads, retries, and aborts on their way."""

from __future__ import annotations

from typing import TYPE_CHECKING, List, Optional, Tuple

from .canvas import ABORTS, BIRTHS, RETRIES, THREADS, WORDS, number
from .history import BEFORE_ALL, Abort, ErrorThread, Retry
from .layout import Column
from .rules import Rule
from .trace import MASTER

if TYPE_CHECKING:
    from .drawing import Drawing

BEND = 5.0


def draw_arrows(drawing: "Drawing") -> None:
    """All arrows, each kind on its layer."""
    for birth in drawing.history.births:
        if birth.born != BEFORE_ALL and birth.unit in drawing.layout.columns:
            draw_birth(drawing, birth.unit, birth.born, birth.parent)
    for error in drawing.history.errors:
        column = drawing.layout.column(error.unit)
        if column is not None and error.born not in drawing.hidden and is_reached(drawing, error.born, error.ended):
            draw_thread(drawing, error, column)
    for retry in drawing.history.retries:
        column = drawing.layout.column(retry.unit)
        if column is not None and drawing.rows.shows(retry.born):
            draw_retry(drawing, retry, column)
    for place, abort in enumerate(drawing.history.aborts):
        column = drawing.layout.column(abort.unit)
        if column is not None and is_reached(drawing, abort.born, abort.ended):
            draw_abort(drawing, abort, column, drawing.layout.pending_columns.get(place))
    for row in drawing.rows.rows:
        if row.line is not None and row.line.entry.verb == "PURGE":
            draw_purge(drawing, row.index, row.line.entry.owner)


def is_reached(drawing: "Drawing", born: int, ended: Optional[int]) -> bool:
    return drawing.rows.reaches(born, ended)


def start_of(drawing: "Drawing", index: int, goal: float) -> Optional[float]:
    """Where an arrow leaves a line: behind its words, or left of its mark where it goes left."""
    if not drawing.rows.shows(index):
        return None
    row = drawing.rows.rows[drawing.rows.place[index]]
    column = drawing.layout.columns[row.unit]
    assert row.line is not None
    mark = column.mark(row.line.depth)
    return drawing.label_end(row) + 4 if goal > mark else mark - 6


# Births

def draw_birth(drawing: "Drawing", unit: str, born: int, parent: str) -> None:
    column = drawing.layout.columns[unit]
    start = start_of(drawing, born, column.boxes_left)
    if start is None:
        return
    y = drawing.rows.middle(born)
    if column.boxes_left > start:
        head, back = column.boxes_left - 1, -5
    else:
        head, back = drawing.pill_end(unit) + 4, 5
    drawing.canvas.line(BIRTHS, "birth", [(start, y), (head + back, y)])
    drawing.canvas.path(BIRTHS, "birth-head", y - 3, y + 3, "M%s %sl%d -3v6z" % (number(head), number(y), back))


# Errors

def draw_thread(drawing: "Drawing", error: ErrorThread, column: Column) -> None:
    """From an error down beside the routines that it asks, to what ended it."""
    rows = drawing.rows
    x = column.mark(error.depth)
    top = rows.middle(error.born) + 7 if rows.shows(error.born) else rows.top(error.born)
    for ask in error.asks:
        if rows.shows(ask):
            y = rows.middle(ask)
            drawing.canvas.line(THREADS, "thread", [(x, y), (column.box_left(error.depth + 1) - 5.5, y)])
    if error.ended is not None and error.ended <= rows.last and error.ending in ("BEGIN", "FAIL", "PURGE"):
        end_thread(drawing, error, column, x, top)
        return
    last = last_ask(drawing, error)
    if last is not None and last > top:
        drawing.canvas.line(THREADS, "thread", [(x, top), (x, last)])


def last_ask(drawing: "Drawing", error: ErrorThread) -> Optional[float]:
    """The height down to which a thread goes that nothing ended here."""
    rows = drawing.rows
    shown = [ask for ask in error.asks if ask <= rows.last]
    if len(shown) < len(error.asks):
        return rows.foot_of_all
    return rows.middle(shown[-1]) if shown else None


def end_thread(drawing: "Drawing", error: ErrorThread, column: Column, x: float, top: float) -> None:
    """A thread into BEGIN's square, or to the cross of a routine that failed by it."""
    rows = drawing.rows
    end = rows.top(error.ended)
    goal = x if error.ending == "PURGE" else column.mark(error.bracket_depth if error.ending == "FAIL" else 0)
    points = [(x, top)]
    if goal != x:
        points += [(x, end + 2), (goal, end + 2)]
    shown = error.ended is not None and rows.shows(error.ended)
    points.append((goal, end + ((5 if error.ending == "FAIL" else 6) if shown and error.ending != "PURGE" else 0)))
    drawing.canvas.line(THREADS, "thread", points, 3)
    if error.ending == "FAIL" and shown:
        drawing.canvas.path(THREADS, "thread-dead", end, end + 20, "M%s %sl7 7m0 -7l-7 7" % (
            number(goal - 3.5), number(end + 6.5)))


# Retries

def draw_retry(drawing: "Drawing", retry: Retry, column: Column) -> None:
    """From the routine's edge to the request block that goes on, down to its next line."""
    rows = drawing.rows
    left = drawing.history.lines[retry.born].depth
    start, goal = column.box_left(left), column.mark(retry.depth)
    y = rows.middle(retry.born)
    head = next_head(drawing, retry)
    points = [(start, y), (goal, y), (goal, head - 4)]
    drawing.canvas.line(RETRIES, "retry-arrow", points, BEND)
    drawing.canvas.path(RETRIES, "retry-head", head - 8, head, "M%s %sl-4 -7h8z" % (number(goal), number(head)))


def next_head(drawing: "Drawing", retry: Retry) -> float:
    """Where the arrow's head is: above the mark of the unit's next line, or at the foot where there is none."""
    rows = drawing.rows
    if retry.next_line is None or retry.next_line > rows.last:
        return rows.foot_of_all - 2
    if not rows.shows(retry.next_line):
        return rows.top(retry.next_line) + 2
    verb = drawing.history.lines[retry.next_line].entry.verb
    room = 8.5 if verb in ("ERROR", "LAND") else 6 if verb == "BEGIN" else 7 if verb == "LEAVE" else 4
    return rows.middle(retry.next_line) - room


# Aborts

def draw_abort(drawing: "Drawing", abort: Abort, column: Column, place: Optional[Tuple[int, bool]]) -> None:
    """An abort's way: posted, pending or held back, landed; or a bar where it was merged or late."""
    if abort.fate == "LATE":
        draw_late(drawing, abort, column)
    elif abort.fate == "MERGED":
        draw_merged(drawing, abort)
    elif place is not None:
        x = column.pending_x(*place)
        draw_posting(drawing, abort, x)
        draw_waiting(drawing, abort, x)
        if abort.landed is not None and drawing.rows.shows(abort.landed):
            draw_landing(drawing, abort, column, x, place[1])


def draw_posting(drawing: "Drawing", abort: Abort, x: float) -> None:
    """From the posting line to the pending column; the operator's command is a triangle there."""
    if not drawing.rows.shows(abort.born):
        return
    y = drawing.rows.middle(abort.born)
    if not abort.poster:
        draw_triangle(drawing, x, y, "command")
        return
    start = start_of(drawing, abort.born, x)
    if start is not None:
        drawing.canvas.line(ABORTS, "abort", [(start, y), (x, y), (x, y + BEND)], BEND)


def draw_triangle(drawing: "Drawing", x: float, y: float, style: str) -> None:
    drawing.canvas.path(ABORTS, style, y - 5, y + 5, "M%s %sl8 5l-8 5z" % (number(x - 5), number(y - 5)))


def draw_waiting(drawing: "Drawing", abort: Abort, x: float) -> None:
    """Down the pending column: dots while it might land, a ladder while it is held back."""
    rows = drawing.rows
    top = rows.middle(abort.born) + (BEND if abort.poster else 6) if rows.shows(abort.born) else rows.top(abort.born)
    if abort.landed is not None and rows.shows(abort.landed):
        foot = rows.middle(abort.landed) - BEND
    else:
        foot = rows.top(abort.ended)
    for start, stop, held in waiting_parts(drawing, abort, top, foot):
        style = "waiting" if held is None else "waiting held"
        drawing.canvas.line(ABORTS, style, [(x, start), (x, stop)],
                            hover=held.hover if held is not None else "")


def waiting_parts(drawing: "Drawing", abort: Abort, top: float,
                  foot: float) -> List[Tuple[float, float, Optional[Rule]]]:
    """The parts of a way down, each with the rule by which it is held back, if any."""
    changes = drawing.history.lanes[abort.unit].holding_back
    held = [rule for index, rule in changes if index <= abort.born]
    parts: List[Tuple[float, float, Optional[Rule]]] = []
    now, start = (held[-1] if held else None), top
    for index, rule in changes:
        if index <= abort.born or (abort.ended is not None and index >= abort.ended):
            continue
        stop = min(max(drawing.rows.foot(index), start), foot)
        if (rule is None) != (now is None) and stop > start:
            parts.append((start, stop, now))
            start = stop
        now = rule
    if foot > start:
        parts.append((start, foot, now))
    return parts


def draw_landing(drawing: "Drawing", abort: Abort, column: Column, x: float, at_right: bool) -> None:
    """The last bend, with its head at the landing's mark, or at the end of its words where it comes from the right."""
    assert abort.landed is not None
    y = drawing.rows.middle(abort.landed)
    row = drawing.rows.rows[drawing.rows.place[abort.landed]]
    assert row.line is not None
    if at_right:
        head, back = drawing.label_end(row) + 5, 7
    else:
        head, back = column.mark(row.line.depth) - 8, -7
    drawing.canvas.line(ABORTS, "abort", [(x, y - BEND), (x, y), (head + back, y)], BEND)
    drawing.canvas.path(ABORTS, "abort-head", y - 4, y + 4, "M%s %sl%d -4v8z" % (number(head), number(y), back))


def draw_late(drawing: "Drawing", abort: Abort, column: Column) -> None:
    """An abort that came too late ends in a bar at the lane."""
    goal = column.left - 2
    start = start_of(drawing, abort.born, goal)
    if start is None or abort.unit == abort.poster:
        return
    # (The master may stand in the column of a unit that was done before: then the bar is at the left of its own mark.)
    goal = column.right - 2 if start > column.right else column.left + 2
    draw_bar(drawing, start, goal, drawing.rows.middle(abort.born))


def draw_merged(drawing: "Drawing", abort: Abort) -> None:
    """A merged abort ends in a bar at the pending one; the operator's is a hollow triangle there."""
    if not drawing.rows.shows(abort.born):
        return
    column = drawing.layout.columns[abort.unit]
    y = drawing.rows.middle(abort.born)
    for place, other in enumerate(drawing.history.aborts):
        held = drawing.layout.pending_columns.get(place)
        if held is None or (other.unit, other.kind) != (abort.unit, abort.kind):
            continue
        if other.born < abort.born and (other.ended is None or other.ended > abort.born):
            x = column.pending_x(*held)
            if abort.poster:
                start = start_of(drawing, abort.born, x)
                if start is not None:
                    draw_bar(drawing, start, x - 3 if start < x else x + 3, y)
            else:
                drawing.canvas.rect(ABORTS, "lane", x - 5, y - 8, 10, 16)
                draw_triangle(drawing, x, y, "command hollow")


def draw_bar(drawing: "Drawing", start: float, goal: float, y: float) -> None:
    drawing.canvas.line(ABORTS, "abort", [(start, y), (goal, y)])
    drawing.canvas.path(ABORTS, "abort", y - 5, y + 5, "M%s %sv10" % (number(goal), number(y - 5)))


# Memory end

def draw_purge(drawing: "Drawing", index: int, unit: str) -> None:
    """From the master to the unit that it takes away."""
    column = drawing.layout.column(unit)
    if column is None or MASTER not in drawing.layout.columns:
        return
    y, x = drawing.rows.middle(index), column.mark(0)
    drawing.canvas.path(WORDS, "purged", y - 4, y + 4, "M%s %sl8 8m0 -8l-8 8" % (number(x - 4), number(y - 4)))
    start = start_of(drawing, index, x)
    if start is not None:
        drawing.canvas.line(BIRTHS, "birth", [(start, y), (x + 6 if x < start else x - 6, y)])
