"""What became of a command at a moment, in words, for the tables of `sweep`."""

from __future__ import annotations

from dataclasses import dataclass
from typing import Callable, List, Sequence, Tuple

from .moments import NEVER, Moment
from .parts import many


@dataclass
class Range:
    """Neighbouring moments at which the same became of the command."""

    moments: List[Moment]

    @property
    def name(self) -> str:
        first, last = self.moments[0].at, self.moments[-1].at
        return str(first) if first == last else "%d to %d" % (first, last)


def aligned(rows: Sequence[Sequence[str]]) -> List[str]:
    """Rows of cells as lines, each column as wide as its widest cell."""
    widths = [max(len(cell) for cell in column) for column in zip(*rows)]
    return ["  ".join(cell.ljust(width) for cell, width in zip(row, widths)).rstrip() for row in rows]


def ranges(moments: Sequence[Moment], key: Callable[[Moment], object]) -> List[Range]:
    """Neighbours with the same key."""
    found: List[Range] = []
    for moment in moments:
        if found and key(found[-1].moments[0]) == key(moment):
            found[-1].moments.append(moment)
        else:
            found.append(Range([moment]))
    return found


def row_of(one: Range) -> Tuple[str, ...]:
    moment = one.moments[0]
    ends = moment.code + ("" if moment.end == "END ENDED" else ", " + moment.end)
    return (one.name, landing_words(one), routine_words(moment), ", ".join(moment.released) or "-", ends)


def routine_words(moment: Moment) -> str:
    """Which routines were entered from the landing on, and how each was left."""
    return ", ".join("%s %s" % (entered.routine, entered.verdict or "(not left)")
                     for entered in moment.entered) or "-"


def landing_words(one: Range) -> str:
    """Where the command landed; of one that waited, behind which line of its unit, and how long."""
    moment = one.moments[0]
    if moment.fate == NEVER:
        return "it doesn't arrive"
    if moment.landed is None:
        return "merged with an earlier one" if moment.fate == "MERGED" else "it doesn't land"
    where = "in %s" % moment.inside if moment.inside else "as the unit begins"
    waits = sorted({each.waited for each in one.moments})
    if waits[-1] == 0:
        return where
    how_long = many(waits[0], "entry", "entries") if len(waits) == 1 else "%d to %d entries" % (waits[0], waits[-1])
    return "%s, after it waited %s, behind %s" % (where, how_long, moment.before or "no line")
