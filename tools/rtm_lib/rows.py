"""Which lines are rows of the picture, and how far down each stands."""

from __future__ import annotations

from bisect import bisect_left
from dataclasses import dataclass, field
from typing import Dict, List, Optional, Sequence, Tuple

from .history import History, Line

ROW = 20.0
# The space above the first row, in which the job step task's pill stands.
HEAD = 30.0


@dataclass(frozen=True)
class Fold:
    """Rounds of a unit's lines that repeat the lines above them, in one row."""

    unit: str
    indexes: Tuple[int, ...]
    rounds: int
    says: str
    depth: int

    @property
    def text(self) -> str:
        """What stands in the trace's column."""
        return "%d \u2026 %d" % (self.indexes[0], self.indexes[-1])


@dataclass(frozen=True)
class Row:
    """A line, or a fold that stands where its first line would."""

    index: int
    unit: str
    line: Optional[Line] = None
    fold: Optional[Fold] = None


@dataclass
class Rows:
    """The rows in order, with their places."""

    history: History
    rows: List[Row]
    units: List[str]
    first: int
    last: int
    # By the name of a shown unit, those whose lines are like its own and aren't shown.
    like: Dict[str, List[str]] = field(default_factory=dict)

    def __post_init__(self) -> None:
        self.order = [row.index for row in self.rows]
        self.place = {row.index: place for place, row in enumerate(self.rows) if row.line is not None}
        # The row of the fold in which an entry is.
        self.fold_place = {index: place for place, row in enumerate(self.rows) if row.fold is not None
                           for index in row.fold.indexes}

    @property
    def is_whole(self) -> bool:
        """Whether each entry has its row."""
        return len(self.place) == self.history.length

    @property
    def foot_of_all(self) -> float:
        return HEAD + ROW * len(self.rows)

    def shows(self, index: int) -> bool:
        return index in self.place

    def top(self, index: Optional[int]) -> float:
        """The top of an entry's row or of its fold, or where it would stand."""
        if index is None or index > self.last:
            return self.foot_of_all
        if index in self.fold_place:
            return HEAD + ROW * self.fold_place[index]
        if index < 0:
            return HEAD
        return HEAD + ROW * bisect_left(self.order, index)

    def middle(self, index: Optional[int]) -> float:
        return self.top(index) + (ROW / 2 if self.has_row(index) else 0.0)

    def foot(self, index: Optional[int]) -> float:
        return self.top(index) + (ROW if self.has_row(index) else 0.0)

    def has_row(self, index: Optional[int]) -> bool:
        """Whether an entry has a row, its own or its fold's."""
        return index is not None and (index in self.place or index in self.fold_place)

    def reaches(self, born: int, ended: Optional[int]) -> bool:
        """Whether what lives from one entry to another is on the picture."""
        return born <= self.last and (ended is None or ended >= self.first)


def all_rows(history: History, units: Optional[Sequence[str]] = None, first: int = 0,
             last: Optional[int] = None) -> Rows:
    """A row for each line, or for those of some units and from one entry to another."""
    stop = history.length - 1 if last is None else min(last, history.length - 1)
    chosen = [Row(line.entry.index, line.entry.unit, line) for line in history.lines[max(first, 0):stop + 1]
              if units is None or line.entry.unit in units]
    return Rows(history, chosen, shown_units(history, units, first, stop), first, stop)


def shown_units(history: History, units: Optional[Sequence[str]], first: int, last: int) -> List[str]:
    """The units that live, or still hold something, between two entries."""
    shown = []
    for unit in history.units:
        lane = history.lanes[unit]
        holds = any(rail.unit == unit and rail.born <= last and (rail.ended is None or rail.ended >= first)
                    for rail in history.rails)
        lives = (lane.born is not None and lane.born <= last
                 and (lane.ended is None or lane.ended >= first or holds))
        if lives and (units is None or unit in units):
            shown.append(unit)
    return shown
