"""Folding long traces: units that do the same become one lane, rounds that repeat become one row.

The shape of a line is its words without index and unit, where a place is its card's operation. The number of an entry
is how many of the unit's own lines back it lies, or that it is the same entry as the last time. Lines of one shape do
the same thing again.

A fold never hides a LAND, a FAIL, an error that nobody recovered, or an arrow to a lane that isn't folded with it.
"""

from __future__ import annotations

from dataclasses import dataclass
from typing import Dict, Hashable, List, Optional, Sequence, Set, Tuple

from .history import History, Line
from .rows import Fold, Row, Rows
from .trace import MASTER

# The longest round that is looked for, and how many lines a fold must hide to be worth its row.
LONGEST_ROUND = 120
LEAST_HIDDEN = 3

Shape = Tuple[Hashable, ...]


class Shapes:
    """The shapes of all lines, each with a number."""

    def __init__(self, history: History) -> None:
        self.history = history
        self.numbers: Dict[Shape, int] = {}
        self.own: Dict[str, List[Line]] = {}
        self.position: List[int] = []
        # The entry that each unit named last where it named one that the card at this place made.
        self.named: Dict[Hashable, int] = {}
        for line in history.lines:
            own = self.own.setdefault(line.entry.unit, [])
            self.position.append(len(own))
            own.append(line)
        self.of_line = [self.number(self.shape(line)) for line in history.lines]

    def number(self, shape: Shape) -> int:
        return self.numbers.setdefault(shape, len(self.numbers))

    def shape(self, line: Line) -> Shape:
        entry = line.entry
        verb = entry.verb
        operation = line.card.operation if line.card is not None else "end"
        if verb == "EXEC":
            return (verb, operation, entry.return_code)
        if verb == "ERROR":
            return (verb, operation, entry.mark)
        if verb in ("LAND", "ENTER", "LEAVE"):
            goes_on = self.operation_at(line) if entry.place is not None else ""
            return (verb, entry.kind, self.reference(line), entry.mark, entry.verdict, goes_on, entry.logrec,
                    entry.dump, entry.without_sdwa)
        if verb == "ARRIVE":
            return (verb, entry.fate)
        if verb == "RELEASE":
            return (verb, entry.kind, entry.number, "own" if entry.owner == entry.unit else entry.owner)
        return (verb,) + entry.words

    def operation_at(self, line: Line) -> str:
        card = self.history.deck.card(line.entry.place)
        return card.operation if card is not None else "end"

    def reference(self, line: Line) -> Hashable:
        """Which entry a line names: how many own lines back, or which operation of which other unit."""
        entry = line.entry
        named = self.history.lines[entry.number]
        if named.entry.unit != entry.unit:
            return (named.entry.unit, named.card.operation if named.card is not None else named.entry.verb)
        key = (entry.unit, entry.verb, entry.kind, named.entry.place)
        last, self.named[key] = self.named.get(key), entry.number
        return "the same" if last == entry.number else self.position[entry.index] - self.position[entry.number]


@dataclass(frozen=True)
class Round:
    """A run of own lines that repeats: where it begins, how long it is, and how often it stands there."""

    start: int
    length: int
    times: int

    @property
    def hidden(self) -> int:
        return self.length * (self.times - 1)


def folded_rows(rows: Rows) -> Rows:
    """Folds lanes first, then rounds of the lanes that are left."""
    shapes = Shapes(rows.history)
    like = like_lanes(rows, shapes)
    gone = {unit for units in like.values() for unit in units}
    units = [unit for unit in rows.units if unit not in gone]
    folded: List[Row] = []
    shown = set(units)
    for unit in units:
        own = [row for row in rows.rows if row.unit == unit]
        folded += fold_rounds(own, shapes, shown)
    folded.sort(key=lambda row: row.index)
    return Rows(rows.history, folded, units, rows.first, rows.last, like)


# Lanes

def like_lanes(rows: Rows, shapes: Shapes) -> Dict[str, List[str]]:
    """By the name of a unit, those after it whose lines have the same shapes."""
    history = rows.history
    first: Dict[Tuple[str, str, Tuple[int, ...]], str] = {}
    like: Dict[str, List[str]] = {}
    for unit in rows.units:
        described = history.deck.unit(unit)
        if unit == MASTER or described is None or unit == history.deck.job_step:
            continue
        key = (described.program, described.kind,
               tuple(shapes.of_line[line.entry.index] for line in shapes.own.get(unit, [])))
        if key in first:
            like.setdefault(first[key], []).append(unit)
        else:
            first[key] = unit
    while True:
        gone = {unit for units in like.values() for unit in units}
        kept = {name: [unit for unit in units if not reaches_out(history, unit, gone)] for name, units in like.items()}
        kept = {name: units for name, units in kept.items() if units}
        if kept == like:
            return like
        like = kept


def reaches_out(history: History, unit: str, gone: Set[str]) -> bool:
    """Whether an arrow leads from a unit to a lane that stays."""
    for birth in history.births:
        if birth.parent == unit and birth.unit not in gone:
            return True
    return any(abort.poster == unit and abort.unit not in gone for abort in history.aborts)


# Rounds

def fold_rounds(own: Sequence[Row], shapes: Shapes, shown: Set[str]) -> List[Row]:
    """A unit's rows, with all but the first of equal rounds in one row."""
    numbers = [shapes.of_line[row.index] for row in own]
    following = next_equal(numbers)
    folded: List[Row] = []
    at = 0
    while at < len(own):
        found = best_round(numbers, following, at, own, shapes.history, shown)
        if found is None:
            folded.append(own[at])
            at += 1
            continue
        folded += own[at:at + found.length]
        hidden = own[at + found.length:at + found.length * found.times]
        folded.append(fold_of(hidden, found, shapes.history))
        at += found.length * found.times
    return folded


def next_equal(numbers: Sequence[int]) -> List[int]:
    """For each line the next one of its shape, or one behind the last line."""
    following = [len(numbers)] * len(numbers)
    seen: Dict[int, int] = {}
    for at in range(len(numbers) - 1, -1, -1):
        following[at] = seen.get(numbers[at], len(numbers))
        seen[numbers[at]] = at
    return following


def best_round(numbers: Sequence[int], following: Sequence[int], at: int, own: Sequence[Row], history: History,
               shown: Set[str]) -> Optional[Round]:
    """The round that begins at a line and hides the most."""
    best: Optional[Round] = None
    again = following[at]
    while again - at <= LONGEST_ROUND and 2 * again - at <= len(numbers):
        found = Round(at, again - at, repeats(numbers, at, again - at))
        again = following[again]
        least = max(LEAST_HIDDEN, best.hidden + 1 if best is not None else 0)
        if found.hidden >= least:
            found = as_far_as_allowed(found, own, history, shown)
        if found.hidden >= least:
            best = found
    return best


def repeats(numbers: Sequence[int], at: int, length: int) -> int:
    """How often a run of shapes stands there, one behind the other."""
    run = numbers[at:at + length]
    times = 1
    while numbers[at + length * times:at + length * (times + 1)] == run:
        times += 1
    return times


def as_far_as_allowed(found: Round, own: Sequence[Row], history: History, shown: Set[str]) -> Round:
    """The rounds up to the first one that may not be folded."""
    allowed = 1
    for number in range(found.times):
        start = found.start + number * found.length
        rows = own[start:start + found.length]
        if not is_balanced(own, start, found.length):
            break
        if number and any(may_not_hide(row.line, history, shown) for row in rows):
            break
        allowed = number + 1
    return Round(found.start, found.length, allowed)


def is_balanced(own: Sequence[Row], start: int, length: int) -> bool:
    """Whether a round opens and closes its own boxes and errors alone."""
    levels = [row.line.level if row.line is not None else 0 for row in own[start:start + length]]
    before = own[start - 1].line if start else None
    base = before.level if before is not None else levels[-1]
    return levels[-1] == base and min(levels) >= base


def may_not_hide(line: Optional[Line], history: History, shown: Set[str]) -> bool:
    """Whether a line must be seen."""
    if line is None:
        return True
    entry = line.entry
    if entry.verb in ("LAND", "ARRIVE", "BEGIN", "DONE", "MEMEND") or entry.verdict == "FAIL":
        return True
    if entry.verb == "ERROR":
        return line.error is None or line.error.ending != "RETRY"
    if entry.verb == "PURGE":
        return entry.owner in shown
    if entry.verb != "EXEC" or line.card is None:
        return False
    if line.abort is not None:
        return line.abort.unit in shown
    if line.card.operation in ("ATTACHX", "SCHEDULE"):
        return entry.return_code == 0 and line.card.positional(0) in shown
    return line.card.operation == "CALLRTM"


def fold_of(hidden: Sequence[Row], found: Round, history: History) -> Row:
    """The row of a fold."""
    lines = [row.line for row in hidden if row.line is not None]
    first = lines[0]
    depth = first.depth - 1 if first.entry.verb == "ENTER" else first.depth
    fold = Fold(hidden[0].unit, tuple(row.index for row in hidden), found.times - 1,
                what_goes_on(lines, found, history), depth)
    return Row(hidden[0].index, hidden[0].unit, None, fold)


def what_goes_on(lines: Sequence[Line], found: Round, history: History) -> str:
    """What a band says of the rounds behind it."""
    first = lines[0]
    says = "more"
    if found.length == 1:
        says = "more " + (first.card.operation if first.entry.verb == "EXEC" and first.card is not None
                          else first.entry.verb)
    indexes = {line.entry.index for line in lines}
    kept = [rail for rail in history.rails if rail.born in indexes and rail.ended not in indexes]
    names = sorted({"%s %d" % (rail.resource, rail.number) for rail in kept})
    if found.length > 1 and kept:
        same = len(names) == 1 and len(kept) == found.times - 1
        says += ", each holds %s" % names[0] if same else ", %d holdings stay" % len(kept)
    return says
