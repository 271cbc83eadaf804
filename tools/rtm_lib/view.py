"""The word `view`: a deck and its trace as a picture."""

from __future__ import annotations

import argparse
from pathlib import Path
from typing import List, Optional, Tuple

from .deck import Deck
from .drawing import draw
from .failures import Failure, WRONG_WORDS, tell
from .files import STDIN, write
from .folds import folded_rows
from .history import History
from .judged import Judged, judge, read_input
from .layout import PAGE, lay_out
from .overview import strip_of, strip_width
from .page import page
from .parts import Picture
from .program import find
from .rows import Rows, all_rows
from .svg import svg

# Longer traces are folded, where neither --all nor a part was asked for.
FOLDED_FROM = 1500
# So many rows are drawn at most, so that the file stays small enough to open; --all draws them all.
MOST_ROWS = 3000


def view(arguments: argparse.Namespace) -> int:
    """Draws, and ends with the status of `verify`: 0 where all was legal."""
    rtmrun = find(arguments.rtmrun)
    judged = judge(rtmrun, *read_input(arguments.deck, arguments.trace))
    picture, strip = make_picture(arguments, judged)
    write(arguments.output, svg(picture) if arguments.svg else page(picture, strip))
    if not judged.verdict.is_legal:
        tell(judged.verdict.line)
    return judged.verdict.status


def make_picture(arguments: argparse.Namespace, judged: Judged) -> Tuple[Picture, str]:
    """The picture, and where it is folded the strip of all entries."""
    rows, note = choose_rows(arguments, judged.deck, judged.history)
    if not rows.rows and (is_part(arguments) or judged.history.length):
        raise Failure("no entry of the trace is in the part that was asked for", WRONG_WORDS)
    has_strip = not arguments.svg and not is_part(arguments) and not rows.is_whole
    layout = lay_out(rows, PAGE - strip_width(rows)) if has_strip else lay_out(rows)
    title = "deck" if arguments.deck == STDIN else Path(arguments.deck).stem
    picture = Picture(title, layout, draw(layout), judged.verdict, judged.wrong_line, note)
    return picture, strip_of(rows) if has_strip else ""


def is_part(arguments: argparse.Namespace) -> bool:
    return bool(arguments.unit) or arguments.first is not None or arguments.last is not None


def choose_rows(arguments: argparse.Namespace, deck: Deck, history: History) -> Tuple[Rows, str]:
    """Which entries are rows, and what to say where they aren't all."""
    check_units(arguments.unit, deck, history)
    first = arguments.first or 0
    rows = all_rows(history, arguments.unit, first, arguments.last)
    note = part_note(arguments, rows) if is_part(arguments) else ""
    if arguments.all or not (arguments.fold or len(rows.rows) > FOLDED_FROM):
        return rows, note
    folded = folded_rows(rows)
    if len(folded.rows) > MOST_ROWS:
        last = folded.rows[MOST_ROWS].index - 1
        folded = folded_rows(all_rows(history, arguments.unit, first, last))
        note += " Only entries %d to %d are drawn; --from and --to draw others, --all draws all." % (first, last)
    return folded, note.strip()


def check_units(names: Optional[List[str]], deck: Deck, history: History) -> None:
    for name in names or []:
        if name not in history.lanes:
            why = "was never born in this trace" if deck.unit(name) is not None else "isn't in the deck"
            raise Failure("the unit %s %s" % (name, why), WRONG_WORDS)


def part_note(arguments: argparse.Namespace, rows: Rows) -> str:
    """Which part of the trace is drawn."""
    units = " of " + ", ".join(arguments.unit) if arguments.unit else ""
    return "A part of the trace: entries%s from %d to %d." % (units, rows.first, rows.last)
