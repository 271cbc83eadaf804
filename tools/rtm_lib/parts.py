"""What a picture says besides its drawing: title, counts, warning, and the header's names."""

from __future__ import annotations

from dataclasses import dataclass
from typing import List, Optional, Tuple

from .canvas import Canvas
from .deck import opening_sentence
from .history import History
from .layout import Layout, header_of
from .program import Verdict


@dataclass
class Picture:
    """A drawn layout with what was said of its trace."""

    title: str
    layout: Layout
    canvas: Canvas
    verdict: Verdict
    # The first line that isn't legal, as it stands in the trace.
    wrong_line: str = ""
    # What part of a long trace is drawn, where it isn't all.
    note: str = ""

    @property
    def history(self) -> History:
        return self.layout.rows.history

    @property
    def about(self) -> str:
        return opening_sentence(self.history.deck)

    @property
    def is_to_the_end(self) -> bool:
        """Whether the last row is the trace's last entry."""
        return self.layout.rows.last == self.history.length - 1

    @property
    def end_line(self) -> str:
        """The trace's last line, where all before it was legal and is drawn."""
        return self.history.trace.end if self.verdict.is_legal and self.is_to_the_end else ""

    def names(self) -> List[Tuple[float, str]]:
        """The lanes' names in the header, with their places."""
        return [(column.boxes_left, header_of(self.layout.rows, column)) for column in self.layout.order]

    def warning(self) -> Optional[str]:
        """What to say where the trace isn't legal."""
        if self.verdict.is_legal:
            return None
        drawn = self.verdict.legal
        before = "nothing is drawn" if drawn == 0 else (
            "only entry 0 is drawn" if drawn == 1 else "only entries 0 to %d are drawn" % (drawn - 1))
        if self.verdict.line.startswith("WRONGEND"):
            return "The entries are legal, but the trace has another end than it states."
        return "This trace isn't legal: %s, those before the first wrong line." % before


def counts(picture: Picture) -> str:
    """How much there is of everything, in a line."""
    history = picture.history
    errors = history.errors
    retried = sum(1 for error in errors if error.ending == "RETRY")
    units = [unit for unit in history.units if unit != "*"]
    words = [many(history.length, "entry", "entries"), many(len(units), "unit", "units")]
    words += [many(len(errors), "error", "errors")] if errors else []
    asked = sum(len(error.asks) for error in errors)
    words += [many(asked, "routine asked", "routines asked")] if asked else []
    words += [many(retried, "retry", "retries")] if retried else []
    released = sum(1 for rail in history.rails if rail.ending == "RELEASE")
    words += [many(released, "release", "releases")] if released else []
    unborn = [unit.name for unit in history.deck.units if unit.name not in history.lanes]
    if unborn:
        words.append("never born: " + (", ".join(unborn) if len(unborn) < 6 else str(len(unborn))))
    if not history.deck.sdwa:
        words.append("REGION SDWA=NO")
    if picture.verdict.is_legal:
        words.append(history.trace.end)
    return " \u00b7 ".join(words)


def many(number: int, one: str, more: str) -> str:
    return "%s %s" % (format(number, ","), one if number == 1 else more)
