"""Asking the built rtmrun. All that `rtm` says of a deck or a trace was asked here first."""

from __future__ import annotations

import os
import re
import subprocess
import time
from dataclasses import dataclass, replace
from pathlib import Path
from typing import List, Optional, Tuple

from .deck import lines_of, number_in
from .failures import (BAD_LINE, CANNOT_READ, CANNOT_WRITE, DECK_REFUSED, Failure, NO_MEMORY, NO_PROGRAM, NOT_LEGAL,
                       OK, WRONG_END)

REPOSITORY = Path(__file__).resolve().parents[2]
BUILT = REPOSITORY / "crates" / "rtmrun" / "out" / "rtmrun"
HOW_TO_BUILD = "./rtmrun --build"
# The endings of a run that was written: ended, stalled, at the limit of entries.
RUN_WRITTEN = (0, 4, 6)
TRACE_HEAD = b"RTMTRACE "
# What rtmrun says of itself, and not of deck and trace.
OTHER_STATUSES = (NO_MEMORY, CANNOT_READ, CANNOT_WRITE)
MOST_LETTERS = 100
# How long one run may take where runs are bounded.
MOST_SECONDS = 10.0


class TooLong(Failure):
    """Runs that were bounded have taken longer."""

    def __init__(self, message: str) -> None:
        super().__init__(message, CANNOT_READ)


@dataclass(frozen=True)
class Verdict:
    """What `verify` says of a trace: its line, its status, and how many entries stand before the first wrong one."""

    line: str
    status: int
    legal: int

    @property
    def is_legal(self) -> bool:
        return self.status == OK


@dataclass(frozen=True)
class Rtmrun:
    """The program, by its path. A moment of time.monotonic() may bound its runs: all end by it, each within a while."""

    path: Path
    until: Optional[float] = None

    def seconds(self) -> Optional[float]:
        """How long a run may take that begins now; None where it may take as long as it likes."""
        if self.until is None:
            return None
        left = self.until - time.monotonic()
        if left <= 0:
            raise TooLong("this takes too long, and was ended")
        return min(left, MOST_SECONDS)

    def ask(self, words: List[str], text: bytes) -> Tuple[int, bytes]:
        """Runs the program with these words over this input."""
        try:
            done = subprocess.run([str(self.path)] + words, input=text, stdout=subprocess.PIPE,
                                  stderr=subprocess.PIPE, check=False, timeout=self.seconds())
        except OSError as trouble:
            raise Failure("%s can't be run: %s" % (self.path, trouble.strerror), NO_PROGRAM) from None
        except subprocess.TimeoutExpired:
            raise TooLong("this takes too long, and was ended") from None
        return done.returncode, done.stdout

    def run(self, deck: bytes) -> bytes:
        """The trace of a deck, as one thread makes it."""
        status, written = self.ask(["seq"], deck)
        if status in RUN_WRITTEN and written.startswith(TRACE_HEAD):
            return written
        raise refusal(deck, status, written)

    def run_on_threads(self, deck: bytes) -> bytes:
        """A trace of a deck, as many threads make it. Nothing promises that such a run returns, so each is bounded."""
        bounded = self if self.until is not None else replace(self, until=time.monotonic() + MOST_SECONDS)
        status, written = bounded.ask(["run"], deck)
        if status in RUN_WRITTEN and written.startswith(TRACE_HEAD):
            return written
        raise refusal(deck, status, written)

    def verify(self, deck: bytes, trace: bytes) -> Verdict:
        """Whether the machine may make this trace of this deck, and how far."""
        if not deck.endswith(b"\n"):
            deck += b"\n"
        status, written = self.ask(["verify"], deck + trace)
        line = written.decode("latin-1").strip("\n")
        words = line.split(" ")
        number = number_in(words[1]) if len(words) > 1 else None
        entries = max(0, len(trace.split(b"\n")) - 3)
        if status == OK and words[0] == "VERIFIED" and number is not None:
            return Verdict(line, status, number)
        if status == WRONG_END and words[0] == "WRONGEND":
            return Verdict(line, status, entries)
        if status == NOT_LEGAL and words[0] == "NOTLEGAL" and number is not None:
            return Verdict(line, status, number)
        if status == BAD_LINE and words[0] == "LINE" and number is not None:
            return Verdict(line, status, self.before_bad_line(deck, trace, number))
        raise refusal(deck, status, written)

    def before_bad_line(self, deck: bytes, trace: bytes, bad: int) -> int:
        """How many entries before a bad line are legal: the lines before it are asked again, with an end put behind."""
        if bad < 2:
            return 0
        before = b"\n".join(trace.split(b"\n")[:bad - 1]) + b"\nEND STALLED\n"
        status, written = self.ask(["verify"], deck + before)
        words = written.decode("latin-1").split()
        number = number_in(words[1]) if len(words) > 1 else None
        if status == NOT_LEGAL and number is not None:
            return number
        return bad - 2 if status in (OK, WRONG_END) else 0


def refusal(deck: bytes, status: int, written: bytes) -> Failure:
    """What to say where the program wrote no run and no verdict."""
    line = written.decode("latin-1").strip("\n")
    if status == DECK_REFUSED and re.fullmatch("DECK [0-9]{1,18} [A-Za-z]+", line):
        lines = lines_of(deck)
        number = int(line.split(" ")[1])
        card = lines[number - 1] if 0 < number <= len(lines) else ""
        return Failure("the deck is refused: %s%s" % (line, ", which is: %s" % shortened(card) if card else ""),
                       DECK_REFUSED)
    if status in OTHER_STATUSES:
        return Failure("rtmrun ended with status %d: %s" % (status, shortened(line) or "it wrote nothing"), status)
    ending = "by signal %d" % -status if status < 0 else "with status %d" % status
    return Failure("this is no answer of rtmrun, so the program may be another: it ended %s and wrote %s" % (
        ending, shortened(line) or "nothing"), NO_PROGRAM)


def shortened(line: str) -> str:
    """As much of a line as has room in a message."""
    return line if len(line) <= MOST_LETTERS else line[:MOST_LETTERS] + " .."


def place_of(named: Optional[str]) -> Path:
    """Where the program should be: as the option says, or RTMRUN, or where the build leaves it."""
    named = os.environ.get("RTMRUN") or str(BUILT) if named is None else named
    # A name without a folder is a file here, and none of the PATH.
    return Path(os.path.abspath(named))


def find(named: Optional[str] = None) -> Rtmrun:
    """The program, or a failure that says how to build it."""
    path = place_of(named)
    if path.is_file() and os.access(str(path), os.X_OK):
        return Rtmrun(path)
    raise Failure("rtmrun isn't there: no program at %s; it is built by %s, or named by --rtmrun PATH or by the "
                  "environment variable RTMRUN" % (path, HOW_TO_BUILD), NO_PROGRAM)
