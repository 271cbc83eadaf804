"""What the page of `play` asks for: a deck's faults and its picture, a sweep, an example, and to save."""

from __future__ import annotations

import argparse
import re
import threading
import time
from collections import OrderedDict
from dataclasses import asdict
from pathlib import Path
from typing import Any, Dict, List, Optional

from .deck import opening_sentence, read_deck, split_input
from .failures import Failure, WRONG_WORDS
from .judged import judge
from .lint import faults_of, warnings_of
from .moments import moments_of, prepare, run_moments
from .page import page
from .parts import counts
from .program import REPOSITORY, Rtmrun
from .sweep import Sweep, answers, as_page
from .view import make_picture

EXAMPLES = REPOSITORY / "examples"
# The bounds of one request: seconds for all its runs, moments of a sweep, pictures that are kept for the browser.
SECONDS = 20.0
MOST_MOMENTS = 400
MOST_PICTURES = 8
# So many requests run decks at a time; others wait so many seconds for their turn.
AT_A_TIME = 2
PATIENCE = 10.0
SAVED_NAME = re.compile(r"[A-Za-z0-9_][A-Za-z0-9_.-]{0,80}\.deck")
TRACE_HEAD = b"RTMTRACE"


def bytes_of(text: str) -> bytes:
    """The bytes of a text; half a pair of surrogates has some too, which rtmrun then refuses."""
    return text.encode("utf-8", "surrogatepass")


class Busy(Exception):
    """Too many decks are being run."""


class Exists(Exception):
    """A file of that name is there, with other bytes than the page has seen."""


class Desk:
    """The decks and pictures of one person. Nothing is written but by `save`."""

    def __init__(self, rtmrun: Rtmrun, opened: Optional[str], text: bytes) -> None:
        self.rtmrun = rtmrun
        path = Path(opened) if opened is not None else None
        self.folder = path.parent.resolve() if path is not None else Path.cwd()
        self.opened = path.name if path is not None else ""
        self.text = text
        # What the page has seen of each file: it may be replaced without asking.
        self.seen: Dict[str, bytes] = {self.opened: text} if path is not None else {}
        self.pictures: "OrderedDict[int, str]" = OrderedDict()
        self.number = 0
        self.lock = threading.Lock()
        self.turns = threading.BoundedSemaphore(AT_A_TIME)

    def start(self) -> Dict[str, Any]:
        """What the page begins with."""
        return {"name": self.opened, "deck": self.text.decode("utf-8", "replace"), "folder": str(self.folder),
                "examples": [{"name": path.stem, "says": opening_sentence(read_deck(path.read_bytes()))}
                             for path in sorted(EXAMPLES.glob("*.deck"))]}

    def example(self, name: str) -> Dict[str, Any]:
        """The text of an example."""
        path = next((path for path in EXAMPLES.glob("*.deck") if path.stem == name), None)
        if path is None:
            raise Failure("there is no example %s" % name, WRONG_WORDS)
        return {"name": path.name, "deck": path.read_text(encoding="utf-8")}

    # Runs

    def bounded(self) -> Rtmrun:
        return Rtmrun(self.rtmrun.path, time.monotonic() + SECONDS)

    def in_turn(self, asked: Any, *given: Any) -> Dict[str, Any]:
        """Runs decks, a few requests at a time."""
        if not self.turns.acquire(timeout=PATIENCE):
            raise Busy()
        try:
            return dict(asked(self.bounded(), *given))
        finally:
            self.turns.release()

    def check(self, text: str, name: str, command: str, at: Optional[int]) -> Dict[str, Any]:
        """Faults and warnings; and where there is no fault the picture, perhaps with a command at a moment."""
        return self.in_turn(self.checked, bytes_of(text), name, command, at)

    def checked(self, rtmrun: Rtmrun, text: bytes, name: str, command: str, at: Optional[int]) -> Dict[str, Any]:
        deck, behind = split_input(text)
        faults = list(faults_of(rtmrun, deck))
        told: Dict[str, Any] = {"faults": [asdict(one) for one in faults],
                                "warnings": [asdict(one) for one in warnings_of(read_deck(deck))],
                                "tasks": [unit.name for unit in read_deck(deck).units if unit.kind == "TASK"]}
        if faults:
            return told
        if at is not None:
            deck, behind = prepare(deck, command or None).at(at), b""
        judged = judge(rtmrun, deck, behind if behind.startswith(TRACE_HEAD) else b"")
        wanted = argparse.Namespace(deck=name or "deck", unit=None, first=None, last=None, svg=False, fold=False,
                                    all=False)
        picture, strip = make_picture(wanted, judged)
        told.update(picture=self.keep(page(picture, strip)), says=counts(picture), verdict=judged.verdict.line)
        return told

    def sweep(self, text: str, name: str, command: str) -> Dict[str, Any]:
        """The page of a sweep."""
        return self.in_turn(self.swept, bytes_of(text), name, command)

    def swept(self, rtmrun: Rtmrun, text: bytes, name: str, command: str) -> Dict[str, Any]:
        ready = prepare(text, command or None)
        moments, there_are = moments_of(rtmrun, ready, 0, None, False, MOST_MOMENTS)
        said = list(ready.said)
        if len(moments) < there_are:
            said.append("%d of %d moments, evenly spread; rtm sweep --all runs all" % (len(moments), there_are))
        runs = run_moments(rtmrun, ready, moments, AT_A_TIME, lambda done: None)
        found = Sweep(name or "deck", ready.command, ready.unit, said, list(runs))
        return {"picture": self.keep(as_page(found, None)), "command": found.command, "says": answers(found, None)}

    # Pictures

    def keep(self, markup: str) -> int:
        """Keeps a page for the browser to fetch; the oldest ones go."""
        with self.lock:
            self.number += 1
            self.pictures[self.number] = markup
            while len(self.pictures) > MOST_PICTURES:
                self.pictures.popitem(last=False)
            return self.number

    def picture(self, number: int) -> Optional[str]:
        with self.lock:
            return self.pictures.get(number)

    # Files

    def save(self, name: str, text: str, replace: bool) -> Dict[str, Any]:
        """Writes a deck into the folder; over a file that the page hasn't seen only where that is asked for."""
        if name != self.opened and not SAVED_NAME.fullmatch(name):
            raise Failure("a deck is saved as letters, digits, - and _ with .deck behind them, and %s isn't so"
                          % (name or "no name"), WRONG_WORDS)
        path, written = self.folder / name, bytes_of(text)
        with self.lock:
            try:
                there = path.read_bytes() if path.exists() else None
                if there is not None and there != self.seen.get(name) and not replace:
                    raise Exists()
                path.write_bytes(written)
            except OSError as trouble:
                raise Failure("%s can't be written: %s" % (path, trouble.strerror), WRONG_WORDS) from None
            self.seen[name] = written
        return {"saved": str(path)}


def strings(given: Dict[str, Any], names: List[str]) -> List[str]:
    """Texts of a request; a ValueError where one isn't a text."""
    found = [given.get(name, "") for name in names]
    if not all(isinstance(one, str) for one in found):
        raise ValueError(names)
    return found
