"""What the tests share: the program, the examples, and traces of random decks."""

from __future__ import annotations

import contextlib
import io
import os
import subprocess
import sys
import unittest
from html.parser import HTMLParser
from pathlib import Path
from typing import Dict, Iterator, List, Optional, Tuple
from unittest import mock

from rtm_lib.command import main
from rtm_lib.deck import read_deck
from rtm_lib.drawing import Drawing
from rtm_lib.failures import Failure
from rtm_lib.history import History, follow
from rtm_lib.layout import Layout, lay_out
from rtm_lib.program import REPOSITORY, Rtmrun, find
from rtm_lib.rows import Rows, all_rows
from rtm_lib.trace import read_trace

from .decks import random_deck

EXAMPLES = REPOSITORY / "examples"
COMPANION = REPOSITORY / "tools" / "rtm"
RANDOM_DECKS = 40


def program() -> Optional[Rtmrun]:
    """The built program, or None where it is missing."""
    try:
        return find()
    except Failure:
        return None


class WithProgram(unittest.TestCase):
    """Tests that ask rtmrun; skipped, and said so, where it isn't built."""

    rtmrun: Rtmrun

    @classmethod
    def setUpClass(cls) -> None:
        found = program()
        if found is None:
            raise unittest.SkipTest("rtmrun isn't built (./rtmrun --build), and RTMRUN names no program")
        cls.rtmrun = found


def example_decks() -> List[Path]:
    return sorted(EXAMPLES.glob("*.deck"))


def generated(seed: int) -> bytes:
    """A random deck: by the program that RTM_DECKS names, else by the tests' own generator."""
    maker = os.environ.get("RTM_DECKS")
    if maker is None:
        return random_deck(seed)
    return subprocess.run([sys.executable, maker, str(seed)], stdout=subprocess.PIPE, check=True).stdout


def random_runs(rtmrun: Rtmrun, number: int = RANDOM_DECKS, first: int = 1) -> Iterator[Tuple[str, bytes, bytes]]:
    """So many random decks that are read, each with its trace, from a seed on."""
    seed = first - 1
    while number:
        seed += 1
        deck = generated(seed)
        try:
            trace = rtmrun.run(deck)
        except Failure:
            continue
        number -= 1
        yield "seed %d" % seed, deck, trace


def all_runs(rtmrun: Rtmrun) -> Iterator[Tuple[str, bytes, bytes]]:
    """The examples and the random decks, each with its trace."""
    for path in example_decks():
        yield path.stem, path.read_bytes(), path.with_suffix(".trace").read_bytes()
    yield from random_runs(rtmrun)


def history_of(deck: bytes, trace: bytes) -> History:
    return follow(read_deck(deck), read_trace(trace))


def drawn(history: History, rows: Optional[Rows] = None) -> Tuple[Layout, Drawing]:
    """A picture as its layout and its finished drawing."""
    layout = lay_out(rows if rows is not None else all_rows(history))
    drawing = Drawing(layout)
    drawing.draw()
    return layout, drawing


class LinesOfPage(HTMLParser):
    """What selecting the lists of a page copies: the text of each line, without what can't be selected."""

    def __init__(self) -> None:
        super().__init__(convert_charrefs=True)
        self.lines: List[str] = []
        self.identities: List[str] = []
        self.depth_of_line = 0
        self.unselectable = 0
        self.open: List[bool] = []

    def handle_starttag(self, tag: str, attributes: List[Tuple[str, Optional[str]]]) -> None:
        given = dict(attributes)
        kinds = (given.get("class") or "").split()
        if tag == "li":
            self.lines.append("")
            self.depth_of_line = 1
            if given.get("id"):
                self.identities.append(given["id"] or "")
        hides = "said" in kinds or "wrong" in kinds
        if tag in ("li", "span"):
            self.open.append(hides)
            self.unselectable += hides

    def handle_endtag(self, tag: str) -> None:
        if tag in ("li", "span") and self.open:
            self.unselectable -= self.open.pop()
        if tag == "li":
            self.depth_of_line = 0

    def handle_data(self, data: str) -> None:
        if self.depth_of_line and not self.unselectable:
            self.lines[-1] += data


def copied(page: str) -> Tuple[bytes, List[str]]:
    """The trace as it is copied from a page, and the identities of its lines in their order."""
    reader = LinesOfPage()
    reader.feed(page)
    return ("\n".join(reader.lines) + "\n").encode(), reader.identities


def run_companion(*words: str, text: bytes = b"",
                  environment: Optional[Dict[str, str]] = None) -> "subprocess.CompletedProcess[bytes]":
    """Runs tools/rtm as a person would: in this process, since starting Python takes longer than most words do."""
    with contextlib.ExitStack() as changed:
        streams = [io.TextIOWrapper(io.BytesIO(given), encoding="utf-8", write_through=True)
                   for given in (text, b"", b"")]
        for name, stream in zip(("stdin", "stdout", "stderr"), streams):
            changed.enter_context(mock.patch.object(sys, name, stream))
        changed.enter_context(mock.patch.object(sys, "argv", [str(COMPANION)]))
        changed.enter_context(mock.patch.dict(os.environ, environment or {}))
        try:
            status = main(list(words))
        except SystemExit as ended:  # --help and --version end so
            status = int(ended.code or 0)
        written = [bytes(stream.buffer.getvalue()) for stream in streams[1:]]  # type: ignore[attr-defined]
    return subprocess.CompletedProcess(words, status, *written)
