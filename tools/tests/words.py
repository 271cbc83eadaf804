"""Calling the words of `rtm` in this process, and a call of each over one deck."""

from __future__ import annotations

import contextlib
import io
import os
import random
import traceback
from pathlib import Path
from typing import Iterator, List, Sequence, Tuple
from unittest import mock

from rtm_lib.command import main as companion
from rtm_lib.moments import prepare
from rtm_lib.program import Rtmrun

# The statuses that each word may end with over a deck that is read and a legal trace of it.
FINE = {"view": {0}, "why": {0}, "whynot": {0, 1, 20}, "lint": {0}, "sweep": {0}, "diff": {0, 1, 9, 10, 11}}
MOMENTS_OF_A_DECK = 8


def called(words: Sequence[str]) -> Tuple[int, str]:
    """Calls a word: its status, and what it wrote to standard error, or where it crashed."""
    errors = io.StringIO()
    try:
        # A fault of rtm itself, status 70, comes with its place.
        with contextlib.redirect_stderr(errors), mock.patch.dict(os.environ, {"RTM_TRACEBACK": "1"}):
            return companion(list(words)), errors.getvalue()
    except BaseException:  # a crash of any kind is what is looked for
        return -1, traceback.format_exc()


def text_of(words: Sequence[str], room: Path) -> Tuple[int, str]:
    """Calls a word that writes to a file: its status and the text."""
    written = room / "written"
    written.write_text("")
    status, errors = called(list(words) + ["-o", str(written)])
    return status, errors + written.read_text(encoding="utf-8")


def calls_over(rtmrun: Rtmrun, folder: Path, deck: bytes, trace: bytes, seed: int) -> Iterator[List[str]]:
    """A call of each word over one deck, with moments and entries that are drawn."""
    chosen = random.Random(seed)
    place, traced, nothing = str(folder / "a.deck"), str(folder / "a.trace"), ["-o", os.devnull]
    Path(place).write_bytes(deck)
    Path(traced).write_bytes(trace)
    lines = trace.splitlines(keepends=True)
    yield ["view", place, traced] + nothing
    yield ["view", place, traced, "--fold", "--svg"] + nothing
    if len(lines) > 2:
        yield ["why", place, str(chosen.randrange(len(lines) - 2)), traced] + nothing
    first = chosen.randrange(len(rtmrun.run(prepare(deck, None).base).splitlines()) - 1)
    yield ["sweep", place, "--from", str(first), "--to", str(first + MOMENTS_OF_A_DECK - 1)] + nothing
    yield ["whynot", place] + nothing
    yield ["lint", place] + nothing
    if len(lines) > 3:
        # A trace that lacks a line, whose rest is then not legal.
        other = folder / "b.trace"
        del lines[chosen.randrange(2, len(lines) - 1)]
        other.write_bytes(b"".join(lines))
        yield ["diff", place, traced, str(other)] + nothing
