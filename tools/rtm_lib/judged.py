"""A deck and its trace as they are read for the words that show one: judged by `rtmrun verify` first."""

from __future__ import annotations

from dataclasses import dataclass
from typing import Optional, Tuple

from .deck import Deck, lines_of, read_deck, split_input
from .failures import CANNOT_READ, Failure, WRONG_WORDS
from .files import STDIN, read_file
from .history import History, follow
from .program import Rtmrun, Verdict
from .trace import NotUnderstood, Trace, read_trace


@dataclass(frozen=True)
class Judged:
    """What is legal of a trace, and what is said of the rest."""

    deck: Deck
    history: History
    verdict: Verdict
    # The first line that isn't legal, as it stands in the trace.
    wrong_line: str


def read_input(deck_name: str, trace_name: Optional[str]) -> Tuple[bytes, bytes]:
    """The deck, and the trace that was named or that stands behind the deck's END card."""
    if deck_name == STDIN and trace_name == STDIN:
        raise Failure("only one of deck and trace can be -; or give both behind one another as one -", WRONG_WORDS)
    deck_text, behind = split_input(read_file(deck_name))
    if trace_name is None:
        return deck_text, behind
    if behind.strip():
        raise Failure("lines stand behind the END card of %s, and a trace was named as well" % deck_name, WRONG_WORDS)
    return deck_text, read_trace_file(trace_name)


def read_trace_file(name: str) -> bytes:
    """The bytes of a trace that was named; an empty file isn't one, and asks for none to be made."""
    text = read_file(name)
    if not text:
        raise Failure("%s is empty" % ("standard input" if name == STDIN else name), CANNOT_READ)
    return text


def judge(rtmrun: Rtmrun, deck_text: bytes, trace_text: bytes) -> Judged:
    """The part of a trace that is legal; of one that is empty, the trace that rtmrun makes."""
    trace_text = trace_text or rtmrun.run(deck_text)
    verdict = rtmrun.verify(deck_text, trace_text)
    if verdict.legal == 0 and not verdict.is_legal:
        raise Failure("nothing of this trace is legal, so nothing can be said of it: %s" % verdict.line, verdict.status)
    deck = read_deck(deck_text)
    return Judged(deck, follow(deck, legal_part(trace_text, verdict)), verdict, wrong_line(trace_text, verdict))


def legal_part(trace_text: bytes, verdict: Verdict) -> Trace:
    """The entries before the first wrong one."""
    try:
        return read_trace(trace_text, verdict.legal)
    except NotUnderstood as line:
        raise Failure("rtmrun accepts this line of the trace, and rtm doesn't know it: %s" % line,
                      CANNOT_READ) from None


def wrong_line(trace_text: bytes, verdict: Verdict) -> str:
    """The first line that isn't legal, if there is one."""
    if verdict.is_legal:
        return ""
    lines = lines_of(trace_text)
    return lines[verdict.legal + 1] if verdict.legal + 1 < len(lines) else ""
