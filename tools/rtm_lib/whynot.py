"""The word `whynot`: which change of one operand has an error retried, found by running each changed deck."""

from __future__ import annotations

import argparse
import json
from concurrent.futures import ThreadPoolExecutor
from dataclasses import dataclass
from typing import Any, Dict, Iterator, List, Optional, Tuple

from .deck import Card, Deck, read_deck, split_input
from .failures import Failure, NOT_ENTERED, OK, WRONG_WORDS
from .files import read_file, write
from .history import ErrorThread, History, follow
from .program import Rtmrun, find
from .progress import progress
from .trace import read_trace

# Which operands of a card that was executed are turned from YES to NO or back, with their defaults.
FLAGS: Dict[str, Dict[str, str]] = {
    "ESTAEX": {"TERM": "NO", "CANCEL": "YES", "XCTL": "NO"}, "ATTACHX": {"TERM": "NO"}, "DETACH": {"STAE": "NO"},
    "CALLRTM": {"RETRY": "YES", "DUMP": "NO"}, "CANCEL": {"DUMP": "NO"}, "SETRP": {"REMREC": "NO"},
    "REGION": {"SDWA": "YES"},
}
MOST_RUNS = 2000


@dataclass(frozen=True)
class Change:
    """One operand of one card."""

    card: Card
    operands: Tuple[str, ...]
    says: str

    @property
    def line(self) -> str:
        """The card as it is changed, without its remark."""
        return "%s %s %s" % (self.card.name, self.card.operation, ",".join(self.operands))


@dataclass(frozen=True)
class Retried:
    """A change with which the error is retried: by whom, where it goes on, and with what the unit ends, if it does."""

    change: Change
    routine: str
    goes_on: str
    ends: str


def whynot(arguments: argparse.Namespace) -> int:
    """Tries all changes, and ends with 1 where none makes a retry."""
    rtmrun = find(arguments.rtmrun)
    text, _ = split_input(read_file(arguments.deck))
    history = run(rtmrun, text)
    error = wanted_error(history, arguments.entry)
    if error.ending == "RETRY":
        raise Failure("the error of entry %d is retried, at entry %d" % (error.born, error.ended or 0), WRONG_WORDS)
    changes = list(changes_of(history, error))
    chosen = changes[:MOST_RUNS]
    found = try_changes(rtmrun, text, history, error, chosen, arguments.jobs)
    told = facts(history, error, len(chosen), len(changes), found)
    write(arguments.output, json.dumps(told, indent=1) + "\n" if arguments.json else as_text(told))
    return OK if found else NOT_ENTERED


def run(rtmrun: Rtmrun, text: bytes) -> History:
    return follow(read_deck(text), read_trace(rtmrun.run(text)))


def wanted_error(history: History, index: Optional[int]) -> ErrorThread:
    """The error that was born at an entry, or the last one that ended its unit."""
    if index is not None:
        found = [error for error in history.errors if error.born == index]
        if not found:
            raise Failure("entry %d is no ERROR and no LAND" % index, WRONG_WORDS)
        return found[0]
    lost = [error for error in history.errors if error.ending == "BEGIN"]
    if not lost:
        raise Failure("no error of this run ended its unit; --entry names another", WRONG_WORDS)
    return lost[-1]


# Changes

def changes_of(history: History, error: ErrorThread) -> Iterator[Change]:
    """Changes of cards that were executed, and of commands that arrived, before the error ended."""
    stop = error.ended if error.ended is not None else history.length
    for card in cards_before(history, stop):
        yield from flags_of(card)
        if card.operation in ("SETRP", "RET15"):
            yield from answers_of(history.deck, card)


def cards_before(history: History, stop: int) -> List[Card]:
    """The cards of the lines before an entry, each once, in the order of the deck; REGION, if it takes SDWAs away."""
    region = history.deck.region
    found: Dict[int, Card] = {region.number: region} if region is not None and not history.deck.sdwa else {}
    for line in history.lines[:stop]:
        if line.entry.verb in ("EXEC", "ERROR") and line.card is not None:
            found[line.card.number] = line.card
        if line.entry.verb == "ARRIVE" and line.entry.number < len(history.deck.commands):
            command = history.deck.commands[line.entry.number]
            found[command.number] = command
    return [found[number] for number in sorted(found)]


def flags_of(card: Card) -> Iterator[Change]:
    """Each YES or NO turned."""
    if (card.operation, card.positional(0)) in (("ESTAEX", "0"), ("CALLRTM", "MEMTERM")) or (
            card.operation == "ATTACHX" and not card.value("ESTAI")):
        return
    for key, default in FLAGS.get(card.operation, {}).items():
        yield with_value(card, key, "NO" if (card.value(key) or default) == "YES" else "YES")


def answers_of(deck: Deck, card: Card) -> Iterator[Change]:
    """Another return code, and each other label that a retry could go on at."""
    if card.return_code != 4:
        if card.operation == "RET15":
            yield Change(card, ("4",) + card.operands[1:], "4 for %s" % card.positional(0))
        else:
            yield with_value(card, "RC", "4")
    labels = dict.fromkeys(one.name for program in deck.programs.values() for one in program.cards if one.name)
    for label in labels:
        if label != card.value("RETADDR"):
            yield with_value(card, "RETADDR", label)


def with_value(card: Card, key: str, value: str) -> Change:
    """A card with another value of one key."""
    old = [operand for operand in card.operands if operand.startswith(key + "=")]
    new = "%s=%s" % (key, value)
    if old:
        return Change(card, tuple(new if operand == old[0] else operand for operand in card.operands),
                      "%s for %s" % (new, old[0]))
    return Change(card, card.operands + (new,), "%s put in" % new)


# Runs

def try_changes(rtmrun: Rtmrun, text: bytes, history: History, error: ErrorThread, changes: List[Change],
                jobs: int) -> List[Retried]:
    """Runs each changed deck."""
    tell = progress(len(changes))
    place = (key_of(history, error), same_before(history, error))
    found = []
    with ThreadPoolExecutor(max(1, jobs)) as pool:
        for done, retried in enumerate(pool.map(lambda change: try_one(rtmrun, text, change, *place), changes), 1):
            tell(done)
            found += [retried] if retried is not None else []
    return found


def key_of(history: History, error: ErrorThread) -> Tuple[str, ...]:
    """What an error is in any run: its unit, and the card or the class that brought it."""
    entry = history.trace.entries[error.born]
    return (error.unit, entry.verb, entry.kind or str(entry.place))


def same_before(history: History, error: ErrorThread) -> int:
    """How many errors like it came before."""
    key = key_of(history, error)
    return sum(1 for other in history.errors if other.born < error.born and key_of(history, other) == key)


def try_one(rtmrun: Rtmrun, text: bytes, change: Change, key: Tuple[str, ...], before: int) -> Optional[Retried]:
    """Whether the error is retried with a change; a deck that can't be read, or has no such error, says nothing."""
    lines = text.split(b"\n")
    lines[change.card.number - 1] = change.line.encode("latin-1")
    try:
        history = run(rtmrun, b"\n".join(lines))
    except Failure:
        return None
    like = [error for error in history.errors if key_of(history, error) == key]
    if before >= len(like) or like[before].ending != "RETRY" or like[before].ended is None:
        return None
    line = history.lines[like[before].ended or 0]
    lane = history.lanes[like[before].unit]
    ends = history.trace.entries[lane.done].code if lane.done is not None else ""
    return Retried(change, line.routine, str(line.entry.place), ends)


# Text

def facts(history: History, error: ErrorThread, runs: int, there_are: int, found: List[Retried]) -> Dict[str, Any]:
    return {"line": history.trace.entries[error.born].line, "ended": error.ending, "runs": runs, "changes": there_are,
            "retried": [{"card": one.change.card.number, "now": one.change.card.text, "change": one.change.says,
                         "becomes": one.change.line, "routine": one.routine, "goes_on": one.goes_on,
                         "ends": one.ends} for one in found]}


def as_text(told: Dict[str, Any]) -> str:
    """The error, how many changes were run, and those that make a retry."""
    count = str(told["runs"])
    if told["runs"] < told["changes"]:
        count = "the first %d of %d" % (told["runs"], told["changes"])
    lines = [told["line"], "Changes of one operand of one card that was executed: %s, each run." % count]
    if not told["retried"]:
        lines.append("None of them has this error retried.")
    for one in told["retried"]:
        ends = "the unit ends with %s" % one["ends"] if one["ends"] else "the unit doesn't end"
        lines.append("  card %d, %s: %s. %s retries it at %s, and %s." % (
            one["card"], one["now"], one["change"], one["routine"], one["goes_on"], ends))
    return "\n".join(lines) + "\n"
