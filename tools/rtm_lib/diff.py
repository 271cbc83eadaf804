"""The word `diff`: where two traces of a deck part, and what each unit did otherwise."""

from __future__ import annotations

import argparse
import json
from typing import Any, Dict, List, Optional, Tuple

from .deck import split_input
from .failures import Failure, NOT_ENTERED, OK, WRONG_WORDS, tell
from .files import STDIN, read_file, write
from .history import History, Line
from .judged import Judged, judge, read_trace_file
from .parts import many
from .program import find
from .reasons import reasons
from .sentences import sentence, unit_name

# The lines whose second word behind the verb is the number of an entry.
NAMES_ENTRY = frozenset(["ENTER", "LEAVE", "LAND"])
NAMES = ("first", "second")


def diff(arguments: argparse.Namespace) -> int:
    """Compares two traces, and ends with 1 where they part."""
    if [arguments.deck, arguments.one, arguments.other].count(STDIN) > 1:
        raise Failure("only one of the deck and the traces can be -", WRONG_WORDS)
    deck_text, behind = split_input(read_file(arguments.deck))
    if behind.strip():
        raise Failure("lines stand behind the END card of %s, and two traces were named" % arguments.deck, WRONG_WORDS)
    rtmrun = find(arguments.rtmrun)
    both = [judge(rtmrun, deck_text, read_trace_file(name)) for name in (arguments.one, arguments.other)]
    told = differences(both[0].history, both[1].history)
    write(arguments.output, json.dumps(told, indent=1) + "\n" if arguments.json else as_text(told))
    return ending(both, told)


def ending(both: List[Judged], told: Dict[str, Any]) -> int:
    """Says which trace isn't legal; else 0 or 1."""
    for name, judged in zip(NAMES, both):
        if not judged.verdict.is_legal:
            tell("the %s trace: %s; what stands before is compared" % (name, judged.verdict.line))
    wrong = [judged.verdict.status for judged in both if not judged.verdict.is_legal]
    return wrong[0] if wrong else OK if told["parts_at"] is None else NOT_ENTERED


# What differs

def differences(one: History, other: History) -> Dict[str, Any]:
    """Where the traces part, and for each unit where its own lines do."""
    pairs = [pair_at(one, other, index) for index in range(max(one.length, other.length))]
    parts_at = next((index for index, pair in enumerate(pairs) if text_of(pair[0]) != text_of(pair[1])), None)
    if parts_at is None and one.trace.end != other.trace.end:
        parts_at = one.length
    told: Dict[str, Any] = {"parts_at": parts_at, "entries": [one.length, other.length],
                            "ends": [one.trace.end, other.trace.end], "units": []}
    if parts_at is not None and parts_at < len(pairs):
        told["lines"] = [line_words(history, line) for history, line in zip((one, other), pairs[parts_at])]
    if parts_at is not None:
        units = list(dict.fromkeys(one.units + other.units))
        told["units"] = [of_unit(one, other, unit) for unit in units]
    return told


def pair_at(one: History, other: History, index: int) -> Tuple[Optional[Line], Optional[Line]]:
    return (one.lines[index] if index < one.length else None, other.lines[index] if index < other.length else None)


def text_of(line: Optional[Line]) -> str:
    return line.entry.line if line is not None else ""


def line_words(history: History, line: Optional[Line]) -> Dict[str, Any]:
    """A line in the words of `why`."""
    if line is None:
        return {"line": "", "says": "no line", "shown": []}
    return {"line": line.entry.line, "says": sentence(history, line), "shown": reasons(history, line)}


def own_lines(history: History, unit: str) -> List[Line]:
    return [line for line in history.lines if line.entry.unit == unit]


def shape(history: History, line: Line, places: Dict[int, Tuple[str, int]]) -> Tuple[object, ...]:
    """A line without its index; an entry that it names is told by its unit and its place among that unit's lines."""
    words: List[object] = list(line.entry.words)
    if line.entry.verb in NAMES_ENTRY:
        words[1] = places[line.entry.number]
    return (line.entry.verb,) + tuple(words)


def places_of(history: History) -> Dict[int, Tuple[str, int]]:
    """Of each entry its unit, and its place among that unit's lines."""
    count: Dict[str, int] = {}
    places = {}
    for line in history.lines:
        unit = line.entry.unit
        places[line.entry.index] = (unit, count.setdefault(unit, 0))
        count[unit] += 1
    return places


def of_unit(one: History, other: History, unit: str) -> Dict[str, Any]:
    """How many own lines are the same, and the first two that aren't."""
    both = [(history, own_lines(history, unit), places_of(history)) for history in (one, other)]
    shapes = [[shape(history, line, places) for line in lines] for history, lines, places in both]
    same = next((place for place, pair in enumerate(zip(*shapes)) if pair[0] != pair[1]), min(map(len, shapes)))
    told: Dict[str, Any] = {"unit": unit, "same": same, "lines": [len(lines) for _, lines, _ in both]}
    if max(told["lines"]) > same:
        told["then"] = [line_words(history, lines[same] if same < len(lines) else None) for history, lines, _ in both]
    return told


# Text

def as_text(told: Dict[str, Any]) -> str:
    """The place where the traces part, then each unit."""
    if told["parts_at"] is None:
        return "The traces are the same: %d entries, %s.\n" % (told["entries"][0], told["ends"][0])
    lines = ["The traces part at entry %d." % told["parts_at"]]
    if "lines" in told:
        lines += both_words(told["lines"])
    else:
        lines += ["  %s: %s" % pair for pair in zip(NAMES, told["ends"])]
    lines += ["", "Each unit by itself, whatever the turns:"]
    for unit in told["units"]:
        name = unit_name(unit["unit"])
        if "then" not in unit:
            lines.append("  %s does the same: %s." % (name, many(unit["same"], "line", "lines")))
        else:
            lines.append("  %s: the same for %s, then" % (name, many(unit["same"], "line", "lines")))
            lines += ["  " + one for one in both_words(unit["then"])]
    return "\n".join(lines) + "\n"


def both_words(pair: List[Dict[str, Any]]) -> List[str]:
    lines = []
    for name, told in zip(NAMES, pair):
        lines.append("  %s: %s" % (name, told["line"] or told["says"]))
        lines += ["    " + told["says"]] * bool(told["line"]) + ["    " + one for one in told["shown"]]
    return lines
