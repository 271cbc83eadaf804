"""The word `why`: what happened at an entry, by which rule, and what the lines and cards show of the reason."""

from __future__ import annotations

import argparse
import json
from typing import Any, Dict, List

from .failures import Failure, WRONG_WORDS, tell
from .files import write
from .history import History, Line, Registration
from .judged import Judged, judge, read_input
from .program import find
from .reasons import reasons, there
from .rules import SECTIONS, sections_of
from .sentences import sentence
from .trace import MASTER

# Whose routines are worth a list: lines that are about an error, or an end.
KINDS = ("FRR", "ESTAE", "ESTAI", "MGR")
WITH_ROUTINES = frozenset(["ERROR", "LAND", "ENTER", "LEAVE", "BEGIN"])


def why(arguments: argparse.Namespace) -> int:
    """Explains one entry, and ends with the status of `verify`."""
    judged = judge(find(arguments.rtmrun), *read_input(arguments.deck, arguments.trace))
    line = entry_line(judged, arguments.entry)
    write(arguments.output, as_json(judged.history, line) if arguments.json else as_text(judged.history, line))
    if not judged.verdict.is_legal:
        tell(judged.verdict.line)
    return judged.verdict.status


def entry_line(judged: Judged, index: int) -> Line:
    """The line that was asked for, if it is a legal one."""
    lines = judged.history.lines
    if index < len(lines):
        return lines[index]
    if judged.verdict.is_legal:
        raise Failure("the trace has the entries 0 to %d" % (len(lines) - 1), WRONG_WORDS)
    raise Failure("the trace is legal before entry %d: %s" % (len(lines), judged.verdict.line), judged.verdict.status)


def rule_words(line: Line) -> List[str]:
    """The sections that have the rule, with their titles."""
    entry = line.entry
    return ["docs/MACHINE.md, section %d (%s)" % (section, SECTIONS[section])
            for section in sections_of(entry.verb, entry.kind, entry.verdict, entry.unit == MASTER)]


def registration_words(history: History, one: Registration) -> str:
    """A routine, with the card that made it."""
    card = " by %s" % one.card.text if one.card is not None else ""
    inherited = ", had since entry %d" % one.born if one.born != one.number else ""
    return "%s %d %s: entry %d%s%s" % (one.kind, one.number, one.program, one.number, card, inherited)


def facts(history: History, line: Line) -> Dict[str, Any]:
    """All that is said of an entry. FRRs come first; each kind is newest first, and ESTAI routines are as asked."""
    routines = there(history, line) if line.entry.verb in WITH_ROUTINES else []
    routines.sort(key=lambda one: KINDS.index(one.kind))
    return {"line": line.entry.line, "says": sentence(history, line), "rules": rule_words(line),
            "shown": reasons(history, line), "routines": [registration_words(history, one) for one in routines]}


def as_text(history: History, line: Line) -> str:
    told = facts(history, line)
    lines = [told["line"], told["says"], "Rule: " + "; ".join(told["rules"]) + "."]
    if told["shown"]:
        lines += ["", "What lines and cards show:"] + ["  " + one for one in told["shown"]]
    else:
        lines += ["", "No line or card shows more of its reason."]
    if told["routines"]:
        lines += ["", "Made and not gone before entry %d:" % line.entry.index]
        lines += ["  " + one for one in told["routines"]]
    return "\n".join(lines) + "\n"


def as_json(history: History, line: Line) -> str:
    return json.dumps(facts(history, line), indent=1) + "\n"
