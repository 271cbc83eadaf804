"""`sweep --orders`: what becomes of all commands of a deck, in each order in which they may arrive.

With a number behind it so many runs on threads are made too: each has an order of its own, of units and of arrivals.
"""

from __future__ import annotations

import argparse
import json
from typing import Any, Dict, List, Optional

from .failures import Failure, NOT_ENTERED, OK, WRONG_WORDS
from .files import read_file, write
from .moments import check_routine, is_entered
from .orders import MOST_RUNS, Orders, Outcome, try_all
from .progress import progress
from .program import find
from .sweep_words import Range, aligned, landing_words, routine_words

COLUMNS = ("orders", "as with", "command", "lands", "routines entered from then on", "released", "ends with")


def sweep_orders(arguments: argparse.Namespace) -> int:
    """Runs all orders, and ends with 1 where a routine that is required isn't entered in some."""
    if arguments.html or arguments.plan or arguments.gather or arguments.all or arguments.at is not None or (
            arguments.first or arguments.last is not None):
        raise Failure("--orders takes --command, --require, --jobs, --json and -o alone", WRONG_WORDS)
    if len(arguments.decks) > 1:
        raise Failure("--orders takes one deck", WRONG_WORDS)
    if arguments.orders > MOST_RUNS:
        raise Failure("--orders makes %s runs on threads at most" % number_of(MOST_RUNS), WRONG_WORDS)
    text = read_file(arguments.decks[0])
    check_routine(text, arguments.require)
    found = try_all(find(arguments.rtmrun), text, arguments.command, arguments.jobs, progress(None),
                    on_threads=arguments.orders)
    write(arguments.output, as_json(found) if arguments.json else table(found, arguments.require))
    routine = arguments.require
    if routine is None or all(enters(outcome, routine) for outcome in found.outcomes if lands(outcome)):
        return OK
    return NOT_ENTERED


def lands(outcome: Outcome) -> bool:
    return any(moment.landed is not None for moment in outcome.moments)


def enters(outcome: Outcome, routine: str) -> bool:
    """Whether a routine is entered from the landing of some command on."""
    return any(is_entered(moment, routine) for moment in outcome.moments)


def orders_where(found: Orders, routine: str) -> int:
    return sum(outcome.orders for outcome in found.outcomes if enters(outcome, routine))


# Text

def number_of(value: int) -> str:
    return format(value, ",")


def table(found: Orders, routine: Optional[str]) -> str:
    """The head, a sentence for each routine, and the rows of each outcome."""
    number = found.number
    alone = sum(not outcome.orders for outcome in found.outcomes)
    lines = ["%s: %s orders of arrival on one thread, %s outcomes, %s runs" % (
        ", ".join(found.commands), number_of(number), number_of(len(found.outcomes) - alone), number_of(found.runs))]
    if found.runs_on_threads is not None:
        lines.append("%s runs on threads: %s different traces, %s further outcomes" % (
            number_of(found.runs_on_threads), number_of(found.traces), number_of(alone)))
    lines += ["(%s)" % one for one in found.said] + [""]
    names = [routine] if routine is not None else list(dict.fromkeys(
        entered.routine for outcome in found.outcomes for moment in outcome.moments for entered in moment.entered))
    for name in names:
        entered = orders_where(found, name)
        among = "each of the %s" % number_of(number) if entered == number else (
            "%s of the %s" % (number_of(entered), number_of(number)))
        on_threads = sum(outcome.on_threads for outcome in found.outcomes if enters(outcome, name))
        lines.append("%s is entered for a command in %s orders%s." % (
            name, among, "" if found.runs_on_threads is None else
            ", and in %s of the %s traces of threads" % (number_of(on_threads), number_of(found.traces))))
    lines += [""] if names else []
    rows: List[List[str]] = [columns_of(found)]
    for outcome in found.outcomes:
        rows += rows_of(found, outcome)
    return "\n".join(lines + aligned(rows)) + "\n"


def columns_of(found: Orders) -> List[str]:
    """The heads of the columns; where there are runs on threads their traces have one."""
    return [*COLUMNS[:1], *(["threads"] if found.runs_on_threads is not None else []), *COLUMNS[1:]]


def example_words(outcome: Outcome) -> str:
    """The arrivals of the first order or trace with this outcome, as it has them."""
    return ", ".join("%d ARRIVE %d" % (at, number) for number, at in outcome.example) or "none"


def rows_of(found: Orders, outcome: Outcome) -> List[List[str]]:
    """A row for each command; the first one has the number of orders, and an example."""
    rows = []
    for number, moment in enumerate(outcome.moments):
        counts = [number_of(outcome.orders)]
        if found.runs_on_threads is not None:
            counts.append(number_of(outcome.on_threads))
        first = [*counts, example_words(outcome)]
        if number > 0:
            first = [""] * len(first)
        ends = moment.code + ("" if moment.end == "END ENDED" else ", " + moment.end)
        rows.append(first + ["%d %s" % (number, found.commands[number]), landing_words(Range([moment])),
                             routine_words(moment), ", ".join(moment.released) or "-", ends])
    return rows


def as_json(found: Orders) -> str:
    outcomes: List[Dict[str, Any]] = [
        {"orders": outcome.orders, "example": [{"command": number, "index": at} for number, at in outcome.example],
         "moments": [moment.to_json() for moment in outcome.moments]} for outcome in found.outcomes]
    report: Dict[str, Any] = {"commands": found.commands, "said": found.said, "order": "one thread",
                              "orders": found.number, "runs": found.runs, "outcomes": outcomes}
    if found.runs_on_threads is not None:
        report["threads"] = {"runs": found.runs_on_threads, "traces": found.traces}
        for outcome, told in zip(found.outcomes, outcomes):
            told["threads"] = outcome.on_threads
    return json.dumps(report, indent=1) + "\n"
