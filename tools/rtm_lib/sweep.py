"""The word `sweep`: what becomes of a cancel at each moment of a run."""

from __future__ import annotations

import argparse
import json
import shlex
import sys
from dataclasses import dataclass
from pathlib import Path
from typing import Any, Dict, List, Optional, Sequence, Tuple

from .deck import number_in
from .failures import CANNOT_READ, Failure, NOT_ENTERED, OK, WRONG_WORDS, tell
from .files import STDIN, read_file, write
from .moments import (NEVER, Moment, Swept, check_routine, is_entered, listed_moments, moments_of, prepare, row_key,
                      run_moments)
from .program import Rtmrun, find
from .progress import progress
from .sweep_orders import sweep_orders
from .sweep_page import sweep_page
from .sweep_words import Range, aligned, landing_words, ranges, row_of

COLUMNS = ("AT", "lands", "routines entered from then on", "released", "ends with")


@dataclass
class Sweep:
    """All moments of a deck, and what was done to have them."""

    deck: str
    command: str
    unit: str
    said: List[str]
    moments: List[Moment]


def sweep(arguments: argparse.Namespace) -> int:
    """Runs, gathers or plans, and ends with 1 where a routine that is required isn't entered."""
    read_orders(arguments)
    if not arguments.decks:
        raise Failure("the following arguments are required: deck; rtm sweep --help says which words there are",
                      WRONG_WORDS)
    if arguments.orders is not None:
        return sweep_orders(arguments)
    if arguments.html and len(arguments.decks) > 1:
        raise Failure("--html is the page of one deck", WRONG_WORDS)
    if arguments.gather:
        found = gathered(b"".join(read_file(name) for name in arguments.decks))
    elif arguments.plan or arguments.at is not None:
        return run_part(arguments)
    else:
        found = [sweep_deck(arguments, name) for name in sorted(set(arguments.decks))]
    write(arguments.output, shown(found, arguments))
    return max(required(one, arguments.require) for one in found)


def read_orders(arguments: argparse.Namespace) -> None:
    """Behind --orders a number may stand, of runs on threads. What is none is a deck."""
    word = arguments.orders
    if word is None:
        return
    number = number_in(word)
    if word and number is None:
        arguments.decks.insert(0, word)
    arguments.orders = number or 0


def run_part(arguments: argparse.Namespace) -> int:
    """Writes the jobs of all decks, or runs the moments of one job."""
    rtmrun = find(arguments.rtmrun)
    written = []
    for name in sorted(set(arguments.decks)):
        swept = made_ready(arguments, name)
        if arguments.at is None:
            moments, said = chosen_moments(rtmrun, swept, arguments)
            written.append(plan(arguments, name, swept, moments, said))
        else:
            runs = run_moments(rtmrun, swept, arguments.at, arguments.jobs, progress(len(arguments.at)))
            written += [as_line(name, swept, moment) for moment in runs]
    write(arguments.output, "".join(written))
    return OK


def made_ready(arguments: argparse.Namespace, name: str) -> Swept:
    swept = prepare(read_file(name), arguments.command)
    check_routine(swept.base, arguments.require)
    return swept


def chosen_moments(rtmrun: Rtmrun, swept: Swept, arguments: argparse.Namespace) -> Tuple[List[int], List[str]]:
    """The moments that are tried, and what was done to have them."""
    moments, there_are = moments_of(rtmrun, swept, arguments.first, arguments.last, arguments.all)
    said = list(swept.said)
    if len(moments) < there_are:
        said.append("%d of %d moments, evenly spread; --all runs all" % (len(moments), there_are))
    return moments, said


def sweep_deck(arguments: argparse.Namespace, name: str) -> Sweep:
    """Runs one deck at all its moments."""
    rtmrun, swept = find(arguments.rtmrun), made_ready(arguments, name)
    moments, said = chosen_moments(rtmrun, swept, arguments)
    runs = run_moments(rtmrun, swept, moments, arguments.jobs, progress(len(moments)))
    return Sweep(name, swept.command, swept.unit, said, list(runs))


def shown(found: Sequence[Sweep], arguments: argparse.Namespace) -> str:
    """The sweeps in the form that was asked for; each table under its deck's name where there are several."""
    if arguments.json:
        told = [as_json(one) for one in found]
        return json.dumps(told[0] if len(told) == 1 else {"sweeps": told}, indent=1) + "\n"
    if arguments.html:
        return "".join(as_page(one, arguments.require) for one in found[:1])
    if len(found) == 1:
        return table(found[0], arguments.require)
    return "\n".join("%s: %s" % (one.deck, table(one, arguments.require)) for one in found)


def as_page(found: Sweep, routine: Optional[str]) -> str:
    return sweep_page(title_of(found.deck), head_of(found), found.said, answers(found, routine),
                      found.moments, row_key, lambda moment: landing_words(Range([moment])))


def title_of(name: str) -> str:
    return "sweep" if name == STDIN else Path(name).stem


def required(found: Sweep, routine: Optional[str]) -> int:
    """1 where the command landed at some moment and the routine wasn't entered."""
    if routine is None:
        return OK
    landed = [moment for moment in found.moments if moment.landed is not None]
    return OK if all(is_entered(moment, routine) for moment in landed) else NOT_ENTERED


# Many hosts

def plan(arguments: argparse.Namespace, name: str, swept: Swept, moments: Sequence[int],
         said: Sequence[str]) -> str:
    """One job a line, for so many moments each; it prints a line for each that --gather reads."""
    if name == STDIN:
        raise Failure("a plan names the deck for other runs, so it can't be -", WRONG_WORDS)
    words = [sys.argv[0], "sweep", name, "--command", swept.command]
    if arguments.rtmrun:
        words += ["--rtmrun", arguments.rtmrun]
    job = " ".join(shlex.quote(word) for word in words)
    for one in said:
        tell("%s: %s" % (name, one))
    return "".join("%s --at %s\n" % (job, listed_moments(moments[place:place + arguments.each]))
                   for place in range(0, len(moments), arguments.each))


def as_line(name: str, swept: Swept, moment: Moment) -> str:
    """One moment as a line of JSON."""
    line: Dict[str, Any] = {"deck": name, "command": swept.command, "unit": swept.unit, "said": list(swept.said),
                            "moment": moment.to_json()}
    return json.dumps(line) + "\n"


def gathered(text: bytes) -> List[Sweep]:
    """The sweeps whose jobs printed these lines, in any order; by their decks' names."""
    try:
        lines = [json.loads(line) for line in text.decode("utf-8").splitlines() if line.strip()]
        kinds = sorted({(line["deck"], line["command"], line["unit"], tuple(line["said"])) for line in lines})
        moments = {(line["deck"], line["moment"]["at"]): Moment.of_json(line["moment"]) for line in lines}
    except (ValueError, KeyError, TypeError, AttributeError, RecursionError):
        raise Failure("--gather reads the lines that the jobs of a plan print, and this isn't one",
                      CANNOT_READ) from None
    if not kinds or len({kind[0] for kind in kinds}) != len(kinds):
        raise Failure("--gather needs the lines of one sweep for each deck, and got those of %d for %d" % (
            len(kinds), len({kind[0] for kind in kinds})), CANNOT_READ)
    return [Sweep(deck, command, unit, list(said), [moments[key] for key in sorted(moments) if key[0] == deck])
            for deck, command, unit, said in kinds]


# Text

def as_json(found: Sweep) -> Dict[str, Any]:
    return {"deck": found.deck, "command": found.command, "unit": found.unit, "said": found.said,
            "order": "one thread", "moments": [moment.to_json() for moment in found.moments]}


def head_of(found: Sweep) -> str:
    return "%s at %d moments, in the order of one thread" % (found.command, len(found.moments))


def table(found: Sweep, routine: Optional[str]) -> str:
    """The head, the answer in a sentence, and a row for each range."""
    lines = [head_of(found)]
    lines += ["(%s)" % one for one in found.said]
    lines += [""] + answers(found, routine) + [""]
    lines += aligned([COLUMNS] + [row_of(one) for one in ranges(found.moments, row_key)])
    return "\n".join(lines) + "\n"


# The answer

def answers(found: Sweep, routine: Optional[str]) -> List[str]:
    """A sentence for the routine that is asked for, or for each that is entered at some moment."""
    landed = [moment for moment in found.moments if moment.landed is not None]
    if not landed:
        return ["The command lands at no moment."]
    names = [routine] if routine is not None else list(dict.fromkeys(
        entered.routine for moment in landed for entered in moment.entered))
    if not names:
        return ["The command lands at %s, and no routine is entered for it." % moments_word(landed, found.moments)]
    return [answer(found, landed, name) for name in names]


def moments_word(some: Sequence[Moment], every: Sequence[Moment]) -> str:
    if len(some) == len(every):
        return "each of %d moments" % len(every)
    return "%d of %d moments" % (len(some), len(every))


def answer(found: Sweep, landed: Sequence[Moment], name: str) -> str:
    """At how many of the moments a routine is entered, and what is to be seen at the others."""
    entered = [moment for moment in landed if is_entered(moment, name)]
    said = "%s is entered at %s" % (name, moments_word(entered, found.moments))
    others = ranges(found.moments, lambda moment: "" if is_entered(moment, name) else why_not(found, moment))
    for one in others:
        if not is_entered(one.moments[0], name):
            said += "; not at %s: %s" % (one.name, why_not(found, one.moments[0]))
    return said + "."


def why_not(found: Sweep, moment: Moment) -> str:
    """What the trace shows where a routine wasn't entered; no more is claimed."""
    if moment.fate == NEVER:
        return "the command doesn't arrive"
    if moment.landed is None:
        return "it is merged with an earlier one" if moment.fate == "MERGED" else "the command doesn't land"
    if moment.inside_routine and moment.inside_verdict == "FAIL":
        return "it landed inside %s, which failed" % moment.inside
    return "it landed %s %s" % ("inside" if moment.inside_routine else "in", moment.inside or found.unit)
