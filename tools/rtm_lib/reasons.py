"""What a trace and its deck show of the reason of an entry, and no more.

A reason is given where lines or cards show it and the line itself agrees. Where the rule looks at something that no
line has, nothing is said.
"""

from __future__ import annotations

from typing import Callable, Dict, List, Optional

from .deck import number_in
from .history import Box, ErrorThread, History, Line, Registration
from .sentences import start_large

SUBTASKS_LIVE = "SA03"


def reasons(history: History, line: Line) -> List[str]:
    """Sentences, each of what is shown."""
    return MAKERS.get(line.entry.verb, lambda *_: [])(history, line)


def at_entry(index: int) -> str:
    return "(entry %d)" % index


def joined(words: List[str]) -> str:
    return " and ".join([", ".join(words[:-1]), words[-1]] if len(words) > 2 else words)


# What is there

def there(history: History, line: Line) -> List[Registration]:
    """The routines and managers of a line's unit that were there before it, newest first, ESTAI routines as asked."""
    found = [one for one in history.registrations if one.unit == line.entry.unit and one.is_there(line.entry.index)]
    return [one for one in reversed(found) if one.kind != "ESTAI"] + [one for one in found if one.kind == "ESTAI"]


def boxes_around(history: History, line: Line) -> List[Box]:
    """The request blocks and routines of a line's unit that are open before it."""
    index = line.entry.index
    return [box for box in history.boxes if box.unit == line.entry.unit and box.born < index
            and (box.ended is None or box.ended >= index)]


def routine_around(history: History, line: Line) -> Optional[Box]:
    """The routine that runs where a line stands."""
    routines = [box for box in boxes_around(history, line) if box.header is not None]
    return max(routines, key=lambda box: box.depth) if routines else None


def lines_in(history: History, box: Box) -> List[Line]:
    """The lines of a routine's own bracket: none of those that stand in a routine inside of it."""
    stop = box.ended if box.ended is not None else history.length
    own = [line for line in history.lines[box.born + 1:stop] if line.entry.unit == box.unit]
    return [line for line in own if routine_around(history, line) is box]


# Routines

def of_leave(history: History, line: Line) -> List[str]:
    """Why a routine was left so, as its own cards show."""
    box = next((box for box in history.boxes if box.header is not None and box.ended == line.entry.index
                and box.unit == line.entry.unit and box.ending == "LEAVE"), None)
    if box is None:
        return []
    if line.entry.verdict == "FAIL":
        return ["An error inside of it %s was recovered by nobody." % at_entry(error.born) for error in history.errors
                if error.ended == line.entry.index and error.ending == "FAIL"]
    if line.entry.verdict == "OVER":
        return ["It has come to its last RETURN."]
    return asked_by_cards(box, line, lines_in(history, box))


def asked_by_cards(box: Box, line: Line, inside: List[Line]) -> List[str]:
    """Which return code and label a routine's cards gave last, and what the verdict makes of them."""
    code = label = None
    for one in inside:
        if one.entry.verb != "EXEC" or one.card is None or one.card.operation not in ("SETRP", "RET15"):
            continue
        code = one if one.card.return_code is not None else code
        label = one if one.card.value("RETADDR") else label
    asked = code.card.return_code if code is not None and code.card is not None else 0
    if code is None:
        said = "None of its cards gives a return code, so it is 0"
    else:
        said = "The last return code that its cards give is %d %s" % (asked, at_entry(code.entry.index))
    name = label.card.value("RETADDR") if label is not None and label.card is not None else ""
    shown = "%s %s" % (name, at_entry(label.entry.index)) if label is not None else ""
    if line.entry.verdict == "RETRY":
        return ["%s, and the label is %s." % (said, shown)] if asked == 4 and name else []
    if line.entry.verdict == "BAD":
        return ["%s, %s." % (said, why_bad(box, asked, name, shown))]
    return [said + "."]


def why_bad(box: Box, asked: int, name: str, shown: str) -> str:
    """The first row of docs/TRACE.md's table of BAD that fits."""
    if asked == 16:
        return "which is for ESTAI routines"
    if box.header is not None and "CLUP" in box.header.mark.flags:
        return "and its ENTER shows CLUP: retry is forbidden"
    if not name:
        return "and none of its cards gives RETADDR="
    return "and the label %s doesn't stand in the program in which the retry would run" % shown


def of_enter(history: History, line: Line) -> List[str]:
    """Who was asked before, for a manager which end it is."""
    if line.entry.kind == "MGR":
        begun = history.lanes[line.entry.unit].begun
        return ["The unit has begun to end %s." % at_entry(begun)] if begun is not None else []
    error = line.error
    if error is None:
        return []
    said = ["The error of entry %d is open." % error.born]
    before = [history.lines[ask] for ask in error.asks if ask < line.entry.index]
    if before:
        names = ["%s %s" % (one.routine, at_entry(one.entry.index)) for one in before]
        said.append("Asked before: %s." % joined(names))
    return said


# Errors

def of_error(history: History, line: Line) -> List[str]:
    code = line.entry.mark.code
    if line.card is not None and line.card.operation == "ABEND":
        return ["The card says so."]
    return ERRORS[code](history, line) if code in ERRORS else []


def of_mode(history: History, line: Line) -> List[str]:
    """0F8: what there is of the three things that forbid such a card."""
    found = []
    described = history.deck.unit(line.entry.unit)
    if described is not None and described.kind == "SRB":
        found.append("%s is an SRB" % line.entry.unit)
    found += ["FRR %d is there" % one.number for one in there(history, line) if one.kind == "FRR"][:1]
    found += ["a resource manager runs %s" % at_entry(box.born) for box in history.boxes
              if box.kind == "MGR" and box.unit == line.entry.unit and box.born < line.entry.index
              and (box.ended is None or box.ended > line.entry.index)][:1]
    return [start_large(joined(found)) + "."] if found else []


def of_missing_sdwa(history: History, line: Line) -> List[str]:
    box = routine_around(history, line)
    if box is None or not box.is_bare:
        return []
    return ["%s was entered without an SDWA %s." % (box.program, at_entry(box.born))]


def of_outside(history: History, line: Line) -> List[str]:
    box = routine_around(history, line)
    if box is None:
        return ["No recovery routine runs."]
    return ["%s is a resource manager, and no recovery routine." % box.program] if box.kind == "MGR" else []


def of_stranger(history: History, line: Line) -> List[str]:
    """23E: who has attached the task."""
    name = line.card.positional(0) if line.card is not None else ""
    birth = next((birth for birth in history.births if birth.unit == name and birth.born < line.entry.index), None)
    if birth is None or not birth.parent:
        return ["No entry before has attached %s." % name]
    return ["%s was attached by %s %s." % (name, birth.parent, at_entry(birth.born))]


def of_many(kind: str, words: str) -> Callable[[History, Line], List[str]]:
    """A limit of a unit's routines."""
    def count(history: History, line: Line) -> List[str]:
        number = sum(1 for one in there(history, line) if one.kind == kind)
        return ["%d %s of the unit are there." % (number, words)]
    return count


def of_blocks(history: History, line: Line) -> List[str]:
    own = routine_around(history, line)
    blocks = [box for box in boxes_around(history, line) if own is None or box.depth >= own.depth]
    return ["The bracket has %d request blocks." % len(blocks)]


def of_depth(history: History, line: Line) -> List[str]:
    routines = [box for box in boxes_around(history, line) if box.header is not None]
    return ["The unit has %d brackets." % (len(routines) + 1)]


def of_holdings(history: History, line: Line) -> List[str]:
    index = line.entry.index
    held = [rail for rail in history.rails if rail.unit == line.entry.unit and rail.born < index
            and (rail.ended is None or rail.ended >= index)]
    return ["The unit holds %d." % len(held)]


def of_managers(history: History, line: Line) -> List[str]:
    managers = [one for one in history.registrations if one.kind == "MGR" and one.is_there(line.entry.index)]
    return ["%d resource managers are there." % len(managers)]


ERRORS: Dict[str, Callable[[History, Line], List[str]]] = {
    "S0F8": of_mode, "SEE7": of_missing_sdwa, "SEE6": of_outside, "S23E": of_stranger, "SEE1": of_blocks,
    "SEE2": of_many("ESTAE", "ESTAE routines"), "SEE3": of_depth, "SEE4": of_holdings, "SEE5": of_managers,
    "S07D": of_many("FRR", "FRRs"),
}


def of_land(history: History, line: Line) -> List[str]:
    posted = history.lines[line.entry.number].entry
    said = ["It was posted by entry %d: %s." % (posted.index, posted.line)]
    held = [rule for index, rule in history.lanes[line.entry.unit].holding_back
            if posted.index <= index < line.entry.index and rule is not None]
    words = list(dict.fromkeys(rule.says for rule in held))
    if words:
        said.append("On its way it was held back, by a rule: %s." % joined(words))
    return said


# Cards that were executed

def of_exec(history: History, line: Line) -> List[str]:
    """What a WAIT or a WAITT waited for."""
    card = line.card
    if card is None or card.operation not in ("WAIT", "WAITT"):
        return []
    if card.operation == "WAITT":
        lane = history.lanes.get(card.positional(0))
        done = lane.done if lane is not None else None
        return ["%s has ended %s." % (card.positional(0), at_entry(done))] if done is not None else []
    post = next((one for one in history.lines[:line.entry.index] if one.entry.verb == "EXEC" and one.card is not None
                 and one.card.operation == "POST" and same_number(one.card.positional(0), card.positional(0))), None)
    return ["The event was posted by %s %s." % (post.entry.unit, at_entry(post.entry.index))] if post else []


def same_number(one: str, other: str) -> bool:
    return number_in(one) is not None and number_in(one) == number_in(other)


# Ends

def of_begin(history: History, line: Line) -> List[str]:
    error = next((one for one in history.errors if one.ended == line.entry.index and one.ending == "BEGIN"), None)
    if error is not None:
        return ["Nobody recovered the error of entry %d. %s" % (error.born, asked_words(history, error))]
    if line.entry.code != SUBTASKS_LIVE:
        return ["It has come to its last RETURN."]
    alive = [birth.unit for birth in history.births if birth.parent == line.entry.unit
             and birth.born < line.entry.index and history.lanes[birth.unit].born == birth.born
             and is_alive(history, birth.unit, line.entry.index)]
    return ["It has come to its last RETURN, and %s lived." % joined(alive)] if alive else []


def is_alive(history: History, unit: str, index: int) -> bool:
    described, ended = history.deck.unit(unit), history.lanes[unit].ended
    return described is not None and described.kind == "TASK" and (ended is None or ended > index)


def asked_words(history: History, error: ErrorThread) -> str:
    """Each routine that an error asked, with how it was left."""
    words = []
    for ask in error.asks:
        box = next(box for box in history.boxes if box.born == ask and box.header is not None)
        left = history.trace.entries[box.ended] if box.ended is not None and box.ending == "LEAVE" else None
        words.append("%s at %d, %s" % (box.program, ask, "left at %d with %s" % (left.index, left.verdict) if left
                                       else "not left"))
    return "It asked " + "; ".join(words) + "." if words else "It asked nobody."


def of_release(history: History, line: Line) -> List[str]:
    return ["It is held since entry %d." % rail.born for rail in history.rails if rail.ended == line.entry.index]


def of_done(history: History, line: Line) -> List[str]:
    begun = history.lanes[line.entry.unit].begun
    return ["It has begun to end %s." % at_entry(begun)] if begun is not None else []


def of_purge(history: History, line: Line) -> List[str]:
    began = history.memory_end
    if began is None:
        return []
    return ["Memory end has begun %s: %s." % (at_entry(began), history.trace.entries[began].line)]


def of_arrive(history: History, line: Line) -> List[str]:
    commands = history.deck.commands
    return ["The command is %s." % commands[line.entry.number].text] if line.entry.number < len(commands) else []


MAKERS: Dict[str, Callable[[History, Line], List[str]]] = {
    "LEAVE": of_leave, "ENTER": of_enter, "ERROR": of_error, "LAND": of_land, "EXEC": of_exec, "BEGIN": of_begin,
    "RELEASE": of_release, "DONE": of_done, "PURGE": of_purge, "MEMEND": of_purge, "ARRIVE": of_arrive,
}
