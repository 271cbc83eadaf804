"""Each line of a trace in a sentence, and the entries and the card that it refers to."""

from __future__ import annotations

from typing import Dict, List, Optional

from . import rules
from .deck import Card
from .history import ErrorThread, History, Line
from .trace import MASTER, by_verb

# Names of system completion codes; a code without one stands alone.
CODE_NAMES: Dict[str, str] = {
    "S0C1": "operation exception", "S0C2": "privileged operation exception", "S0C4": "protection exception",
    "S0C5": "addressing exception", "S0C6": "specification exception", "S0C7": "data exception",
    "S0C9": "fixed-point divide exception", "S0F8": "a service in a mode that forbids it",
    "S122": "cancelled by the operator, with a dump", "S222": "cancelled by the operator",
    "S13E": "detached by its mother", "S33E": "detached with STAE=YES", "S23E": "DETACH of a task that isn't its own",
    "S07D": "too many FRRs", "SA03": "ended while a subtask lived", "SEE1": "too many request blocks",
    "SEE2": "too many ESTAE routines", "SEE3": "a routine made in the 16th bracket", "SEE4": "too many holdings",
    "SEE5": "too many resource managers", "SEE6": "a recovery routine's card, in no recovery routine",
    "SEE7": "a card that wants an SDWA, in a routine without one",
}
ORDINALS = ("first", "second", "third", "fourth", "fifth", "sixth", "seventh", "eighth", "ninth", "tenth")
POSTED_WORDS = {"QUEUED": "it is pending there", "MERGED": "one of its class was pending already",
                "LATE": "too late, the task wasn't alive or was ending"}
ASKED_WORDS = {0: "the next routine is to be asked", 4: "a retry is asked for",
               16: "no further ESTAI routine is to be asked"}
FLAG_WORDS = {"CLUP": "CLUP: retry is forbidden.", "PERC": "PERC: an earlier routine has percolated.",
              "STAF": "STAF: an earlier routine has failed."}


def unit_name(unit: str) -> str:
    return "the master" if unit == MASTER else unit


def code_words(code: str) -> str:
    name = CODE_NAMES.get(code)
    return "%s (%s)" % (code, name) if name else code


def ordinal(number: int) -> str:
    return ORDINALS[number - 1] if 0 < number <= len(ORDINALS) else "number %d" % number


def start_large(text: str) -> str:
    return text[:1].upper() + text[1:]


def sentence(history: History, line: Line) -> str:
    """What a line says, in words."""
    return start_large(MAKERS[line.entry.verb](history, line))


def routine_name(line: Line) -> str:
    return line.routine or "%s %d" % (line.entry.kind, line.entry.number)


# EXEC

def of_exec(history: History, line: Line) -> str:
    entry = line.entry
    place = str(entry.place)
    if line.card is None:
        return "%s comes to the end of %s, which returns." % (unit_name(entry.unit), line.program_end)
    said = "%s executes card %s: %s." % (unit_name(entry.unit), place, line.card.text)
    more = CARD_WORDS.get(line.card.operation, no_more)(history, line, line.card)
    return "%s %s" % (said, more) if more else said


def no_more(history: History, line: Line, card: Card) -> str:
    return ""


def names_routine(history: History, line: Line, card: Card) -> str:
    if line.entry.return_code:
        return "RC=%d: there was none that it could change." % line.entry.return_code
    index = line.entry.index
    if card.operation == "RESMGR":
        if card.positional(0) != "ADD":
            return "The newest equal manager is removed."
        return "The trace calls this manager MGR %d." % index
    kind = "FRR" if card.operation == "SETFRR" else "ESTAE"
    if card.positional(0) in ("CT", "OV", "A", "R"):
        return "The trace calls this routine %s %d." % (kind, index)
    return "The FRRs of this bracket are removed." if card.positional(0) == "P" else "The newest one is removed."


def holds(history: History, line: Line, card: Card) -> str:
    ended = next((rail for rail in history.rails if rail.born == line.entry.index), None)
    if ended is None or ended.ended is None:
        return "It is held to the end of this trace."
    return "It is held until entry %d." % ended.ended


def frees(history: History, line: Line, card: Card) -> str:
    if line.entry.return_code:
        return "RC=4: there was none to give back."
    return "The newest equal holding is given back."


def links(history: History, line: Line, card: Card) -> str:
    if card.operation == "XCTL":
        return "The request block goes on in %s." % card.positional(0)
    return "%s runs under a new request block." % card.positional(0)


def bears(history: History, line: Line, card: Card) -> str:
    name = card.positional(0)
    if line.entry.return_code:
        return "RC=8: %s was born before." % name
    said = "%s begins to live." % name
    if card.value("ESTAI"):
        said += " Its ESTAI routine is %s; the trace calls it ESTAI %d." % (card.value("ESTAI"), line.entry.index)
    return said


def posts(history: History, line: Line, card: Card) -> str:
    if card.positional(0) == "MEMTERM":
        return "Memory end begins: from here on the master alone acts."
    if line.abort is None:
        return ""
    target, fate = line.abort.unit, line.abort.fate
    if fate == "QUEUED":
        return "An abort is posted to %s; %s." % (target, where_it_lands(line))
    return "RC=%d: %s, for %s." % (line.entry.return_code, POSTED_WORDS.get(fate, fate), target)


def where_it_lands(line: Line) -> str:
    abort = line.abort
    if abort is None or abort.landed is None:
        return "in this trace it doesn't land"
    return "it lands at entry %d" % abort.landed


def branches(history: History, line: Line, card: Card) -> str:
    return "RC=4: it goes to the label." if line.entry.return_code else "It doesn't go to the label."


def returns(history: History, line: Line, card: Card) -> str:
    return "Its request block ends."


def asks(history: History, line: Line, card: Card) -> str:
    """What a routine asks for by SETRP, or by a return code in register 15."""
    code, label = card.return_code, card.value("RETADDR")
    if code is None:
        return "A retry would go on at %s." % label if label else ""
    asked = ASKED_WORDS[code] + (", at %s" % label if label and code == 4 else "")
    return "%s: %s." % ("It leaves %d in register 15" % code if card.operation == "RET15" else "RC=%d" % code, asked)


CARD_WORDS = {
    "ESTAEX": names_routine, "SETFRR": names_routine, "RESMGR": names_routine, "GET": holds, "FREE": frees,
    "LINK": links, "XCTL": links, "ATTACHX": bears, "SCHEDULE": bears, "DETACH": posts, "CALLRTM": posts,
    "IFCODE": branches, "IFCLUP": branches, "IFPERC": branches, "RETURN": returns, "SETRP": asks, "RET15": asks,
}


# Errors

def of_error(history: History, line: Line) -> str:
    entry = line.entry
    code = entry.mark.code
    card = " (%s)" % line.card.text if line.card is not None else ""
    return "an error of %s at %s%s: %s. %s" % (
        unit_name(entry.unit), entry.place, card, code_words(code), error_end(history, line))


def of_land(history: History, line: Line) -> str:
    entry = line.entry
    code = entry.mark.code
    said = "the abort that entry %d posted lands in %s: %s." % (
        entry.number, unit_name(entry.unit), code_words(code))
    if "CLUP" in entry.mark.flags:
        said += " Retry is forbidden."
    if rules.is_term_only(entry.kind, code):
        said += " By a rule (docs/MACHINE.md, section %d) only routines made with TERM=YES are asked." % (
            rules.TERM_ONLY.section)
    return "%s %s" % (said, error_end(history, line))


def error_end(history: History, line: Line) -> str:
    """Whom an error asks, and how it ends, as far as the trace goes."""
    error = line.error
    if error is None:
        return ""
    names = [history.lines[ask].routine or "a routine" for ask in error.asks]
    if len(names) > 6:
        names = names[:5] + ["%d more" % (len(names) - 5)]
    asked = "It asks %s." % ", then ".join(names) if names else "It asks nobody."
    return "%s %s" % (asked, end_words(history, error))


def end_words(history: History, error: ErrorThread) -> str:
    if error.ended is None:
        return "The trace ends before it does."
    if error.ending == "RETRY":
        return "A retry ends it, at entry %d." % error.ended
    if error.ending == "BEGIN":
        return "Nobody recovers it: %s begins to end, at entry %d." % (error.unit, error.ended)
    if error.ending == "FAIL":
        name = history.lines[error.ended].routine or "the routine around it"
        return "Nobody recovers it: %s fails by it, at entry %d." % (name, error.ended)
    return "Memory end takes its unit away, at entry %d." % error.ended


# Routines

def of_enter(history: History, line: Line) -> str:
    entry = line.entry
    code = entry.mark.code
    name = routine_name(line)
    if entry.kind == "MGR":
        return "the resource manager %s, which entry %d added, is entered for the end with %s." % (
            name, entry.number, code_words(code))
    said = "%s, which entry %d %s, is entered for %s; this error asks it as the %s." % (
        name, entry.number, "named for this task" if entry.kind == "ESTAI" else "made", code_words(code),
        ordinal(line.ordinal))
    words = [FLAG_WORDS[flag] for flag in entry.mark.flags if flag in FLAG_WORDS]
    if began_as(history, line):
        words.append("The error began as %s." % began_as(history, line))
    if entry.without_sdwa:
        words.append("It has no SDWA: %s (docs/MACHINE.md, section %d)." % (rules.NO_SDWA.says, rules.NO_SDWA.section))
    if line.shield is rules.NOT_CANCELLED:
        words.append("Its card says CANCEL=NO: no abort lands while it runs (docs/MACHINE.md, section %d)." % (
            line.shield.section))
    return " ".join([said] + words)


def began_as(history: History, line: Line) -> str:
    """The code that the error began with, where this line shows another."""
    if line.error is None:
        return ""
    first = history.lines[line.error.born].entry.mark.code
    return first if first != line.entry.mark.code else ""


def of_leave(history: History, line: Line) -> str:
    entry = line.entry
    name = routine_name(line)
    said = {
        "RETRY": "%s retries: %s goes on at %s%s." % (
            name, unit_name(entry.unit), entry.place,
            ", the label " + line.label if line.label and line.label != str(entry.place) else ""),
        "PERC": "%s percolates; %s" % (name, asked_next(history, line)),
        "STOP": "%s stops the ESTAI routines: no further one is asked." % name,
        "BAD": "%s asked for what it can't have; %s" % (name, asked_next(history, line)),
        "FAIL": "%s fails by an error inside of it; %s" % (name, asked_next(history, line)),
        "OVER": "the resource manager %s has returned." % name,
    }[entry.verdict]
    if entry.logrec:
        said += " A record goes to the log."
    if entry.dump:
        said += " A dump is taken."
    return said


def asked_next(history: History, line: Line) -> str:
    """Who is entered next for the same error, as the trace shows."""
    if line.error is None:
        return "the ending goes on."
    later = [ask for ask in line.error.asks if ask > line.entry.index]
    if later:
        return "%s is asked next." % (history.lines[later[0]].routine or "another routine")
    if line.error.ended is None:
        return "the trace ends here for this error."
    return "nobody is asked any more."


# Commands and ends

def of_arrive(history: History, line: Line) -> str:
    entry = line.entry
    if entry.fate == "MERGED":
        return "command %d of the operator reaches %s, where a cancel is pending already: it adds nothing." % (
            entry.number, entry.unit)
    return "command %d of the operator reaches %s; %s." % (entry.number, entry.unit, where_it_lands(line))


def of_begin(history: History, line: Line) -> str:
    entry = line.entry
    said = "%s begins to end, with %s. Its request blocks and recovery routines are gone." % (
        entry.unit, code_words(entry.code))
    return said + (" A dump is taken." if entry.dump else "")


def of_release(history: History, line: Line) -> str:
    entry = line.entry
    return "%s %d, which %s still held, is released." % (entry.kind, entry.number, unit_name(entry.owner))


def of_done(history: History, line: Line) -> str:
    entry = line.entry
    said = "%s has ended, with %s." % (entry.unit, code_words(entry.code))
    for word, fate in entry.posted:
        target = "the job step task" if word == "STEP" else "its related task"
        said += " Its error is handed on to %s: %s." % (target, POSTED_WORDS.get(fate, fate))
    if history.memory_end == entry.index:
        said += " Memory end begins: from here on the master alone acts."
    return said


def of_purge(history: History, line: Line) -> str:
    return "memory end takes %s away; no routine of it is entered." % line.entry.owner


def of_memend(history: History, line: Line) -> str:
    return "the address space has ended."


MAKERS = by_verb("of_", globals())


def refers_to(line: Line) -> List[int]:
    """The entries that a line refers to."""
    entry = line.entry
    found: List[Optional[int]] = []
    if entry.verb in ("ENTER", "LEAVE", "LAND"):
        found.append(entry.number)
    if line.error is not None and entry.verb in ("ENTER", "LEAVE"):
        found.append(line.error.born)
    if line.error is not None and entry.verb in ("ERROR", "LAND"):
        found.append(line.error.ended)
    if line.abort is not None and entry.verb in ("EXEC", "ARRIVE"):
        found.append(line.abort.landed)
    return sorted({index for index in found if index is not None and index != entry.index})


def refers_to_card(history: History, line: Line) -> Optional[int]:
    """The number of the deck's card that a line is about."""
    entry = line.entry
    if line.card is not None:
        return line.card.number
    if entry.verb == "ARRIVE" and entry.number < len(history.deck.commands):
        return history.deck.commands[entry.number].number
    if entry.verb == "LEAVE" and entry.place is not None:
        goes_on = history.deck.card(entry.place)
        return goes_on.number if goes_on is not None else None
    if entry.verb in ("ENTER", "LEAVE"):
        maker = history.maker(entry.number)
        return maker.number if maker is not None else None
    owner = entry.owner if entry.verb in ("RELEASE", "PURGE") else entry.unit
    described = history.deck.unit(owner)
    return described.card if described is not None and entry.verb in ("BEGIN", "DONE", "PURGE") else None
