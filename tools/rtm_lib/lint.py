"""The word `lint`: all faults of a deck, one after another, and what is allowed and surprising.

Faults are rtmrun's: the first one that `scan` names, then the first of the deck in which that card is a comment.
"""

from __future__ import annotations

import argparse
import json
from dataclasses import asdict, dataclass
from typing import Any, Dict, Iterator, List, Tuple

from .deck import Card, Deck, lines_of, number_in, read_card, read_deck, split_input
from .failures import DECK_REFUSED, OK
from .files import STDIN, read_file, write
from .forms import FORMS, NAMING, form_of, listed, near, trouble
from .parts import many
from .program import Rtmrun, find, refusal

MOST_FAULTS = 50
MOST_BYTES_OF_A_CARD = 80
# Faults that may come of a card that is left out, and the operations whose lack may bring them.
MAY_COME_OF = {
    "WrongPlace": ("PROG", "PEND", "OPER"), "UnknownName": ("PROG", "TASK", "SRB"), "NoJobStep": ("TASK",),
    "NoEnd": ("END",), "UnknownLabel": (),
}
WHYS = {
    "TooLong": "the input has more than 16,777,216 bytes", "BadByte": "a card has printable ASCII alone",
    "BadCard": "a card has at most 80 bytes: perhaps a name, then an operation",
    "UnknownOp": "there is no such operation", "WrongPlace": "the card stands where it may not",
    "BadOperand": "an operand is missing, too many, or wrong", "DuplicateName": "the name stands on an earlier card",
    "UnknownName": "the deck has nothing of that name", "UnknownLabel": "no card has that label",
    "NoJobStep": "the deck has no TASK card", "NoEnd": "the END card is missing",
    "OverLimit": "there are too many of these",
}
IFS = ("B", "IFCODE", "IFCLUP", "IFPERC")
WANT_SDWA = ("SETRP", "IFCLUP", "IFPERC")


@dataclass
class Finding:
    """A fault or a warning: where it is, and what could stand there."""

    card: int
    column: int
    why: str
    says: str
    text: str
    suggestion: str = ""
    note: str = ""


def lint(arguments: argparse.Namespace) -> int:
    """Names faults and warnings, and ends with 8 where the deck is refused."""
    rtmrun = find(arguments.rtmrun)
    text, _ = split_input(read_file(arguments.deck))
    faults = list(faults_of(rtmrun, text))
    warnings = list(warnings_of(read_deck(text)))
    name = "deck" if arguments.deck == STDIN else arguments.deck
    if arguments.json:
        told: Dict[str, Any] = {"faults": [asdict(one) for one in faults],
                                "warnings": [asdict(one) for one in warnings]}
        write(arguments.output, json.dumps(told, indent=1) + "\n")
    else:
        write(arguments.output, as_text(name, faults, warnings))
    return DECK_REFUSED if faults else OK


def as_text(name: str, faults: List[Finding], warnings: List[Finding]) -> str:
    lines: List[str] = []
    for one in faults:
        lines += finding_lines(name, one, one.why)
    if len(faults) == MOST_FAULTS:
        lines.append("(%d faults are the most that are looked for)" % MOST_FAULTS)
    for one in warnings:
        lines += finding_lines(name, one, "warning")
    count = "%s, %s" % (many(len(faults), "fault", "faults"), many(len(warnings), "warning", "warnings"))
    return "\n".join(lines + [count]) + "\n"


def finding_lines(name: str, one: Finding, title: str) -> List[str]:
    said = one.says + (". Perhaps %s?" % one.suggestion if one.suggestion else "")
    lines = ["%s:%d:%d: %s: %s" % (name, one.card, one.column, title, said)]
    lines += ["  (%s)" % one.note] if one.note else []
    printable = "".join(letter if " " <= letter <= "~" else "?" for letter in one.text)
    return lines + (["    " + printable, "    " + " " * (one.column - 1) + "^"] if one.text else [])


# Faults

def faults_of(rtmrun: Rtmrun, text: bytes) -> Iterator[Finding]:
    """The first fault, and those that are first once the cards before are comments."""
    raw = text.split(b"\n")
    gone: List[int] = []
    for _ in range(MOST_FAULTS):
        status, written = rtmrun.ask(["scan"], b"\n".join(raw))
        words = written.decode("latin-1").split()
        if status == OK and written:
            return
        if status != DECK_REFUSED or len(words) != 3 or words[2] not in WHYS or not number_in(words[1]):
            raise refusal(text, status, written)
        number, why = int(words[1]), words[2]
        yield finding(text, number, why, gone)
        if why in ("TooLong", "NoEnd", "NoJobStep") or number > len(raw) or raw[number - 1].startswith(b"*"):
            return
        gone.append(number)
        raw[number - 1] = b"*"


def finding(text: bytes, number: int, why: str, gone: List[int]) -> Finding:
    """What can be said of a fault: where on the card it is, and what was expected there."""
    lines = lines_of(text)
    line = lines[number - 1] if number <= len(lines) else ""
    column, says, suggestion = place_in(lines, line, number, why)
    return Finding(number, column, why, says or WHYS[why], line, suggestion, cause(lines, why, gone))


def cause(lines: List[str], why: str, gone: List[int]) -> str:
    """Which cards that are left out may have brought the fault."""
    if why not in MAY_COME_OF:
        return ""
    found = []
    for number in gone:
        card = read_card(number, lines[number - 1])
        if card is None or card.operation not in FORMS or card.operation in MAY_COME_OF[why] or (
                why == "UnknownLabel" and card.name):
            found.append(number)
    if len(found) == 1:
        return "it may come of card %d, which is left out here for its own fault" % found[0]
    return "it may come of the cards %s, which are left out here for their own faults" % listed(
        [str(number) for number in found]) if found else ""


def place_in(lines: List[str], line: str, number: int, why: str) -> Tuple[int, str, str]:
    """The column, and what was expected there, if this is known."""
    if why == "BadByte":
        return in_bytes(line)
    if why == "BadCard" and len(line) > MOST_BYTES_OF_A_CARD:
        return MOST_BYTES_OF_A_CARD + 1, "a card has at most 80 bytes, and this one %d" % len(line), ""
    card = read_card(number, line)
    if card is None:
        return 1, "", ""
    operation = line.find(card.operation, len(card.name)) + 1
    if why == "UnknownOp":
        return operation, "there is no operation %s" % card.operation, near(card.operation, list(FORMS))
    if why in ("BadCard", "DuplicateName"):
        return 1, named_before(lines, number, card) if why == "DuplicateName" else in_name(card), ""
    if why == "BadOperand":
        found = trouble(card.operation, card.operands)
        if found is not None:
            return operand_column(line, card, found.place), found.says, found.suggestion
    if why in ("UnknownName", "UnknownLabel"):
        return in_names(lines, line, card, number)
    return operation, "", ""


def in_bytes(line: str) -> Tuple[int, str, str]:
    column = next((place for place, letter in enumerate(line, 1) if not " " <= letter <= "~"), 1)
    if line[column - 1:] == "\r":
        return column, "the line ends in CR LF", "tr -d '\\r', to take the carriage returns away"
    return column, "a tabulator" if line[column - 1:column] == "\t" else WHYS["BadByte"], ""


def in_name(card: Card) -> str:
    if card.operation in ("PROG", "TASK", "SRB") and not card.name:
        return "%s needs a name, in the first column" % card.operation
    if card.operation in ("REGION", "PEND", "OPER", "CANCEL", "END") and card.name:
        return "%s has no name: it begins with a blank" % card.operation
    return "a name has 1 to 8 capitals, digits, @, # or $, and no digit in front" if card.name else ""


def named_before(lines: List[str], number: int, card: Card) -> str:
    """Which card has the name already."""
    for earlier, line in enumerate(lines[:number - 1], 1):
        other = read_card(earlier, line)
        if other is not None and other.name == card.name and same_space(card, other):
            return "%s stands on card %d already" % (card.name, earlier)
    return ""


def same_space(one: Card, other: Card) -> bool:
    spaces = {"PROG": 0, "TASK": 1, "SRB": 1}
    return spaces.get(one.operation, 2) == spaces.get(other.operation, 2)


def operand_column(line: str, card: Card, place: int) -> int:
    """Where an operand begins; the one past the last begins behind the operands."""
    start = line.find(card.operation, len(card.name)) + len(card.operation)
    start += len(line[start:]) - len(line[start:].lstrip(" ")) if card.operands else 0
    before = sum(len(operand) + 1 for operand in card.operands[:place])
    return start + before + (1 if place < len(card.operands) or not card.operands else 0)


def in_names(lines: List[str], line: str, card: Card, number: int) -> Tuple[int, str, str]:
    """Which operand names what isn't there, and a name that is spelled much like it."""
    deck = read_deck("\n".join(lines).encode("latin-1"))
    for place, kind, name in named_by(card):
        names = names_of(deck, kind, number)
        if name not in names:
            words = {"program": "program", "task": "task", "srb": "SRB"}.get(kind, "label")
            return operand_column(line, card, place), "there is no %s %s" % (words, name), near(name, names)
    return 1, "", ""


def named_by(card: Card) -> Iterator[Tuple[int, str, str]]:
    """The names on a card: the operand's place, what it names, and the name."""
    form = form_of(card.operation, card.operands)
    positional = [slot for slot in form or () if not slot.key]
    keys = {slot.key: slot for slot in form or () if slot.key}
    for place, operand in enumerate(card.operands):
        key, equals, value = operand.partition("=")
        slot = keys.get(key) if equals else (positional[place] if place < len(positional) else None)
        if slot is not None and slot.kind in NAMING:
            yield place, slot.kind, value if equals else operand


def names_of(deck: Deck, kind: str, number: int) -> List[str]:
    """All names of a kind; of labels of the own program those of the program around a card."""
    if kind == "program":
        return list(deck.programs)
    if kind in ("task", "srb"):
        return [unit.name for unit in deck.units if unit.kind == kind.upper()]
    programs = [program for program in deck.programs.values()
                if kind == "label" or any(card.number == number for card in program.cards)]
    return [card.name for program in programs for card in program.cards if card.name]


# Warnings

def warnings_of(deck: Deck) -> Iterator[Finding]:
    """What is allowed and surprising, by cards in their order."""
    cards = [card for program in deck.programs.values() for card in program.cards]
    found = [*swallowed(deck, cards), *unused_labels(deck, cards), *unnamed(deck, cards), *without_label(deck),
             *without_sdwa(deck, cards)]
    yield from sorted(found, key=lambda one: (one.card, one.column))


def warning(deck: Deck, card: Card, column: int, why: str, says: str) -> Finding:
    return Finding(card.number, column, why, says, deck.lines[card.number - 1])


def operation_column(deck: Deck, card: Card) -> int:
    return deck.lines[card.number - 1].find(card.operation, len(card.name)) + 1


def swallowed(deck: Deck, cards: List[Card]) -> Iterator[Finding]:
    """A remark that looks like an operand of its card."""
    for card in cards + deck.commands:
        line = deck.lines[card.number - 1]
        behind = operand_column(line, card, len(card.operands))
        remark = line[behind:].split()
        form = form_of(card.operation, card.operands) or ()
        keys = [slot.key for slot in form if slot.key]
        if card.operands and remark and (remark[0].partition("=")[0] in keys or remark[0].startswith(",")):
            column = line.find(remark[0], behind) + 1
            yield warning(deck, card, column, "remark", "a blank ends the operands: %s is a remark" % remark[0])


def unused_labels(deck: Deck, cards: List[Card]) -> Iterator[Finding]:
    retried = {card.value("RETADDR") for card in cards}
    for program in deck.programs.values():
        branched = {card.operands[-1] for card in program.cards if card.operation in IFS and card.operands}
        for card in program.cards:
            if card.name and card.name not in branched | retried:
                yield warning(deck, card, 1, "label", "no card names the label %s" % card.name)


def unnamed(deck: Deck, cards: List[Card]) -> Iterator[Finding]:
    """Programs, tasks and SRBs that nothing leads to."""
    unit_cards = [read_card(unit.card, deck.lines[unit.card - 1]) for unit in deck.units]
    named = {(kind, name) for card in cards + [one for one in unit_cards if one] for _, kind, name in named_by(card)
             if card.operation in ("ATTACHX", "SCHEDULE") or kind == "program"}
    for number, line in enumerate(deck.lines, 1):
        card = read_card(number, line)
        if card is not None and card.operation == "PROG" and ("program", card.name) not in named:
            yield warning(deck, card, 1, "program", "no card names the program %s" % card.name)
    for unit in deck.units:
        card = read_card(unit.card, deck.lines[unit.card - 1])
        if card is not None and unit.name != deck.job_step and (unit.kind.lower(), unit.name) not in named:
            verb = "ATTACHX" if unit.kind == "TASK" else "SCHEDULE"
            yield warning(deck, card, 1, "unit", "no %s names %s, so it never begins" % (verb, unit.name))


def without_label(deck: Deck) -> Iterator[Finding]:
    """A retry that is asked for in a program that never says where."""
    for program in deck.programs.values():
        if any(card.value("RETADDR") for card in program.cards):
            continue
        for card in program.cards:
            if card.return_code == 4:
                yield warning(deck, card, operation_column(deck, card), "retry",
                              "a retry without RETADDR=: a routine that asks so is left with BAD")


def without_sdwa(deck: Deck, cards: List[Card]) -> Iterator[Finding]:
    """Cards that want an SDWA in programs that are ESTAE or ESTAI routines and no FRRs, in a region without SDWAs."""
    if deck.sdwa:
        return
    bare = {card.value("PGM") for card in cards if card.operation == "ESTAEX"} | {card.value("ESTAI") for card in cards}
    bare -= {card.value("PGM") for card in cards if card.operation == "SETFRR"}
    for name in sorted(bare & set(deck.programs)):
        for card in deck.programs[name].cards:
            if card.operation in WANT_SDWA:
                yield warning(deck, card, operation_column(deck, card), "sdwa",
                              "REGION says SDWA=NO: in an ESTAE or ESTAI routine this card is the error EE7")
