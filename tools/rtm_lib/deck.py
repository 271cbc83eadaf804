"""Reading a deck for the texts of its cards.

Structure alone: which card stands on line n, in which program, with which label and operands. Nothing is judged
here; whether the deck can be read is rtmrun's answer.
"""

from __future__ import annotations

import re
from dataclasses import dataclass, field
from typing import Dict, List, Optional, Tuple

# Behind these operations all that follows is a remark.
WITHOUT_OPERANDS = frozenset(["NOP", "RETURN", "PROG", "PEND", "OPER", "END"])
# How many entries a run has at most where REGION doesn't say.
DEFAULT_LIMIT = 20000


def number_in(text: str) -> Optional[int]:
    """The number that digits spell, or None. Only the ten digits are; Python takes others, and fails at very many."""
    return int(text) if re.fullmatch("[0-9]{1,30}", text) else None


def lines_of(text: bytes) -> List[str]:
    """The lines of a deck or a trace, each without its line feed."""
    lines = text.decode("latin-1").split("\n")
    return lines[:-1] if not lines[-1] else lines


def kept_lines(text: bytes) -> List[bytes]:
    """The same lines, each with its line feed."""
    return re.findall(b"[^\n]*\n|[^\n]+", text)


@dataclass(frozen=True)
class Place:
    """A program and the number of one of its operations."""

    program: str
    number: int

    def __str__(self) -> str:
        return "%s.%d" % (self.program, self.number)


@dataclass(frozen=True)
class Card:
    """One line of the deck that is neither a comment nor blank."""

    number: int
    name: str
    operation: str
    operands: Tuple[str, ...]

    @property
    def text(self) -> str:
        """Operation and operands, without the label and the remark."""
        return " ".join([self.operation] + ([",".join(self.operands)] if self.operands else []))

    def positional(self, place: int) -> str:
        """The operand at a place, or nothing where it is a keyword or isn't there."""
        if place < len(self.operands) and "=" not in self.operands[place]:
            return self.operands[place]
        return ""

    def value(self, key: str) -> str:
        """What stands behind KEY=, or nothing."""
        for operand in self.operands:
            if operand.startswith(key + "="):
                return operand[len(key) + 1:]
        return ""

    @property
    def return_code(self) -> Optional[int]:
        """What a SETRP or a RET15 asks for by a return code, if it gives one."""
        text = {"SETRP": self.value("RC"), "RET15": self.positional(0)}.get(self.operation, "")
        return number_in(text)


@dataclass
class Program:
    """The operations between PROG and PEND, numbered from 1 as in the places of a trace."""

    name: str
    cards: List[Card] = field(default_factory=list)

    def card(self, number: int) -> Optional[Card]:
        """The operation of that number; None behind the last one, where the program ends."""
        return self.cards[number - 1] if 0 < number <= len(self.cards) else None


@dataclass(frozen=True)
class Unit:
    """A task or an SRB, as its card describes it."""

    name: str
    kind: str
    program: str
    related: str
    card: int


@dataclass
class Deck:
    """A deck's cards, found by program and number, and what its REGION card says."""

    lines: List[str] = field(default_factory=list)
    region: Optional[Card] = None
    programs: Dict[str, Program] = field(default_factory=dict)
    units: List[Unit] = field(default_factory=list)
    commands: List[Card] = field(default_factory=list)

    def card(self, place: Optional[Place]) -> Optional[Card]:
        """The card at a place, or None where there is no place or it is a program's end."""
        found = self.programs.get(place.program) if place is not None else None
        return found.card(place.number) if found is not None and place is not None else None

    def unit(self, name: str) -> Optional[Unit]:
        """The unit of that name."""
        return next((unit for unit in self.units if unit.name == name), None)

    @property
    def limit(self) -> int:
        """How many entries a run has at most."""
        given = self.region.value("LIMIT") if self.region is not None else ""
        number = number_in(given)
        return DEFAULT_LIMIT if number is None else number

    @property
    def sdwa(self) -> bool:
        """Whether ESTAE and ESTAI routines get an SDWA."""
        return self.region is None or self.region.value("SDWA") != "NO"

    @property
    def job_step(self) -> str:
        """The job step task is the first TASK card, which need not be the first unit."""
        return next((unit.name for unit in self.units if unit.kind == "TASK"), "")


def is_end(line: bytes) -> bool:
    """Whether the line is the END card, behind which a trace may follow."""
    return line[:1] == b" " and line.split()[:1] == [b"END"]


def split_input(text: bytes) -> Tuple[bytes, bytes]:
    """Parts a deck from the trace that follows its END card."""
    start = 0
    while start < len(text):
        stop = text.find(b"\n", start)
        stop = len(text) if stop < 0 else stop + 1
        if is_end(text[start:stop]):
            return text[:stop], text[stop:]
        start = stop
    return text, b""


def read_card(number: int, line: str) -> Optional[Card]:
    """The card on a line; None for a comment or a blank line."""
    if line.startswith("*") or not line.strip(" "):
        return None
    words = line.split()
    name = "" if line.startswith(" ") else words.pop(0)
    if not words:
        return None
    operation = words[0]
    operands: Tuple[str, ...] = ()
    if operation not in WITHOUT_OPERANDS and len(words) > 1:
        operands = tuple(words[1].split(","))
    return Card(number, name, operation, operands)


def read_deck(text: bytes) -> Deck:
    """Reads the cards up to END."""
    deck = Deck(lines_of(text))
    program: Optional[Program] = None
    for number, line in enumerate(deck.lines, 1):
        card = read_card(number, line)
        if card is None:
            continue
        if card.operation == "PROG":
            program = deck.programs.setdefault(card.name, Program(card.name))
        elif card.operation == "PEND":
            program = None
        elif program is not None:
            program.cards.append(card)
        elif card.operation in ("TASK", "SRB"):
            deck.units.append(
                Unit(card.name, card.operation, card.value("PGM"), card.value("TASK"), number))
        elif card.operation == "CANCEL":
            deck.commands.append(card)
        elif card.operation == "REGION":
            deck.region = card
    return deck


def opening_sentence(deck: Deck) -> str:
    """The first sentence of the comment that the deck begins with, or nothing."""
    comment: List[str] = []
    for line in deck.lines:
        if not line.startswith("*"):
            break
        comment.append(line.lstrip("*").strip())
    text = " ".join(word for word in comment if word)
    match = re.match(r"(.+?[.!?:])(?=\s+[A-Z*]|\s*$)", text)
    return match.group(1) if match else text
