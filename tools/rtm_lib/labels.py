"""What stands in the lane beside each line: the card's words, and chips for what the line or a rule says."""

from __future__ import annotations

from dataclasses import dataclass
from typing import List, Optional, Union

from . import rules
from .history import History, Line
from .rules import Rule
from .trace import MASTER, by_verb

# Advances in pixels, measured: a label's letter, a trace line's letter, a chip's letter.
LABEL_LETTER = 6.321
TRACE_LETTER = 6.923
CHIP_LETTER = 5.12
CHIP_SIDES = 9.0
GAP = 4.0
# A label that is cut behind an operand must keep this part of its room, else it is cut in the middle.
KEEPS_OF_ROOM = 0.72
ELLIPSIS = "\u2026"


@dataclass(frozen=True)
class Word:
    """A piece of a label. What may be cut is a card's text alone."""

    text: str
    style: str
    may_be_cut: bool = False

    @property
    def width(self) -> float:
        return LABEL_LETTER * len(self.text)


@dataclass(frozen=True)
class Chip:
    """A small box with a word of the line; dashed where the word comes from a rule."""

    text: str
    style: str
    rule: Optional[Rule] = None

    @property
    def width(self) -> float:
        return CHIP_LETTER * len(self.text) + CHIP_SIDES


Item = Union[Word, Chip]


def width_of(items: List[Item]) -> float:
    """The width of items set one behind the other."""
    total = 0.0
    for position, item in enumerate(items):
        total += item.width + (gap(items[position - 1], item) if position else 0.0)
    return total


def gap(left: Item, right: Item) -> float:
    """The space between two items: a letter between words, less around chips."""
    return LABEL_LETTER if isinstance(left, Word) and isinstance(right, Word) else GAP


def cut(text: str, room: float) -> str:
    """A text in so much room, cut behind an operand where that keeps enough of it."""
    letters = int(room / LABEL_LETTER)
    if len(text) <= letters:
        return text
    comma = text.rfind(",", 0, letters - 1)
    if comma + 2 >= KEEPS_OF_ROOM * letters:
        return text[:comma + 1] + ELLIPSIS
    return text[:max(letters - 1, 1)] + ELLIPSIS


def least_width(items: List[Item], room: float) -> float:
    """The width of items whose card text takes no more than so much room."""
    return width_of(items) - sum(max(0.0, item.width - room) for item in items if is_cut(item))


def is_cut(item: Item) -> bool:
    return isinstance(item, Word) and item.may_be_cut


def cut_to(items: List[Item], whole: float) -> List[Item]:
    """Items whose card text is cut until all take no more than so much width."""
    over = width_of(items) - whole
    if over <= 0:
        return items
    return [Word(cut(item.text, item.width - over), item.style) if is_cut(item) else item for item in items]


def flags(line: Line) -> List[Item]:
    return [Chip(flag, "flag") for flag in line.entry.mark.flags]


def items_of(line: Line) -> List[Item]:
    """The label and chips of a line."""
    return MAKERS[line.entry.verb](line)


def of_exec(line: Line) -> List[Item]:
    entry = line.entry
    if line.card is None:
        items: List[Item] = [Word("(end of %s)" % line.program_end, "remark")]
    else:
        items = [Word(line.card.text, "card", may_be_cut=True)]
    posted = line.abort.fate if line.abort is not None else ""
    if posted in ("MERGED", "LATE"):
        items.append(Chip(posted, "fate"))
    elif entry.return_code:
        items.append(Chip("RC=%d" % entry.return_code, "code"))
    return items


def of_error(line: Line) -> List[Item]:
    text = line.card.text if line.card is not None else "(end of %s)" % line.program_end
    items: List[Item] = [Word(text, "card error", may_be_cut=True)]
    if line.card is None or line.card.operation != "ABEND":
        items.append(Word(": " + line.entry.mark.code, "card error"))
    return items + flags(line)


def of_land(line: Line) -> List[Item]:
    code = line.entry.mark.code
    items: List[Item] = [Word("%s %s" % (line.entry.kind, code), "card error")]
    items += flags(line)
    if rules.is_term_only(line.entry.kind, code):
        items.append(Chip(rules.TERM_ONLY.word, "rule", rules.TERM_ONLY))
    return items


def of_enter(line: Line) -> List[Item]:
    entry = line.entry
    items: List[Item] = [Word(entry.kind, "kind " + entry.kind.lower())]
    if line.routine:
        items.append(Word(line.routine, "card bold"))
    items.append(Word(entry.mark.code, "card"))
    items += flags(line)
    if entry.without_sdwa:
        items.append(Chip("NOSDWA", "code"))
    if line.shield is rules.NOT_CANCELLED:
        items.append(Chip(rules.NOT_CANCELLED.word, "rule", rules.NOT_CANCELLED))
    return items


def of_leave(line: Line) -> List[Item]:
    entry = line.entry
    items: List[Item] = [Chip(entry.verdict, "verdict " + entry.verdict.lower())]
    if line.label:
        items.append(Word(line.label, "card goes-on"))
    if entry.logrec:
        items.append(Chip("LOGREC", "code"))
    if entry.dump:
        items.append(Chip("DUMP", "code"))
    return items


def of_arrive(line: Line) -> List[Item]:
    return [Word("operator: CANCEL", "remark"), Chip(line.entry.fate, "fate")]


def of_begin(line: Line) -> List[Item]:
    items: List[Item] = [Word("BEGIN " + line.entry.code, "card bold")]
    return items + ([Chip("DUMP", "code")] if line.entry.dump else [])


def of_release(line: Line) -> List[Item]:
    entry = line.entry
    items: List[Item] = [Word("RELEASE %s %d" % (entry.kind, entry.number), "card quiet")]
    if entry.unit == MASTER and entry.owner != MASTER:
        items.append(Chip(entry.owner, "code"))
    return items


def of_done(line: Line) -> List[Item]:
    items: List[Item] = [Word("DONE " + line.entry.code, "card bold")]
    return items + [Chip("%s=%s" % posted, "fate") for posted in line.entry.posted]


def of_purge(line: Line) -> List[Item]:
    return [Word("PURGE " + line.entry.owner, "card quiet")]


def of_memend(line: Line) -> List[Item]:
    return [Word("MEMEND", "card bold")]


MAKERS = by_verb("of_", globals())


def runs(history: History, unit: str) -> str:
    """What stands beside a unit's pill."""
    described = history.deck.unit(unit)
    if described is None:
        return ""
    return ("SRB, runs " if described.kind == "SRB" else "runs ") + described.program


def pill_name(unit: str) -> str:
    """A unit's name on its pill; the master's line has only a star."""
    return "* master" if unit == MASTER else unit
