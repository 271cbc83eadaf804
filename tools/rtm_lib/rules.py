"""The one table of what the picture takes from a rule of the machine and not from a line of the trace.

All that stands here is drawn dashed, and says on hover which section of docs/MACHINE.md it comes from.
"""

from __future__ import annotations

from dataclasses import dataclass
from typing import Tuple


@dataclass(frozen=True)
class Rule:
    """A word on the picture that no line has, and where the rule behind it stands."""

    word: str
    section: int
    says: str

    @property
    def hover(self) -> str:
        return "%s: %s (docs/MACHINE.md, section %d)" % (self.word, self.says, self.section)


TERM_ONLY = Rule("TERMONLY", 9, "an abort of this class admits only routines that were made with TERM=YES")
NOT_CANCELLED = Rule("CANCEL=NO", 9, "the card that made this routine says so, and no abort lands while it runs")
SHIELDED_KIND = Rule("shielded", 9, "no abort lands while a routine of this kind runs")

NO_SDWA = Rule("NOSDWA", 4, "the deck's REGION card gives ESTAE and ESTAI routines no SDWA")

HELD_BY_FRR = Rule("held back", 9, "an FRR of the unit lives, so nothing may land")
HELD_BY_ROUTINE = Rule("held back", 9, "a routine runs that no abort may interrupt")
HELD_BY_DOOM = Rule("held back", 9, "an abort that forbids retry has landed before, so no other lands")
HELD_BY_ERROR = Rule("held back", 9, "an error of the innermost bracket is open, and comes first")

# Classes whose aborts are TERM-only; a DETACH is where it came without STAE=YES, which its code tells.
TERM_ONLY_CLASSES = frozenset(["CANCEL", "MOTHER", "STEP"])
DETACH_WITHOUT_STAE = "S13E"
SHIELDING_KINDS = frozenset(["FRR", "MGR"])


def is_term_only(abort_class: str, code: str) -> bool:
    """Whether the table of classes says that such an abort is TERM-only."""
    return abort_class in TERM_ONLY_CLASSES or (abort_class == "DETACH" and code == DETACH_WITHOUT_STAE)

# The sections of docs/MACHINE.md, by their numbers.
SECTIONS = {
    2: "a card is executed", 3: "an error comes", 4: "which routine gets control", 5: "what a routine can do",
    6: "a routine ends", 7: "a routine fails", 8: "a unit ends", 9: "aborts from outside", 10: "memory end",
    11: "who goes next",
}
# Where the rule of a line stands, by its verb; a routine's line has its own by its verdict or kind.
SECTIONS_OF = {
    "EXEC": (2,), "ERROR": (2, 3), "LAND": (9, 3), "ENTER": (4,), "LEAVE": (6,), "ARRIVE": (11, 9), "BEGIN": (8,),
    "RELEASE": (8,), "DONE": (8,), "PURGE": (10,), "MEMEND": (10,),
}
SECTIONS_OF_VERDICT = {"FAIL": (7,), "OVER": (8,)}


def sections_of(verb: str, kind: str, verdict: str, by_master: bool) -> Tuple[int, ...]:
    """The sections that have the rule of a line."""
    found = SECTIONS_OF_VERDICT.get(verdict, SECTIONS_OF[verb])
    if verb == "ENTER" and kind == "MGR":
        found = (8,)
    return tuple(10 if by_master and section == 8 else section for section in found)
