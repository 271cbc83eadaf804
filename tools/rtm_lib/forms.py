"""The operands of each card, as docs/CARDS.md has them: where one is wrong, and what could stand there.

rtmrun alone says whether a card is right. This table only finds the place in a card that was refused.
"""

from __future__ import annotations

import re
from dataclasses import dataclass
from typing import Dict, List, Optional, Tuple

FORMS_TEXT = """
PROG
PEND
OPER
END
NOP
RETURN
REGION [LIMIT=1-100000] [SDWA=YES|NO]
TASK PGM=program
SRB PGM=program [TASK=task]
CANCEL task [AT=0-100000] [DUMP=YES|NO]
LINK program
XCTL program
B own-label
IFCODE code own-label
IFCLUP own-label
IFPERC own-label
ABEND abend-code [REASON=reason] [DUMP=YES|NO] [STEP=YES|NO]
ESTAEX CT PGM=program [TERM=YES|NO] [CANCEL=YES|NO] [XCTL=YES|NO]
ESTAEX OV PGM=program [TERM=YES|NO] [CANCEL=YES|NO] [XCTL=YES|NO]
ESTAEX 0
SETFRR A PGM=program
SETFRR R PGM=program
SETFRR D
SETFRR P
SETRP [RC=0|4|16] [RETADDR=label] [REMREC=YES|NO] [COMPCOD=abend-code] [REASON=reason]
  [DUMP=YES|NO|IGNORE] [RECORD=YES|NO|IGNORE] [FRESDWA=YES|NO]
RET15 0|4|16 [RETADDR=label]
ATTACHX task [ESTAI=program] [TERM=YES|NO]
DETACH task [STAE=YES|NO]
CALLRTM ABTERM TASK=task COMPCOD=abend-code [REASON=reason] [DUMP=YES|NO] [RETRY=YES|NO]
CALLRTM MEMTERM COMPCOD=abend-code
SCHEDULE srb
WAIT 0-255
WAITT task
POST 0-255
GET ENQ|STOR|DSN|TIMR 0-999999
FREE ENQ|STOR|DSN|TIMR 0-999999
RESMGR ADD PGM=program TYPE=TASK|SPACE
RESMGR DELETE PGM=program TYPE=TASK|SPACE
"""
# Cards of which some operand has to stand there, though none is needed.
NEEDS_SOME = frozenset(["REGION", "SETRP"])
NAME = r"[A-Z@#$][A-Z0-9@#$]{0,7}"
# What each kind of operand is in words, and how it is spelled.
KINDS: Dict[str, Tuple[str, str]] = {
    "program": ("the name of a program", NAME), "task": ("the name of a task", NAME),
    "srb": ("the name of an SRB", NAME), "label": ("a label", NAME), "own-label": ("a label of this program", NAME),
    "code": ("a completion code, as S0C4 or U12", r"S[0-9A-F]{3}|U[0-9]{1,4}"),
    "abend-code": ("a completion code other than S000, as S0C4 or U12", r"(?!S000$)(S[0-9A-F]{3}|U[0-9]{1,4})"),
    "reason": ("up to 8 hexadecimal digits, in capitals", r"[0-9A-F]{1,8}"),
}
NAMING = ("program", "task", "srb", "label", "own-label")


@dataclass(frozen=True)
class Slot:
    """One operand of a form; the key of a positional one is empty."""

    key: str
    kind: str
    needed: bool

    @property
    def is_word(self) -> bool:
        """Whether it is a fixed word, which tells the form."""
        return not self.key and re.fullmatch(r"[A-Z]+|0", self.kind) is not None

    @property
    def words(self) -> str:
        """What could stand there."""
        if self.kind in KINDS:
            said = KINDS[self.kind][0]
        elif "-" in self.kind:
            said = "a number from %s to %s" % tuple(self.kind.split("-"))
        else:
            said = listed(self.kind.split("|"))
        return "%s=, %s" % (self.key, said) if self.key else said

    def takes(self, text: str) -> bool:
        """Whether a text could be its value."""
        if self.kind in KINDS:
            return re.fullmatch(KINDS[self.kind][1], text) is not None
        if "-" in self.kind:
            first, last = map(int, self.kind.split("-"))
            return re.fullmatch("[0-9]{1,10}", text) is not None and first <= int(text) <= last
        choices = self.kind.split("|")
        if choices == ["0", "4", "16"]:
            return re.fullmatch("[0-9]{1,10}", text) is not None and str(int(text)) in choices
        return text in choices


@dataclass(frozen=True)
class Trouble:
    """Which operand is wrong (one past the last where one is missing), and what could stand there."""

    place: int
    says: str
    suggestion: str = ""


def listed(words: List[str]) -> str:
    return words[0] if len(words) == 1 else ", ".join(words[:-1]) + " or " + words[-1]


def read_slot(text: str) -> Slot:
    needed = not text.startswith("[")
    text = text.strip("[]")
    key, _, kind = text.partition("=") if "=" in text else ("", "", text)
    return Slot(key, kind, needed)


def read_forms() -> Dict[str, List[Tuple[Slot, ...]]]:
    """The forms of each operation."""
    forms: Dict[str, List[Tuple[Slot, ...]]] = {}
    for line in FORMS_TEXT.replace("\n  ", " ").split("\n"):
        words = line.split(" ")
        if words[0]:
            forms.setdefault(words[0], []).append(tuple(read_slot(word) for word in words[1:]))
    return forms


FORMS = read_forms()


def form_of(operation: str, operands: Tuple[str, ...]) -> Optional[Tuple[Slot, ...]]:
    """The form that a card means, by its first word where that tells; None where it tells none."""
    forms = FORMS.get(operation, [])
    if len(forms) == 1:
        return forms[0]
    return next((form for form in forms if operands and form[0].kind == operands[0]), None)


def trouble(operation: str, operands: Tuple[str, ...]) -> Optional[Trouble]:
    """What this table finds wrong with the operands of a card, if anything."""
    form = form_of(operation, operands)
    if form is None:
        words = [one[0].kind for one in FORMS.get(operation, []) if one]
        return Trouble(0, "the first operand is %s" % listed(words)) if words else None
    if operation in NEEDS_SOME and not operands:
        return Trouble(0, "one operand at least has to stand here: %s" % listed([slot.key + "=" for slot in form]))
    positional = [slot for slot in form if not slot.key]
    keys = {slot.key: slot for slot in form if slot.key}
    seen: List[str] = []
    for place, operand in enumerate(operands):
        found = of_operand(place, operand, positional, keys, seen)
        if found is not None:
            return found
    missing = [slot for slot in positional if slot.needed] + [
        slot for slot in keys.values() if slot.needed and slot.key not in seen]
    if missing:
        return Trouble(len(operands), "missing: %s" % missing[0].words)
    if operation == "ATTACHX" and "TERM" in seen and "ESTAI" not in seen:
        return Trouble(place_of(operands, "TERM"), "TERM= stands with ESTAI= alone")
    return None


def place_of(operands: Tuple[str, ...], key: str) -> int:
    return next(place for place, operand in enumerate(operands) if operand.startswith(key + "="))


def of_operand(place: int, operand: str, positional: List[Slot], keys: Dict[str, Slot],
               seen: List[str]) -> Optional[Trouble]:
    """What is wrong with one operand; a positional slot that it fills is taken off, a key noted."""
    key, equals, value = operand.partition("=")
    if not operand:
        return Trouble(place, "nothing stands before or behind a comma")
    if not equals:
        if not positional:
            return Trouble(place, "no operand without a key comes here", near(operand, list(keys), "="))
        if seen:
            return Trouble(place, "operands without a key come first")
        slot = positional.pop(0)
        return None if slot.takes(operand) else Trouble(place, "expected: %s" % slot.words)
    if key not in keys:
        return Trouble(place, "there is no %s= here; there %s" % (key, "is " + listed([one + "=" for one in keys])
                                                                 if keys else "are no operands with a key"),
                       near(key, list(keys), "="))
    if key in seen:
        return Trouble(place, "%s= stands twice" % key)
    seen.append(key)
    slot = keys[key]
    return None if slot.takes(value) else Trouble(place, "expected: %s" % slot.words)


def near(text: str, words: List[str], behind: str = "") -> str:
    """A word that is spelled much like a text, if there is one."""
    ranked = sorted((distance(text, word), word) for word in words)
    return ranked[0][1] + behind if ranked and ranked[0][0] <= max(1, len(text) // 3) else ""


def distance(one: str, other: str) -> int:
    """How many letters to change, to leave out, to put in or to exchange with the next."""
    before: List[int] = []
    row = list(range(len(other) + 1))
    for place, letter in enumerate(one, 1):
        before, last, row = row, before, [place]
        for column, against in enumerate(other, 1):
            cost = min(before[column] + 1, row[-1] + 1, before[column - 1] + (letter != against))
            if last and column > 1 and letter == other[column - 2] and one[place - 2] == against:
                cost = min(cost, last[column - 2] + 1)
            row.append(cost)
    return row[-1]
