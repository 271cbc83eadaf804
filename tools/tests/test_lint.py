"""The word `lint`: its table of operands against rtmrun, its faults, its columns and its warnings."""

from __future__ import annotations

import json
import random
import re
from typing import List, Tuple

from rtm_lib.deck import read_card
from rtm_lib.forms import FORMS, Slot, trouble
from rtm_lib.program import REPOSITORY

from .support import EXAMPLES, WithProgram, random_runs, run_companion

RANDOM_CARDS = 250
# Operands that are right somewhere and wrong elsewhere.
VOCABULARY = (
    "CT", "OV", "0", "A", "D", "R", "P", "ADD", "DELETE", "ABTERM", "MEMTERM", "ENQ", "DSN", "1", "300", "16", "04",
    "S0C4", "S000", "U4096", "MAIN", "JOB", "IO", "GO", "", "PGM=MAIN", "PGM=", "PGM=9", "TERM=YES", "TERM=MAYBE",
    "CANCEL=NO", "RC=4", "RC=5", "RETADDR=GO", "TYPE=TASK", "TYPE=SPACE", "TYPE=ADDR", "TASK=JOB", "COMPCOD=U1",
    "COMPCOD=S000", "REASON=1F", "REASON=1f", "REASON=123456789", "DUMP=YES", "DUMP=IGNORE", "ESTAI=MAIN",
    "STAE=YES", "RETRY=NO", "RECORD=IGNORE", "FRESDWA=NO", "REMREC=YES", "STEP=YES", "XCTL=YES", "NONE=1",
)
# Cards that don't stand in programs.
OUTSIDE = ("PROG", "PEND", "OPER", "END", "REGION", "TASK", "SRB", "CANCEL")
FAULTY = b""" REGION SDWA=NO
MAIN PROG
 ESTAEX CT,PGN=FIX
 ABND S0C4
GO LINK FIXX
 PEND
FIX PROG
 SETRP RC=4 RETADDR=GO
 PEND
JOB TASK PGM=MAIN
"""


def sample(slot: Slot) -> str:
    """An operand that a slot takes."""
    values = {"program": "MAIN", "task": "JOB", "srb": "IO", "label": "GO", "own-label": "GO", "code": "S000",
              "reason": "1F", "abend-code": "U1"}
    value = values.get(slot.kind, slot.kind.split("|")[0].split("-")[-1])
    return "%s=%s" % (slot.key, value) if slot.key else value


def deck_of(card: str) -> bytes:
    """A deck with one card in its program, or with that card as its own."""
    return ("MAIN PROG\nGO %s\n PEND\nJOB TASK PGM=MAIN\nIO SRB PGM=MAIN\n END\n" % card).encode()


class FormsTest(WithProgram):
    """The table of operands is no rule of its own: rtmrun agrees with it."""

    def why(self, deck: bytes) -> str:
        status, written = self.rtmrun.ask(["scan"], deck)
        return written.decode().split()[2] if status == 8 else ""

    def test_each_form_is_read(self) -> None:
        for operation, forms in FORMS.items():
            if operation in OUTSIDE:
                continue
            for form in forms:
                # (a SETRP with all of them is longer than a card)
                for slots in (form[:7], form[7:] or form, tuple(slot for slot in form if slot.needed)):
                    card = " ".join(filter(None, [operation, ",".join(sample(slot) for slot in slots)]))
                    expected = "BadOperand" if card == "SETRP" else ""
                    self.assertEqual(self.why(deck_of(card)), expected, card)

    def test_random_operands_are_judged_as_rtmrun_does(self) -> None:
        chosen = random.Random(5)
        operations = [one for one in FORMS if one not in OUTSIDE and FORMS[one] != [()]]
        refused = 0
        for _ in range(RANDOM_CARDS):
            operation = chosen.choice(operations)
            form = chosen.choice(FORMS[operation])
            operands = [sample(slot) for slot in form if slot.needed or chosen.random() < 0.4]
            for _ in range(chosen.choice([0, 1, 1, 2])):
                change = chosen.random()
                place = chosen.randrange(len(operands) + 1)
                if change < 0.4 or place == len(operands):
                    operands.insert(place, chosen.choice(VOCABULARY))
                elif change < 0.8:
                    operands[place] = chosen.choice(VOCABULARY)
                else:
                    del operands[place]
            text = " %s %s" % (operation, ",".join(operands))
            card = read_card(2, text)
            if card is None or len(text) > 78:
                continue
            found = trouble(card.operation, card.operands)
            refused += found is not None
            self.assertEqual(self.why(deck_of(text[1:])) == "BadOperand", found is not None, (text, found))
        self.assertGreater(refused, RANDOM_CARDS // 4)

    def test_the_page_has_each_operation(self) -> None:
        page = (REPOSITORY / "docs" / "CARDS.md").read_text(encoding="utf-8")
        named = set(re.findall(r"^\| `?([A-Z][A-Z0-9]*)\b", page, re.M))
        self.assertEqual([operation for operation in FORMS if operation not in named], [])


class LintTest(WithProgram):
    """Faults and warnings of a deck."""

    def found(self, text: bytes, status: int) -> Tuple[List[str], List[str]]:
        done = run_companion("lint", "-", "--json", text=text)
        self.assertEqual(done.returncode, status, done.stderr)
        told = json.loads(done.stdout)
        return (["%d:%d %s %s" % (one["card"], one["column"], one["why"], one["suggestion"]) for one in told["faults"]],
                ["%d:%d %s" % (one["card"], one["column"], one["why"]) for one in told["warnings"]])

    def test_all_faults_with_their_columns(self) -> None:
        faults, warnings = self.found(FAULTY, 8)
        self.assertEqual(faults, ["3:12 BadOperand PGM=", "4:2 UnknownOp ABEND", "11:1 NoEnd "])
        self.assertEqual(warnings, ["5:1 label", "7:1 program", "8:2 retry", "8:13 remark"])
        faults, _ = self.found(FAULTY + b" END\n", 8)
        self.assertEqual(faults, ["3:12 BadOperand PGM=", "4:2 UnknownOp ABEND", "5:9 UnknownName FIX"])

    def test_what_the_missing_card_may_have_brought_is_marked(self) -> None:
        done = run_companion("lint", "-", text=FAULTY.replace(b"FIX PROG", b"FIX PROGG") + b" END\n")
        said = done.stdout.decode()
        self.assertIn("WrongPlace", said)
        self.assertIn("it may come of the cards 4 or 7, which are left out here for their own faults", said)

    def test_forms_of_bytes(self) -> None:
        small = b"MAIN PROG\n NOP\n PEND\nJOB TASK PGM=MAIN\n END\n"
        self.assertEqual(self.found(small, 0), ([], []))
        faults, _ = self.found(small.replace(b" NOP", b" NOP\r"), 8)
        self.assertEqual(faults[0], "2:5 BadByte tr -d '\\r', to take the carriage returns away")
        faults, _ = self.found(small.replace(b" NOP", b" NOP " + b"x" * 80), 8)
        self.assertEqual(faults, ["2:81 BadCard "])
        faults, _ = self.found(small.replace(b" END", b"END"), 8)
        self.assertEqual(faults[0], "5:1 BadCard ")
        many = b"MAIN PROG\n" + b" NOOP\n" * 60 + b" PEND\nJOB TASK PGM=MAIN\n END\n"
        self.assertEqual(len(self.found(many, 8)[0]), 50)

    def test_a_routine_without_an_sdwa_is_warned_of(self) -> None:
        faults, warnings = self.found((EXAMPLES / "nosdwa.deck").read_bytes(), 0)
        self.assertEqual((faults, warnings), ([], ["18:2 sdwa"]))

    def test_decks_that_are_read_have_no_faults(self) -> None:
        for name, deck, _ in random_runs(self.rtmrun):
            done = run_companion("lint", "-", text=deck)
            self.assertEqual(done.returncode, 0, (name, done.stdout, done.stderr))
