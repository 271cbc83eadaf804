"""The words `why`, `diff` and `whynot`: what they say of the examples, and that no reason speaks against its line."""

from __future__ import annotations

import json
import re
import tempfile
import unittest
from pathlib import Path
from typing import List, Tuple

from rtm_lib.history import History
from rtm_lib.program import REPOSITORY
from rtm_lib.reasons import reasons
from rtm_lib.rules import SECTIONS, sections_of
from rtm_lib.why import facts

from .support import EXAMPLES, WithProgram, all_runs, history_of, random_runs, run_companion

RETRY = EXAMPLES / "retry.deck"
# An example, an entry, and what is shown of its reason.
SHOWN: List[Tuple[str, int, List[str]]] = [
    ("retry", 5, ["The last return code that its cards give is 0 (entry 4)."]),
    ("retry", 6, ["The error of entry 2 is open.", "Asked before: NEW (entry 3)."]),
    ("retry", 8, ["The last return code that its cards give is 4 (entry 7), and the label is AGAIN (entry 7)."]),
    ("retry", 10, ["Nobody recovered the error of entry 9. It asked nobody."]),
    ("failing", 5, ["An error inside of it (entry 4) was recovered by nobody."]),
    ("failing", 7, ["None of its cards gives a return code, so it is 0."]),
    ("term", 6, ["The last return code that its cards give is 4 (entry 5), and its ENTER shows CLUP: "
                 "retry is forbidden."]),
    ("estai", 21, ["The last return code that its cards give is 16 (entry 20)."]),
    ("mode", 2, ["FRR 1 is there."]),
    ("mode", 7, ["The event was posted by COPYJOB (entry 0)."]),
    ("mother", 4, ["It has come to its last RETURN, and LOGGER lived."]),
    ("nosdwa", 5, ["TIDY was entered without an SDWA (entry 4)."]),
    ("nosdwa", 10, ["The last return code that its cards give is 4 (entry 9), and the label is GOON (entry 9)."]),
    ("srb", 12, ["It was posted by entry 11: 11 IOSRB DONE S0C4 TASK=QUEUED."]),
    ("memterm", 10, ["Memory end has begun (entry 8): 8 JOB EXEC MAIN.5 RC=0."]),
]


# Cards of a program that comes to a limit, the code that is due, and what is shown.
LIMITS = [
    (" LINK MAIN", "SEE1", "The bracket has 32 request blocks."),
    ("TOP ESTAEX CT,PGM=R\n B TOP", "SEE2", "64 ESTAE routines of the unit are there."),
    (" ESTAEX CT,PGM=R\n ABEND U1", "SEE3", "The unit has 16 brackets."),
    ("TOP GET ENQ,1\n B TOP", "SEE4", "The unit holds 256."),
    ("TOP RESMGR ADD,PGM=R,TYPE=TASK\n B TOP", "SEE5", "64 resource managers are there."),
    ("TOP SETFRR A,PGM=R\n B TOP", "S07D", "16 FRRs of the unit are there."),
]


class RulesTest(unittest.TestCase):
    """The table of sections is that of the page."""

    def test_sections_have_the_titles_of_the_page(self) -> None:
        page = (REPOSITORY / "docs" / "MACHINE.md").read_text(encoding="utf-8")
        titles = {int(number): title for number, title in re.findall(r"^## (\d+)\. (.+)$", page, re.M)}
        for number, title in SECTIONS.items():
            self.assertEqual(titles[number].lower(), title.lower())

    def test_the_rules_of_a_line(self) -> None:
        self.assertEqual(sections_of("LEAVE", "ESTAE", "FAIL", False), (7,))
        self.assertEqual(sections_of("ENTER", "MGR", "", False), (8,))
        self.assertEqual(sections_of("LEAVE", "MGR", "OVER", True), (10,))
        self.assertEqual(sections_of("RELEASE", "DSN", "", True), (10,))


class WhyTest(WithProgram):
    """What is said of an entry."""

    def test_what_is_shown(self) -> None:
        for name, index, shown in SHOWN:
            deck, trace = EXAMPLES / (name + ".deck"), EXAMPLES / (name + ".trace")
            history = history_of(deck.read_bytes(), trace.read_bytes())
            self.assertEqual(reasons(history, history.lines[index]), shown, (name, index))

    def test_limits_are_counted(self) -> None:
        for cards, code, shown in LIMITS:
            text = "MAIN PROG\n%s\n PEND\nR PROG\n ESTAEX CT,PGM=R\n ABEND U1\n PEND\nJOB TASK PGM=MAIN\n END\n"
            deck = (text % cards).encode()
            history = history_of(deck, self.rtmrun.run(deck))
            line = next(line for line in history.lines if line.entry.mark.code == code)
            self.assertEqual(reasons(history, line), [shown], code)

    def test_no_reason_speaks_against_its_line(self) -> None:
        for name, deck, trace in all_runs(self.rtmrun):
            history = history_of(deck, trace)
            for line in history.lines:
                told = facts(history, line)
                self.assertTrue(told["rules"] and told["says"], (name, line.entry.line))
                self.verdict_agrees(name, history, line.entry.index, " ".join(told["shown"]))

    def verdict_agrees(self, name: str, history: History, index: int, shown: str) -> None:
        entry = history.trace.entries[index]
        due = {"PERC": r"it is 0\.|give is 0 ", "RETRY": "give is 4 .*label is", "STOP": "give is 16 ",
               "FAIL": "recovered by", "BAD": "give is (16|4) "}
        if entry.verb == "LEAVE" and entry.verdict in due:
            self.assertRegex(shown, due[entry.verdict], (name, entry.line))
        if "doesn't stand in the program" in shown:
            self.assertEqual(entry.verdict, "BAD", (name, entry.line))

    def test_the_text_of_an_entry(self) -> None:
        done = run_companion("why", str(EXAMPLES / "term.deck"), "6")
        self.assertEqual(done.returncode, 0)
        self.assertEqual(done.stdout.decode().splitlines(), [
            "6 NIGHTLY LEAVE ESTAE 0 BAD",
            "LASTCALL asked for what it can't have; nobody is asked any more.",
            "Rule: docs/MACHINE.md, section 6 (a routine ends).",
            "",
            "What lines and cards show:",
            "  The last return code that its cards give is 4 (entry 5), and its ENTER shows CLUP: retry is forbidden.",
            "",
            "Made and not gone before entry 6:",
            "  ESTAE 1 RETRYIT: entry 1 by ESTAEX CT,PGM=RETRYIT",
            "  ESTAE 0 LASTCALL: entry 0 by ESTAEX CT,PGM=LASTCALL,TERM=YES",
        ])
        told = json.loads(run_companion("why", str(RETRY), "0", "--json").stdout)
        self.assertEqual((told["line"], told["shown"], told["routines"]), ("0 JOB EXEC MAIN.1 RC=0", [], []))

    def test_what_can_not_be_told(self) -> None:
        self.assertEqual(run_companion("why", str(RETRY), "13").returncode, 20)
        wrong = RETRY.read_bytes() + RETRY.with_suffix(".trace").read_bytes().replace(b"RETRY MAIN.4", b"RETRY MAIN.3")
        done = run_companion("why", "-", "8", text=wrong)
        self.assertEqual(done.returncode, 10)
        self.assertIn(b"NOTLEGAL 8 WANTED", done.stderr)
        self.assertEqual(run_companion("why", "-", "7", text=wrong).returncode, 10)


class DiffTest(WithProgram):
    """Where two traces part."""

    def test_equal_traces(self) -> None:
        trace = str(RETRY.with_suffix(".trace"))
        done = run_companion("diff", str(RETRY), trace, trace)
        self.assertEqual((done.returncode, done.stdout), (0, b"The traces are the same: 13 entries, END ENDED.\n"))

    def test_other_turns_are_told_apart_from_other_deeds(self) -> None:
        deck = (b"MAIN PROG\n ATTACHX A\n NOP\n NOP\n PEND\nWORK PROG\n ESTAEX CT,PGM=R\n ABEND U1\n PEND\n"
                b"R PROG\n PEND\nJOB TASK PGM=MAIN\nA TASK PGM=WORK\n END\n")
        one = self.rtmrun.run(deck)
        lines = one.decode().splitlines()
        self.assertEqual(lines[2:4], ["1 A EXEC WORK.1 RC=0", "2 JOB EXEC MAIN.2 RC=0"])
        lines[2:4] = ["1 JOB EXEC MAIN.2 RC=0", "2 A EXEC WORK.1 RC=0"]
        other = "\n".join(line.replace("ESTAE 1", "ESTAE 2") for line in lines) + "\n"
        with tempfile.TemporaryDirectory() as folder:
            names = [str(Path(folder) / name) for name in ("d", "one", "other")]
            for name, text in zip(names, (deck, one, other.encode())):
                Path(name).write_bytes(text)
            done = run_companion("diff", *names)
            self.assertEqual((done.returncode, done.stderr), (1, b""))
            said = done.stdout.decode()
            self.assertTrue(said.startswith("The traces part at entry 1.\n  first: 1 A EXEC WORK.1 RC=0\n"), said)
            for unit in ("JOB", "A", "the master"):
                self.assertIn("  %s does the same: " % unit, said)

    def test_a_wrong_trace_is_compared_before_its_fault(self) -> None:
        wrong = RETRY.with_suffix(".trace").read_bytes().replace(b"RETRY MAIN.4", b"RETRY MAIN.3")
        done = run_companion("diff", str(RETRY), str(RETRY.with_suffix(".trace")), "-", text=wrong)
        self.assertEqual(done.returncode, 10)
        self.assertIn(b"the second trace: NOTLEGAL 8", done.stderr)
        self.assertIn(b"The traces part at entry 8.", done.stdout)
        self.assertEqual(run_companion("diff", "-", "-", "-").returncode, 20)


class WhynotTest(WithProgram):
    """Which change of one operand makes a retry."""

    def said(self, text: bytes, *words: str, status: int) -> List[str]:
        done = run_companion("whynot", "-", *words, text=text)
        self.assertEqual(done.returncode, status, done.stderr)
        return done.stdout.decode().splitlines()

    def test_examples(self) -> None:
        first = (EXAMPLES / "first.deck").read_bytes()
        self.assertEqual(self.said(first.replace(b",RETADDR=GO", b""), status=0), [
            "1 JOB ERROR MAIN.2 S0C4",
            "Changes of one operand of one card that was executed: 5, each run.",
            "  card 13, SETRP RC=4: RETADDR=GO put in. FIX retries it at MAIN.3, and the unit ends with S000.",
        ])
        self.assertEqual(self.said(RETRY.read_bytes(), "--jobs", "2", status=0)[2:], [
            "  card 16, SETRP RC=4,RETADDR=AGAIN,REMREC=YES: REMREC=NO for REMREC=YES. OLD retries it at MAIN.4, "
            "and the unit doesn't end."])
        self.assertEqual(self.said((EXAMPLES / "cancel.deck").read_bytes(), status=1)[2:],
                         ["None of them has this error retried."])

    def test_an_sdwa_makes_a_retry(self) -> None:
        deck = (EXAMPLES / "nosdwa.deck").read_bytes().replace(b"KNOWN RET15 4", b"KNOWN RET15 0")
        said = self.said(deck, status=0)
        for change in ("card 9, REGION SDWA=NO: SDWA=YES for SDWA=NO. TIDY retries",
                       "card 23, RET15 0,RETADDR=GOON: 4 for 0. PLAIN retries"):
            self.assertIn("  %s it at REPORT.5, and the unit ends with S000." % change, said)

    def test_which_error(self) -> None:
        failing = (EXAMPLES / "failing.deck").read_bytes()
        told = json.loads("\n".join(self.said(failing, "--entry", "4", "--json", status=1)))
        self.assertEqual((told["line"], told["ended"], told["retried"]), ("4 JOB ERROR OUTER.1 U0007", "FAIL", []))
        self.said((EXAMPLES / "first.deck").read_bytes(), status=20)
        self.said(RETRY.read_bytes(), "--entry", "2", status=20)
        self.said(RETRY.read_bytes(), "--entry", "3", status=20)

    def test_each_change_was_run_so(self) -> None:
        for name, deck, _ in random_runs(self.rtmrun, 6):
            done = run_companion("whynot", "-", "--json", "--jobs", "2", text=deck)
            if done.returncode == 20:
                continue
            told = json.loads(done.stdout)
            for one in told["retried"][:2]:
                lines = deck.split(b"\n")
                lines[one["card"] - 1] = one["becomes"].encode()
                trace = self.rtmrun.run(b"\n".join(lines)).decode()
                self.assertIn(" RETRY %s" % one["goes_on"], trace, name)
