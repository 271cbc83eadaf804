"""The words of `rtm` as a person uses them: what they write, and how they end."""

from __future__ import annotations

import os
import re
import tempfile
import unittest
from pathlib import Path

from rtm_lib.program import REPOSITORY

from .decks import many_units
from .support import EXAMPLES, WithProgram, copied, example_decks, program, run_companion

RETRY = str(EXAMPLES / "retry.deck")
RETRY_TRACE = str(EXAMPLES / "retry.trace")
LARGEST_PAGE = 10_000_000
LARGEST_STORED = 25_000


class WordsTest(unittest.TestCase):
    """What needs no program."""

    def test_help_has_examples_and_statuses(self) -> None:
        for word, has in (("", b"exit statuses"), ("view", b"exit statuses"), ("doctor", b"example")):
            done = run_companion(*([word] if word else []), "--help")
            self.assertEqual(done.returncode, 0)
            self.assertIn(has, done.stdout)

    def test_wrong_words_end_with_20(self) -> None:
        for words in ("", "draw", "view", "view x.deck --from -1", "view x.deck --fold --all"):
            self.assertEqual(run_companion(*words.split()).returncode, 20, words)

    def test_a_missing_program_is_said_with_how_to_build_it(self) -> None:
        done = run_companion("view", RETRY, "--rtmrun", "/nowhere/rtmrun")
        self.assertEqual(done.returncode, 3)
        self.assertIn(b"./rtmrun --build", done.stderr)
        self.assertEqual(run_companion("doctor", "--rtmrun", "/nowhere/rtmrun").returncode, 3)


class ViewTest(WithProgram):
    """What needs it."""

    def page(self, *words: str, text: bytes = b"", status: int = 0) -> str:
        done = run_companion("view", *words, text=text)
        self.assertEqual(done.returncode, status, done.stderr)
        return done.stdout.decode("utf-8")

    def changed(self, old: bytes, new: bytes) -> bytes:
        """The deck of `retry` with a changed trace behind it."""
        trace = Path(RETRY_TRACE).read_bytes()
        self.assertIn(old, trace)
        return Path(RETRY).read_bytes() + trace.replace(old, new)

    def test_deck_and_trace_come_in_all_ways(self) -> None:
        page = self.page(RETRY)
        trace = Path(RETRY_TRACE).read_bytes()
        self.assertEqual(copied(page)[0], trace)
        self.assertEqual(self.page(RETRY, RETRY_TRACE), page)
        self.assertEqual(self.page(RETRY, "-", text=trace), page)
        behind = self.page("-", text=Path(RETRY).read_bytes() + trace)
        self.assertEqual(behind.replace(">deck<", ">retry<"), page)

    def test_stored_pictures_are_those_that_are_made(self) -> None:
        for deck in example_decks():
            stored = deck.with_suffix(".svg")
            self.assertTrue(stored.is_file(), "%s: no picture; tools/pictures draws it" % stored.name)
            made = self.page(str(deck), str(deck.with_suffix(".trace")), "--svg")
            self.assertEqual(stored.read_text(encoding="utf-8"), made,
                             "%s is no longer what rtm makes; tools/pictures draws it anew" % stored.name)
            self.assertLess(len(made), LARGEST_STORED, stored.name)
        drawn = {deck.with_suffix(".svg") for deck in example_decks()}
        self.assertEqual(set(EXAMPLES.glob("*.svg")), drawn)

    def test_pages_show_pictures_that_are_there(self) -> None:
        shown = []
        for page in (REPOSITORY / "README.md", EXAMPLES / "README.md", REPOSITORY / "docs" / "MACHINE.md",
                     REPOSITORY / "docs" / "RTM.md"):
            named = re.findall(r"!\[[^]]+\]\(([^)]+)\)", page.read_text(encoding="utf-8"))
            self.assertTrue(named, page)
            shown += [(page.parent / name).resolve() for name in named]
        self.assertEqual([one for one in shown if not one.is_file()], [])
        self.assertEqual({one.stem for one in shown}, {deck.stem for deck in example_decks()})

    def test_routines_without_an_sdwa_are_said(self) -> None:
        page = self.page(str(EXAMPLES / "nosdwa.deck"))
        for said in ("NOSDWA", "REGION SDWA=NO", "It has no SDWA",
                     "a card that wants an SDWA, in a routine without one",
                     "It leaves 4 in register 15: a retry is asked for, at GOON."):
            self.assertIn(said, page)

    def test_a_file_is_written(self) -> None:
        with tempfile.TemporaryDirectory() as folder:
            written = Path(folder) / "retry.html"
            self.assertEqual(self.page(RETRY, "-o", str(written)), "")
            self.assertEqual(written.read_text(encoding="utf-8"), self.page(RETRY))
        self.page(RETRY, "-o", "/nowhere/retry.html", status=17)

    def test_a_wrong_entry_ends_the_picture(self) -> None:
        page = self.page("-", text=self.changed(b"RETRY MAIN.4", b"RETRY MAIN.3"), status=10)
        self.assertIn("NOTLEGAL 8 WANTED JOB LEAVE ESTAE 0 RETRY MAIN.4", page)
        self.assertIn("isn&#x27;t legal", page)
        self.assertEqual(copied(page)[1], ["e%d" % index for index in range(8)])
        picture = self.page("-", "--svg", text=self.changed(b"RETRY MAIN.4", b"RETRY MAIN.3"), status=10)
        self.assertIn("NOTLEGAL 8", picture)

    def test_a_bad_line_ends_the_picture(self) -> None:
        page = self.page("-", text=self.changed(b"5 JOB LEAVE ESTAE 1 PERC", b"5 JOB LEAVES"), status=9)
        self.assertIn("LINE 7", page)
        self.assertEqual(len(copied(page)[1]), 5)

    def test_another_end_is_said(self) -> None:
        page = self.page("-", text=self.changed(b"END ENDED", b"END LIMIT"), status=11)
        self.assertIn("WRONGEND LIMIT ENDED", page)
        self.assertEqual(len(copied(page)[1]), 13)

    def test_a_refused_deck_is_said(self) -> None:
        done = run_companion("view", "-", text=b"MAIN PROG\n NOOP\n")
        self.assertEqual(done.returncode, 8)
        self.assertIn(b"DECK 2 UnknownOp", done.stderr)
        self.assertIn(b"NOOP", done.stderr)

    def test_parts(self) -> None:
        estai = str(EXAMPLES / "estai.deck")
        self.assertEqual(copied(self.page(estai, "--from", "4", "--to", "6"))[1], ["e4", "e5", "e6"])
        alone = copied(self.page(estai, "--unit", "JOB"))[1]
        self.assertEqual(alone, ["e0", "e27", "e28", "e29"])
        self.page(estai, "--unit", "NOBODY", status=20)
        self.page(estai, "--from", "1000", status=20)

    def test_a_trace_without_an_entry_is_a_page_too(self) -> None:
        waits = b"MAIN PROG\n WAIT 1\n PEND\nJOB TASK PGM=MAIN\n END\n"
        self.assertEqual(copied(self.page("-", text=waits))[0], b"RTMTRACE 1\nEND STALLED\n")
        self.assertIn("0 entries", self.page("-", "--svg", text=waits))
        self.page("-", "--from", "0", text=waits, status=20)

    def test_a_long_trace_folds(self) -> None:
        page = self.page("-", text=many_units(60, 40))
        self.assertLess(len(page), LARGEST_PAGE)
        self.assertIn("T1, and T2 to T60 like it", page)
        self.assertIn("\u00d739", page)
        self.assertIn("29344 * MEMEND", page)

    def test_what_is_not_drawn_is_refused_with_a_reason(self) -> None:
        done = run_companion("view", RETRY, "/nowhere/x.trace")
        self.assertEqual(done.returncode, 16)
        done = run_companion("view", "-", "-")
        self.assertEqual(done.returncode, 20)

    def test_doctor_names_the_program(self) -> None:
        done = run_companion("doctor")
        self.assertEqual(done.returncode, 0)
        self.assertIn(str(program().path).encode(), done.stdout)  # type: ignore[union-attr]
        environment = dict(os.environ, RTMRUN="/nowhere/rtmrun")
        self.assertEqual(run_companion("doctor", environment=environment).returncode, 3)
