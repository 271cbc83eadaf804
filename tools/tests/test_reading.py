"""Reading decks and traces: structure, and each form of a line."""

from __future__ import annotations

import unittest

from rtm_lib.deck import Place, opening_sentence, read_deck, split_input
from rtm_lib.labels import cut
from rtm_lib.trace import Mark, NotUnderstood, read_entry, read_trace

DECK = (b"* What it shows. And more,\n* in a second line.\n\nMAIN PROG a remark\n ESTAEX CT,PGM=FIX,TERM=YES  remark\n"
        b"* between\nGO RETURN this is a remark\n PEND\nIO SRB PGM=MAIN,TASK=JOB\nJOB TASK PGM=MAIN\n OPER\n"
        b" CANCEL JOB,AT=9\n END\n")


class DeckTest(unittest.TestCase):
    """Cards by their places."""

    def test_cards_are_found_by_program_and_number(self) -> None:
        deck = read_deck(DECK)
        first, second = deck.card(Place("MAIN", 1)), deck.card(Place("MAIN", 2))
        assert first is not None and second is not None
        self.assertEqual((first.number, first.text), (5, "ESTAEX CT,PGM=FIX,TERM=YES"))
        self.assertEqual((second.number, second.name, second.text), (7, "GO", "RETURN"))
        self.assertEqual((first.positional(0), first.positional(1), first.value("PGM"), first.value("XCTL")),
                         ("CT", "", "FIX", ""))
        self.assertIsNone(deck.card(Place("MAIN", 3)))
        self.assertIsNone(deck.card(None))
        self.assertEqual([unit.name for unit in deck.units], ["IO", "JOB"])
        self.assertEqual(deck.job_step, "JOB")
        self.assertEqual(len(deck.commands), 1)

    def test_what_region_says(self) -> None:
        for text, limit, sdwa in ((b"", 20000, True), (b" REGION LIMIT=7\n", 7, True),
                                  (b" REGION SDWA=NO\n", 20000, False),
                                  (b"* first\n REGION SDWA=YES,LIMIT=0010 remark\n", 10, True)):
            deck = read_deck(text + DECK)
            self.assertEqual((deck.limit, deck.sdwa), (limit, sdwa))

    def test_the_opening_sentence(self) -> None:
        self.assertEqual(opening_sentence(read_deck(DECK)), "What it shows.")
        self.assertEqual(opening_sentence(read_deck(b"MAIN PROG\n* inside\n")), "")

    def test_a_trace_may_follow_the_deck(self) -> None:
        self.assertEqual(split_input(DECK + b"RTMTRACE 1\n"), (DECK, b"RTMTRACE 1\n"))
        self.assertEqual(split_input(b" NOP\n"), (b" NOP\n", b""))


class TraceTest(unittest.TestCase):
    """Each form of a line is read, and gives its line again."""

    def test_each_form(self) -> None:
        lines = ("0 JOB EXEC MAIN.1 RC=0", "4 IO ERROR A.3 S0C4 REASON=00000011 CLUP", "10 JOB LAND CANCEL 9 S222 CLUP",
                 "6 JOB ENTER ESTAE 0 S0C1 PERC STAF", "2 JOB ENTER ESTAE 0 S0C1 NOSDWA",
                 "8 W LEAVE ESTAE 1 RETRY WORK.4 LOGREC DUMP", "9 W LEAVE FRR 2 PERC LOGREC", "4 JOB ARRIVE 0 QUEUED",
                 "7 N BEGIN S122 DUMP", "14 * RELEASE DSN 12 KEEPER", "11 IO DONE S0C4 TASK=QUEUED STEP=LATE",
                 "10 * PURGE KEEPER", "15 * MEMEND")
        for line in lines:
            self.assertEqual(read_entry(line).line, line)

    def test_what_a_line_says(self) -> None:
        entry = read_entry("8 W LEAVE ESTAE 1 RETRY WORK.4 DUMP")
        self.assertEqual((entry.kind, entry.number, entry.verdict, entry.place, entry.logrec, entry.dump),
                         ("ESTAE", 1, "RETRY", Place("WORK", 4), False, True))
        entry = read_entry("2 JOB ENTER ESTAE 0 S0C1 REASON=0000000A PERC NOSDWA")
        self.assertEqual(entry.mark, Mark("S0C1", "0000000A", ("PERC",)))
        self.assertTrue(entry.without_sdwa)
        self.assertEqual(read_entry("11 IO DONE S0C4 TASK=QUEUED").posted, (("TASK", "QUEUED"),))

    def test_other_lines_are_not_understood(self) -> None:
        for line in ("", "x", "0 JOB WALKS", "0 JOB EXEC MAIN.1"):
            with self.assertRaises(NotUnderstood):
                read_entry(line)
        with self.assertRaises(NotUnderstood):
            read_trace(b"RTMTRACE 2\nEND ENDED\n")

    def test_so_many_entries_are_read(self) -> None:
        text = b"RTMTRACE 1\n0 JOB BEGIN S000\n1 JOB DONE S000\nwhatever\n"
        self.assertEqual(len(read_trace(text, 2).entries), 2)
        self.assertEqual(read_trace(text, 2).end, "")


class CutTest(unittest.TestCase):
    """Labels are cut behind an operand where that keeps enough."""

    def test_where_a_label_is_cut(self) -> None:
        letter = 6.321
        self.assertEqual(cut("ESTAEX CT,PGM=FIX", 17 * letter + 0.1), "ESTAEX CT,PGM=FIX")
        self.assertEqual(cut("SETRP RC=4,RETADDR=AGAIN", 13 * letter + 0.1), "SETRP RC=4,\u2026")
        self.assertEqual(cut("RESMGR ADD,PGM=SWEEP,TYPE=SPACE", 18 * letter + 0.1), "RESMGR ADD,PGM=SW\u2026")
