"""Invariants of the picture, over the examples and over random decks."""

from __future__ import annotations

import xml.etree.ElementTree as ElementTree
from typing import Iterator, List, Optional, Tuple

from rtm_lib.folds import folded_rows
from rtm_lib.history import History
from rtm_lib.legend import keys_of
from rtm_lib.parts import Picture
from rtm_lib.page import page
from rtm_lib.rows import ROW, all_rows
from rtm_lib.svg import svg

from .geometry import outside, overlapping, struck
from .support import WithProgram, all_runs, copied, drawn, history_of


class PictureTest(WithProgram):
    """Each invariant is looked for on each picture; all runs are made once."""

    runs: List[Tuple[str, bytes, bytes, History]] = []

    @classmethod
    def setUpClass(cls) -> None:
        super().setUpClass()
        cls.runs = [(name, deck, trace, history_of(deck, trace)) for name, deck, trace in all_runs(cls.rtmrun)]

    def histories(self) -> Iterator[Tuple[str, History]]:
        for name, _, _, history in self.runs:
            yield name, history

    def test_lines_stand_once_and_in_order_and_copying_them_gives_the_trace(self) -> None:
        for name, deck, trace, history in self.runs:
            layout, drawing = drawn(history)
            picture = Picture(name, layout, drawing.canvas, self.rtmrun.verify(deck, trace))
            text, identities = copied(page(picture))
            self.assertEqual(identities, ["e%d" % index for index in range(history.length)], name)
            self.assertEqual(text, trace, name)
            self.assertTrue(self.rtmrun.verify(deck, text).is_legal, name)

    def test_the_svg_is_well_formed_and_stands_alone(self) -> None:
        for name, deck, trace, history in self.runs:
            layout, drawing = drawn(history)
            alone = svg(Picture(name, layout, drawing.canvas, self.rtmrun.verify(deck, trace)))
            ElementTree.fromstring(alone)
            self.assertNotIn("href", alone, name)
            for entry in history.trace.entries:
                self.assertIn(">%d</tspan>" % entry.index, alone, name)

    def test_each_routine_closes_where_its_leave_stands(self) -> None:
        for name, history in self.histories():
            _, drawing = drawn(history)
            for box in history.boxes:
                if box.header is None:
                    continue
                entered, left = box.header, self.leave_of(history, box.born)
                if left is None:
                    self.assertNotEqual(box.ending, "LEAVE", (name, entered.line))
                    continue
                self.assertEqual((box.ended, box.ending), (left, "LEAVE"), (name, entered.line))
                foot = drawing.box_foot(box)
                self.assertTrue(0 < drawing.rows.foot(left) - foot < ROW / 2, (name, entered.line))

    @staticmethod
    def leave_of(history: History, entered: int) -> Optional[int]:
        """The LEAVE of an ENTER, found by counting the brackets of its unit, or None where none comes."""
        entry = history.trace.entries[entered]
        depth = 0
        for later in history.trace.entries[entered:]:
            if later.unit == entry.unit and later.verb in ("ENTER", "LEAVE"):
                depth += 1 if later.verb == "ENTER" else -1
                if depth == 0:
                    return later.index if (later.kind, later.number) == (entry.kind, entry.number) else None
        return None

    def test_boxes_of_a_unit_stand_in_one_another(self) -> None:
        for name, history in self.histories():
            _, drawing = drawn(history)
            for unit in history.units:
                spans = [(drawing.rows.top(box.born), drawing.box_foot(box), box.depth)
                         for box in history.boxes if box.unit == unit]
                for top, foot, depth in spans:
                    for other_top, other_foot, other_depth in spans:
                        crosses = top < other_top < foot < other_foot
                        self.assertFalse(crosses and other_depth > depth, (name, unit))

    def test_retries_go_on_in_the_program_of_their_place(self) -> None:
        for name, history in self.histories():
            for retry in history.retries:
                if retry.next_line is None:
                    continue
                entry = history.trace.entries[retry.next_line]
                if entry.verb in ("EXEC", "ERROR"):
                    self.assertEqual(entry.place, history.trace.entries[retry.born].place, name)
                    self.assertEqual(history.lines[retry.next_line].depth, retry.depth, name)

    def test_no_text_on_a_text_and_no_line_through_one(self) -> None:
        for name, history in self.histories():
            for rows in (all_rows(history), folded_rows(all_rows(history))):
                layout, drawing = drawn(history, rows)
                canvas = drawing.canvas
                self.assertEqual(list(overlapping(canvas.texts)), [], name)
                self.assertEqual(list(struck(canvas.texts, canvas.strokes)), [], name)
                self.assertEqual(list(outside(canvas, layout.width, layout.rows.foot_of_all + 1)), [], name)

    def test_an_abort_of_the_master_to_the_unit_whose_column_it_has(self) -> None:
        deck = (b"MAIN PROG\n ATTACHX A\n RESMGR ADD,PGM=LATE,TYPE=SPACE\n WAITT A\n PEND\nWORK PROG\n NOP\n PEND\n"
                b"LATE PROG\n CALLRTM ABTERM,TASK=A,COMPCOD=U8\n PEND\nJOB TASK PGM=MAIN\nA TASK PGM=WORK\n END\n")
        history = history_of(deck, self.rtmrun.run(deck))
        layout, drawing = drawn(history)
        self.assertIs(layout.columns["A"], layout.columns["*"])
        self.assertEqual(list(struck(drawing.canvas.texts, drawing.canvas.strokes)), [])

    def test_parts_are_drawn_too(self) -> None:
        for name, history in self.histories():
            for first in range(0, history.length, max(1, history.length // 4)):
                rows = all_rows(history, None, first, first + 9)
                layout, drawing = drawn(history, rows)
                canvas = drawing.canvas
                self.assertEqual(list(overlapping(canvas.texts)), [], (name, first))
                self.assertEqual(list(struck(canvas.texts, canvas.strokes)), [], (name, first))
                self.assertEqual(list(outside(canvas, layout.width, layout.rows.foot_of_all + 1)), [], (name, first))

    def test_each_unit_can_be_drawn_alone(self) -> None:
        for name, history in self.histories():
            for unit in history.units:
                rows = all_rows(history, [unit])
                if rows.rows:
                    _, drawing = drawn(history, rows)
                    self.assertEqual(list(overlapping(drawing.canvas.texts)), [], (name, unit))
                    self.assertEqual(list(struck(drawing.canvas.texts, drawing.canvas.strokes)), [], (name, unit))

    def test_who_is_entered_is_there(self) -> None:
        for name, history in self.histories():
            for entry in history.trace.entries:
                if entry.verb in ("ENTER", "LEAVE"):
                    there = [one for one in history.registrations if one.unit == entry.unit
                             and (one.kind, one.number) == (entry.kind, entry.number) and one.is_there(entry.index)]
                    self.assertEqual(len(there), 1, (name, entry.line))
                if entry.verb == "DONE":
                    left = [one for one in history.registrations if one.unit == entry.unit and one.ended is None]
                    self.assertEqual(left, [], (name, entry.line))

    def test_a_routine_without_an_sdwa_is_marked(self) -> None:
        for name, history in self.histories():
            _, drawing = drawn(history)
            bare = [entry for entry in history.trace.entries if entry.without_sdwa]
            marks = sum(shape.markup.count('class="no-sdwa"') for shape in drawing.canvas.shapes)
            self.assertEqual(marks, len(bare), name)
            self.assertEqual("head of a routine without an SDWA" in [key.meaning for key in keys_of(drawing.canvas)],
                             bool(bare), name)
            self.assertFalse(bare and history.deck.sdwa, name)

    def test_folds_hide_nothing_that_must_be_seen(self) -> None:
        for name, history in self.histories():
            rows = folded_rows(all_rows(history))
            gone = {unit for units in rows.like.values() for unit in units}
            for entry in history.trace.entries:
                if entry.unit not in gone and (entry.verb == "LAND" or entry.verdict == "FAIL"):
                    self.assertTrue(rows.shows(entry.index), (name, entry.line))
            counted = len(rows.place) + len(rows.fold_place)
            hidden = len([entry for entry in history.trace.entries if entry.unit in gone])
            self.assertEqual(counted + hidden, history.length, name)
