"""The word `sweep`: which decks it makes, what it says of each moment, and that a plan gathers to the same table."""

from __future__ import annotations

import json
import shlex
import subprocess
import tempfile
import unittest
from pathlib import Path
from typing import List

from rtm_lib.failures import Failure
from rtm_lib.moments import listed_moments, prepare, read_moments
from rtm_lib.orders import LATEST, Walk, try_all
from rtm_lib.trace import read_trace

from .decks import random_deck
from .support import EXAMPLES, WithProgram, run_companion

CANCEL = EXAMPLES / "cancel.deck"
SMALL = b"MAIN PROG\n NOP\n PEND\nJOB TASK PGM=MAIN\n END\n"
TWO_COMMANDS = (b"MAIN PROG\n ATTACHX A\n NOP\n WAITT A\n PEND\nWORK PROG\n ESTAEX CT,PGM=TIDY,TERM=YES\n NOP\n PEND\n"
                b"TIDY PROG\n NOP\n PEND\nJOB TASK PGM=MAIN\nA TASK PGM=WORK\n OPER\n CANCEL A\n"
                b" CANCEL JOB,AT=3\n END\n")
RANDOM_DECKS = 5


class PrepareTest(unittest.TestCase):
    """The deck of a moment."""

    def test_the_decks_own_command_moves(self) -> None:
        swept = prepare(CANCEL.read_bytes(), None)
        self.assertEqual((swept.command, swept.unit, swept.number), ("CANCEL DBJOB", "DBJOB", 0))
        self.assertIn(b" OPER\n CANCEL DBJOB,AT=4\n END\n", swept.at(4))
        self.assertNotIn(b"AT=9", swept.at(4))

    def test_a_command_is_put_in_and_said(self) -> None:
        swept = prepare(SMALL, "CANCEL JOB,DUMP=YES")
        self.assertTrue(swept.at(1).endswith(b"JOB TASK PGM=MAIN\n OPER\n CANCEL JOB,DUMP=YES,AT=1\n END\n"))
        self.assertIn("and an OPER card before it", swept.said)

    def test_the_last_of_64_commands_is_left_out_and_said(self) -> None:
        full = SMALL.replace(b" END", b" OPER\n" + b" CANCEL JOB\n" * 64 + b" END")
        swept = prepare(full.replace(b"JOB TASK", b"JOB TASK PGM=MAIN\nB TASK"), "CANCEL B")
        self.assertEqual(swept.number, 63)
        self.assertEqual(swept.at(0).count(b"CANCEL"), 64)
        self.assertIn("left out", " ".join(swept.said))

    def test_what_stands_behind_end_is_left_out_and_said(self) -> None:
        swept = prepare(SMALL + b"RTMTRACE 1\n", None)
        self.assertNotIn(b"RTMTRACE", swept.at(0))
        self.assertIn("END card", swept.said[0])

    def test_other_commands_are_refused(self) -> None:
        for command in ("", "NOP", "CANCEL", "STOP JOB"):
            with self.assertRaises(Failure):
                prepare(SMALL, command)


class SweepTest(WithProgram):
    """What it prints."""

    def sweep(self, *words: str, text: bytes = b"", status: int = 0) -> str:
        done = run_companion("sweep", *words, text=text)
        self.assertEqual(done.returncode, status, done.stderr)
        return done.stdout.decode()

    def test_the_table_of_an_example(self) -> None:
        lines = self.sweep(str(CANCEL)).splitlines()
        self.assertEqual(lines[0], "CANCEL DBJOB at 21 moments, in the order of one thread")
        self.assertTrue(lines[3].startswith("CLEANUP is entered at 12 of 21 moments; not at 0: it landed in UPDATE;"))
        self.assertIn("not at 11 to 15: it landed inside CLEANUP, which failed", lines[3])
        self.assertIn("2 moments", self.sweep(str(CANCEL), "--from", "3", "--to", "4"))
        cells = [line.split("  ")[0] for line in lines[6:]]
        self.assertEqual(cells, ["0", "1 to 3", "4", "5 to 6", "7", "8 to 10", "11 to 12", "13 to 15", "16 to 17",
                                 "18 to 20"])

    def test_a_required_routine(self) -> None:
        self.sweep(str(CANCEL), "--require", "CLEANUP", status=1)
        self.sweep(str(CANCEL), "--require", "CLEANUP", "--from", "1", "--to", "10")
        self.sweep(str(CANCEL), "--require", "NOBODY", status=20)
        self.sweep(str(CANCEL), "--from", "500", status=20)
        self.sweep(str(EXAMPLES / "stall.deck"), "--command", "CANCEL READER", "--require", "READREC", status=1)

    def test_each_moment_is_what_its_run_shows(self) -> None:
        for seed in range(1, RANDOM_DECKS + 1):
            found = run_companion("sweep", "-", "--json", "--jobs", "2", "--to", "24", text=random_deck(seed))
            self.assertEqual(found.returncode, 0, found.stderr)
            report = json.loads(found.stdout)
            swept = prepare(random_deck(seed), None)
            self.assertEqual([moment["at"] for moment in report["moments"]], list(range(len(report["moments"]))))
            for moment in report["moments"][::3]:
                trace = self.rtmrun.run(swept.at(moment["at"])).decode().splitlines()
                landed = [line.split()[0] for line in trace if " %s LAND CANCEL %s " % (
                    swept.unit, moment["arrived"]) in line]
                self.assertEqual(landed, [] if moment["landed"] is None else [str(moment["landed"])], (seed, moment))

    def test_a_plan_gathers_to_the_same_table(self) -> None:
        some = (str(CANCEL), "--from", "9", "--to", "13")
        jobs = [shlex.split(line) for line in self.sweep(*some, "--plan").splitlines()]
        self.assertEqual(len(jobs), 5)
        printed: List[bytes] = [subprocess.run(job, stdout=subprocess.PIPE, check=True).stdout
                                for job in reversed(jobs)]
        self.assertEqual(self.sweep("-", "--gather", text=b"".join(printed)), self.sweep(*some))
        self.sweep("-", "--gather", text=b"no line of a job\n", status=16)

    def test_several_decks_and_moments_go_into_a_job(self) -> None:
        decks = [str(EXAMPLES / "srb.deck"), str(CANCEL)]
        whole = self.sweep(*decks, "--jobs", "2")
        self.assertEqual([line.split(": ")[0] for line in whole.splitlines() if "in the order of one" in line],
                         sorted(decks))
        jobs = [shlex.split(line) for line in self.sweep(*decks, "--plan", "--each", "8").splitlines()]
        self.assertEqual([job[-1] for job in jobs], ["0-7", "8-15", "16-20"] * 2)
        printed: List[bytes] = [subprocess.run(job, stdout=subprocess.PIPE, check=True).stdout
                                for job in reversed(jobs)]
        self.assertEqual(self.sweep("-", "--gather", text=b"".join(printed)), whole)
        other = self.sweep(str(CANCEL), "--command", "CANCEL DBJOB,DUMP=YES", "--at", "3").encode()
        self.sweep("-", "--gather", text=b"".join(printed) + other, status=16)
        for words in (["--html"], ["--orders"]):
            self.sweep(*decks, *words, status=20)
        self.assertEqual(len(json.loads(self.sweep(*decks, "--json", "--to", "2"))["sweeps"]), 2)

    def test_moments_are_listed_and_read(self) -> None:
        for moments, text in (([3], "3"), ([0, 1, 2, 7], "0-2,7"), ([4, 6, 7], "4,6-7")):
            self.assertEqual(listed_moments(moments), text)
            self.assertEqual(read_moments(text), moments)
        for text in ("", "x", "1-", "-1", "1,,2"):
            self.assertRaises(ValueError, read_moments, text)
        self.sweep(str(CANCEL), "--at", "x", status=20)

    def test_all_orders_are_those_of_all_moments(self) -> None:
        walk = Walk(self.rtmrun, TWO_COMMANDS)
        found = set()
        for first in (*range(14), LATEST):
            for second in (*range(14), LATEST):
                trace = read_trace(self.rtmrun.run(walk.deck_of(((0, first), (1, second)))))
                found.add(tuple((entry.number, entry.index) for entry in trace.entries if entry.verb == "ARRIVE"))
        self.assertLess(max(index for arrivals in found for _, index in arrivals), 14)
        orders = try_all(self.rtmrun, TWO_COMMANDS, None, 2, lambda done: None)
        self.assertEqual(orders.number, len(found))
        for outcome in orders.outcomes:
            self.assertIn(outcome.example, found)
        self.assertEqual(orders.said, [])
        fewer = try_all(self.rtmrun, TWO_COMMANDS, None, 2, lambda done: None, 40)
        self.assertLessEqual(fewer.runs, 40)
        self.assertIn("are tried, evenly spread; 40 runs are the most", fewer.said[-1])

    def test_the_table_of_orders(self) -> None:
        lines = self.sweep("-", "--orders", text=TWO_COMMANDS).splitlines()
        self.assertTrue(lines[0].startswith("CANCEL A, CANCEL JOB: "), lines[0])
        self.assertTrue(lines[2].startswith("TIDY is entered for a command in "), lines[2])
        report = json.loads(self.sweep("-", "--orders", "--json", "--jobs", "2", text=TWO_COMMANDS))
        self.assertEqual(report["orders"], sum(outcome["orders"] for outcome in report["outcomes"]))
        self.sweep("-", "--orders", "--require", "TIDY", text=TWO_COMMANDS, status=1)
        self.sweep("-", "--orders", "--require", "NOBODY", text=TWO_COMMANDS, status=20)
        self.sweep("-", "--orders", "--html", text=TWO_COMMANDS, status=20)
        self.assertIn("CANCEL JOB: ", self.sweep("-", "--orders", text=SMALL))

    def test_runs_on_threads_have_orders_too(self) -> None:
        lines = self.sweep("-", "--orders", "20", text=TWO_COMMANDS).splitlines()
        self.assertRegex(lines[1], "^20 runs on threads: [0-9]+ different traces, [0-9]+ further outcomes$")
        self.assertRegex(lines[3], "^TIDY is entered .* of the [0-9]+ traces of threads.$")
        report = json.loads(self.sweep("-", "--orders", "20", "--json", "--jobs", "2", text=TWO_COMMANDS))
        self.assertEqual(report["threads"]["runs"], 20)
        self.assertEqual(report["threads"]["traces"], sum(outcome["threads"] for outcome in report["outcomes"]))
        self.assertEqual(report["orders"], sum(outcome["orders"] for outcome in report["outcomes"]))
        # A deck of one unit: each run on threads is one of the orders that one thread makes.
        self.assertIn(", 0 further outcomes", self.sweep("-", "--orders", "5", text=SMALL).splitlines()[1])
        self.assertNotIn("threads", self.sweep("--orders", "-", text=SMALL))
        for words in (["--orders"], ["--orders", "5"], ["-", "--orders", "10001"]):
            self.sweep(*words, text=SMALL, status=20)

    def test_the_page_has_a_row_for_each_moment(self) -> None:
        page = self.sweep(str(CANCEL), "--html")
        self.assertEqual(page.count('<th scope="row">'), 21)
        self.assertEqual(page.count('class="cell perc">PERC</b></td>'), 12)
        self.assertNotIn("http", page)

    def test_a_file_is_written(self) -> None:
        with tempfile.TemporaryDirectory() as folder:
            written = Path(folder) / "sweep.txt"
            self.sweep(str(CANCEL), "-o", str(written))
            self.assertEqual(written.read_text(encoding="utf-8"), self.sweep(str(CANCEL)))
