"""Odd calls: files that can't be read or written, bytes that are no text, words without values, another program.

Each ends with its own status and one line on standard error, and nobody is shown a traceback. A stand-in answers for
rtmrun, so that this runs where nothing is built.
"""

from __future__ import annotations

import json
import os
import subprocess
import sys
import tempfile
import unittest
import unittest.mock
from pathlib import Path
from typing import List, Tuple

from rtm_lib.failures import one_line
from rtm_lib.program import REPOSITORY

from .support import COMPANION, EXAMPLES, run_companion

DECK = EXAMPLES / "first.deck"
TRACE = EXAMPLES / "first.trace"

# Answers as rtmrun does for one deck that is legal, and refuses what has other bytes in it.
STAND_IN = """#!/bin/sh
room=$(dirname "$0")
cat > "$room/asked.$$"
trap 'rm -f "$room/asked.$$"' EXIT
cmp -s "$room/asked.$$" "$room/a.deck" && is_deck=1 || is_deck=0
cat "$room/a.deck" "$room/a.trace" | cmp -s "$room/asked.$$" - && is_both=1 || is_both=0
case $1:$is_deck:$is_both in
    seq:1:0) cat "$room/a.trace" ;;
    scan:1:0) cat "$room/a.deck" ;;
    verify:0:1) echo VERIFIED 8 ;;
    verify:*) echo LINE 1; exit 9 ;;
    *) echo DECK 1 BadByte; exit 8 ;;
esac
"""
# Programs that are none of rtmrun's.
OTHERS = {
    "silent": "#!/bin/sh\nexit 0\n", "killed": "#!/bin/sh\nkill -9 $$\n", "nowhere": "#!/no/such/shell\n",
    "text": "no program\n", "junk": "#!/bin/sh\ncat > /dev/null\necho junk\n",
    "short": "#!/bin/sh\ncat > /dev/null\necho VERIFIED\n",
    "worded": "#!/bin/sh\ncat > /dev/null\necho VERIFIED many\n",
    "illegal": "#!/bin/sh\ncat > /dev/null\necho NOTLEGAL\nexit 10\n",
    "line": "#!/bin/sh\ncat > /dev/null\necho LINE\nexit 9\n",
    "refuses": "#!/bin/sh\ncat > /dev/null\nprintf 'DECK 99 \\377\\n'\nexit 8\n",
    "strange": "#!/bin/sh\ncat > /dev/null\nexit 77\n", "hungry": "#!/bin/sh\ncat > /dev/null\nexit 12\n",
}
MOMENT = {"at": 1, "entered": []}
LINE = {"deck": "a", "command": "b", "unit": "c", "said": [], "moment": MOMENT}
FILES = {
    "empty": b"", "nul": b"\0\0\0", "bytes": b"\xff\xfe\0\1", "feed": b"\n", "end": b" END", "unended": b"MAIN PROG\n",
    "latin": b"MAIN PROG\n \xff\xfe ABEND\n PEND\nJOB TASK PGM=MAIN\n END\n",
    # Digits that are no decimal ones, and more than are read as a number.
    "digits": " REGION LIMIT=²\nMAIN PROG\n SETRP RC=²\n PEND\nJOB TASK PGM=MAIN\n END\n".encode("latin-1"),
    "long": b"MAIN PROG\n SETRP RC=" + b"9" * 5000 + b"\n PEND\n END\n",
    "bare": b" PROG\n PEND\n X\n CANCEL\n END\n", "returns": b"MAIN PROG\r PEND\n CANCEL\r END\n",
    "escapes": b"\x1b[31m PROG\n END\n", "format": b"RTMTRACE 9\nEND ENDED\n",
    "list": b"[]\n", "null": b"null\n", "number": b"7\n", "deep": b"[" * 100000,
    "untold": json.dumps(dict(LINE, said=7)).encode(), "unplaced": json.dumps(dict(LINE, moment={})).encode(),
    "worded.lines": json.dumps(dict(LINE, moment=dict(MOMENT, at="x"))).encode(),
    "landed.lines": json.dumps(dict(LINE, moment=dict(MOMENT, landed="x"))).encode(),
    "mixed": "\n".join(json.dumps(one) for one in (LINE, dict(LINE, deck=2))).encode(),
}

# The words over the files above, the status, and some of the line.
CALLS: List[Tuple[List[str], int, str]] = [
    ([], 20, "required: word"), (["nothing"], 20, "invalid choice"), (["view"], 20, "required: deck"),
    (["view", "a.deck", "--nothing"], 20, "unrecognized"), (["view", "a.deck", "--svg=1"], 20, "--svg"),
    # Files that aren't there, or are no files.
    (["view", "none"], 16, "none can't be read"), (["view", "folder"], 16, "Is a directory"),
    (["view", "loop"], 16, "symbolic links"), (["view", ""], 16, "without a name"),
    (["view", "no\nfile"], 16, r"no\nfile can't be read"), (["view", "\udc80"], 16, r"\udc80 can't be read"),
    (["view", "a.deck", "none"], 16, "none can't be read"), (["view", "a.deck", "folder"], 16, "Is a directory"),
    (["why", "a.deck", "1", "folder"], 16, "Is a directory"), (["whynot", "folder"], 16, "Is a directory"),
    (["lint", "folder"], 16, "Is a directory"), (["lint", "none"], 16, "none can't be read"),
    (["sweep", "folder"], 16, "Is a directory"), (["sweep", "folder", "--gather"], 16, "Is a directory"),
    (["sweep", "none", "--orders"], 16, "none can't be read"), (["play", "folder"], 16, "Is a directory"),
    (["play", "none"], 16, "none can't be read"), (["diff", "folder", "a.trace", "a.trace"], 16, "Is a directory"),
    (["diff", "a.deck", "a.trace", "none"], 16, "none can't be read"),
    # Files that can't be written.
    (["view", "a.deck", "-o", "folder"], 17, "Is a directory"), (["view", "a.deck", "-o", "none/x"], 17, "none/x"),
    (["view", "a.deck", "-o", ""], 17, "without a name"), (["why", "a.deck", "1", "-o", "/dev/full"], 17, "No space"),
    (["doctor", "-o", "folder"], 17, "Is a directory"),
    # Decks and traces that have nothing in them, or what is no text.
    (["view", "empty"], 8, "DECK 1"), (["view", "nul"], 8, "DECK 1"), (["view", "bytes"], 8, "DECK 1"),
    (["view", "latin"], 8, "DECK 1"), (["view", "escapes"], 8, r"which is: \x1b[31m PROG"),
    (["why", "nul", "1"], 8, "DECK 1"),
    (["whynot", "empty"], 8, "DECK 1"), (["sweep", "bare"], 8, "DECK 1"), (["sweep", "returns"], 8, "DECK 1"),
    (["sweep", "bare", "--orders"], 8, "DECK 1"), (["view", "a.deck", "empty"], 16, "empty is empty"),
    (["view", "a.deck", "nul"], 9, "LINE 1"), (["view", "a.deck", "format"], 9, "LINE 1"),
    (["diff", "a.deck", "a.trace", "empty"], 16, "empty is empty"),
    (["diff", "a.deck", "empty", "a.trace"], 16, "is empty"),
    (["diff", "a.deck", "a.trace", "bytes"], 9, "LINE 1"),
    # Options without values, or with others than they take.
    (["view", "a.deck", "--unit"], 20, "--unit: expected one"), (["view", "a.deck", "--from"], 20, "--from: expected"),
    (["view", "a.deck", "--from", "-1"], 20, "isn't a number"),
    (["view", "a.deck", "--to", "²"], 20, "isn't a number"),
    (["view", "a.deck", "--to", "9" * 5000], 20, "isn't a number"),
    (["view", "a.deck", "--from", "99"], 20, "no entry"),
    (["view", "a.deck", "--unit", "\udcff"], 20, "isn't in the deck"), (["view", "a.deck", "--rtmrun"], 20, "--rtmrun"),
    (["why", "a.deck"], 20, "required: entry"), (["why", "a.deck", "x"], 20, "isn't a number"),
    (["why", "a.deck", "8"], 20, "0 to 7"), (["whynot", "a.deck", "--entry"], 20, "--entry"),
    (["diff", "a.deck", "a.trace"], 20, "trace2"), (["lint"], 20, "required: deck"), (["doctor", "-o"], 20, "-o"),
    (["sweep", "a.deck", "--command"], 20, "--command"), (["sweep", "a.deck", "--command", ""], 20, "CANCEL card"),
    (["sweep", "a.deck", "--command", "CANCEL \udcff"], 20, "CANCEL card"),
    (["sweep", "a.deck", "--command", "CANCEL JOB\nX"], 20, "CANCEL card"), (["sweep", "a.deck", "--at"], 20, "--at"),
    (["sweep", "a.deck", "--at", ""], 20, "list of moments"),
    (["sweep", "a.deck", "--at", "5-1"], 20, "list of moments"),
    (["sweep", "a.deck", "--at", "²"], 20, "list of moments"),
    (["sweep", "a.deck", "--at", "0-99999999999"], 20, "100,000"),
    (["sweep", "a.deck", "--each", "0", "--plan"], 20, "isn't 1 or more"), (["sweep", "-", "--plan"], 8, "DECK 1"),
    (["play", "--port"], 20, "--port"), (["play", "--port", "99999"], 20, "65535 is the last"),
    # Lines that no job of a plan has printed.
    *[(["sweep", name, "--gather"], 16, "--gather") for name in (
        "empty", "nul", "bytes", "list", "null", "number", "deep", "untold", "unplaced", "worded.lines", "landed.lines",
        "mixed")],
    # Programs that aren't there, or are others.
    (["view", "a.deck", "--rtmrun", "none"], 3, "isn't there"),
    (["view", "a.deck", "--rtmrun", "folder"], 3, "isn't there"),
    (["view", "a.deck", "--rtmrun", "empty"], 3, "isn't there"), (["view", "a.deck", "--rtmrun", ""], 3, "isn't there"),
    (["play", "--rtmrun", "none"], 3, "isn't there"), (["lint", "a.deck", "--rtmrun", "none"], 3, "isn't there"),
    (["view", "a.deck", "--rtmrun", "nowhere"], 3, "can't be run"),
    (["view", "a.deck", "--rtmrun", "text"], 3, "can't be run"),
    *[(["view", "a.deck", "a.trace", "--rtmrun", name], 3, "no answer of rtmrun") for name in (
        "silent", "killed", "junk", "short", "worded", "illegal", "line", "refuses", "strange")],
    *[(words + ["--rtmrun", name], 3, "no answer of rtmrun") for name in ("silent", "killed", "refuses") for words in (
        ["lint", "a.deck"], ["whynot", "a.deck"], ["sweep", "a.deck"], ["sweep", "a.deck", "--orders"])],
    (["view", "a.deck", "--rtmrun", "hungry"], 12, "status 12"),
    *[(["doctor", "--rtmrun", name], 3, "can't work here") for name in ("none", "folder", "silent", "killed", "text")],
]

# Calls whose streams are closed, full or a pipe that nobody reads, as a shell makes them.
STREAMS: List[Tuple[str, int, str]] = [
    ("view - <&-", 16, "standard input can't be read"), ("play - <&-", 16, "standard input can't be read"),
    ("view a.deck >&-", 17, "standard output can't be written"), ("play a.deck >&-", 17, "standard output is closed"),
    ("--help >&-", 17, "standard output can't be written"), ("view a.deck > /dev/full", 17, "No space left"),
    ("why a.deck 1 > /dev/full", 17, "No space left"), ("play a.deck > /dev/full", 17, "No space left"),
    ("--version > /dev/full", 17, "No space left"), ("view --help > /dev/full", 17, "No space left"),
    ("view a.deck | :", 17, "Broken pipe"),
]


class OddInputTest(unittest.TestCase):
    """One line, and a status, whatever is given."""

    @classmethod
    def setUpClass(cls) -> None:
        cls.holder = tempfile.TemporaryDirectory()
        cls.addClassCleanup(cls.holder.cleanup)
        cls.room = Path(cls.holder.name)
        (cls.room / "folder").mkdir()
        (cls.room / "loop").symlink_to("loop")
        (cls.room / "a.deck").write_bytes(DECK.read_bytes())
        (cls.room / "a.trace").write_bytes(TRACE.read_bytes())
        for name, text in FILES.items():
            (cls.room / name).write_bytes(text)
        for name, script in dict(OTHERS, rtmrun=STAND_IN).items():
            (cls.room / name).write_text(script, encoding="ascii")
            (cls.room / name).chmod(0o755)
        before = os.getcwd()
        cls.addClassCleanup(os.chdir, before)
        os.chdir(cls.room)
        # A name without a folder: the program lies here, and isn't looked for on the PATH.
        cls.environment = {"RTMRUN": "rtmrun"}

    def check(self, call: object, status: int, wanted: int, said: bytes, some: str) -> None:
        """The status that is wanted, and one line that has these words."""
        text = said.decode("utf-8", "backslashreplace")
        self.assertEqual((status, text.count("\n"), text[-1:]), (wanted, 1, "\n"), (call, text))
        self.assertTrue(text.startswith("rtm: "), (call, text))
        self.assertIn(some, text, call)
        self.assertNotIn("fault of rtm", text, call)

    def test_the_stand_in_answers(self) -> None:
        for words in (["view", "a.deck"], ["view", "a.deck", "a.trace"], ["why", "a.deck", "4"], ["lint", "a.deck"],
                      ["diff", "a.deck", "a.trace", "a.trace"], ["doctor"]):
            done = run_companion(*words, environment=self.environment)
            if words != ["doctor"]:
                self.assertEqual((done.returncode, done.stderr), (0, b""), words)
            self.assertTrue(done.stdout, words)

    def test_odd_calls(self) -> None:
        for words, status, some in CALLS:
            with self.subTest(words=[one[:40] for one in words]):
                done = run_companion(*words, environment=self.environment)
                self.check(words, done.returncode, status, done.stderr, some)

    def test_lint_names_faults_of_odd_decks(self) -> None:
        for name in ("empty", "nul", "bytes", "feed", "end", "unended", "latin", "digits", "long", "bare", "returns"):
            with self.subTest(name=name):
                done = run_companion("lint", name, environment=self.environment)
                self.assertEqual((done.returncode, done.stderr), (8, b""), name)
                self.assertIn(b"BadByte", done.stdout, name)

    def test_odd_streams(self) -> None:
        for call, status, some in STREAMS:
            with self.subTest(call=call):
                words, _, streams = call.partition(" |")
                command = 'exec 3>&2; { %s %s %s 2>&3; echo $? > status; }%s' % (
                    sys.executable, COMPANION, words, " |" + streams if streams else "")
                done = subprocess.run(["bash", "-c", command], env=dict(os.environ, **self.environment),
                                      stdin=subprocess.DEVNULL, stdout=subprocess.DEVNULL, stderr=subprocess.PIPE,
                                      timeout=60, check=False)
                self.check(call, int(Path("status").read_text(encoding="ascii")), status, done.stderr, some)

    def test_closed_errors(self) -> None:
        done = subprocess.run(["bash", "-c", "%s %s view none 2>&-" % (sys.executable, COMPANION)],
                              stdout=subprocess.PIPE, check=False, env=dict(os.environ, **self.environment))
        self.assertEqual((done.returncode, done.stdout), (16, b""))

    @unittest.skipIf(os.geteuid() == 0, "root may read and write each file")
    def test_files_that_may_not_be_used(self) -> None:
        for name in ("closed", "closed.trace"):
            (self.room / name).write_bytes(b"")
            (self.room / name).chmod(0)
        for words, status in ((["view", "closed"], 16), (["view", "a.deck", "closed.trace"], 16),
                              (["view", "a.deck", "-o", "closed"], 17), (["sweep", "closed", "--gather"], 16)):
            done = run_companion(*words, environment=self.environment)
            self.check(words, done.returncode, status, done.stderr, "Permission denied")

    def test_a_fault_of_rtm_itself(self) -> None:
        with unittest.mock.patch("rtm_lib.view.judge", side_effect=KeyError("odd")):
            done = run_companion("view", "a.deck", environment=self.environment)
        self.assertEqual((done.returncode, done.stderr), (70, b"rtm: this is a fault of rtm: KeyError: 'odd'\n"))

    def test_statuses_are_told(self) -> None:
        """Each status of the table above stands in the help and on the page."""
        helped = run_companion("--help").stdout.decode()
        page = (REPOSITORY / "docs" / "RTM.md").read_text(encoding="utf-8")
        for status in sorted({status for _, status, _ in [*CALLS, *STREAMS]} | {70}):
            self.assertRegex(helped, r"(?m)^  %d +\S" % status)
            self.assertRegex(page, r"(?m)^\| (\d+, )?%d(, \d+)? \|" % status)

    def test_one_line(self) -> None:
        self.assertEqual(one_line("a\nb\x1b\0é\udc80"), r"a\nb\x1b\x00é\udc80")
