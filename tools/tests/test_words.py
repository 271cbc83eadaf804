"""What the words write over each example, as it is stored; and each word over random decks."""

from __future__ import annotations

import os
import re
import subprocess
import tempfile
from pathlib import Path
from typing import List, Tuple

from rtm_lib.program import REPOSITORY

from .support import WithProgram, example_decks, random_runs
from .words import FINE, called, calls_over, text_of

STORED = Path(__file__).with_name("stored")


def written_over(deck: Path, room: Path) -> str:
    """What lint, whynot, sweep and why write over an example, one behind another."""
    name = str(deck.relative_to(REPOSITORY))
    entries = len(deck.with_suffix(".trace").read_text(encoding="utf-8").splitlines()) - 2
    calls: List[List[str]] = [["lint", name], ["whynot", name], ["sweep", name]]
    calls += [["why", name, str(index)] for index in range(entries)]
    text = ""
    for words in calls:
        status, written = text_of(words, room)
        text += "$ rtm %s\n%s(status %d)\n\n" % (" ".join(words), written, status)
    return text


def shown_calls() -> List[Tuple[str, List[str]]]:
    """The calls over examples that docs/RTM.md shows with what they write; .. stands for more of it."""
    page = (REPOSITORY / "docs" / "RTM.md").read_text(encoding="utf-8")
    found = []
    for block in re.findall(r"(?m)(?:^    .*\n|^\n(?=    ))+", page):
        lines = [line[4:] for line in block.strip("\n").split("\n")]
        if "tools/rtm " in lines[0] and "examples/" in lines[0] and len(lines) > 1:
            found.append((lines[0], lines[1:]))
    return found


class PageTest(WithProgram):
    """What docs/RTM.md shows is what comes of its commands."""

    def test_shown_calls(self) -> None:
        calls = shown_calls()
        self.assertEqual({word for word in FINE for command, _ in calls if "rtm %s " % word in command},
                         set(FINE))
        environment = dict(os.environ, RTMRUN=str(self.rtmrun.path.resolve()))
        with tempfile.TemporaryDirectory() as room:
            for name in ("examples", "tools"):
                (Path(room) / name).symlink_to(REPOSITORY / name)
            for command, wanted in calls:
                done = subprocess.run(["bash", "-c", command], cwd=room, env=environment, stdout=subprocess.PIPE,
                                      stderr=subprocess.STDOUT, check=False)
                written = done.stdout.decode().rstrip("\n").split("\n")
                if wanted[-1] == "..":
                    wanted, written = wanted[:-1], written[:len(wanted) - 1]
                self.assertEqual(written, wanted, command)


class StoredTest(WithProgram):
    """Texts over the examples. With RTM_STORE=1 they are stored anew, to be read before they are kept."""

    def test_texts_over_the_examples(self) -> None:
        before = os.getcwd()
        os.chdir(REPOSITORY)
        try:
            with tempfile.TemporaryDirectory() as room:
                for deck in example_decks():
                    stored, written = STORED / (deck.stem + ".txt"), written_over(deck, Path(room))
                    if os.environ.get("RTM_STORE"):
                        stored.write_text(written, encoding="utf-8")
                    self.assertEqual(stored.read_text(encoding="utf-8"), written, deck.name)
        finally:
            os.chdir(before)

    def test_each_word_over_random_decks(self) -> None:
        with tempfile.TemporaryDirectory() as room:
            for seed, (name, deck, trace) in enumerate(random_runs(self.rtmrun)):
                for words in calls_over(self.rtmrun, Path(room), deck, trace, seed):
                    status, said = called(words)
                    self.assertIn(status, FINE[words[0]], (name, words, said))
