"""Five pages as a browser shows them: no text on a text, no line through one, nothing outside, keys, folds, print."""

from __future__ import annotations

import json
import re
import shutil
import subprocess
import tempfile
import unittest
from html import unescape
from pathlib import Path
from typing import Dict

from rtm_lib.doctor import BROWSERS

from .decks import many_units, random_deck
from .support import EXAMPLES, WithProgram, run_companion

MEASURE = Path(__file__).with_name("measure.js")
WIDTHS = (1280, 800)
# Seeds of random decks whose traces have many kinds of lines.
MIXED_SEED = 11
# A page around the measured ones, each in a frame of its width. It listens before the first of them can tell anything.
AROUND = """<!DOCTYPE html><meta charset="utf-8"><pre id="measured"></pre><script>
var told = [];
onmessage = function (event) {
  told.push(event.data);
  document.getElementById('measured').textContent = JSON.stringify(told);
};
</script>%s"""


def browser() -> str:
    return next((name for name in BROWSERS if shutil.which(name)), "")


class PagesTest(WithProgram):
    """Each page is written, measured at two widths by the browser itself, and printed."""

    folder: "tempfile.TemporaryDirectory[str]"
    pages: Dict[str, Path]

    @classmethod
    def setUpClass(cls) -> None:
        if not browser():
            raise unittest.SkipTest("no Chromium here (Debian: apt-get install chromium), so no page is measured")
        super().setUpClass()
        cls.folder = tempfile.TemporaryDirectory()
        cls.pages = {}
        decks = {name: (EXAMPLES / (name + ".deck")).read_bytes() for name in ("cancel", "abterm", "estai")}
        decks.update(mixed=random_deck(MIXED_SEED), folded=many_units(12, 8))
        for name, deck in decks.items():
            made = run_companion("view", "-", *(["--fold"] if name == "folded" else []), text=deck)
            cls.pages[name] = Path(cls.folder.name) / (name + ".html")
            cls.pages[name].write_bytes(made.stdout)

    @classmethod
    def tearDownClass(cls) -> None:
        cls.folder.cleanup()

    def ask_browser(self, *words: str) -> str:
        command = [browser(), "--headless", "--no-sandbox", "--disable-gpu", "--hide-scrollbars",
                   "--user-data-dir=%s/profile" % self.folder.name] + list(words)
        done = subprocess.run(command, stdout=subprocess.PIPE, stderr=subprocess.PIPE, timeout=120, check=False)
        self.assertEqual(done.returncode, 0, done.stderr[-500:])
        return done.stdout.decode("utf-8")

    def frames(self) -> str:
        """A frame for each page and width, with the measuring script in it."""
        script = b"<script>" + MEASURE.read_bytes() + b"</script></body>"
        frames = ""
        for name, page in self.pages.items():
            measured = page.with_name(name + "-measured.html")
            measured.write_bytes(page.read_bytes().replace(b"</body>", script))
            for width in WIDTHS:
                frames += '<iframe style="width:%dpx;height:420px" src="%s#%s-%d"></iframe>' % (
                    width, measured.name, name, width)
        return frames

    def test_texts_lines_keys_and_folds(self) -> None:
        around = Path(self.folder.name) / "around.html"
        around.write_text(AROUND % self.frames(), encoding="utf-8")
        shown = self.ask_browser("--virtual-time-budget=20000", "--dump-dom", "file://%s" % around)
        found = re.search(r'<pre id="measured">(.*?)</pre>', shown, re.S)
        reports = {one["name"]: one for one in json.loads(unescape(found.group(1) if found else "[]") or "[]")}
        self.assertEqual(set(reports), {"%s-%d" % (name, width) for name in self.pages for width in WIDTHS})
        for name, report in reports.items():
            self.assertEqual(report["wrong"], [], name)
            self.assertGreater(report["texts"], 10, name)

    def test_they_print(self) -> None:
        for name, page in self.pages.items():
            printed = page.with_suffix(".pdf")
            self.ask_browser("--no-pdf-header-footer", "--print-to-pdf=%s" % printed, "file://%s" % page)
            sheets = re.findall(rb"/Type\s*/Page[^s]", printed.read_bytes())
            self.assertTrue(1 <= len(sheets) <= 6, "%s prints to %d pages" % (name, len(sheets)))
