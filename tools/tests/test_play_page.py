"""The page of `play` in a real browser: a fault while it is typed, its mending, the picture, a sweep, saving."""

from __future__ import annotations

import os
import tempfile
import threading
import time
import unittest
from pathlib import Path
from typing import Any

from rtm_lib.desk import Desk
from rtm_lib.play import Server

from .support import EXAMPLES, WithProgram
from .webdriver import Browser, missing

CANCEL = EXAMPLES / "cancel.deck"
# Where a person puts the pictures of the pages, if anywhere.
SHOTS = os.environ.get("RTM_SHOTS")
CURSOR_BEHIND = """var deck = document.getElementById('deck'), word = arguments[0];
var at = deck.value.indexOf(word) + word.length;
deck.focus(); deck.setSelectionRange(at, at);"""
BACKSPACE = "\ue003"
SAYS = "return document.getElementById('says').textContent"


class PlayPageTest(WithProgram):
    """One page, from the first fault to the saved file."""

    browser: Browser
    folder: "tempfile.TemporaryDirectory[str]"
    server: Server

    @classmethod
    def setUpClass(cls) -> None:
        if missing():
            raise unittest.SkipTest("%s, so the page of play isn't tried" % missing())
        super().setUpClass()
        cls.folder = tempfile.TemporaryDirectory()
        path = Path(cls.folder.name) / "mine.deck"
        path.write_bytes(CANCEL.read_bytes())
        cls.server = Server(0, Desk(cls.rtmrun, str(path), path.read_bytes()))
        threading.Thread(target=cls.server.serve_forever, daemon=True).start()
        cls.browser = Browser(1280, 800)

    @classmethod
    def tearDownClass(cls) -> None:
        cls.browser.end()
        cls.server.shutdown()
        cls.server.server_close()
        cls.folder.cleanup()

    def setUp(self) -> None:
        self.browser.go("about:blank")
        self.browser.log()
        self.browser.go(self.server.address)
        self.browser.wait("return document.getElementById('picture').src && %s.indexOf('entries') > 0"
                          % SAYS.replace("return ", ""))

    def in_picture(self, script: str, *given: Any) -> Any:
        """What a script returns in the picture, once that is something."""
        self.browser.frame("#picture")
        try:
            return self.browser.wait(script, *given)
        finally:
            self.browser.frame(None)

    def shot(self, name: str) -> None:
        if SHOTS:
            self.browser.shot(Path(SHOTS) / ("play-%s.png" % name))

    def put_right(self) -> None:
        """Leaves no change behind, so that the next page opens without a question."""
        self.browser.run("document.getElementById('deck').value = arguments[0]", CANCEL.read_text())

    def test_a_fault_is_marked_while_it_is_typed_and_the_picture_comes_when_it_is_mended(self) -> None:
        browser = self.browser
        self.assertTrue(self.in_picture("return document.querySelectorAll('li[id]').length === 20"))
        browser.run(CURSOR_BEHIND, "ESTAEX CT,PG")
        browser.type("#deck", "X")
        browser.wait("return document.getElementById('count').textContent.indexOf('1 fault') === 0")
        marked = browser.run("var one = document.querySelector('#marks .fault'); return one && one.textContent")
        self.assertEqual(marked, "PGXM=CLEANUP")
        number = browser.run("return document.querySelector('#numbers .fault').textContent")
        lines = browser.run("return document.getElementById('deck').value").split("\n")
        self.assertIn("PGXM=", lines[int(number) - 1])
        self.assertIn("Perhaps PGM=?", browser.run("return document.getElementById('findings').innerText"))
        self.assertFalse(browser.run("return document.getElementById('stale').hidden"))
        self.shot("fault")
        browser.type("#deck", BACKSPACE)
        browser.wait("return document.getElementById('count').textContent === '0 faults, 0 warnings'"
                     " && document.getElementById('stale').hidden")
        before = browser.run("return document.getElementById('picture').src")
        browser.run(CURSOR_BEHIND, "CANCEL DBJOB,AT=")
        browser.type("#deck", "1")
        browser.wait("return document.getElementById('picture').src !== arguments[0]", before)
        browser.wait(SAYS + ".indexOf('END ENDED') > 0")
        self.in_picture("return document.querySelectorAll('li[id]').length > 0")
        self.shot("run")
        self.put_right()

    def test_the_sweep_and_one_of_its_moments(self) -> None:
        browser = self.browser
        browser.click("#sweep")
        browser.wait(SAYS + ".indexOf('CLEANUP is entered at 12 of 21 moments') > 0")
        self.assertTrue(self.in_picture("return document.querySelectorAll('tbody tr').length === 21"))
        self.shot("sweep")
        self.browser.frame("#picture")
        browser.click("tbody tr:nth-child(1)")
        self.browser.frame(None)
        browser.wait(SAYS + ".indexOf('with the command at 0') === 0")
        self.assertIn("ARRIVE", self.in_picture("return document.getElementById('e0').textContent"))
        browser.click("#back")
        browser.wait("return document.getElementById('back').hidden")
        self.assertTrue(self.in_picture("return document.querySelectorAll('li[id]').length === 20"))

    def test_deck_and_picture_point_at_each_other(self) -> None:
        browser = self.browser
        self.in_picture("return document.getElementById('e3')")
        browser.frame("#picture")
        browser.click("#e3 a")
        browser.frame(None)
        chosen = browser.wait("var deck = document.getElementById('deck');"
                              "return deck.value.slice(deck.selectionStart, deck.selectionEnd)")
        self.assertIn("ABEND S0C4", chosen)
        marked = self.in_picture("var one = document.querySelector('li.referred'); return one && one.id")
        self.assertEqual(marked, "e3")

    def test_an_example_and_saving(self) -> None:
        browser = self.browser
        browser.run("var list = document.getElementById('example'); list.value = 'retry';"
                    "list.dispatchEvent(new Event('change'))")
        browser.wait("return document.getElementById('name').value === 'retry.deck'")
        browser.wait(SAYS + ".indexOf('13 entries') === 0")
        (Path(self.folder.name) / "retry.deck").write_text("* somebody else's\n")
        browser.click("#save")
        until = time.monotonic() + 20
        while True:
            try:
                self.assertIn("is there already", browser.dialog(True))
                break
            except OSError:
                self.assertLess(time.monotonic(), until)
                time.sleep(0.1)
        browser.wait(SAYS + ".indexOf('saved as') === 0")
        self.assertEqual((Path(self.folder.name) / "retry.deck").read_bytes(), (EXAMPLES / "retry.deck").read_bytes())

    def test_nothing_runs_out_of_the_page_and_the_browser_complains_of_nothing(self) -> None:
        for width in (1280, 800):
            self.browser.ask("POST", self.browser.session + "/window/rect", {"width": width, "height": 800})
            wide = self.browser.run("return [document.documentElement.scrollWidth, innerWidth]")
            self.assertLessEqual(wide[0], wide[1])
            self.shot("at-%d" % width)
        self.browser.ask("POST", self.browser.session + "/window/rect", {"width": 1280, "height": 800})
        self.assertEqual([one for one in self.browser.log() if "favicon" not in one], [])

    def test_another_page_gets_nothing(self) -> None:
        browser = self.browser
        browser.go("data:text/html,<title>evil</title>")
        found = browser.run("""return fetch(arguments[0] + 'check', {method: 'POST', body: '{}', headers:
            {'Content-Type': 'application/json'}}).then(function () { return 'answered'; },
            function () { return 'refused'; });""", self.server.address)
        self.assertEqual(found, "refused")
        framed = browser.run("""var frame = document.createElement('iframe'); frame.src = arguments[0];
            document.body.append(frame); return new Promise(function (done) { frame.onload = function () {
            done(frame.contentDocument === null); }; });""", self.server.address)
        self.assertTrue(framed)
