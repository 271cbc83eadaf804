"""The word `play` without a browser: who is refused, what is answered, and what is written."""

from __future__ import annotations

import http.client
import json
import os
import re
import signal
import socket
import subprocess
import sys
import tempfile
import threading
from pathlib import Path
from typing import Any, Dict, Optional, Tuple

from rtm_lib.desk import MOST_PICTURES, Desk
from rtm_lib.play import MOST_BODY, MOST_CONNECTIONS, Server
from rtm_lib.program import Rtmrun, TooLong

from .support import COMPANION, EXAMPLES, WithProgram, run_companion

RETRY = (EXAMPLES / "retry.deck").read_text(encoding="utf-8")
JSON = {"Content-Type": "application/json"}


class PlayTest(WithProgram):
    """A server of the tests' own, in this process."""

    folder: "tempfile.TemporaryDirectory[str]"
    server: Server
    deck: Path

    @classmethod
    def setUpClass(cls) -> None:
        super().setUpClass()
        cls.folder = tempfile.TemporaryDirectory()
        cls.deck = Path(cls.folder.name) / "mine.deck"
        cls.deck.write_text(RETRY, encoding="utf-8")
        cls.server = Server(0, Desk(cls.rtmrun, str(cls.deck), RETRY.encode()))
        threading.Thread(target=cls.server.serve_forever, daemon=True).start()

    @classmethod
    def tearDownClass(cls) -> None:
        cls.server.shutdown()
        cls.server.server_close()
        cls.folder.cleanup()

    def ask(self, method: str, path: str, body: Optional[bytes] = None, headers: Optional[Dict[str, str]] = None,
            token: Optional[str] = None) -> Tuple[int, Dict[str, str], bytes]:
        """One request: status, headers and body of its answer."""
        connection = http.client.HTTPConnection("127.0.0.1", self.server.server_port, timeout=60)
        whole = "/%s/%s" % (self.server.token if token is None else token, path)
        connection.request(method, whole, body, headers or {})
        answer = connection.getresponse()
        found = answer.status, {name.lower(): value for name, value in answer.getheaders()}, answer.read()
        connection.close()
        return found

    def told(self, word: str, status: int = 200, **given: Any) -> Dict[str, Any]:
        found, _, body = self.ask("POST", word, json.dumps(given).encode(), JSON)
        self.assertEqual(found, status, body)
        return dict(json.loads(body))

    # Who is refused

    def test_without_the_token_nothing_is_answered(self) -> None:
        good = self.server.token
        for token in ("", "x", good[:-1], good + "x", good.swapcase(), "\u00e9"):
            for method, path in (("GET", ""), ("GET", "example/retry"), ("GET", "picture/1"), ("POST", "save")):
                try:
                    status, _, body = self.ask(method, path, b"{}" if method == "POST" else None, JSON, token)
                except UnicodeEncodeError:
                    continue
                self.assertEqual(status, 403, (token, path))
                self.assertNotIn(good.encode(), body)
        self.assertEqual(self.ask("GET", "..%2f" + good + "/", token="x")[0], 403)
        connection = http.client.HTTPConnection("127.0.0.1", self.server.server_port, timeout=60)
        connection.request("GET", "/" + good)
        self.assertEqual(connection.getresponse().status, 403)
        connection.close()

    def test_another_host_and_another_origin_are_refused(self) -> None:
        port = self.server.server_port
        for host in ("localhost:%d" % port, "evil.example:%d" % port, "127.0.0.1", "127.0.0.1:1", ""):
            self.assertEqual(self.ask("GET", "", headers={"Host": host})[0], 403, host)
        for origin in ("null", "http://evil.example", "http://127.0.0.1", "https://" + self.server.host,
                       "http://localhost:%d" % port):
            self.assertEqual(self.ask("GET", "", headers={"Origin": origin})[0], 403, origin)
            headers = dict(JSON, Origin=origin)
            self.assertEqual(self.ask("POST", "save", b'{"name":"a.deck"}', headers)[0], 403, origin)
        self.assertEqual(self.ask("GET", "", headers={"Origin": "http://" + self.server.host})[0], 200)
        self.assertFalse((Path(self.folder.name) / "a.deck").exists())

    def test_no_other_address_listens(self) -> None:
        self.assertEqual(self.server.server_address[0], "127.0.0.1")
        with socket.socket() as other:
            other.settimeout(5)
            self.assertNotEqual(other.connect_ex(("127.0.0.2", self.server.server_port)), 0)

    def test_bodies_are_bounded(self) -> None:
        long = dict(JSON, **{"Content-Length": str(MOST_BODY + 1)})
        self.assertEqual(self.ask("POST", "check", b"x" * 10, long)[0], 413)
        for length in ("-1", "", "1e3"):
            self.assertEqual(self.ask("POST", "check", b"", dict(JSON, **{"Content-Length": length}))[0], 411, length)
        self.assertEqual(self.ask("POST", "check", b"{}", dict(JSON, **{"Transfer-Encoding": "chunked"}))[0], 411)
        self.assertEqual(self.ask("POST", "check", b"{}", {"Content-Type": "text/plain"})[0], 415)
        for body in (b"", b"{", b"[]", b"1", b"\xff", b"[" * 100000):
            self.assertEqual(self.ask("POST", "check", body, JSON)[0], 400, body[:9])
        for given in ({"deck": 1}, {"name": []}, {"at": "1"}, {"at": -1}, {"at": True}, {"command": None}):
            self.told("check", 400, **given)

    def test_connections_are_bounded(self) -> None:
        idle = [socket.create_connection(("127.0.0.1", self.server.server_port)) for _ in range(MOST_CONNECTIONS)]
        try:
            with self.assertRaises((ConnectionError, http.client.BadStatusLine)):
                self.ask("GET", "")
        finally:
            for one in idle:
                one.close()
        for _ in range(100):
            try:
                self.assertEqual(self.ask("GET", "")[0], 200)
                return
            except (ConnectionError, http.client.BadStatusLine):
                continue
        self.fail("connections that have gone aren't counted off")

    def test_runs_are_bounded(self) -> None:
        with self.assertRaises(TooLong):
            Rtmrun(self.rtmrun.path, 0.0).run(RETRY.encode())
        with tempfile.TemporaryDirectory() as folder:
            slow = Path(folder) / "slow"
            slow.write_text("#!/bin/sh\nexec sleep 60\n")
            slow.chmod(0o755)
            desk = Desk(Rtmrun(slow), None, b"")
            desk.bounded = lambda: Rtmrun(slow, __import__("time").monotonic() + 0.2)  # type: ignore[method-assign]
            with self.assertRaises(TooLong):
                desk.check(RETRY, "", "", None)

    def test_nothing_else_is_there(self) -> None:
        for path in ("x", "picture/", "picture/x", "picture/999", "../README.md", "save"):
            self.assertEqual(self.ask("GET", path)[0], 404, path)
        self.told("run", 404, deck=RETRY)
        self.assertEqual(self.ask("PUT", "save", b"{}", JSON)[0], 501)
        for name in ("nobody", "../README", "..%2fREADME"):
            self.assertEqual(self.ask("GET", "example/" + name)[0], 422, name)

    # What is answered

    def test_the_page_stands_alone_and_is_kept_by_nobody(self) -> None:
        status, headers, body = self.ask("GET", "")
        self.assertEqual(status, 200)
        self.assertEqual((headers["cache-control"], headers["referrer-policy"]), ("no-store", "no-referrer"))
        nonces = set(re.findall(r"nonce-([\w-]+)", headers["content-security-policy"]))
        self.assertEqual(nonces, set(re.findall(r'nonce="([\w-]+)"', body.decode())))
        self.assertNotRegex(body, rb"https?:|(src|href) *= *.//")
        other = self.ask("GET", "")[1]["content-security-policy"]
        self.assertNotEqual(other, headers["content-security-policy"])

    def test_a_deck_can_not_break_out_of_the_page(self) -> None:
        text = "* </script><script>alert(1)</script> @script@ @nonce@\n" + RETRY
        server = Server(0, Desk(self.rtmrun, None, text.encode()))
        threading.Thread(target=server.serve_forever, daemon=True).start()
        connection = http.client.HTTPConnection("127.0.0.1", server.server_port, timeout=60)
        connection.request("GET", "/%s/" % server.token)
        page = connection.getresponse().read().decode()
        connection.close()
        server.shutdown()
        server.server_close()
        self.assertEqual(page.count("<script"), 2)
        begins = re.search(r'id="start">(.*?)</script>', page, re.S)
        self.assertEqual(json.loads(begins.group(1))["deck"], text)  # type: ignore[union-attr]

    def test_faults_then_the_picture(self) -> None:
        told = self.told("check", deck=RETRY.replace("PGM=OLD", "PGN=OLD"), name="retry.deck")
        self.assertEqual([one["why"] for one in told["faults"]], ["BadOperand"])
        self.assertEqual(told["faults"][0]["suggestion"], "PGM=")
        self.assertNotIn("picture", told)
        told = self.told("check", deck=RETRY, name="retry.deck")
        self.assertEqual((told["faults"], told["verdict"]), ([], "VERIFIED 13 ENDED"))
        status, headers, page = self.ask("GET", "picture/%d" % told["picture"])
        self.assertEqual(status, 200)
        self.assertIn("sandbox", headers["content-security-policy"])
        self.assertIn(b">retry</h1>", page)
        for text in ("\u20ac\n", "\ud800\n", "\0\n"):
            self.assertEqual(self.told("check", deck=text)["faults"][0]["why"], "BadByte")
        wrong = self.told("check", deck=RETRY + "RTMTRACE 1\n0 JOB EXEC MAIN.1 RC=0\n1 JOB DONE S000\nEND ENDED\n")
        self.assertTrue(wrong["verdict"].startswith("NOTLEGAL 1 "), wrong)

    def test_a_sweep_and_one_of_its_moments(self) -> None:
        deck = (EXAMPLES / "cancel.deck").read_text(encoding="utf-8")
        told = self.told("sweep", deck=deck, name="cancel.deck")
        self.assertEqual(told["command"], "CANCEL DBJOB")
        page = self.ask("GET", "picture/%d" % told["picture"])[2]
        self.assertEqual(page.count(b'<th scope="row">'), 21)
        told = self.told("check", deck=deck, command="", at=0)
        page = self.ask("GET", "picture/%d" % told["picture"])[2]
        self.assertIn(b'0</i> <b>DBJOB</b> <em class="verb">ARRIVE', page)
        self.told("sweep", 422, deck=deck, command="STOP DBJOB")
        self.told("sweep", 422, deck="MAIN PROG\n", command="")

    def test_only_the_last_pictures_are_kept(self) -> None:
        numbers = [self.told("check", deck=RETRY)["picture"] for _ in range(MOST_PICTURES + 1)]
        self.assertEqual(self.ask("GET", "picture/%d" % numbers[0])[0], 404)
        self.assertEqual(self.ask("GET", "picture/%d" % numbers[1])[0], 200)

    # What is written

    def test_saving(self) -> None:
        changed = RETRY + "* more\n"
        self.told("save", name="mine.deck", deck=changed)
        self.assertEqual(self.deck.read_text(encoding="utf-8"), changed)
        self.deck.write_text("* by somebody else\n", encoding="utf-8")
        self.told("save", 409, name="mine.deck", deck=changed)
        self.assertEqual(self.deck.read_text(encoding="utf-8"), "* by somebody else\n")
        self.told("save", name="mine.deck", deck=changed, replace=True)
        self.assertEqual(self.deck.read_text(encoding="utf-8"), changed)
        self.told("save", name="other.deck", deck="* new\n")
        for name in ("", "../up.deck", "/tmp/up.deck", "sub/x.deck", ".deck", "x.txt", "a b.deck", "x.deck\n"):
            self.told("save", 422, name=name, deck="* no\n")
        self.assertEqual(sorted(os.listdir(self.folder.name)), ["mine.deck", "other.deck"])

    def test_it_ends_by_ctrl_c(self) -> None:
        started = subprocess.Popen([sys.executable, str(COMPANION), "play", "--rtmrun", str(self.rtmrun.path)],
                                   stdout=subprocess.PIPE, stderr=subprocess.PIPE)
        assert started.stdout is not None
        first = started.stdout.readline().decode()
        self.assertRegex(first, r"^rtm: http://127\.0\.0\.1:\d+/[\w-]{32}/$")
        started.send_signal(signal.SIGINT)
        self.assertEqual((started.wait(20), started.communicate()[1]), (0, b""))
        taken = str(self.server.server_port)
        done = run_companion("play", "--port", taken)
        self.assertEqual(done.returncode, 17, done.stderr)
        self.assertEqual(run_companion("play", "--port", "70000").returncode, 20)
        self.assertEqual(run_companion("play", "/nowhere/x.deck").returncode, 16)
