"""The word `play`: a page on this machine's loopback address, to write a deck and to see it run.

Who may ask: a browser that has the token, under the one name of the address, and pages of that address alone.
"""

from __future__ import annotations

import argparse
import hmac
import json
import re
import secrets
import socket
import sys
import threading
import traceback
import webbrowser
from html import escape
from http.server import BaseHTTPRequestHandler, ThreadingHTTPServer
from pathlib import Path
from typing import Any, Dict, Optional, Tuple

from .desk import Busy, Desk, Exists, strings
from .failures import CANNOT_WRITE, Failure, OK
from .files import STDIN, read_file
from .program import find
from .svg import minified

HERE = Path(__file__).parent
LOOPBACK = "127.0.0.1"
MOST_BODY = 512 * 1024
MOST_CONNECTIONS = 16
SECONDS_OF_A_CONNECTION = 30
FIRST_DECK = "examples/first.deck"
# A page of the desk may ask its own address and nothing else; a picture may ask nothing at all.
PAGE_POLICY = ("default-src 'none'; style-src 'unsafe-inline'; script-src 'nonce-%s'; connect-src 'self'; "
               "frame-src 'self'; base-uri 'none'; form-action 'none'; frame-ancestors 'none'")
PICTURE_POLICY = ("default-src 'none'; style-src 'unsafe-inline'; script-src 'unsafe-inline'; base-uri 'none'; "
                  "form-action 'none'; frame-ancestors 'self'; sandbox allow-scripts")


def play(arguments: argparse.Namespace) -> int:
    """Serves until Ctrl-C."""
    rtmrun = find(arguments.rtmrun)
    if sys.stdout is None:
        raise Failure("standard output is closed, so nobody would be told the address of the page", CANNOT_WRITE)
    text = read_file(str(HERE.parents[1] / FIRST_DECK) if arguments.deck is None else arguments.deck)
    # A deck from standard input has no file to be saved in.
    desk = Desk(rtmrun, None if arguments.deck == STDIN else arguments.deck, text)
    try:
        server = Server(arguments.port, desk)
    except OSError as trouble:
        raise Failure("port %d of %s can't be had: %s" % (arguments.port, LOOPBACK, trouble.strerror),
                      CANNOT_WRITE) from None
    try:
        print("rtm: %s\nrtm: this page is for you alone; Ctrl-C ends it" % server.address, flush=True)
        if arguments.open:
            webbrowser.open(server.address)
        server.serve_forever()
    except KeyboardInterrupt:
        print(flush=True)
    finally:
        server.server_close()
    return OK


class Server(ThreadingHTTPServer):
    """The server of one desk, with a token that nobody can guess in its address."""

    daemon_threads = True
    # A port that another program listens on is refused, and isn't shared.
    allow_reuse_port = False

    def __init__(self, port: int, desk: Desk) -> None:
        super().__init__((LOOPBACK, port), Handler)
        self.desk = desk
        self.token = secrets.token_urlsafe(24)
        self.host = "%s:%d" % (LOOPBACK, self.server_port)
        self.connections = threading.BoundedSemaphore(MOST_CONNECTIONS)

    @property
    def address(self) -> str:
        return "http://%s/%s/" % (self.host, self.token)

    def process_request(self, request: Any, client_address: Any) -> None:
        """One more connection, if there aren't too many."""
        if self.connections.acquire(blocking=False):
            super().process_request(request, client_address)
        else:
            self.shutdown_request(request)

    def process_request_thread(self, request: Any, client_address: Any) -> None:
        try:
            super().process_request_thread(request, client_address)
        finally:
            self.connections.release()

    def handle_error(self, request: Any, client_address: Any) -> None:
        """A client that went away, or that was too slow, is no news."""


class Refused(Exception):
    """A request that isn't answered, with its HTTP status."""

    def __init__(self, status: int, why: str) -> None:
        super().__init__(why)
        self.status = status


class Handler(BaseHTTPRequestHandler):
    """One request: whether it may ask, what it asks, and the answer."""

    server: Server
    timeout = SECONDS_OF_A_CONNECTION
    server_version = "rtm"
    sys_version = ""

    def log_message(self, format: str, *args: Any) -> None:
        """Nothing: addresses have the token."""

    def do_GET(self) -> None:
        self.answer(self.got)

    def do_POST(self) -> None:
        self.answer(self.posted)

    def answer(self, asked: Any) -> None:
        """Answers, or says why not."""
        try:
            kind, policy, body = asked(self.path_behind_token())
            self.send(200, kind, policy, body)
        except Refused as refused:
            self.send_json(refused.status, {"error": str(refused)})
        except Failure as failure:
            self.send_json(422, {"error": str(failure)})
        except Exists:
            self.send_json(409, {"error": "the file is there, with other bytes than this page has seen"})
        except Busy:
            self.send_json(503, {"error": "too many decks are being run: try again"})
        except (ConnectionError, socket.timeout):
            self.close_connection = True
        except Exception as trouble:  # the page is told, and the terminal too; the next request may do better
            traceback.print_exc()
            self.send_json(500, {"error": "rtm failed at this: %s" % trouble})

    # Who may ask

    def path_behind_token(self) -> str:
        """What stands behind the token; refused for another host, another origin, and without the token."""
        if self.headers.get_all("Host") != [self.server.host]:
            raise Refused(403, "this page has another name")
        if any(origin != "http://" + self.server.host for origin in self.headers.get_all("Origin") or []):
            raise Refused(403, "another page may not ask")
        token, slash, rest = self.path[1:].partition("/")
        if not slash or not hmac.compare_digest(token.encode(), self.server.token.encode()):
            raise Refused(403, "the address lacks the token that rtm has printed")
        return rest

    def body(self) -> Dict[str, Any]:
        """What was posted: an object of JSON, of bounded length."""
        length = self.headers.get("Content-Length") or ""
        if self.headers.get("Transfer-Encoding") or not re.fullmatch("[0-9]{1,18}", length):
            raise Refused(411, "a body has to say its length")
        if int(length) > MOST_BODY:
            raise Refused(413, "a body has at most %d bytes" % MOST_BODY)
        if (self.headers.get("Content-Type") or "").split(";")[0].strip() != "application/json":
            raise Refused(415, "a body is JSON")
        try:
            given = json.loads(self.rfile.read(int(length)).decode("utf-8"))
        except (ValueError, RecursionError):
            raise Refused(400, "this isn't JSON") from None
        if not isinstance(given, dict):
            raise Refused(400, "a body is an object")
        return given

    # What is asked

    def got(self, path: str) -> Tuple[str, str, str]:
        """The page, an example, or a picture."""
        word, _, name = path.partition("/")
        if not path:
            nonce = secrets.token_urlsafe(16)
            return "text/html", PAGE_POLICY % nonce, page_of(self.server.desk, nonce)
        if word == "example":
            return "application/json", "", json.dumps(self.server.desk.example(name))
        if word == "picture" and re.fullmatch("[0-9]{1,18}", name):
            markup = self.server.desk.picture(int(name))
            if markup is not None:
                return "text/html", PICTURE_POLICY, framed(markup)
        raise Refused(404, "there is nothing here")

    def posted(self, path: str) -> Tuple[str, str, str]:
        """A check, a sweep, or a save."""
        given, desk = self.body(), self.server.desk
        try:
            text, name, command = strings(given, ["deck", "name", "command"])
            at = given.get("at")
            if at is not None and (type(at) is not int or at < 0):
                raise ValueError(at)
        except ValueError:
            raise Refused(400, "an operand of this request is no text or no number") from None
        if path == "check":
            told = desk.check(text, name, command, at)
        elif path == "sweep":
            told = desk.sweep(text, name, command)
        elif path == "save":
            told = desk.save(name, text, given.get("replace") is True)
        else:
            raise Refused(404, "there is nothing here")
        return "application/json", "", json.dumps(told)

    # The answer

    def send_json(self, status: int, told: Dict[str, Any]) -> None:
        self.send(status, "application/json", "", json.dumps(told))

    def send(self, status: int, kind: str, policy: str, text: str) -> None:
        """Headers and body. Nothing is kept by the browser, and no other page may have it."""
        body = text.encode("utf-8")
        try:
            self.send_response(status)
            for name, value in (("Content-Type", kind + "; charset=utf-8"), ("Content-Length", str(len(body))),
                                ("Content-Security-Policy", policy or "default-src 'none'"),
                                ("Cache-Control", "no-store"), ("Referrer-Policy", "no-referrer"),
                                ("X-Content-Type-Options", "nosniff"),
                                ("Cross-Origin-Resource-Policy", "same-origin")):
                self.send_header(name, value)
            self.end_headers()
            self.wfile.write(body)
        except (ConnectionError, socket.timeout):
            self.close_connection = True


def page_of(desk: Desk, nonce: str) -> str:
    """The page, with its style, its script and what it begins with."""
    begins = json.dumps(desk.start()).replace("<", "\\u003c")
    style = minified((HERE / "picture.css").read_text() + (HERE / "play.css").read_text())
    script = (HERE / "play.js").read_text()
    parts = {"@style@": style, "@nonce@": escape(nonce), "@start@": begins, "@script@": script}
    # In one go: a deck may have the marks in its text.
    return re.sub("@[a-z]+@", lambda mark: parts[mark.group()], (HERE / "play.html").read_text())


def framed(markup: str) -> str:
    """A picture as it stands in the page: without its deck, which is at the left, and telling what is pointed at."""
    script = "<style>.deck{display:none!important}</style><script>%s</script>" % (HERE / "play_frame.js").read_text()
    return markup.replace("</body>", script + "</body>")
