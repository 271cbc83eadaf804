"""A headless Chromium that is driven through chromedriver, by the protocol of WebDriver alone."""

from __future__ import annotations

import base64
import json
import shutil
import socket
import subprocess
import time
import urllib.error
import urllib.request
from pathlib import Path
from typing import Any, Dict, List, Optional

from rtm_lib.doctor import BROWSERS

ELEMENT = "element-6066-11e4-a52e-4f735466cecf"
PATIENCE = 60.0


def missing() -> str:
    """What is missing for it, or nothing."""
    if not any(shutil.which(name) for name in BROWSERS):
        return "no Chromium here (Debian: apt-get install chromium)"
    return "" if shutil.which("chromedriver") else "no chromedriver here (Debian: apt-get install chromium-driver)"


class Browser:
    """One window."""

    def __init__(self, width: int, height: int, dark: bool = False) -> None:
        with socket.socket() as free:
            free.bind(("127.0.0.1", 0))
            port = free.getsockname()[1]
        self.driver = subprocess.Popen(["chromedriver", "--port=%d" % port], stdout=subprocess.DEVNULL,
                                       stderr=subprocess.DEVNULL)
        self.base = "http://127.0.0.1:%d" % port
        self.session = ""
        words = ["--headless=new", "--no-sandbox", "--disable-gpu", "--hide-scrollbars",
                 "--window-size=%d,%d" % (width, height)] + (["--force-dark-mode"] if dark else [])
        chosen = {"browserName": "chrome", "unhandledPromptBehavior": "ignore",
                  "goog:chromeOptions": {"args": words, "binary": next(filter(None, map(shutil.which, BROWSERS)))},
                  "goog:loggingPrefs": {"browser": "ALL"}}
        until = time.monotonic() + PATIENCE
        while True:
            try:
                made = self.ask("POST", "/session", {"capabilities": {"alwaysMatch": chosen}})
                break
            except urllib.error.HTTPError as trouble:
                self.end()
                raise AssertionError(trouble.read()) from None
            except OSError:
                if time.monotonic() > until:
                    self.end()
                    raise
                time.sleep(0.1)
        self.session = "/session/%s" % made["sessionId"]

    def ask(self, method: str, path: str, given: Optional[Dict[str, Any]] = None) -> Any:
        body = json.dumps(given or {}).encode() if method == "POST" else None
        request = urllib.request.Request(self.base + path, body, {"Content-Type": "application/json"}, method=method)
        with urllib.request.urlopen(request, timeout=PATIENCE) as answer:
            return json.loads(answer.read())["value"]

    def end(self) -> None:
        """Closes the window and ends its driver."""
        try:
            if self.session:
                self.ask("DELETE", self.session)
        except OSError:
            pass
        finally:
            self.driver.terminate()
            self.driver.wait(PATIENCE)

    def go(self, address: str) -> None:
        self.ask("POST", self.session + "/url", {"url": address})

    def run(self, script: str, *given: Any) -> Any:
        """What a piece of script returns."""
        return self.ask("POST", self.session + "/execute/sync", {"script": script, "args": list(given)})

    def element(self, selector: str) -> str:
        found = self.ask("POST", self.session + "/element", {"using": "css selector", "value": selector})
        return str(found[ELEMENT])

    def click(self, selector: str) -> None:
        self.ask("POST", "%s/element/%s/click" % (self.session, self.element(selector)))

    def type(self, selector: str, text: str) -> None:
        """Types as a person does, a key after another."""
        self.ask("POST", "%s/element/%s/value" % (self.session, self.element(selector)), {"text": text})

    def frame(self, selector: Optional[str]) -> None:
        """Goes into a frame, or back to the page."""
        self.ask("POST", self.session + "/frame",
                 {"id": {ELEMENT: self.element(selector)} if selector is not None else None})

    def dialog(self, accept: bool) -> str:
        """What a dialog asks; it is accepted or not."""
        text = str(self.ask("GET", self.session + "/alert/text"))
        self.ask("POST", self.session + ("/alert/accept" if accept else "/alert/dismiss"))
        return text

    def log(self) -> List[str]:
        """What the browser has to complain of."""
        return [str(one["message"]) for one in self.ask("POST", self.session + "/se/log", {"type": "browser"})]

    def shot(self, path: Path) -> None:
        path.write_bytes(base64.b64decode(self.ask("GET", self.session + "/screenshot")))

    def wait(self, script: str, *given: Any) -> Any:
        """What a piece of script returns, once that is something."""
        until = time.monotonic() + PATIENCE
        while True:
            found = self.run(script, *given)
            if found:
                return found
            if time.monotonic() > until:
                raise AssertionError("this doesn't come: %s; the page says %s" % (
                    script, self.run("return document.body.innerText").splitlines()[:12]))
            time.sleep(0.05)
