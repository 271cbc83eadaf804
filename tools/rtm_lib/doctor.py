"""The word `doctor`: which program is asked, which versions there are, and what is missing."""

from __future__ import annotations

import argparse
import hashlib
import json
import platform
import shutil
import subprocess
import sys
from pathlib import Path
from typing import List, Tuple

from . import VERSION
from .failures import NO_PROGRAM, OK, tell
from .files import write
from .program import HOW_TO_BUILD, REPOSITORY, Rtmrun, place_of

LEAST_PYTHON = (3, 9)
# A deck that any build can run, and the verdict on its trace.
SMALL_DECK = b"MAIN PROG\n PEND\nJOB TASK PGM=MAIN\n END\n"
BROWSERS = ("chromium", "chromium-browser", "google-chrome")


def doctor(arguments: argparse.Namespace) -> int:
    """Prints a line for each thing, and what is missing; ends with 0 where `view` can work."""
    lines, works = [("rtm", VERSION)], True
    python = platform.python_version()
    if sys.version_info < LEAST_PYTHON:
        python, works = python + ", too old: 3.9 or later is needed", False
    lines.append(("python", python))
    path = place_of(arguments.rtmrun)
    lines.append(("repository", str(REPOSITORY)))
    if path.is_file():
        answer, answers = asked(Rtmrun(path))
        works = works and answers
        lines += [("rtmrun", str(path)), ("its bytes", fingerprint(path)), ("it answers", answer)]
    else:
        works = False
        lines.append(("rtmrun", "missing: no program at %s; it is built by: %s" % (path, HOW_TO_BUILD)))
    lines.append(("toolchain", toolchain()))
    lines += [("browser", browser()), ("parallel", parallel())]
    write(arguments.output, json.dumps(dict(lines), indent=1) + "\n" if arguments.json else "".join(
        "%-11s %s\n" % line for line in lines))
    if not works:
        tell("view can't work here: the lines of doctor say what is missing")
    return OK if works else NO_PROGRAM


def asked(rtmrun: Rtmrun) -> Tuple[str, bool]:
    """Runs a deck of four cards and verifies its trace."""
    try:
        verdict = rtmrun.verify(SMALL_DECK, rtmrun.run(SMALL_DECK))
    except Exception as trouble:  # whatever is wrong with the program is what the doctor is to say
        return "no: %s" % trouble, False
    return ("yes: %s" % verdict.line, True) if verdict.is_legal else ("wrongly: %s" % verdict.line, False)


def fingerprint(path: Path) -> str:
    """The program has no word for its version; its bytes tell one build from another."""
    try:
        text = path.read_bytes()
    except OSError as trouble:
        return "they can't be read: %s" % trouble.strerror
    return "sha256 %s, %d bytes" % (hashlib.sha256(text).hexdigest()[:16], len(text))


def first_line_of(words: List[str]) -> str:
    """The first line that a program prints of its version."""
    try:
        done = subprocess.run(words, stdout=subprocess.PIPE, stderr=subprocess.DEVNULL, timeout=20, check=False)
    except (OSError, subprocess.TimeoutExpired):
        return ""
    return done.stdout.decode("utf-8", "replace").strip().split("\n")[0]


def toolchain() -> str:
    """The kit that builds rtmrun; no word of rtm but the building needs it. It is looked for and not run."""
    found = shutil.which("rt")
    return found or "missing: rt isn't on the path; it is needed to build rtmrun alone"


def browser() -> str:
    """The browser that the tests measure pages in, and the driver by which they use the page of `play`."""
    for name in BROWSERS:
        if shutil.which(name):
            driver = "" if shutil.which("chromedriver") else "; missing: no chromedriver, for the tests of play alone"
            return (first_line_of([name, "--version"]) or name) + driver
    return "missing: no Chromium; it is needed by the tests of pages alone"


def parallel() -> str:
    """What runs the jobs of `sweep --plan`; xargs does so too."""
    found = first_line_of(["parallel", "--version"]) if shutil.which("parallel") else ""
    return found or "missing: no GNU parallel; xargs -P runs the jobs of sweep --plan too"
