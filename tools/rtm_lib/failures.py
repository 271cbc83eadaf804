"""How a word of `rtm` ends where it can't do what it was asked for."""

from __future__ import annotations

import sys

OK = 0
# A routine that is required isn't entered, or two traces part.
NOT_ENTERED = 1
NO_PROGRAM = 3
DECK_REFUSED = 8
BAD_LINE = 9
NOT_LEGAL = 10
WRONG_END = 11
NO_MEMORY = 12
CANNOT_READ = 16
CANNOT_WRITE = 17
WRONG_WORDS = 20
# A fault of `rtm` itself.
OWN_FAULT = 70
INTERRUPTED = 130


class Failure(Exception):
    """A message for the person at the terminal, and the exit status that goes with it."""

    def __init__(self, message: str, status: int) -> None:
        super().__init__(message)
        self.status = status


def one_line(text: str) -> str:
    """The text as one line that a terminal can show: names of files and cards may have any bytes."""
    return "".join(letter if letter.isprintable() else letter.encode("unicode_escape").decode("ascii")
                   for letter in text)


def tell(message: str) -> None:
    """One line on standard error, if there is one and it takes it."""
    if sys.stderr is not None:
        try:
            print("rtm: %s" % one_line(message), file=sys.stderr, flush=True)
        except (OSError, ValueError):
            pass
