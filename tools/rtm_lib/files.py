"""Reading and writing files, or standard input and output."""

from __future__ import annotations

import os
import sys
from typing import Optional

from .failures import CANNOT_READ, CANNOT_WRITE, Failure

STDIN = "-"
# More is read of no file; rtmrun itself takes 16 MiB.
MOST_BYTES = 256 * 1024 * 1024


def read_file(name: str) -> bytes:
    """A file's bytes, or those of standard input."""
    try:
        if name != STDIN:
            with open(name, "rb") as file:
                text = file.read(MOST_BYTES + 1)
        elif sys.stdin is None:
            raise Failure("standard input can't be read: it is closed", CANNOT_READ)
        else:
            text = sys.stdin.buffer.read(MOST_BYTES + 1)
    except (OSError, ValueError) as trouble:
        raise Failure("%s can't be read: %s" % (name or "a file without a name", reason(trouble)),
                      CANNOT_READ) from None
    if len(text) > MOST_BYTES:
        raise Failure("%s has more than %d bytes" % (name, MOST_BYTES), CANNOT_READ)
    return text


def reason(trouble: Exception) -> str:
    """Why a file couldn't be had."""
    return getattr(trouble, "strerror", None) or str(trouble)


def bytes_of(text: str) -> bytes:
    """The bytes of a text. Those of a file's name that aren't UTF-8 come back as they were."""
    try:
        return text.encode("utf-8", "surrogateescape")
    except UnicodeEncodeError:
        return text.encode("utf-8", "replace")


def write(name: Optional[str], text: str) -> None:
    """Writes to a file, or to standard output."""
    try:
        if name is not None and name != STDIN:
            with open(name, "wb") as file:
                file.write(bytes_of(text))
        elif sys.stdout is None:
            raise Failure("standard output can't be written: it is closed", CANNOT_WRITE)
        else:
            sys.stdout.buffer.write(bytes_of(text))
            sys.stdout.buffer.flush()
    except (OSError, ValueError) as trouble:
        if name is None or name == STDIN:
            give_up_output()
        where = "standard output" if name is None or name == STDIN else name or "a file without a name"
        raise Failure("%s can't be written: %s" % (where, reason(trouble)), CANNOT_WRITE) from None


def give_up_output() -> None:
    """What standard output didn't take is let go, so that nothing fails once more at the end."""
    try:
        os.dup2(os.open(os.devnull, os.O_WRONLY), sys.stdout.fileno())
    except (OSError, ValueError):
        pass
