"""Reading a trace: the one place that knows how a line is spelled.

docs/TRACE.md has the form of each line. What is read here was verified before, so a line that isn't understood is
this reader's fault and is said so.
"""

from __future__ import annotations

import re
from dataclasses import dataclass, field
from typing import Any, Callable, Dict, List, Optional, Tuple

from .deck import Place, lines_of

MASTER = "*"
# The third word of a line.
VERBS = ("EXEC", "ERROR", "LAND", "ENTER", "LEAVE", "ARRIVE", "BEGIN", "RELEASE", "DONE", "PURGE", "MEMEND")


def by_verb(prefix: str, functions: Dict[str, Any]) -> Dict[str, Callable[..., Any]]:
    """For each verb the function that is named for it, as of_exec for EXEC."""
    return {verb: functions[prefix + verb.lower()] for verb in VERBS}


@dataclass(frozen=True)
class Mark:
    """What is known of an error when somebody is told of it."""

    code: str
    reason: str = ""
    flags: Tuple[str, ...] = ()


@dataclass(frozen=True)
class Entry:
    """One line of a trace. Which fields are filled in depends on the verb."""

    index: int
    unit: str
    verb: str
    words: Tuple[str, ...]
    place: Optional[Place] = None
    return_code: int = 0
    # ERROR, LAND, ENTER; in all other lines it is empty.
    mark: Mark = Mark("")
    # ENTER, LEAVE: the kind of routine. LAND: the class of the abort. RELEASE: the class of the resource.
    kind: str = ""
    # The entry that made the routine or posted the abort; the number of a command or a resource.
    number: int = -1
    verdict: str = ""
    fate: str = ""
    code: str = ""
    dump: bool = False
    logrec: bool = False
    owner: str = ""
    # What became of the aborts that a DONE posts, by the word before the equals sign.
    posted: Tuple[Tuple[str, str], ...] = ()
    without_sdwa: bool = False

    @property
    def line(self) -> str:
        """The line as it stands in the trace."""
        return " ".join((str(self.index), self.unit, self.verb) + self.words)


@dataclass
class Trace:
    """A trace: its first line, its entries, and its last line, which may be missing."""

    head: str
    entries: List[Entry] = field(default_factory=list)
    end: str = ""


class NotUnderstood(Exception):
    """A line whose form this reader doesn't know."""


def read_place(text: str) -> Place:
    program, _, number = text.rpartition(".")
    return Place(program, int(number))


def read_mark(words: Tuple[str, ...]) -> Mark:
    """A code, perhaps its reason, then flags."""
    reason = ""
    flags = words[1:]
    if flags and flags[0].startswith("REASON="):
        reason, flags = flags[0][len("REASON="):], flags[1:]
    return Mark(words[0], reason, flags)


def read_exec(words: Tuple[str, ...]) -> Dict[str, object]:
    return {"place": read_place(words[0]), "return_code": int(words[1][len("RC="):])}


def read_error(words: Tuple[str, ...]) -> Dict[str, object]:
    return {"place": read_place(words[0]), "mark": read_mark(words[1:])}


def read_land(words: Tuple[str, ...]) -> Dict[str, object]:
    return {"kind": words[0], "number": int(words[1]), "mark": read_mark(words[2:])}


def read_enter(words: Tuple[str, ...]) -> Dict[str, object]:
    # Behind the mark a line may say that the routine has no SDWA.
    without = words[-1] == "NOSDWA"
    mark = words[2:-1] if without else words[2:]
    return {"kind": words[0], "number": int(words[1]), "mark": read_mark(mark), "without_sdwa": without}


def read_leave(words: Tuple[str, ...]) -> Dict[str, object]:
    rest = words[3:]
    place = None
    if words[2] == "RETRY":
        place, rest = read_place(rest[0]), rest[1:]
    return {"kind": words[0], "number": int(words[1]), "verdict": words[2], "place": place,
            "logrec": "LOGREC" in rest, "dump": "DUMP" in rest}


def read_arrive(words: Tuple[str, ...]) -> Dict[str, object]:
    return {"number": int(words[0]), "fate": words[1]}


def read_begin(words: Tuple[str, ...]) -> Dict[str, object]:
    return {"code": words[0], "dump": "DUMP" in words[1:]}


def read_release(words: Tuple[str, ...]) -> Dict[str, object]:
    return {"kind": words[0], "number": int(words[1]), "owner": words[2]}


def read_done(words: Tuple[str, ...]) -> Dict[str, object]:
    posted = tuple((word.split("=")[0], word.split("=")[1]) for word in words[1:])
    return {"code": words[0], "posted": posted}


def read_purge(words: Tuple[str, ...]) -> Dict[str, object]:
    return {"owner": words[0]}


def read_memend(words: Tuple[str, ...]) -> Dict[str, object]:
    return {}


READERS: Dict[str, Callable[[Tuple[str, ...]], Dict[str, object]]] = by_verb("read_", globals())


def read_entry(line: str) -> Entry:
    """Reads one line that has an index."""
    words = line.split(" ")
    try:
        rest = tuple(words[3:])
        return Entry(int(words[0]), words[1], words[2], rest, **READERS[words[2]](rest))  # type: ignore[arg-type]
    except (IndexError, KeyError, TypeError, ValueError):
        raise NotUnderstood(line) from None


def read_trace(text: bytes, count: Optional[int] = None) -> Trace:
    """Reads the first line, so many entries (or all), and the last line."""
    lines = lines_of(text)
    trace = Trace(lines[0] if lines else "")
    if not re.fullmatch(r"RTMTRACE \d+", trace.head):
        raise NotUnderstood(trace.head)
    if trace.head != "RTMTRACE 1":
        raise NotUnderstood("%s: only format 1 is drawn" % trace.head)
    for line in lines[1:]:
        if count is not None and len(trace.entries) >= count:
            break
        if line.startswith("END "):
            break
        trace.entries.append(read_entry(line))
    behind = len(trace.entries) + 1
    if behind < len(lines) and lines[behind].startswith("END "):
        trace.end = lines[behind]
    return trace
