"""One deck with its command at many moments: making the decks, running each, reading what became of the command.

Each run is rtmrun's. What is read of it stands in its trace and on the cards.
"""

from __future__ import annotations

from concurrent.futures import ThreadPoolExecutor
from dataclasses import asdict, dataclass, field
from typing import Any, Callable, Dict, Iterator, List, Optional, Sequence, Tuple

from .deck import Deck, is_end, kept_lines, number_in, read_card, read_deck, split_input
from .failures import Failure, WRONG_WORDS
from .history import Box, History, follow
from .program import Rtmrun
from .trace import Entry, read_trace

MOST_COMMANDS = 64
MOST_MOMENTS = 2000
# The last one that a card can name.
LAST_MOMENT = 100000
NEVER = "NEVER"


@dataclass(frozen=True)
class Entered:
    """A routine that was entered, with its verdict; none where the trace ends first."""

    routine: str
    kind: str
    verdict: str


@dataclass
class Moment:
    """What became of the command at one moment."""

    at: int
    fate: str = NEVER
    arrived: Optional[int] = None
    landed: Optional[int] = None
    # The routine or program that ran where it landed, and the unit's line just before.
    inside: str = ""
    inside_routine: bool = False
    inside_verdict: str = ""
    before: str = ""
    entered: List[Entered] = field(default_factory=list)
    released: List[str] = field(default_factory=list)
    code: str = ""
    end: str = ""

    @property
    def waited(self) -> int:
        """How many entries lie between the command's arrival and its landing."""
        return self.landed - self.arrived - 1 if self.landed is not None and self.arrived is not None else 0

    def to_json(self) -> Dict[str, Any]:
        return asdict(self)

    @staticmethod
    def of_json(values: Dict[str, Any]) -> "Moment":
        moment = Moment(**values)
        if type(moment.at) is not int or any(type(one) not in (int, type(None))
                                             for one in (moment.arrived, moment.landed)):
            raise ValueError("a moment is a number")
        moment.entered = [Entered(**one) for one in values["entered"]]
        return moment


@dataclass(frozen=True)
class Swept:
    """A deck that is cut before and behind the command that moves, and what was done to it."""

    before: bytes
    behind: bytes
    base: bytes
    command: str
    unit: str
    number: int
    said: Tuple[str, ...]

    def at(self, moment: int) -> bytes:
        """The deck with its command at a moment."""
        return self.before + (" %s,AT=%d\n" % (self.command, moment)).encode() + self.behind


def without_at(operands: Tuple[str, ...]) -> str:
    return "CANCEL " + ",".join(operand for operand in operands if not operand.startswith("AT="))


def prepare(text: bytes, wanted: Optional[str]) -> Swept:
    """Finds the command that moves, or puts one in."""
    deck_text, behind = split_input(text)
    said = ["what stands behind the END card is left out"] if behind.strip() else []
    deck = read_deck(deck_text)
    command = wanted_command(deck, wanted)
    unit = command.split(" ")[1].split(",")[0]
    lines = kept_lines(deck_text)
    place, number = place_of_command(deck, unit, wanted is None)
    if number is not None:
        said.append("the deck's command on card %d is the one that moves" % (place + 1))
        del lines[place]
    else:
        place, number = put_in(deck, lines, said)
    before, after = b"".join(lines[:place]), b"".join(lines[place:])
    return Swept(before, after, before + after, command, unit, number, tuple(said))


def wanted_command(deck: Deck, wanted: Optional[str]) -> str:
    """The card of the command, without its AT=."""
    if wanted is None:
        if deck.commands:
            return without_at(deck.commands[0].operands)
        return "CANCEL " + deck.job_step
    card = read_card(1, " " + wanted.strip())
    is_printable = all(" " <= letter <= "~" for letter in wanted.strip())
    if card is None or not is_printable or card.name or card.operation != "CANCEL" or not card.positional(0):
        raise Failure("the command must be a CANCEL card, as \"CANCEL JOB\" or \"CANCEL JOB,DUMP=YES\"", WRONG_WORDS)
    return without_at(card.operands)


def place_of_command(deck: Deck, unit: str, any_unit: bool) -> Tuple[int, Optional[int]]:
    """The line and the number of the deck's command that moves, if it has one for the task."""
    for number, card in enumerate(deck.commands):
        if any_unit or card.positional(0) == unit:
            return card.number - 1, number
    return 0, None


def put_in(deck: Deck, lines: List[bytes], said: List[str]) -> Tuple[int, int]:
    """Makes a place for one more command, before END."""
    number = len(deck.commands)
    if number >= MOST_COMMANDS:
        last = deck.commands[-1]
        said.append("the deck has its %d commands: the last one, on card %d, is left out" % (number, last.number))
        del lines[last.number - 1]
        return last.number - 1, number - 1
    end = next((place for place, line in enumerate(lines) if is_end(line)), len(lines))
    said.append("the command is put in before END" + (", behind the deck's own" if number else ""))
    if not any(line.split()[:1] == [b"OPER"] for line in lines[:end]):
        said.append("and an OPER card before it")
        lines.insert(end, b" OPER\n")
        end += 1
    return end, number


def moments_of(rtmrun: Rtmrun, swept: Swept, first: int, last: Optional[int], all_moments: bool,
               most: int = MOST_MOMENTS) -> Tuple[List[int], int]:
    """The moments, at most so many, and how many there are: from 0 to the length of the trace without the command."""
    length = len(read_trace(rtmrun.run(swept.base)).entries)
    stop = length if last is None else min(last, length)
    there_are = stop - first + 1
    if there_are < 1:
        raise Failure("the last moment is %d, the length of the trace without the command" % length, WRONG_WORDS)
    if all_moments or there_are <= most:
        return list(range(first, stop + 1)), there_are
    step = (there_are - 1) / (most - 1)
    return [first + round(place * step) for place in range(most)], there_are


def run_moment(rtmrun: Rtmrun, swept: Swept, at: int) -> Moment:
    """Runs the deck with its command at one moment."""
    text = swept.at(at)
    return read_moment(follow(read_deck(text), read_trace(rtmrun.run(text))), swept.unit, swept.number, at)


def run_moments(rtmrun: Rtmrun, swept: Swept, moments: List[int], jobs: int,
                progress: Callable[[int], None]) -> Iterator[Moment]:
    """All runs, some at a time, in the order of the moments. Those that haven't begun are left where it ends early."""
    pool = ThreadPoolExecutor(max(1, jobs))
    try:
        for done, moment in enumerate(pool.map(lambda at: run_moment(rtmrun, swept, at), moments), 1):
            progress(done)
            yield moment
    finally:
        pool.shutdown(cancel_futures=True)


def listed_moments(moments: Sequence[int]) -> str:
    """Moments as --at takes them, neighbours as a range."""
    runs: List[List[int]] = []
    for moment in moments:
        if runs and runs[-1][-1] == moment - 1:
            runs[-1].append(moment)
        else:
            runs.append([moment])
    return ",".join(str(run[0]) if len(run) == 1 else "%d-%d" % (run[0], run[-1]) for run in runs)


def read_moments(text: str) -> List[int]:
    """Moments from what `listed_moments` writes; a ValueError where it isn't that."""
    moments: List[int] = []
    for run in text.split(","):
        first, dash, last = run.partition("-")
        begins, ends = number_in(first), number_in(last if dash else first)
        if begins is None or ends is None or not begins <= ends <= LAST_MOMENT:
            raise ValueError(text)
        moments += range(begins, ends + 1)
    return moments


# What a trace says of the command

def read_moment(history: History, unit: str, number: int, at: int) -> Moment:
    """What became of the command of that number, which is the unit's."""
    moment = Moment(at, end=history.trace.end)
    own = [entry for entry in history.trace.entries if entry.unit == unit]
    arrival = next((entry for entry in own if entry.verb == "ARRIVE" and entry.number == number), None)
    if arrival is not None:
        moment.fate, moment.arrived = arrival.fate, arrival.index
        landing = next((entry for entry in own if entry.verb == "LAND" and entry.kind == "CANCEL"
                        and entry.number == arrival.index), None)
        if landing is not None:
            read_landing(history, own, landing, moment)
    moment.released = ["%s %d" % (entry.kind, entry.number) for entry in history.trace.entries
                       if entry.verb == "RELEASE" and entry.owner == unit]
    moment.code = final_code(history, unit)
    return moment


def check_routine(deck: bytes, routine: Optional[str]) -> None:
    """A routine that is required has to be a program of the deck."""
    if routine is not None and routine not in read_deck(deck).programs:
        raise Failure("the deck has no program %s, so it can't be required" % routine, WRONG_WORDS)


def is_entered(moment: Moment, routine: str) -> bool:
    """Whether a routine was entered from the landing on."""
    return any(one.routine == routine for one in moment.entered)


def row_key(moment: Moment) -> Tuple[object, ...]:
    """What is the same at moments that are told as one."""
    return (moment.fate, moment.landed is None, moment.inside, moment.waited > 0, tuple(moment.entered),
            tuple(moment.released), moment.code, moment.end)


def read_landing(history: History, own: List[Entry], landing: Entry, moment: Moment) -> None:
    """Where it landed, and who was entered from then on."""
    moment.landed = landing.index
    earlier = [entry for entry in own if entry.index < landing.index and entry.verb != "ARRIVE"]
    if earlier:
        last = history.lines[earlier[-1].index]
        moment.before = "%s %s" % (earlier[-1].place, last.card.text) if last.card is not None else (
            " ".join((earlier[-1].verb,) + earlier[-1].words))
    box = box_at(history, landing)
    if box is not None:
        moment.inside, moment.inside_routine = box.program, box.header is not None
        if box.header is not None and box.ended is not None:
            moment.inside_verdict = history.trace.entries[box.ended].verdict
    leaves = {box.born: box.ended for box in history.boxes if box.header is not None and box.ending == "LEAVE"}
    for entry in own:
        if entry.verb == "ENTER" and entry.index > landing.index:
            left = leaves.get(entry.index)
            verdict = history.trace.entries[left].verdict if left is not None else ""
            moment.entered.append(Entered(history.lines[entry.index].routine, entry.kind, verdict))


def box_at(history: History, landing: Entry) -> Optional[Box]:
    """The innermost routine that was open where an abort landed, else the request block."""
    open_boxes = [box for box in history.boxes if box.unit == landing.unit and box.born < landing.index
                  and (box.ended is None or box.ended > landing.index)]
    inner_first = sorted(open_boxes, key=lambda box: (box.header is None, -box.depth))
    return inner_first[0] if inner_first else None


def final_code(history: History, unit: str) -> str:
    """With what the unit ended, or that it didn't."""
    lane = history.lanes.get(unit)
    if lane is None:
        return "never born"
    if lane.done is not None:
        return history.trace.entries[lane.done].code
    return "purged" if lane.purged is not None else "not ended"
