"""Following a verified trace: the boxes, threads, rails and arrows that its lines and the cards give.

Nothing is decided here that a line or a card doesn't say. Where a line closes something (a LEAVE, a BEGIN), it is
followed; what might have happened instead is never asked.
"""

from __future__ import annotations

from dataclasses import dataclass, field
from typing import Dict, List, Optional, Tuple

from . import rules
from .deck import Card, Deck
from .rules import Rule
from .trace import MASTER, Entry, Trace

BEFORE_ALL = -1
POSTING_FATES = {0: "QUEUED", 4: "MERGED", 8: "LATE"}


@dataclass
class Box:
    """A request block, or a routine with the request block that it begins in."""

    unit: str
    kind: str
    depth: int
    program: str
    born: int
    ended: Optional[int] = None
    # The verb or verdict that closed it.
    ending: str = "END"
    # By which rule no abort lands while it runs, which asking of its error it is, from 1, and the ENTER's entry.
    shield: Optional[Rule] = None
    ordinal: int = 0
    header: Optional[Entry] = None
    # The name stands beside the next line that is in the box.
    to_be_named: bool = False

    @property
    def is_bare(self) -> bool:
        """Whether it is a routine that was entered without an SDWA."""
        return self.header is not None and self.header.without_sdwa


@dataclass
class ErrorThread:
    """An error, the routines it asks, and what ended it."""

    unit: str
    born: int
    depth: int
    bracket_depth: int
    asks: List[int] = field(default_factory=list)
    ended: Optional[int] = None
    ending: str = "END"


@dataclass
class Rail:
    """A holding, from its GET to its FREE or RELEASE."""

    unit: str
    resource: str
    number: int
    born: int
    ended: Optional[int] = None
    ending: str = "END"


@dataclass(eq=False)
class Registration:
    """A routine or a resource manager that a card made for a unit, as long as the lines say that it is there."""

    unit: str
    kind: str
    # The entry that made it: the number by which the trace names it.
    number: int
    program: str
    card: Optional[Card] = None
    # From which entry on the unit has it: an ESTAI routine may be older than the task.
    born: int = 0
    ended: Optional[int] = None
    # The request block that made an ESTAE routine: a retry goes on there, and where it ends the routine does.
    owner: Optional[Box] = None

    def is_there(self, index: int) -> bool:
        """Whether the unit had it just before an entry."""
        return self.born < index and (self.ended is None or self.ended >= index)


@dataclass
class Retry:
    """A retry: from the box that is left to the request block that goes on, and the unit's next line there."""

    unit: str
    born: int
    depth: int
    next_line: Optional[int] = None


@dataclass
class Abort:
    """An abort from outside, from its posting to its landing."""

    poster: str
    unit: str
    kind: str
    born: int
    fate: str
    landed: Optional[int] = None
    ended: Optional[int] = None


@dataclass(frozen=True)
class Birth:
    """A unit that begins to live, and the entry that bore it (before all for the job step task)."""

    unit: str
    born: int
    parent: str


@dataclass
class Line:
    """What an entry is in its unit's lane: its depth, its card, and the name that stands at its right."""

    entry: Entry
    depth: int = 0
    card: Optional[Card] = None
    program_end: str = ""
    name_at_right: str = ""
    # The program, the label and the ordinal that the line itself doesn't have.
    routine: str = ""
    label: str = ""
    ordinal: int = 0
    # The error that an ENTER or LEAVE is about, or that this line is.
    error: Optional[ErrorThread] = None
    abort: Optional[Abort] = None
    shield: Optional[Rule] = None
    # How many boxes and errors of the unit are open behind this line.
    level: int = 0


@dataclass
class Lane:
    """What is known of a unit's life."""

    unit: str
    born: Optional[int] = None
    begun: Optional[int] = None
    done: Optional[int] = None
    purged: Optional[int] = None
    # From each of these entries on, whether an abort would be held back, and by which rule.
    holding_back: List[Tuple[int, Optional[Rule]]] = field(default_factory=list)

    @property
    def ended(self) -> Optional[int]:
        return self.done if self.done is not None else self.purged


@dataclass
class History:
    """All that the picture draws, named by entries."""

    deck: Deck
    trace: Trace
    lines: List[Line] = field(default_factory=list)
    lanes: Dict[str, Lane] = field(default_factory=dict)
    boxes: List[Box] = field(default_factory=list)
    errors: List[ErrorThread] = field(default_factory=list)
    rails: List[Rail] = field(default_factory=list)
    retries: List[Retry] = field(default_factory=list)
    aborts: List[Abort] = field(default_factory=list)
    births: List[Birth] = field(default_factory=list)
    registrations: List[Registration] = field(default_factory=list)
    memory_end: Optional[int] = None

    @property
    def units(self) -> List[str]:
        """The units that were born, in the order of the deck, the master last."""
        names = [unit.name for unit in self.deck.units] + [MASTER]
        return [name for name in names if name in self.lanes]

    @property
    def length(self) -> int:
        return len(self.lines)

    def maker(self, number: int) -> Optional[Card]:
        """The card of the entry that made a routine."""
        return self.lines[number].card if number < len(self.lines) else None


@dataclass
class Bracket:
    """The request blocks of a unit, or of one routine of it, with the error that is open there."""

    blocks: List[Box] = field(default_factory=list)
    routine: Optional[Box] = None
    number: int = -1
    error: Optional[ErrorThread] = None
    frrs: List[Registration] = field(default_factory=list)
    estaes: List[Registration] = field(default_factory=list)
    # SETRP REMREC= of the routine that runs here, as its cards said so far.
    removes_itself: bool = False

    @property
    def depth(self) -> int:
        """How deep its newest request block is drawn."""
        return self.blocks[-1].depth if self.blocks else 0


@dataclass
class UnitState:
    """Where a unit stands while its lines are followed."""

    lane: Lane
    brackets: List[Bracket] = field(default_factory=list)
    # Those of the nearest attacher first.
    estais: List[Registration] = field(default_factory=list)
    doomed: bool = False
    waiting_retry: Optional[Retry] = None

    @property
    def innermost(self) -> Bracket:
        return self.brackets[-1]

    @property
    def level(self) -> int:
        return sum(len(bracket.blocks) + (bracket.error is not None) for bracket in self.brackets)

    def held_back(self) -> Optional[Rule]:
        """By which rule of docs/MACHINE.md an abort could not land now, or None."""
        if self.doomed:
            return rules.HELD_BY_DOOM
        if any(bracket.frrs for bracket in self.brackets):
            return rules.HELD_BY_FRR
        for bracket in self.brackets:
            if bracket.routine is not None and bracket.routine.shield is not None:
                return rules.HELD_BY_ROUTINE
        return rules.HELD_BY_ERROR if self.innermost.error is not None else None


class Follower:
    """Goes through a trace once, line by line."""

    def __init__(self, deck: Deck, trace: Trace) -> None:
        self.history = History(deck, trace)
        self.deck = deck
        self.states: Dict[str, UnitState] = {}
        self.managers: List[Registration] = []
        self.pending: Dict[Tuple[int, str, str], Abort] = {}
        self.holdings: Dict[str, List[Rail]] = {}

    def follow(self) -> History:
        """The whole history."""
        if self.deck.job_step:
            self.bear(self.deck.job_step, BEFORE_ALL, "")
        for entry in self.history.trace.entries:
            self.entry(entry)
        return self.history

    # Births and deaths of units

    def bear(self, unit: str, born: int, parent: str) -> None:
        """A unit begins to live in the first request block of its program."""
        lane = Lane(unit, born)
        state = UnitState(lane, [Bracket()])
        self.states[unit] = state
        self.history.lanes[unit] = lane
        self.history.births.append(Birth(unit, born, parent))
        described = self.deck.unit(unit)
        if described is not None:
            state.innermost.blocks.append(self.box(unit, "RB", 0, described.program, born))
        lane.holding_back.append((born, None))

    def memory_ends(self, entry: Entry) -> None:
        """From here on only the master has entries."""
        if self.history.memory_end is None:
            self.history.memory_end = entry.index
            self.bear(MASTER, entry.index, entry.unit)

    def register(self, unit: str, kind: str, number: int, born: int, owner: Optional[Box] = None) -> Registration:
        """A unit has one routine more."""
        made = Registration(unit, kind, number, self.program_of(kind, number), self.history.maker(number), born, None,
                            owner)
        self.history.registrations.append(made)
        return made

    def box(self, unit: str, kind: str, depth: int, program: str, born: int) -> Box:
        made = Box(unit, kind, depth, program, born)
        self.history.boxes.append(made)
        return made

    # One line

    def entry(self, entry: Entry) -> None:
        """Follows one line, then notes where its unit stands."""
        if entry.unit not in self.states:
            self.bear(entry.unit, entry.index, "")
        state = self.states[entry.unit]
        line = Line(entry)
        self.history.lines.append(line)
        line.depth = state.innermost.depth
        self.end_retry_arrow(state, entry)
        getattr(self, "on_" + entry.verb.lower())(entry, state, line)
        line.level = state.level
        held = state.held_back()
        if state.lane.holding_back[-1][1] != held:
            state.lane.holding_back.append((entry.index, held))

    def end_retry_arrow(self, state: UnitState, entry: Entry) -> None:
        """The arrow of a retry points at the unit's next line; an ARRIVE has no mark that it could point at."""
        if state.waiting_retry is not None and entry.verb != "ARRIVE":
            state.waiting_retry.next_line = entry.index
            state.waiting_retry = None

    def name(self, state: UnitState, line: Line) -> None:
        """Puts the program's name beside the first line of a called program."""
        blocks = state.innermost.blocks
        if blocks and blocks[-1].to_be_named:
            line.name_at_right = blocks[-1].program
            blocks[-1].to_be_named = False

    # The verbs

    def on_exec(self, entry: Entry, state: UnitState, line: Line) -> None:
        self.stands_at_card(entry, state, line)
        if line.card is None:
            self.returns(state.innermost, entry)
            return
        action = getattr(self, "card_" + line.card.operation.lower(), None)
        if action is not None:
            action(entry, state, line, line.card)

    def stands_at_card(self, entry: Entry, state: UnitState, line: Line) -> None:
        """Finds the card at the line's place; without one that is the end of its program."""
        self.name(state, line)
        line.card = self.deck.card(entry.place)
        if line.card is None and entry.place is not None:
            line.program_end = entry.place.program

    def on_error(self, entry: Entry, state: UnitState, line: Line) -> None:
        self.stands_at_card(entry, state, line)
        line.error = self.open_error(entry, state, line)

    def on_land(self, entry: Entry, state: UnitState, line: Line) -> None:
        self.name(state, line)
        abort = self.pending.get((entry.number, entry.unit, entry.kind))
        if abort is None:
            # BEGIN doesn't say to whom it posts; the landing does.
            poster = self.history.lines[entry.number].entry.unit
            abort = self.post(poster, entry.unit, entry.kind, entry.number, "QUEUED")
        abort.landed = abort.ended = entry.index
        line.abort = abort
        if "CLUP" in entry.mark.flags:
            state.doomed = True
        line.error = self.open_error(entry, state, line)

    def open_error(self, entry: Entry, state: UnitState, line: Line) -> ErrorThread:
        routine = state.innermost.routine
        error = ErrorThread(entry.unit, entry.index, line.depth, routine.depth if routine else 0)
        state.innermost.error = error
        self.history.errors.append(error)
        return error

    def on_enter(self, entry: Entry, state: UnitState, line: Line) -> None:
        outer = state.innermost
        line.depth = outer.depth + 1
        line.routine = self.program_of(entry.kind, entry.number)
        box = self.box(entry.unit, entry.kind, line.depth, line.routine, entry.index)
        box.header = entry
        if entry.kind in rules.SHIELDING_KINDS:
            box.shield = rules.SHIELDED_KIND
        elif entry.kind == "ESTAE" and self.card_of(entry.number, "CANCEL") == "NO":
            box.shield = rules.NOT_CANCELLED
        if outer.error is not None:
            outer.error.asks.append(entry.index)
            box.ordinal = len(outer.error.asks)
        line.error, line.ordinal, line.shield = outer.error, box.ordinal, box.shield
        state.brackets.append(Bracket([box], box, entry.number))

    def on_leave(self, entry: Entry, state: UnitState, line: Line) -> None:
        bracket = state.brackets.pop()
        if not state.brackets:
            state.brackets.append(Bracket())
        outer = state.innermost
        line.routine = self.program_of(entry.kind, entry.number)
        if bracket.routine is not None:
            line.depth = bracket.routine.depth
            line.ordinal = bracket.routine.ordinal
        line.error = outer.error
        for box in bracket.blocks:
            box.ended, box.ending = entry.index, "LEAVE" if box is bracket.routine else "BEGIN"
        if bracket.error is not None:
            bracket.error.ended, bracket.error.ending = entry.index, "FAIL"
        end_all(bracket.frrs + bracket.estaes, entry.index)
        if entry.verdict == "RETRY":
            self.retries(entry, state, line)
        if entry.verdict != "RETRY" or bracket.removes_itself:
            for own in (outer.frrs, outer.estaes, state.estais, self.managers):
                drop(own, [one for one in own if (one.kind, one.number) == (entry.kind, entry.number)], entry.index)
        if entry.verdict == "STOP":
            drop(state.estais, list(state.estais), entry.index)

    def retries(self, entry: Entry, state: UnitState, line: Line) -> None:
        """The error is over, and the program goes on where the routine said."""
        outer = state.innermost
        if outer.error is not None:
            outer.error.ended, outer.error.ending = entry.index, "RETRY"
            outer.error = None
        goes_on = self.retry_block(entry, outer)
        while outer.blocks and goes_on is not None and outer.blocks[-1] is not goes_on:
            self.end_block(outer, entry.index, "RETRY")
        card = self.deck.card(entry.place)
        line.label = card.name if card is not None and card.name else str(entry.place)
        retry = Retry(entry.unit, entry.index, outer.depth)
        state.waiting_retry = retry
        self.history.retries.append(retry)

    def retry_block(self, entry: Entry, outer: Bracket) -> Optional[Box]:
        """The request block in which the retry goes on: docs/MACHINE.md, section 6."""
        if entry.kind == "ESTAE":
            owner = next((one.owner for one in outer.estaes if one.number == entry.number), None)
            return owner if owner in outer.blocks else None
        if not outer.blocks:
            return None
        return outer.blocks[0] if entry.kind == "ESTAI" else outer.blocks[-1]

    def on_arrive(self, entry: Entry, state: UnitState, line: Line) -> None:
        line.abort = self.post("", entry.unit, "CANCEL", entry.index, entry.fate)

    def on_begin(self, entry: Entry, state: UnitState, line: Line) -> None:
        self.close_all(state, entry.index, "BEGIN")
        state.lane.begun = entry.index
        line.depth = 0

    def on_release(self, entry: Entry, state: UnitState, line: Line) -> None:
        line.depth = 0
        rail = self.newest_rail(entry.owner, entry.kind, entry.number)
        if rail is not None:
            rail.ended, rail.ending = entry.index, "RELEASE"

    def on_done(self, entry: Entry, state: UnitState, line: Line) -> None:
        line.depth = 0
        state.lane.done = entry.index
        described = self.deck.unit(entry.unit)
        for word, fate in entry.posted:
            target = self.deck.job_step if word == "STEP" else described.related if described else ""
            self.post(entry.unit, target, "STEP" if word == "STEP" else "SRB", entry.index, fate)
        if entry.unit == self.deck.job_step:
            self.memory_ends(entry)

    def on_purge(self, entry: Entry, state: UnitState, line: Line) -> None:
        purged = self.states.get(entry.owner)
        if purged is not None:
            self.close_all(purged, entry.index, "PURGE")
            drop(self.managers, [one for one in self.managers if one.unit == entry.owner], entry.index)
            purged.lane.purged = entry.index

    def on_memend(self, entry: Entry, state: UnitState, line: Line) -> None:
        line.depth = 0

    def close_all(self, state: UnitState, index: int, ending: str) -> None:
        """All request blocks, routines, errors and pending aborts of a unit go."""
        for bracket in state.brackets:
            for box in bracket.blocks:
                box.ended, box.ending = index, ending
            if bracket.error is not None:
                bracket.error.ended, bracket.error.ending = index, ending
            end_all(bracket.frrs + bracket.estaes, index)
        end_all(state.estais, index)
        state.brackets, state.estais = [Bracket()], []
        state.waiting_retry = None
        for abort in self.history.aborts:
            if abort.unit == state.lane.unit and abort.ended is None:
                abort.ended = index

    # Cards that bear or end something on the picture

    def returns(self, bracket: Bracket, entry: Entry) -> None:
        if bracket.blocks:
            self.end_block(bracket, entry.index, "RETURN")

    def end_block(self, bracket: Bracket, index: int, ending: str) -> None:
        """The newest request block ends, and the ESTAE routines that it made."""
        box = bracket.blocks.pop()
        box.ended, box.ending = index, ending
        drop(bracket.estaes, [one for one in bracket.estaes if one.owner is box], index)

    def card_return(self, entry: Entry, state: UnitState, line: Line, card: Card) -> None:
        self.returns(state.innermost, entry)

    def card_link(self, entry: Entry, state: UnitState, line: Line, card: Card) -> None:
        box = self.box(entry.unit, "RB", line.depth + 1, card.positional(0), entry.index)
        box.to_be_named = True
        state.innermost.blocks.append(box)

    def card_xctl(self, entry: Entry, state: UnitState, line: Line, card: Card) -> None:
        box, estaes = state.innermost.blocks[-1], state.innermost.estaes
        box.program, box.to_be_named = card.positional(0), True
        drop(estaes, [one for one in estaes if one.owner is box and one.card and one.card.value("XCTL") != "YES"],
             entry.index)

    def card_estaex(self, entry: Entry, state: UnitState, line: Line, card: Card) -> None:
        estaes, word = state.innermost.estaes, card.positional(0)
        if entry.return_code != 0:
            return
        if word in ("OV", "0"):
            drop(estaes, estaes[-1:], entry.index)
        if word in ("CT", "OV"):
            owner = state.innermost.blocks[-1]
            estaes.append(self.register(entry.unit, "ESTAE", entry.index, entry.index, owner))

    def card_setfrr(self, entry: Entry, state: UnitState, line: Line, card: Card) -> None:
        frrs, word = state.innermost.frrs, card.positional(0)
        if entry.return_code != 0:
            return
        if word == "P":
            drop(frrs, list(frrs), entry.index)
        if word in ("D", "R"):
            drop(frrs, frrs[-1:], entry.index)
        if word in ("A", "R"):
            frrs.append(self.register(entry.unit, "FRR", entry.index, entry.index))

    def card_resmgr(self, entry: Entry, state: UnitState, line: Line, card: Card) -> None:
        """A manager of the address space is the master's."""
        unit = MASTER if card.value("TYPE") == "SPACE" else entry.unit
        if entry.return_code == 0 and card.positional(0) == "ADD":
            self.managers.append(self.register(unit, "MGR", entry.index, entry.index))
        elif entry.return_code == 0:
            equal = [one for one in self.managers if (one.unit, one.program) == (unit, card.value("PGM"))]
            drop(self.managers, equal[-1:], entry.index)

    def card_setrp(self, entry: Entry, state: UnitState, line: Line, card: Card) -> None:
        if card.value("REMREC"):
            state.innermost.removes_itself = card.value("REMREC") == "YES"

    def card_attachx(self, entry: Entry, state: UnitState, line: Line, card: Card) -> None:
        if entry.return_code != 0:
            return
        name = card.positional(0)
        self.bear(name, entry.index, entry.unit)
        if card.operation == "ATTACHX":
            numbers = ([entry.index] if card.value("ESTAI") else []) + [one.number for one in state.estais]
            self.states[name].estais = [self.register(name, "ESTAI", number, entry.index) for number in numbers]

    card_schedule = card_attachx

    def card_get(self, entry: Entry, state: UnitState, line: Line, card: Card) -> None:
        rail = Rail(entry.unit, card.positional(0), int(card.positional(1) or 0), entry.index)
        self.history.rails.append(rail)
        self.holdings.setdefault(entry.unit, []).append(rail)

    def card_free(self, entry: Entry, state: UnitState, line: Line, card: Card) -> None:
        rail = self.newest_rail(entry.unit, card.positional(0), int(card.positional(1) or 0))
        if entry.return_code == 0 and rail is not None:
            rail.ended, rail.ending = entry.index, "FREE"

    def newest_rail(self, unit: str, resource: str, number: int) -> Optional[Rail]:
        """The newest equal holding that a unit still has."""
        for rail in reversed(self.holdings.get(unit, [])):
            if rail.ended is None and (rail.resource, rail.number) == (resource, number):
                return rail
        return None

    def card_detach(self, entry: Entry, state: UnitState, line: Line, card: Card) -> None:
        line.abort = self.post_by_card(entry, card.positional(0), "DETACH")

    def card_callrtm(self, entry: Entry, state: UnitState, line: Line, card: Card) -> None:
        if card.positional(0) == "MEMTERM":
            self.memory_ends(entry)
        else:
            line.abort = self.post_by_card(entry, card.value("TASK"), "ABTERM")

    def post_by_card(self, entry: Entry, unit: str, kind: str) -> Abort:
        """A card's abort; the return code tells what became of it."""
        return self.post(entry.unit, unit, kind, entry.index, POSTING_FATES.get(entry.return_code, ""))

    def post(self, poster: str, unit: str, kind: str, born: int, fate: str) -> Abort:
        """Notes an abort that was posted; one that was queued may land."""
        abort = Abort(poster, unit, kind, born, fate)
        if fate == "QUEUED":
            self.pending[(born, unit, kind)] = abort
        else:
            abort.ended = born
        self.history.aborts.append(abort)
        return abort

    # What the cards say of a routine

    def program_of(self, kind: str, number: int) -> str:
        return self.card_of(number, "ESTAI" if kind == "ESTAI" else "PGM")

    def card_of(self, number: int, key: str) -> str:
        card = self.history.maker(number)
        return card.value(key) if card is not None else ""


def end_all(some: List[Registration], index: int) -> None:
    """Routines are gone from an entry on."""
    for one in some:
        one.ended = index


def drop(own: List[Registration], some: List[Registration], index: int) -> None:
    """Some of a unit's routines are gone from an entry on."""
    end_all(some, index)
    own[:] = [one for one in own if one not in some]


def follow(deck: Deck, trace: Trace) -> History:
    """Follows a verified trace of a deck."""
    return Follower(deck, trace).follow()
