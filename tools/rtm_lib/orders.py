"""All orders in which a deck's commands may arrive while one thread runs it, and further ones of runs on threads.

An order says which commands have arrived, and as which entries. The run without any command is the root; each order is
tried with one more command at each later entry. Whether it can be is rtmrun's answer: the run of that deck shows these
arrivals, or others. A run on threads has its units in another order too, so it is counted by its trace.
"""

from __future__ import annotations

from bisect import bisect_right
from concurrent.futures import ThreadPoolExecutor
from dataclasses import dataclass, field
from itertools import accumulate
from typing import Any, Callable, Dict, Iterator, List, Optional, Sequence, Set, Tuple

from .deck import Deck, kept_lines, read_deck, split_input
from .history import History, follow
from .moments import Moment, prepare, read_moment, row_key, without_at
from .program import Rtmrun
from .trace import read_trace

MOST_RUNS = 10000
# A command with this AT= arrives where nobody else can go on, and else never.
LATEST = 100000

# The number of a command, and the entry as which it arrives.
Arrival = Tuple[int, int]
Order = Tuple[Arrival, ...]


@dataclass
class Outcome:
    """What became of all commands, in how many orders on one thread and how many traces of threads, with the first."""

    moments: List[Moment]
    example: Order
    orders: int = 0
    on_threads: int = 0


@dataclass
class Orders:
    """All outcomes, and what was done to have them."""

    commands: List[str]
    said: List[str]
    outcomes: List[Outcome] = field(default_factory=list)
    runs: int = 0
    # The runs on threads; None where none were asked for.
    runs_on_threads: Optional[int] = None

    @property
    def number(self) -> int:
        return sum(outcome.orders for outcome in self.outcomes)

    @property
    def traces(self) -> int:
        """How many different traces the runs on threads have."""
        return sum(outcome.on_threads for outcome in self.outcomes)


@dataclass(frozen=True)
class Tried:
    """A run that begins with the arrivals of an order."""

    order: Order
    # Where one more command could arrive: up to the next arrival, or to the end.
    stop: int
    # What became of each command, where no other has arrived.
    moments: Optional[List[Moment]]


class Walk:
    """Tries orders level by level: those of one command, then those of two."""

    def __init__(self, rtmrun: Rtmrun, text: bytes) -> None:
        self.rtmrun = rtmrun
        self.deck: Deck = read_deck(text)
        self.lines = kept_lines(text)
        self.commands = [without_at(card.operands) for card in self.deck.commands]
        self.targets = [card.positional(0) for card in self.deck.commands]

    def deck_of(self, order: Order) -> bytes:
        """The deck whose commands come so, and the others at the latest."""
        lines, at = list(self.lines), dict(order)
        for number, card in enumerate(self.deck.commands):
            lines[card.number - 1] = (" %s,AT=%d\n" % (self.commands[number], at.get(number, LATEST))).encode()
        return b"".join(lines)

    def try_order(self, order: Order) -> Optional[Tried]:
        """The run of an order, or None where its commands arrive otherwise."""
        text = self.deck_of(order)
        trace = read_trace(self.rtmrun.run(text))
        arrivals = [(entry.number, entry.index) for entry in trace.entries if entry.verb == "ARRIVE"]
        if tuple(arrivals[:len(order)]) != order:
            return None
        if len(arrivals) > len(order):
            return Tried(order, arrivals[len(order)][1], None)
        history = follow(read_deck(text), trace)
        return Tried(order, len(trace.entries), self.moments_of(history, order))

    def moments_of(self, history: History, order: Order) -> List[Moment]:
        """What became of each command in a run with these arrivals."""
        at = dict(order)
        return [read_moment(history, unit, number, at.get(number, -1)) for number, unit in enumerate(self.targets)]

    def run_on_threads(self, order: Order) -> Tuple[bytes, Tried]:
        """A run on threads whose commands may arrive from there on: its trace, and the arrivals that it has."""
        text = self.deck_of(order)
        written = self.rtmrun.run_on_threads(text)
        trace = read_trace(written)
        arrivals = tuple((entry.number, entry.index) for entry in trace.entries if entry.verb == "ARRIVE")
        moments = self.moments_of(follow(read_deck(text), trace), arrivals)
        return written, Tried(arrivals, len(trace.entries), moments)

    def next_commands(self, order: Order) -> List[int]:
        """Those that haven't arrived; of each task the first, since no other is worth a run."""
        arrived = {number for number, _ in order}
        first: Dict[str, int] = {}
        for number, unit in enumerate(self.targets):
            if number not in arrived:
                first.setdefault(unit, number)
        return list(first.values())

    def children(self, level: Sequence[Tried], most: int) -> Tuple[Iterator[Order], int, int]:
        """The orders with one command more, at most so many, evenly spread; how many these are, and how many all."""
        parts = [(one.order, number, one.order[-1][1] + 1 if one.order else 0, one.stop)
                 for one in level for number in self.next_commands(one.order)]
        ends = list(accumulate(stop - first + 1 for _, _, first, stop in parts))
        all_of_them = ends[-1] if ends else 0
        chosen = min(all_of_them, most)

        def child(place: int) -> Order:
            part = bisect_right(ends, place)
            order, number, _, stop = parts[part]
            return order + ((number, stop - (ends[part] - 1 - place)),)
        return (child(place * all_of_them // chosen) for place in range(chosen)), chosen, all_of_them


def try_all(rtmrun: Rtmrun, text: bytes, wanted: Optional[str], jobs: int, progress: Callable[[int], None],
            most: int = MOST_RUNS, on_threads: int = 0) -> Orders:
    """Tries all orders of a deck's commands, or so many; and makes so many runs on threads."""
    base, said = base_deck(text, wanted)
    walk = Walk(rtmrun, base)
    found = Orders(walk.commands, said)
    outcomes: Dict[Tuple[Any, ...], Outcome] = {}
    possible: List[Order] = []
    with ThreadPoolExecutor(max(1, jobs)) as pool:
        orders: Iterator[Order] = iter([()])
        for arrived in range(len(walk.commands) + 1):
            level: List[Tried] = []
            for tried in pool.map(walk.try_order, orders):
                found.runs += 1
                progress(found.runs)
                if tried is not None:
                    level.append(tried)
                    if tried.moments is not None:
                        outcome_of(outcomes, tried.moments, tried.order).orders += 1
                        possible.append(tried.order)
            orders, chosen, all_of_them = walk.children(level, most - found.runs)
            if chosen < all_of_them:
                said.append("%s of the %s places for %s are tried, evenly spread; %s runs are the most" % (
                    format(chosen, ","), format(all_of_them, ","),
                    "one command" if arrived == 0 else "one command more, behind %d" % arrived, format(most, ",")))
        if on_threads:
            found.runs_on_threads = on_threads
            possible = possible or [()]
            # Commands come in each of these orders in turn, or evenly spread where there are more of them.
            orders = (possible[place * len(possible) // on_threads] if len(possible) > on_threads
                      else possible[place % len(possible)] for place in range(on_threads))
            seen: Set[bytes] = set()
            for done, (written, made) in enumerate(pool.map(walk.run_on_threads, orders), 1):
                progress(found.runs + done)
                if written not in seen and made.moments is not None:
                    seen.add(written)
                    outcome_of(outcomes, made.moments, made.order).on_threads += 1
    found.outcomes = sorted(outcomes.values(), key=lambda outcome: (-outcome.orders, -outcome.on_threads))
    return found


def base_deck(text: bytes, wanted: Optional[str]) -> Tuple[bytes, List[str]]:
    """The deck with all its commands, and one more where one is wanted or it has none; and what was done."""
    deck_text, behind = split_input(text)
    if wanted is not None or not read_deck(deck_text).commands:
        swept = prepare(text, wanted)
        return swept.at(0), [one for one in swept.said if not one.endswith("moves")]
    return deck_text, ["what stands behind the END card is left out"] if behind.strip() else []


def outcome_of(outcomes: Dict[Tuple[Any, ...], Outcome], moments: List[Moment], order: Order) -> Outcome:
    """The outcome that has the same become of all commands; a new one has this order for its example."""
    return outcomes.setdefault(tuple(row_key(moment) for moment in moments), Outcome(moments, order))
