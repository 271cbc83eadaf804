#!/usr/bin/env python3
"""Measures inputs at the limits of size: the processor's time, the most memory, the instructions, and how each grows.

sizes.py PROGRAM [RUNS] [--no-instructions] [--only TEXT]

PROGRAM is the built rtmrun. Each row is an input at a limit and the same with half of what is limited. The processor's
time is the least of RUNS runs (5); the most memory is what /usr/bin/time says, and is left out where that isn't there.
Instructions are counted by valgrind's callgrind, where it is there, of runs that take less than a tenth of a second. The
last column says how many times as much the whole takes as the half, by instructions where both are counted, else by
time: at most 2.2 is wanted, what is more stands in asterisks, and the status is 1. With --only the rows are measured
whose name has that text. A table for bench/README.md is printed.
"""
import argparse
import os
import re
import shutil
import subprocess
import sys
import tempfile

from inputs import MOST_BYTES, comments, loads, loop, one_long_comment, too_long

MOST_TIMES = 2.2
SECONDS_TO_COUNT = 0.1
MOST_CARDS, CARD, MOST_ENTRIES = 10_000, 80, 100_000
TIMER = "/usr/bin/time"


def text_of(cards):
    return ("\n".join(cards) + "\n").encode()


def longest_deck(share):
    """NOP cards with remarks, each of 80 bytes and its line feed: 10,000 of them, 810,000 bytes."""
    cards = ["MAIN PROG"] + [" NOP"] * (MOST_CARDS // share - 4) + [" PEND", "JOB TASK PGM=MAIN", " END"]
    return text_of([card.ljust(CARD - 1) + "R" if card == " NOP" else card.ljust(CARD) for card in cards])


def units_in_turns(share):
    """61 units, each recovers forty times."""
    return loads(60 // share)


def all_limits(share, entries=None, commands=None):
    """10,000 cards, 256 programs, 64 units, 64 commands, 100,000 entries, and in them 64 ESTAE routines and 256 holdings
    of each task, and 64 resource managers. All tasks run in turns until the limit of entries."""
    programs, units = 256 // share, 64 // share
    entries, commands = entries or MOST_ENTRIES // share, commands or 64 // share
    cards = [" REGION LIMIT=%d" % entries, "MAIN PROG"]
    cards += [" RESMGR ADD,PGM=P1,TYPE=SPACE"] * (64 // share)
    cards += [" ATTACHX T%d,ESTAI=P1" % number for number in range(1, units)] + ["TOP NOP", " B TOP", " PEND"]
    cards += ["WORK PROG"] + [" ESTAEX CT,PGM=P1"] * (64 // share)
    cards += [" GET ENQ,%d" % number for number in range(256 // share)] + ["TOP NOP", " B TOP", " PEND"]
    for number in range(1, programs - 1):
        cards += ["P%d PROG" % number, " PEND"]
    behind = ["JOB TASK PGM=MAIN"] + ["T%d TASK PGM=WORK" % number for number in range(1, units)] + [" OPER"]
    behind += [" CANCEL T%d,AT=%d" % (number % (units - 1) + 1, MOST_ENTRIES) for number in range(commands)] + [" END"]
    room = MOST_CARDS // share - len(cards) - len(behind)
    cards[cards.index("P1 PROG") + 1 : cards.index("P1 PROG") + 1] = [" NOP"] * room
    return text_of(cards + behind)


def all_limits_by_entries(share):
    """The same, of which the entries alone are halved."""
    return all_limits(1, entries=MOST_ENTRIES // share)


def all_limits_by_commands(share):
    """The same, of which the commands alone are halved."""
    return all_limits(1, commands=64 // share)


def most_bytes(share):
    """Comments alone, of the most bytes that are read, refused at the 10,001st card."""
    return comments()[: MOST_BYTES // share]


def long_card(share):
    """The same bytes in one card."""
    return one_long_comment()[: MOST_BYTES // share]


def a_byte_more(_share):
    """One byte more than is read. Half of it would be refused for something else."""
    return too_long()


def most_bytes_behind(share):
    """A deck and its trace, and comments behind them up to the most bytes that are read: a bad line."""
    deck = text_of(["MAIN PROG", " PEND", "JOB TASK PGM=MAIN", " END"])
    trace = text_of(["RTMTRACE 1", "0 JOB BEGIN S000", "1 JOB DONE S000", "2 * MEMEND", "END ENDED"])
    return (deck + trace + comments())[: MOST_BYTES // share]


def longest_trace(share):
    """A loop of one task to 100,000 entries."""
    return loop().replace(b"LIMIT=100000", b"LIMIT=%d" % (MOST_ENTRIES // share))


def deep_brackets(share):
    """Errors in 15 brackets that stand in one another, over and over to 20,000 entries."""
    depth = 15 // share
    cards = [" REGION LIMIT=20000", "MAIN PROG", " ESTAEX CT,PGM=KEEP", "TOP ESTAEX CT,PGM=R1", " ABEND S0C1", " PEND"]
    for number in range(1, depth):
        cards += ["R%d PROG" % number, " ESTAEX CT,PGM=R%d" % (number + 1), " ABEND U%d" % number, " PEND"]
    cards += ["R%d PROG" % depth, " PEND", "KEEP PROG", " SETRP RC=4,RETADDR=TOP", " PEND", "JOB TASK PGM=MAIN", " END"]
    return text_of(cards)


def deep_calls(share):
    """Programs that call one another 31 deep, over and over to 20,000 entries."""
    depth = 31 // share
    cards = [" REGION LIMIT=20000", "MAIN PROG", "TOP LINK P1", " B TOP", " PEND"]
    for number in range(1, depth):
        cards += ["P%d PROG" % number, " LINK P%d" % (number + 1), " PEND"]
    return text_of(cards + ["P%d PROG" % depth, " PEND", "JOB TASK PGM=MAIN", " END"])


def many_commands(share):
    """64 cancels of one task, that arrive while a routine with CANCEL=NO loops to 100,000 entries."""
    cards = [" REGION LIMIT=100000", "MAIN PROG", " ESTAEX CT,PGM=KEEP,CANCEL=NO", " ABEND S0C1", " PEND"]
    cards += ["KEEP PROG", "TOP NOP", " B TOP", " PEND", "JOB TASK PGM=MAIN", " OPER"]
    number = 64 // share
    return text_of(cards + [" CANCEL JOB,AT=%d" % (10 + at * (99_000 // number)) for at in range(number)] + [" END"])


# Inputs of `verify` that are whole: behind a deck of another row its trace is put.
WHOLE = (most_bytes_behind,)
# Inputs that have no half.
ALONE = (a_byte_more,)
# What is limited, and the words that an input of it is given with.
ROWS = [
    ("10,000 cards of 80 bytes", longest_deck, ("scan", "seq", "verify")),
    ("61 units in turns", units_in_turns, ("seq", "verify")),
    ("every limit at once", all_limits, ("scan", "seq", "verify")),
    ("the same, twice the entries", all_limits_by_entries, ("seq",)),
    ("the same, twice the commands", all_limits_by_commands, ("seq",)),
    ("16,777,216 bytes of comments", most_bytes, ("scan",)),
    ("the same behind a deck and its trace", most_bytes_behind, ("verify",)),
    ("the same bytes in one card", long_card, ("scan",)),
    ("16,777,217 bytes", a_byte_more, ("scan",)),
    ("100,000 entries", longest_trace, ("seq", "verify")),
    ("15 brackets in one another", deep_brackets, ("seq",)),
    ("31 calls in one another", deep_calls, ("seq",)),
    ("64 commands to one unit", many_commands, ("seq", "verify")),
]


def run(program, word, path):
    """The processor's seconds of a run, its status, and what it wrote."""
    with open(path, "rb") as source, tempfile.TemporaryFile() as sink:
        child = subprocess.Popen([program, word], stdin=source, stdout=sink)
        _, status, usage = os.wait4(child.pid, 0)
        child.returncode = status
        sink.seek(0)
        return usage.ru_utime + usage.ru_stime, os.WEXITSTATUS(status) if os.WIFEXITED(status) else -1, sink.read()


def memory_of(program, word, path):
    """The most kilobytes that a run had, or None where nothing says it. This script's own memory isn't counted so."""
    if not os.access(TIMER, os.X_OK):
        return None
    with open(path, "rb") as source:
        done = subprocess.run([TIMER, "-q", "-f", "%M", program, word], stdin=source, stdout=subprocess.DEVNULL,
                              stderr=subprocess.PIPE, check=False)
    found = re.findall(rb"^(\d+)$", done.stderr, re.M)
    return int(found[-1]) if found else None


def count_of(program, word, path):
    """The instructions of a run, or None where nothing counts them."""
    if shutil.which("valgrind") is None:
        return None
    with open(path, "rb") as source, tempfile.NamedTemporaryFile() as kept:
        command = ["valgrind", "--tool=callgrind", "--callgrind-out-file=" + kept.name, program, word]
        done = subprocess.run(command, stdin=source, stdout=subprocess.DEVNULL, stderr=subprocess.PIPE, check=False)
    found = re.findall(rb"Collected : (\d+)", done.stderr)
    return int(found[-1]) if found else None


def measured(program, word, make, share, runs, counts):
    """The input's size, the least seconds, the most memory, the instructions, the status and the first line."""
    data = make(share)
    with tempfile.NamedTemporaryFile() as file:
        if word == "verify" and make not in WHOLE:
            file.write(data)
            file.flush()
            data += run(program, "seq", file.name)[2]
            file.seek(0)
            file.truncate()
        file.write(data)
        file.flush()
        seconds, status, written = min((run(program, word, file.name) for _ in range(runs)), key=lambda made: made[0])
        count = count_of(program, word, file.name) if counts and seconds < SECONDS_TO_COUNT else None
        return len(data), seconds, memory_of(program, word, file.name), count, status, written


def cell(value, form, unit):
    return "" if value is None else form % value + unit


def main():
    parser = argparse.ArgumentParser(description=__doc__, formatter_class=argparse.RawDescriptionHelpFormatter)
    parser.add_argument("program", metavar="PROGRAM")
    parser.add_argument("runs", metavar="RUNS", type=int, nargs="?", default=5)
    parser.add_argument("--no-instructions", action="store_true")
    parser.add_argument("--only", metavar="TEXT", default="")
    arguments = parser.parse_args()
    program, runs, counts = os.path.abspath(arguments.program), arguments.runs, not arguments.no_instructions
    failed = 0
    print("| Limit | Word | Status | Bytes | Time | Memory | Instructions | The half's | Times |")
    print("|---|---|---|---|---|---|---|---|---|")
    for name, make, with_words in ROWS:
        if arguments.only not in name:
            continue
        for word in with_words:
            size, seconds, memory, count, status, _ = measured(program, word, make, 1, runs, counts)
            half = times = ""
            if make not in ALONE:
                _, half_seconds, _, half_count, _, _ = measured(program, word, make, 2, runs, count is not None)
                by_count = count is not None and half_count is not None
                ratio = count / half_count if by_count else seconds / half_seconds
                failed += ratio > MOST_TIMES
                half = "%.1f M" % (half_count / 1e6) if by_count else "%.1f ms" % (half_seconds * 1000)
                times = "**%.1f**" % ratio if ratio > MOST_TIMES else "%.1f" % ratio
            print("| %s | `%s` | %d | %s | %.1f ms | %s | %s | %s | %s |" % (
                name, word, status, format(size, ","), seconds * 1000, cell(memory and memory / 1000, "%.1f", " MB"),
                cell(count and count / 1e6, "%.1f", " M"), half, times), flush=True)
    sys.exit(1 if failed else 0)


main()
