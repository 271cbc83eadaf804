#!/usr/bin/env python3
"""Times runs on threads: the word `run` beside `seq` of the same deck, and beside another program's `run`, in turns.

threads.py PROGRAM OTHER [RUNS] [CORES ..]

PROGRAM is the built rtmrun, OTHER the program that it is held against. For each deck, and on each of so many cores (1,
2 and 4), the median of RUNS runs (11) of each is printed: the time that went by, and the processor time of all threads
together. This script is on the same cores. Each trace has to end as its status tells, and its own program has to verify
it.
"""
import os
import statistics
import subprocess
import sys
import tempfile
import time

from inputs import loop, many_tasks

EVENTS = 256
ENDS = {0: b"ENDED", 4: b"STALLED", 6: b"LIMIT"}


def tasks_side_by_side():
    """61 units: 29,345 entries."""
    return many_tasks()


def two_in_turns():
    """Two units that wait for each other in turns, by POST and WAIT over all events: 519 entries."""
    main, other = [" ATTACHX B"], []
    for event in range(0, EVENTS, 2):
        main += [" POST %d" % event, " WAIT %d" % (event + 1)]
        other += [" WAIT %d" % event, " POST %d" % (event + 1)]
    cards = ["MAIN PROG", *main, " WAITT B", " PEND", "OTHER PROG", *other, " PEND"]
    cards += ["A TASK PGM=MAIN", "B TASK PGM=OTHER"]
    return ("\n".join(cards + [" END"]) + "\n").encode()


def one_beside_waiters():
    """One unit that loops to 100,000 entries while 59 others wait for ever."""
    return loop(59)


DECKS = (tasks_side_by_side, two_in_turns, one_beside_waiters)


def timed(program, word, data):
    """The seconds and the processor's seconds that a run took, and what it answered."""
    with tempfile.TemporaryFile() as source, tempfile.TemporaryFile() as sink:
        source.write(data)
        source.seek(0)
        began = time.perf_counter()
        child = subprocess.Popen([program, word], stdin=source, stdout=sink)
        _, status, usage = os.wait4(child.pid, 0)
        seconds = time.perf_counter() - began
        child.returncode = os.waitstatus_to_exitcode(status)
        sink.seek(0)
        return (seconds, usage.ru_utime + usage.ru_stime), (child.returncode, sink.read())


def check(name, program, data, answer):
    """Whether the trace is one that the program itself verifies, with the end that its status tells."""
    status, trace = answer
    if status not in ENDS:
        sys.exit("%s: %s ended with %d" % (name, program, status))
    wanted = b"VERIFIED %d %s\n" % (trace.count(b"\n") - 2, ENDS[status])
    if timed(program, "verify", data + trace)[1] != (0, wanted):
        sys.exit("%s: %s doesn't verify its own trace" % (name, program))


def medians(name, calls, data, runs):
    """The median times of each call, which are made in turns."""
    times = [[] for _ in calls]
    for _ in range(runs):
        for (program, word), taken in zip(calls, times):
            used, answer = timed(program, word, data)
            check(name, program, data, answer)
            taken.append(used)
    return [tuple(statistics.median(column) for column in zip(*taken)) for taken in times]


def main():
    if len(sys.argv) < 3:
        sys.exit(__doc__)
    program, other = sys.argv[1], sys.argv[2]
    runs = int(sys.argv[3]) if len(sys.argv) > 3 else 11
    calls = ((program, "seq"), (program, "run"), (other, "run"))
    there = sorted(os.sched_getaffinity(0))
    print("load before: %.2f, %d cores are there" % (os.getloadavg()[0], len(there)))
    heads = ("", "cores", "seq", "run", "the other's run")
    print("%-20s %5s  %-22s  %-22s  %-22s  in ms, and of the processor" % heads)
    for cores in [int(word) for word in sys.argv[4:]] or [1, 2, 4]:
        if cores > len(there):
            sys.exit("%d cores aren't there" % cores)
        os.sched_setaffinity(0, there[:cores])
        for make in DECKS:
            found = medians(make.__name__, calls, make(), runs)
            cells = ["%-22s" % ("%.1f, %.1f" % (seconds * 1000, busy * 1000)) for seconds, busy in found]
            print("%-20s %5d  %s" % (make.__name__, cores, "  ".join(cells)), flush=True)
    print("load behind: %.2f" % os.getloadavg()[0])


main()
