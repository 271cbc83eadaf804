#!/usr/bin/env python3
"""Times two programs side by side on the same inputs, in turns, in one run.

times.py WORDS PROGRAM OTHER [RUNS]

WORDS is what is timed: scan, seq, verify or "load 60". PROGRAM is the built rtmrun, OTHER the program that it is held
against. For each input the least time of RUNS runs (9) of each is printed, how many times as long PROGRAM took, and the most
memory that PROGRAM had, or this script, if it had more. Both have to write the same bytes with the same status.
"""
import os
import subprocess
import sys
import tempfile
import time

from inputs import INPUTS


def run(program, words, data):
    """The seconds that a run took, what it answered, and the most memory in kilobytes that it had."""
    with tempfile.TemporaryFile() as source, tempfile.TemporaryFile() as sink:
        source.write(data)
        source.seek(0)
        began = time.perf_counter()
        child = subprocess.Popen([program] + words, stdin=source, stdout=sink)
        _, status, usage = os.wait4(child.pid, 0)
        seconds = time.perf_counter() - began
        child.returncode = os.waitstatus_to_exitcode(status)
        sink.seek(0)
        return seconds, (child.returncode, sink.read()), usage.ru_maxrss


def main():
    if len(sys.argv) < 4 or sys.argv[1] not in INPUTS:
        sys.exit(__doc__)
    words, program, other = sys.argv[1].split(), sys.argv[2], sys.argv[3]
    runs = int(sys.argv[4]) if len(sys.argv) > 4 else 9
    for make in INPUTS[sys.argv[1]]:
        data = make()
        if words == ["verify"]:
            data += run(other, ["seq"], data)[1][1]
        ours, theirs, memory = [], [], 0
        for _ in range(runs):
            seconds, answer, used = run(program, words, data)
            ours.append(seconds)
            memory = max(memory, used)
            seconds, wanted, _ = run(other, words, data)
            theirs.append(seconds)
            if answer != wanted:
                sys.exit("%s: the two programs differ: %r, %r" % (make.__name__, answer[1][:60], wanted[1][:60]))
        print("%-16s %8d bytes: %7.1f ms, %7.1f ms, %.2f times, %d KB" % (
            make.__name__, len(data), min(ours) * 1000, min(theirs) * 1000, min(ours) / min(theirs), memory))


main()
