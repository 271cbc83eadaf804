#!/usr/bin/env python3
"""Counts the instructions of two programs on the same inputs, by valgrind's callgrind, the whole process each.

instructions.py PROGRAM OTHER [WORDS ..]

PROGRAM is the built rtmrun, OTHER the program that it is held against. WORDS are those of bench/inputs.py (all, where none
is given). The counts are the same in each run of one binary on one input, whatever else the machine does. Both programs
have to write the same bytes with the same status.
"""
import re
import subprocess
import sys
import tempfile

from inputs import INPUTS


def answer_of(program, words, data):
    """What a run answers: its status and its bytes."""
    run = subprocess.run([program] + words, input=data, stdout=subprocess.PIPE, check=False)
    return run.returncode, run.stdout


def count_of(program, words, data):
    """The instructions of a run."""
    with tempfile.TemporaryFile() as source, tempfile.NamedTemporaryFile() as kept:
        source.write(data)
        source.seek(0)
        command = ["valgrind", "--tool=callgrind", "--trace-children=yes", "--callgrind-out-file=" + kept.name, program] + words
        run = subprocess.run(command, stdin=source, stdout=subprocess.DEVNULL, stderr=subprocess.PIPE, check=False)
        found = re.findall(rb"Collected : (\d+)", run.stderr)
        if not found:
            sys.exit("valgrind counted nothing: %s" % run.stderr.decode(errors="replace")[-200:])
        return int(found[-1])


def main():
    if len(sys.argv) < 3:
        sys.exit(__doc__)
    program, other = sys.argv[1], sys.argv[2]
    for words in sys.argv[3:] or INPUTS:
        for make in INPUTS[words]:
            data = make()
            if words == "verify":
                data += answer_of(other, ["seq"], data)[1]
            if answer_of(program, words.split(), data) != answer_of(other, words.split(), data):
                sys.exit("%s: the two programs differ" % make.__name__)
            ours, theirs = count_of(program, words.split(), data), count_of(other, words.split(), data)
            print("%-8s %-16s %7.1f M, %7.1f M, %.2f times" % (words, make.__name__, ours / 1e6, theirs / 1e6, ours / theirs))


main()
