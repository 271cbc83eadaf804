"""The command line of `rtm`."""

from __future__ import annotations

import argparse
import os
import sys
import traceback
from typing import Any, Callable, List, NoReturn, Optional

from . import VERSION
from .deck import number_in
from .diff import diff
from .doctor import doctor
from .failures import (CANNOT_READ, CANNOT_WRITE, Failure, INTERRUPTED, NO_MEMORY, OWN_FAULT, WRONG_WORDS, tell)
from .files import give_up_output, reason, write
from .lint import lint
from .moments import read_moments
from .play import play
from .sweep import sweep
from .trace import NotUnderstood
from .view import view
from .why import why
from .whynot import whynot

STATUSES = """exit statuses:
  0   done; with view, why and diff: the trace is legal
  1   with sweep --require: the routine isn't entered at some moment; with diff: the traces part;
      with whynot: no change makes a retry
  3   rtmrun isn't built, can't be run, or gave no answer of rtmrun
  8   the deck is refused
  9   the trace has a bad line; what stands before it is drawn or told
  10  the trace isn't legal; what stands before the first wrong entry is drawn or told
  11  the trace is legal and ends otherwise; it is drawn or told
  12  there was no memory for the run, or for what is made of it
  16  a file can't be read
  17  a file can't be written, or play's port can't be had
  20  the words are wrong
  70  a fault of rtm itself; with RTM_TRACEBACK=1 it says where
  130 ended by Ctrl-C
Where the status isn't 0, 1 or 130 one line on standard error says why; lint names the faults on standard output.
"""
RAW = argparse.RawDescriptionHelpFormatter
VIEW_EXAMPLES = """\
  tools/rtm view examples/retry.deck -o retry.html
  tools/rtm view examples/retry.deck examples/retry.trace --svg > retry.svg
  ./rtmrun seq < my.deck | tools/rtm view my.deck - --from 100 --to 180 > part.html
  cat my.deck my.trace | tools/rtm view - > picture.html"""
SWEEP_EXAMPLES = """\
  tools/rtm sweep examples/cancel.deck
  tools/rtm sweep my.deck --command "CANCEL WORKER,DUMP=YES" --require CLEANUP
  tools/rtm sweep my.deck --html -o sweep.html
  tools/rtm sweep my.deck --orders --jobs 4
  tools/rtm sweep my.deck --orders 200
  tools/rtm sweep my*.deck --plan --each 50 | parallel | tools/rtm sweep - --gather"""
WHY_EXAMPLES = """\
  tools/rtm why examples/term.deck 6
  tools/rtm why my.deck 120 my.trace"""
WHYNOT_EXAMPLES = """\
  tools/rtm whynot examples/retry.deck
  tools/rtm whynot my.deck --entry 12 --jobs 4"""
DIFF_EXAMPLES = """\
  tools/rtm diff my.deck before.trace after.trace
  ./rtmrun seq my.deck | tools/rtm diff my.deck theirs.trace -"""
PLAY_EXAMPLES = """\
  tools/rtm play
  tools/rtm play my.deck --open"""
LINT_EXAMPLES = """\
  tools/rtm lint my.deck
  tools/rtm lint - < my.deck"""


class Parser(argparse.ArgumentParser):
    """argparse ends with 2; here wrong words end as those of rtmrun do."""

    def error(self, message: str) -> NoReturn:
        raise Failure("%s; %s --help says which words there are" % (message, self.prog), WRONG_WORDS)

    def _print_message(self, message: str, file: Any = None) -> None:
        """Help and version go to standard output, which may be closed or full."""
        write(None, message)


def entry_number(text: str) -> int:
    number = number_in(text)
    if number is None:
        raise argparse.ArgumentTypeError("'%s' isn't a number" % text)
    return number


def positive(text: str) -> int:
    if entry_number(text) < 1:
        raise argparse.ArgumentTypeError("'%s' isn't 1 or more" % text)
    return int(text)


def make_parser() -> Parser:
    """All words with their options."""
    parser = Parser(prog="rtm", formatter_class=RAW, epilog=STATUSES,
                    description="Pictures of what rtmrun prints, and reasons. It computes no rule, and proves nothing.")
    parser.add_argument("--version", action="version", version="rtm " + VERSION)
    words = parser.add_subparsers(dest="word", metavar="word", parser_class=Parser)
    words.required = True
    for add in (add_view, add_sweep, add_why, add_whynot, add_diff, add_lint, add_play, add_doctor):
        word = add(words)
        word.add_argument("--rtmrun", metavar="PATH", help="the built program (or the environment variable RTMRUN)")
    return parser


def add_word(words: Any, name: str, run: Callable[[argparse.Namespace], int], examples: str, says: str,
             description: str) -> argparse.ArgumentParser:
    """A word, with its examples and the statuses in its help."""
    parser: argparse.ArgumentParser = words.add_parser(
        name, formatter_class=RAW, epilog="examples:\n%s\n\n%s" % (examples, STATUSES), help=says,
        description=description)
    parser.set_defaults(run=run)
    return parser


def add_output(parser: argparse.ArgumentParser) -> None:
    parser.add_argument("-o", dest="output", metavar="FILE", help="write here, not to standard output")


def add_json(parser: argparse.ArgumentParser) -> None:
    parser.add_argument("--json", action="store_true", help="as JSON")


def add_deck_and_trace(parser: argparse.ArgumentParser, between: str = "") -> None:
    """A deck and perhaps its trace, with the number of an entry between where that is asked for."""
    parser.add_argument("deck", help="the deck, or - for standard input; a trace may follow its END card")
    if between:
        parser.add_argument(between, type=entry_number, help="the number of the entry")
    parser.add_argument("trace", nargs="?", help="the trace, or -; where none is given, rtmrun makes it")


def add_view(words: Any) -> argparse.ArgumentParser:
    """The word `view`."""
    parser = add_word(words, "view", view, VIEW_EXAMPLES, "draw a deck and its trace",
                      "Draws a deck and its trace as one HTML file.")
    add_deck_and_trace(parser)
    parser.add_argument("--svg", action="store_true", help="the picture alone, as SVG")
    parser.add_argument("--unit", action="append", metavar="NAME", help="this unit's lines alone; may be repeated")
    parser.add_argument("--from", dest="first", type=entry_number, metavar="N", help="from this entry on")
    parser.add_argument("--to", dest="last", type=entry_number, metavar="N", help="up to this entry")
    folding = parser.add_mutually_exclusive_group()
    folding.add_argument("--fold", action="store_true", help="fold what repeats, also in a short trace")
    folding.add_argument("--all", action="store_true", help="draw each line, also of a long trace")
    add_output(parser)
    return parser


def add_sweep(words: Any) -> argparse.ArgumentParser:
    """The word `sweep`."""
    parser = add_word(words, "sweep", sweep, SWEEP_EXAMPLES, "move a cancel over all moments of a run",
                      "Runs a deck once for each moment at which a cancel can come, and says what became of it.")
    # At least one, which may stand behind --orders.
    parser.add_argument("decks", nargs="*", metavar="deck",
                        help="the decks, or - for standard input; with --gather the lines that jobs printed")
    parser.add_argument("--command", metavar="CARD", help='the command that moves, as "CANCEL JOB" (the deck\'s first '
                        "command, else a cancel of the job step task)")
    parser.add_argument("--require", metavar="ROUTINE",
                        help="end with 1 where the command lands and this isn't entered")
    parser.add_argument("--from", dest="first", type=entry_number, default=0, metavar="N", help="from this moment on")
    parser.add_argument("--to", dest="last", type=entry_number, metavar="N", help="up to this moment")
    parser.add_argument("--all", action="store_true", help="all moments, also where there are more than 2,000")
    parser.add_argument("--jobs", type=entry_number, default=1, metavar="N", help="so many runs at a time")
    parser.add_argument("--orders", nargs="?", const="", metavar="N", help="move all commands of the deck, in all the "
                        "orders in which they may arrive (10,000 runs at most); and make N runs on threads")
    kinds = parser.add_mutually_exclusive_group()
    kinds.add_argument("--html", action="store_true", help="a page with one row a moment")
    kinds.add_argument("--json", action="store_true", help="the moments as JSON")
    kinds.add_argument("--plan", action="store_true", help="write one job a line, for GNU parallel or a batch queue")
    kinds.add_argument("--gather", action="store_true", help="make the table of what the jobs of a plan printed")
    kinds.add_argument("--at", type=moments, metavar="LIST", help="run these moments, as a job of a plan does: "
                       "3 or 0-49,60")
    parser.add_argument("--each", type=positive, default=1, metavar="N", help="with --plan: so many moments a job")
    add_output(parser)
    return parser


def add_why(words: Any) -> argparse.ArgumentParser:
    """The word `why`."""
    parser = add_word(words, "why", why, WHY_EXAMPLES, "say what an entry shows of its reason",
                      "Says what happened at an entry, by which rule, and what lines and cards show of the reason.")
    add_deck_and_trace(parser, "entry")
    add_json(parser)
    add_output(parser)
    return parser


def add_whynot(words: Any) -> argparse.ArgumentParser:
    """The word `whynot`."""
    parser = add_word(words, "whynot", whynot, WHYNOT_EXAMPLES, "find a change that makes a retry",
                      "Finds which change of one operand has an error retried, by running each changed deck.")
    parser.add_argument("deck", help="the deck, or - for standard input")
    parser.add_argument("--entry", type=entry_number, metavar="N", help="the error of this entry (the last one that "
                        "ended its unit)")
    parser.add_argument("--jobs", type=entry_number, default=1, metavar="N", help="so many runs at a time")
    add_json(parser)
    add_output(parser)
    return parser


def add_diff(words: Any) -> argparse.ArgumentParser:
    """The word `diff`."""
    parser = add_word(words, "diff", diff, DIFF_EXAMPLES, "say where two traces of a deck part",
                      "Says where two traces of a deck part, and what each unit did otherwise.")
    parser.add_argument("deck", help="the deck, or - for standard input")
    parser.add_argument("one", metavar="trace1", help="a trace, or -")
    parser.add_argument("other", metavar="trace2", help="another trace, or -")
    add_json(parser)
    add_output(parser)
    return parser


def add_lint(words: Any) -> argparse.ArgumentParser:
    """The word `lint`."""
    parser = add_word(words, "lint", lint, LINT_EXAMPLES, "name all faults of a deck, and surprises",
                      "Names the faults of a deck one after another, and what is allowed and surprising.")
    parser.add_argument("deck", help="the deck, or - for standard input")
    add_json(parser)
    add_output(parser)
    return parser


def port_number(text: str) -> int:
    if entry_number(text) > 65535:
        raise argparse.ArgumentTypeError("'%s' is no port: 65535 is the last" % text)
    return int(text)


def moments(text: str) -> List[int]:
    try:
        return read_moments(text)
    except ValueError:
        raise argparse.ArgumentTypeError("'%s' is no list of moments up to 100,000, as 3 or 0-49,60" % text) from None


def add_play(words: Any) -> argparse.ArgumentParser:
    """The word `play`."""
    parser = add_word(words, "play", play, PLAY_EXAMPLES, "write a deck in the browser and see it run",
                      "Serves one page on 127.0.0.1, for a person who writes a deck: faults are marked while it is "
                      "typed, and the picture is drawn anew. Ctrl-C ends it.")
    parser.add_argument("deck", nargs="?", help="the deck to begin with (the first example)")
    parser.add_argument("--port", type=port_number, default=0, metavar="N", help="this port (any that is free)")
    parser.add_argument("--open", action="store_true", help="open the page in the browser")
    return parser


def add_doctor(words: Any) -> argparse.ArgumentParser:
    """The word `doctor`."""
    parser = add_word(words, "doctor", doctor, "  tools/rtm doctor", "say which program is asked, and what is missing",
                      "Prints the program, the versions, and what is missing.")
    add_json(parser)
    add_output(parser)
    return parser


def main(words: Optional[List[str]] = None) -> int:
    """Runs a word and gives its status."""
    try:
        arguments = make_parser().parse_args(words)
        return int(arguments.run(arguments))
    except Failure as failure:
        tell(str(failure))
        return failure.status
    except NotUnderstood as line:
        tell("rtmrun wrote this line, and rtm doesn't know it: %s" % line)
        return CANNOT_READ
    except OSError as trouble:
        # Files are read and written where Failure is raised, so this is standard output.
        give_up_output()
        tell("standard output can't be written: %s" % reason(trouble))
        return CANNOT_WRITE
    except MemoryError:
        tell("there is no memory for this")
        return NO_MEMORY
    except KeyboardInterrupt:
        return INTERRUPTED
    except Exception as trouble:  # nobody is shown a traceback who didn't ask for it
        if os.environ.get("RTM_TRACEBACK"):
            traceback.print_exc()
        tell("this is a fault of rtm: %s: %s" % (type(trouble).__name__, trouble))
        return OWN_FAULT
