"""How the built program is asked many times over, and which text belongs to each status of README's table.

The scripts of tests that try many inputs share this; it is no script itself. What an answer has to be for one input
isn't computed here: only that it is one of the table, with the shape of its text.
"""

from __future__ import annotations

import os
import re
import signal
from typing import Dict, List, NamedTuple, Optional, Sequence

ENDS: Dict[int, bytes] = {0: b"ENDED", 4: b"STALLED", 6: b"LIMIT"}
DECK, LINE, NOT_LEGAL, WRONG_END, WORDS = 8, 9, 10, 11, 20
# A pipe always has room for so much.
MOST_IN_A_PIPE = 4096
# Beyond this a run is taken for one that doesn't return: other work of the machine may keep it waiting.
SECONDS_TO_RETURN = 120

NAME = rb"[A-Z@#$][A-Z0-9@#$]{0,7}"
NUMBER = rb"(?:0|[1-9][0-9]*)"
REASONS = (b"OverLimit|BadByte|BadCard|UnknownOp|WrongPlace|BadOperand|DuplicateName|NoJobStep|NoEnd|UnknownName"
           b"|UnknownLabel|TooLong")

# A trace, by docs/TRACE.md.
CODE = rb"(?:S[0-9A-F]{3}|U[0-4][0-9]{3})"
PLACE = NAME + rb"\." + NUMBER
MARK = CODE + rb"(?: REASON=[0-9A-F]{8})?(?: CLUP)?(?: PERC)?(?: STAF)?"
FATE = rb"(?:QUEUED|MERGED|LATE)"
HOLDING = rb"(?:ENQ|STOR|DSN|TIMR)"
WHAT = b"(?:" + b"|".join([
    b"EXEC " + PLACE + b" RC=[048]",
    b"ERROR " + PLACE + b" " + MARK,
    b"LAND (?:CANCEL|DETACH|MOTHER|STEP|ABTERM|SRB) " + NUMBER + b" " + MARK,
    b"ENTER (?:FRR|ESTAE|ESTAI|MGR) " + NUMBER + b" " + MARK + b"(?: NOSDWA)?",
    b"LEAVE (?:FRR|ESTAE|ESTAI|MGR) " + NUMBER + b" (?:RETRY " + PLACE + b"|PERC|STOP|BAD|FAIL|OVER)(?: LOGREC)?(?: DUMP)?",
    b"ARRIVE " + NUMBER + b" " + FATE,
    b"BEGIN " + CODE + b"(?: DUMP)?",
    b"RELEASE " + HOLDING + b" " + NUMBER + rb" (?:" + NAME + rb"|\*)",
    b"DONE " + CODE + b"(?: TASK=" + FATE + b")?(?: STEP=" + FATE + b")?",
    b"PURGE " + NAME,
    b"MEMEND",
]) + b")"
ENTRY = b"(?:" + NAME + rb"|\*) " + WHAT
END = b"(?:ENDED|STALLED|LIMIT)"

# A canonical deck, by docs/CARDS.md.
CARD_CODE = rb"(?:S[0-9A-F]{3}|U" + NUMBER + b")"
REASON = b"(?:,REASON=(?:0|[1-9A-F][0-9A-F]{0,7}))?"
OPERATION = b"(?:" + b"|".join([
    b"NOP|RETURN",
    b"(?:LINK|XCTL|B|IFCLUP|IFPERC|SCHEDULE|WAITT) " + NAME,
    b"IFCODE " + CARD_CODE + b"," + NAME,
    b"ABEND " + CARD_CODE + REASON + b"(?:,DUMP=YES)?(?:,STEP=YES)?",
    b"ESTAEX (?:CT|OV),PGM=" + NAME + b"(?:,TERM=YES)?(?:,CANCEL=NO)?(?:,XCTL=YES)?",
    b"ESTAEX 0",
    b"SETFRR (?:[AR],PGM=" + NAME + b"|[DP])",
    b"SETRP (?:RC=(?:0|4|16),?)?(?:RETADDR=" + NAME + b",?)?(?:REMREC=(?:YES|NO),?)?(?:COMPCOD=" + CARD_CODE
    + b",?)?(?:REASON=(?:0|[1-9A-F][0-9A-F]{0,7}),?)?(?:DUMP=(?:YES|NO|IGNORE),?)?(?:RECORD=(?:YES|NO|IGNORE),?)?"
    + b"(?:FRESDWA=(?:YES|NO))?(?<![, ])",
    b"RET15 (?:0|4|16)(?:,RETADDR=" + NAME + b")?",
    b"ATTACHX " + NAME + b"(?:,ESTAI=" + NAME + b"(?:,TERM=YES)?)?",
    b"DETACH " + NAME + b"(?:,STAE=YES)?",
    b"CALLRTM ABTERM,TASK=" + NAME + b",COMPCOD=" + CARD_CODE + REASON + b"(?:,DUMP=YES)?(?:,RETRY=NO)?",
    b"CALLRTM MEMTERM,COMPCOD=" + CARD_CODE,
    b"(?:WAIT|POST) " + NUMBER,
    b"(?:GET|FREE) " + HOLDING + b"," + NUMBER,
    b"RESMGR (?:ADD|DELETE),PGM=" + NAME + b",TYPE=(?:TASK|SPACE)",
]) + b")"
CANONICAL = re.compile(
    rb"(?: REGION (?:LIMIT=" + NUMBER + b"(?:,SDWA=NO)?|SDWA=NO)\n)?"
    + b"(?:" + NAME + b" PROG\n(?:(?:" + NAME + b")? " + OPERATION + b"\n)* PEND\n"
    + b"|" + NAME + b" (?:TASK PGM=" + NAME + b"|SRB PGM=" + NAME + b"(?:,TASK=" + NAME + b")?)\n)+"
    + b"(?: OPER\n(?: CANCEL " + NAME + b"(?:,AT=" + NUMBER + b")?(?:,DUMP=YES)?\n)+)? END\n")

NUMBERED_ENTRY = re.compile(b"(" + NUMBER + b") " + ENTRY)
END_LINE = re.compile(b"END (" + END + b")")
DECK_LINE = re.compile(b"DECK ([1-9][0-9]*) (?:" + REASONS + b")\n")
LINE_LINE = re.compile(b"LINE ([1-9][0-9]*)\n")
NOT_LEGAL_LINE = re.compile(b"NOTLEGAL " + NUMBER + b" WANTED (?:NONE|" + ENTRY + b")\n")
WRONG_END_LINE = re.compile(b"WRONGEND (" + END + b") (" + END + b"|NONE)\n")
VERIFIED_LINE = re.compile(b"VERIFIED " + NUMBER + b" " + END + b"\n")
LOAD_LINE = re.compile(b"LOAD ([1-9][0-9]*) ENTRIES [1-9][0-9]* RELEASES [1-9][0-9]* " + END + b"\n")


class Answer(NamedTuple):
    """What came of a call. The status is None where it didn't return; a signal is told as a number below 0."""

    status: Optional[int]
    text: bytes
    said: bytes
    # of the processor, and not of the clock
    seconds: float


class Program:
    """A program that is asked over and over. Its streams are files in memory, which are used again; what is short
    comes by a pipe."""

    def __init__(self, path: str) -> None:
        self.path = os.path.abspath(path)
        self.source, self.sink, self.errors = (os.memfd_create(name) for name in ("source", "sink", "errors"))
        self.calls = 0

    def ask(self, words: Sequence[str], data: bytes) -> Answer:
        """Runs the program with these words on this input."""
        for file in (self.source, self.sink, self.errors):
            os.ftruncate(file, 0)
            os.lseek(file, 0, os.SEEK_SET)
        given = self.source
        if len(data) <= MOST_IN_A_PIPE:
            given, filled = os.pipe()
            os.write(filled, data)
            os.close(filled)
        else:
            write_whole(self.source, data)
            os.lseek(self.source, 0, os.SEEK_SET)
        actions = [(os.POSIX_SPAWN_DUP2, file, number) for number, file in enumerate((given, self.sink, self.errors))]
        child = os.posix_spawn(self.path, [self.path, *words], os.environ, file_actions=actions)
        if given != self.source:
            os.close(given)
        self.calls += 1
        late: List[bool] = []

        def end_it(*_: object) -> None:
            late.append(True)
            os.kill(child, signal.SIGKILL)

        before = signal.signal(signal.SIGALRM, end_it)
        signal.alarm(SECONDS_TO_RETURN)
        _, status, usage = os.wait4(child, 0)
        signal.alarm(0)
        signal.signal(signal.SIGALRM, before)
        code = os.WEXITSTATUS(status) if os.WIFEXITED(status) else -os.WTERMSIG(status)
        return Answer(None if late else code, whole_of(self.sink), whole_of(self.errors),
                      usage.ru_utime + usage.ru_stime)


def write_whole(file: int, data: bytes) -> None:
    at = 0
    while at < len(data):
        at += os.write(file, data[at:])


def whole_of(file: int) -> bytes:
    return os.pread(file, os.fstat(file).st_size, 0)


def entries_of(trace: bytes) -> int:
    """How many entries a trace has: its lines without the first one and the last one."""
    return trace.count(b"\n") - 2


def trace_fault(trace: bytes, end: bytes) -> Optional[str]:
    """What is wrong with the text of a trace that is to have this end."""
    lines = trace.split(b"\n")
    if len(lines) < 3 or lines[0] != b"RTMTRACE 1" or lines[-1] != b"":
        return "it isn't the text of a trace"
    for index, line in enumerate(lines[1:-2]):
        found = NUMBERED_ENTRY.fullmatch(line)
        if found is None or int(found.group(1)) != index:
            return "line %d is no entry %d: %r" % (index + 2, index, line[:80])
    found = END_LINE.fullmatch(lines[-2])
    if found is None or found.group(1) != end:
        return "its last line is %r, and the status that of %r" % (lines[-2][:80], end)
    return None


def position_fault(pattern: "re.Pattern[bytes]", text: bytes, most: int) -> Optional[str]:
    """What is wrong with a line that names a card or a line of the input, at most this one."""
    found = pattern.fullmatch(text)
    if found is None:
        return "its line isn't one of that status: %r" % text[:80]
    return None if int(found.group(1)) <= most else "no such place: %r" % text[:80]


def is_load(words: Sequence[str]) -> bool:
    return len(words) == 2 and words[0] == "load" and re.fullmatch("[1-9]|[1-5][0-9]|60", words[1]) is not None


def shape_fault(words: Sequence[str], data: bytes, answer: Answer) -> Optional[str]:
    """Why the text isn't one that belongs to the status under these words; nothing where it does. Memory and streams
    are taken to be there, so 12, 16 and 17 are wrong."""
    status, text = answer.status, answer.text
    word = words[0] if len(words) == 1 else ""
    if status == WORDS and not is_load(words) and word not in ("scan", "seq", "verify"):
        return "words that are none were answered" if text else None
    if is_load(words):
        return None if status == 0 and LOAD_LINE.fullmatch(text) else "no line of a load: %s, %r" % (status, text[:80])
    # a card or a line that is missing is counted as the next one
    most = data.count(b"\n") + 2
    if word in ("scan", "seq", "run", "verify") and status == DECK:
        return position_fault(DECK_LINE, text, most)
    if word == "scan" and status == 0:
        return None if CANONICAL.fullmatch(text) else "no canonical deck: %r" % text[:80]
    if word in ("seq", "run") and status in ENDS:
        return trace_fault(text, ENDS[status])
    if word == "verify" and status == LINE:
        return position_fault(LINE_LINE, text, most)
    shapes = {0: VERIFIED_LINE, NOT_LEGAL: NOT_LEGAL_LINE, WRONG_END: WRONG_END_LINE}
    if word == "verify" and status in shapes:
        return None if shapes[status].fullmatch(text) else "its line isn't one of %s: %r" % (status, text[:80])
    return "status %s doesn't belong to these words: %r" % (status, text[:80])


def fault_of(words: Sequence[str], data: bytes, answer: Answer, most_seconds: float) -> Optional[str]:
    """What is wrong with an answer, in words."""
    if answer.status is None:
        return "it didn't return in %d seconds" % SECONDS_TO_RETURN
    if answer.status < 0:
        return "signal %d ended it" % -answer.status
    if answer.said:
        return "standard error has %r" % answer.said[:80]
    if answer.seconds > most_seconds:
        return "it took %.2f seconds of the processor" % answer.seconds
    return shape_fault(words, data, answer)


def difference(answer: Answer, wanted: Answer) -> Optional[str]:
    """How an answer differs from that of another program on the same input."""
    if answer.status != wanted.status:
        return "status %s, and the other program's is %s" % (answer.status, wanted.status)
    if answer.text == wanted.text:
        return None
    pairs = zip(answer.text.split(b"\n"), wanted.text.split(b"\n"))
    number = next((number for number, (one, other) in enumerate(pairs, 1) if one != other), 0)
    return "line %d isn't the other program's" % number if number else "another length than the other program's"
