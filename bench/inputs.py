"""The inputs that are timed, by word: what each is, and the words that it is given with."""

MOST_BYTES = 16_777_216


def many_cards():
    """A deck of 10,000 cards and 256 programs, which calls for every table: names, labels and operands in any order."""
    cards = []
    left = 10_000 - 2
    for p in range(256):
        lines = left // (256 - p) - 2
        left -= lines + 2
        cards.append("P%d PROG" % p)
        for i in range(lines):
            kind = i % 6
            label = "L%d" % i if i % 3 == 0 else ""
            if kind == 0:
                cards.append("%s ESTAEX CT,XCTL=YES,PGM=P%d,TERM=NO" % (label, (p * 7 + i) % 256))
            elif kind == 1:
                cards.append("%s ABEND S0C4,DUMP=YES,REASON=%X REMARK" % (label, i))
            elif kind == 2:
                cards.append("%s B L0" % label)
            elif kind == 3:
                cards.append("%s SETRP RC=4,RETADDR=L0,RECORD=YES" % label)
            elif kind == 4:
                cards.append("%s LINK P%d" % (label, (p * 31 + i) % 256))
            else:
                cards.append("%s GET ENQ,%d" % (label, i))
        cards.append(" PEND")
    cards.append("JOB TASK PGM=P0")
    cards.append(" END")
    return ("\n".join(cards) + "\n").encode()


def comments():
    """16 MiB of comments: far too many cards."""
    card = b"*" * 79 + b"\n"
    return (card * (MOST_BYTES // len(card) + 1))[:MOST_BYTES]


def one_long_comment():
    """16 MiB in one card, which is too long."""
    return b"*" * MOST_BYTES


def too_long():
    """One byte more than an input may have."""
    return b"*" * (MOST_BYTES + 1)


def loads(tasks):
    """Tasks that make and lose recovery routines over and over, and a job step task that waits for each of them."""
    cards = [" REGION LIMIT=100000", "MAIN PROG", " GET ENQ,0"]
    cards += [" ATTACHX T%d,ESTAI=WATCH" % i for i in range(1, tasks + 1)]
    cards += [" WAITT T%d" % i for i in range(1, tasks + 1)]
    cards += [" PEND", "WORK PROG", " GET STOR,1"]
    for k in range(1, 41):
        cards += [" ESTAEX CT,PGM=KEEP%d" % k, " LINK SUB", "BACK%d NOP" % k]
    cards += [" ABEND U2", " PEND", "SUB PROG", " GET DSN,2", " SETFRR A,PGM=PASS", " ABEND S0C4", " PEND"]
    for k in range(1, 41):
        cards += ["KEEP%d PROG" % k, " SETRP RC=4,RETADDR=BACK%d,REMREC=YES" % k, " PEND"]
    cards += ["PASS PROG", " PEND", "WATCH PROG", " PEND", "JOB TASK PGM=MAIN"]
    cards += ["T%d TASK PGM=WORK" % i for i in range(1, tasks + 1)]
    return ("\n".join(cards + [" END"]) + "\n").encode()


def many_tasks():
    """61 units in turns: 29,345 entries."""
    return loads(60)


def loop(others=0):
    """One task that branches back to a NOP until it comes to 100,000 entries, while so many others wait."""
    cards = [" REGION LIMIT=100000", "MAIN PROG"]
    cards += [" ATTACHX T%d" % i for i in range(1, others + 1)]
    cards += ["TOP NOP", " B TOP", " PEND", "WAITER PROG", " WAIT 9", " PEND", "JOB TASK PGM=MAIN"]
    cards += ["T%d TASK PGM=WAITER" % i for i in range(1, others + 1)]
    return ("\n".join(cards + [" END"]) + "\n").encode()


def short_loop():
    """A tenth of the loop: the time of an entry must not grow with the length of the run."""
    return loop().replace(b"LIMIT=100000", b"LIMIT=10000")


def loop_and_waiters():
    """The same loop while 62 others wait."""
    return loop(62)


def loop_and_events():
    """A loop with 62 others that wait for an event, while all the other events are posted."""
    cards = [" REGION LIMIT=100000", "MAIN PROG"]
    cards += [" POST %d" % i for i in range(1, 256)]
    cards += [" ATTACHX T%d" % i for i in range(1, 63)]
    cards += ["TOP NOP", " B TOP", " PEND", "WAITER PROG", " WAIT 0", " PEND", "JOB TASK PGM=MAIN"]
    cards += ["T%d TASK PGM=WAITER" % i for i in range(1, 63)]
    return ("\n".join(cards + [" END"]) + "\n").encode()


def branches():
    """One task that branches to and fro between the ends of a program of 10,000 cards until it comes to 100,000 entries."""
    cards = [" REGION LIMIT=100000", "MAIN PROG", "A B Z"] + [" NOP"] * 9990 + ["Z B A", " PEND", "JOB TASK PGM=MAIN"]
    return ("\n".join(cards + [" END"]) + "\n").encode()


def nothing():
    """What a load is given."""
    return b""


# By the words that each is timed with. An input of `verify` is a deck of `seq`, behind which its trace is put.
INPUTS = {
    "scan": (many_cards, comments, one_long_comment, too_long),
    "seq": (many_tasks, short_loop, loop, loop_and_waiters, loop_and_events, branches),
    "verify": (many_tasks, loop),
    "load 60": (nothing,),
}
