"""Random decks for the tests: read by construction, with all kinds of cards, and small enough to draw."""

from __future__ import annotations

import random
from typing import List

CODES = ("S0C1", "S0C4", "S0C7", "U1", "U4095", "S222")
CLASSES = ("ENQ", "STOR", "DSN", "TIMR")


class Generator:
    """A deck from a seed. Each family of cards is rare, usual or frequent in it."""

    def __init__(self, seed: int) -> None:
        self.random = random.Random(seed)
        self.programs = ["P%d" % number for number in range(self.random.randint(2, 7))]
        self.tasks = ["T%d" % number for number in range(self.random.choice([1, 2, 2, 3, 4, 5]))]
        self.srbs = ["S%d" % number for number in range(self.random.choice([0, 0, 1, 2]))]
        families = (self.routine, self.call, self.unit, self.abort, self.resource, self.event, self.answer, self.branch)
        self.families = [(family, self.random.choice([0.05, 0.5, 1, 3])) for family in families]
        # The label of each program, on its second card.
        self.labels = {name: "L%s" % name[1:] for name in self.programs}

    def choose(self, *choices: str) -> str:
        return self.random.choice(choices)

    def program(self) -> str:
        return self.random.choice(self.programs)

    def task(self) -> str:
        return self.random.choice(self.tasks)

    def routine(self, own: str) -> str:
        options = self.choose("", ",TERM=YES", ",CANCEL=NO", ",XCTL=YES", ",TERM=YES,CANCEL=NO")
        return self.choose("ESTAEX CT,PGM=%s%s" % (self.program(), options), "ESTAEX CT,PGM=%s" % self.program(),
                           "ESTAEX OV,PGM=%s" % self.program(), "ESTAEX 0", "SETFRR A,PGM=%s" % self.program(),
                           "SETFRR R,PGM=%s" % self.program(), "SETFRR D", "SETFRR P")

    def call(self, own: str) -> str:
        return self.choose("LINK " + self.program(), "LINK " + self.program(), "XCTL " + self.program(),
                           "RETURN", "NOP")

    def unit(self, own: str) -> str:
        if self.srbs and self.random.random() < 0.3:
            return "SCHEDULE " + self.random.choice(self.srbs)
        return "ATTACHX " + self.task() + self.choose("", ",ESTAI=" + self.program(),
                                                      ",ESTAI=%s,TERM=YES" % self.program())

    def abort(self, own: str) -> str:
        return self.choose("DETACH " + self.task(), "DETACH %s,STAE=YES" % self.task(),
                           "CALLRTM ABTERM,TASK=%s,COMPCOD=U7" % self.task(),
                           "CALLRTM ABTERM,TASK=%s,COMPCOD=U8,RETRY=NO" % self.task(),
                           "CALLRTM MEMTERM,COMPCOD=S40D" if self.random.random() < 0.1 else "NOP")

    def resource(self, own: str) -> str:
        holding = "%s,%d" % (self.choose(*CLASSES), self.random.randint(1, 3))
        return self.choose("GET " + holding, "GET " + holding, "FREE " + holding,
                           "RESMGR ADD,PGM=%s,TYPE=%s" % (self.program(), self.choose("TASK", "SPACE")))

    def event(self, own: str) -> str:
        return self.choose("POST 1", "WAIT 1", "POST 2", "WAITT " + self.task())

    def answer(self, own: str) -> str:
        label = self.labels[self.program()]
        return self.choose("SETRP RC=4,RETADDR=" + label, "SETRP RC=4,RETADDR=%s,REMREC=YES" % label, "SETRP RC=0",
                           "SETRP RC=16", "SETRP COMPCOD=U99,RECORD=YES,DUMP=YES", "RET15 4,RETADDR=" + label,
                           "RET15 0", "RET15 16")

    def branch(self, own: str) -> str:
        return self.choose("IFCLUP " + self.labels[own], "IFPERC " + self.labels[own],
                           "IFCODE S0C4," + self.labels[own], "ABEND " + self.choose(*CODES),
                           "ABEND S0C4,REASON=1A,DUMP=YES", "ABEND U2,STEP=YES")

    def births(self) -> List[str]:
        """What the job step task begins with: most other units are born."""
        cards = ["ATTACHX %s,ESTAI=%s" % (task, self.program()) for task in self.tasks[1:]]
        cards += ["SCHEDULE " + srb for srb in self.srbs]
        return [card for card in cards if self.random.random() < 0.8]

    def card(self, own: str) -> str:
        chosen = self.random.choices([family for family, _ in self.families], [weight for _, weight in self.families])
        return chosen[0](own)

    def deck(self) -> bytes:
        """The whole deck."""
        region = " REGION LIMIT=%d%s" % (self.random.choice([60, 120, 200, 300]), self.choose("", "", ",SDWA=NO"))
        lines: List[str] = ["* A random deck.", region]
        for name in self.programs:
            cards = [self.card(name) for _ in range(self.random.randint(2, 8))]
            if name == self.programs[0]:
                cards = self.births() + cards
            lines.append(name + " PROG")
            lines += ["%s %s" % (self.labels[name] if place == 1 else "", card) for place, card in enumerate(cards)]
            lines.append(" PEND")
        lines += ["%s TASK PGM=%s" % (task, self.programs[0] if task == self.tasks[0] else self.program())
                  for task in self.tasks]
        lines += ["%s SRB PGM=%s,TASK=%s" % (srb, self.program(), self.task()) for srb in self.srbs]
        lines.append(" OPER")
        lines += [" CANCEL %s,AT=%d" % (self.task(), self.random.randint(0, 40))
                  for _ in range(self.random.randint(0, 3))]
        return "\n".join(lines + [" END", ""]).encode()


def random_deck(seed: int) -> bytes:
    """The deck of a seed."""
    return Generator(seed).deck()


def many_units(tasks: int, rounds: int) -> bytes:
    """A deck whose tasks all recover from so many errors, and end by one that nobody recovers."""
    numbers = range(1, tasks + 1)
    lines = ["* Tasks that do the same.", " REGION LIMIT=100000", "MAIN PROG", " GET ENQ,0"]
    lines += [" ATTACHX T%d,ESTAI=WATCH" % number for number in numbers]
    lines += [" WAITT T%d" % number for number in numbers] + [" PEND", "WORK PROG", " GET STOR,1"]
    for number in range(1, rounds + 1):
        lines += [" ESTAEX CT,PGM=KEEP%d" % number, " LINK SUB", "BACK%d NOP" % number]
    lines += [" ABEND U2", " PEND", "SUB PROG", " GET DSN,2", " SETFRR A,PGM=PASS", " ABEND S0C4", " PEND"]
    lines += ["PASS PROG", " PEND", "WATCH PROG", " PEND"]
    for number in range(1, rounds + 1):
        lines += ["KEEP%d PROG" % number, " SETRP RC=4,RETADDR=BACK%d,REMREC=YES" % number, " PEND"]
    lines += ["JOB TASK PGM=MAIN"] + ["T%d TASK PGM=WORK" % number for number in numbers]
    return "\n".join(lines + [" END", ""]).encode()
