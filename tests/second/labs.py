"""Seeded sessions for `lab`: any state, any size, any call, and all that the call leaves.

Sessions of one run go on with one pod, since `Z` keeps the stores' bytes; no line of a session
depends on these bytes, so a seed has the same lines alone.
"""

import random

from model import Pod
from moves import lab, lists, packets
from moves.edges import OUTSIDE
from ports.bounds import broken
from ports.lab import PARTS, lab_line
from ports.refusal import LENT
from sessions import Full

WEIGHTS = {lab.sound: 6, lab.receipt: 2, lab.words_on: 3, lab.reads: 2, lab.pipe: 2, lab.edge: 2, lab.wild: 2,
           lab.lent: 4, lab.call: 3, lab.out_of_range: 2, lab.malformed: 1, packets.initialise: 1,
           lists.matched: 2, lists.mismatched: 1, lists.one_mark: 1}
LENGTH = 70
# each call with each thing that it is lent at its exact size, one less and one more
SIZES = [(call, thing, over) for call, lent in LENT.items() for thing in lent if thing != "room" for over in (-1, 1)]
TURNS = 3       # each session takes so many of the pairs of a bound and a call, of the names, and of SIZES, in turn


class Lab:
    """Lines, the model's answers, and the model's pod behind them."""

    def __init__(self, seed, pod):
        self.rng = random.Random("lab %d" % seed)
        self.pod = pod
        self.lines = []
        self.answers = []
        self.rich = self.rng.random() < 0.5
        self.seed = seed
        self.turns = range(seed * TURNS, seed * TURNS + TURNS)

    def note(self, line):
        """Add a line and its answer."""
        self.lines.append(line)
        self.answers.append(lab_line(self.pod, line))

    def say(self, line):
        """A line, and V behind a call."""
        if len(self.lines) >= LENGTH:
            raise Full
        self.note(line)
        if line[:1] not in (b"X", b"L", b"V") and self.answers[-1] != b"?":
            self.note(b"V")

    def interlude(self):
        """A call of any kind."""
        lab.call(self)

    def mend(self):
        """Power, where a bound is broken: once more where it was lent something wrong."""
        while broken(self.pod):
            self.say(b"Z")

    def move(self):
        """A move of any kind, in a state within the bounds."""
        self.mend()
        self.rng.choices(tuple(WEIGHTS), tuple(WEIGHTS.values()))[0](self)

    def grow(self):
        """Say lines until all are said, and power off and on."""
        try:
            if self.rng.random() < 0.7:
                packets.initialise(self)
            for turn in self.turns:
                self.move()
                lab.just_out(self, tuple(PARTS)[turn % len(PARTS)])
                self.mend()
                calls, edge = divmod(turn, len(OUTSIDE))
                lab.edge(self, OUTSIDE[edge], tuple(lab.CALLS)[calls % len(lab.CALLS)])
                self.mend()
                lab.wrong_size(self, *SIZES[turn % len(SIZES)])
            self.mend()
            # each place of the list with each of its bits, in turn
            lists.one_bit(self, *divmod(self.seed % 64, 8))
            while True:
                self.move()
        except Full:
            # the first ends what was lent, and may be refused for it
            self.note(b"Z")
            self.note(b"Z")
        return self


def make(seeds):
    """The sessions of these seeds, for one run."""
    pod = Pod()
    for seed in seeds:
        yield seed, Lab(seed, pod).grow()
