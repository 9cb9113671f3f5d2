"""Seeded conversations of an aircraft and a pod, over a link that loses, damages, repeats and holds up.

The pod's side is the model, the aircraft's the second program; what the link lets through of the one
is said to the other. Each conversation begins and ends with nothing on its way, so it has the same
lines alone.
"""

import random

from airframe.lines import Aircraft, aircraft_line
from model import Pod, console_line
from moves import aircraft as moves

WEIGHTS = {moves.exchange: 30, moves.initialise: 1, moves.camera: 6, moves.deadline: 1, moves.aside: 3,
           moves.malformed: 2, moves.stray: 2, moves.silence: 1}
# a link: how often it loses, damages, repeats and holds up a packet
LINKS = {"calm": (0.02, 0.02, 0.02, 0.02), "poor": (0.15, 0.15, 0.1, 0.05), "bad": (0.3, 0.35, 0.1, 0.1),
         "deaf": (0.8, 0.1, 0.05, 0.02), "noisy": (0.05, 0.75, 0.1, 0.05)}
LEAST, MOST = 25, 60


class Talk:
    """Lines for the aircraft, the second program's answers, and both sides behind them."""

    def __init__(self, seed):
        self.rng = random.Random("talk %d" % seed)
        self.pod = Pod()
        self.aircraft = Aircraft()
        self.lines = []
        self.answers = []
        self.late = []
        self.asked = 0x91
        self.link = LINKS[self.rng.choice(tuple(LINKS))]
        self.length = self.rng.randint(LEAST, MOST)

    def say(self, line):
        """A line to the aircraft; its answer."""
        self.lines.append(line)
        self.answers.append(aircraft_line(self.aircraft, line))
        return self.answers[-1]

    def pod_line(self, line):
        """A line to the pod; its answer."""
        return console_line(self.pod, line)

    def over(self, line):
        """What of a packet's line comes through the link: nothing, the line, or two."""
        lost, damaged, repeated, late = self.link
        chance = self.rng.random()
        if chance < lost:
            return []
        if chance < lost + damaged:
            return [moves.spoil(self.rng, line)]
        if self.rng.random() < late:
            self.late.append(line)
            return []
        return [line, line] if self.rng.random() < repeated else [line]

    def through(self, line):
        """A packet's line to the pod and the answers back: `P -` where none comes to a command."""
        code = int(line[2:4], 16)
        replies = []
        for arrived in self.over(line):
            answer = self.pod_line(arrived)
            if answer != b"P -":
                replies += self.over(answer)
        if self.aircraft.packet is not None:
            self.asked = code
            return replies or [b"P -"]
        return replies

    def settle(self):
        """Silence until nothing is on its way."""
        while self.aircraft.packet is not None:
            self.say(b"P -")

    def grow(self):
        """Moves until the length is reached."""
        if self.rng.random() < 0.9:
            moves.initialise(self)
            moves.camera(self)
        while len(self.lines) < self.length:
            self.rng.choices(tuple(WEIGHTS), tuple(WEIGHTS.values()))[0](self)
        self.settle()
        return self


def make(seed):
    """The conversation of a seed."""
    return Talk(seed).grow()
