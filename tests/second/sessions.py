"""Seeded sessions for `console`, made to reach deep states.

A session steps the model as it grows, so each move may look at the present state, and each
line has its expected answer beside it. `python3 sessions.py` makes sessions for the model
alone and says which rules they reached; `--seed S` prints the lines of one.
"""

import argparse
import random
import sys
import time

from model import Pod, console_line
from moves import bench, output, packets, words, writes
from ports import labels

# move: weight in a session of no special kind
WEIGHTS = {
    packets.initialise: 2, packets.initialise_edge: 3, packets.update: 3, packets.update_edge: 3,
    packets.status: 6, bench.sleep: 1, packets.write: 10, packets.write_all_asked: 2, writes.listed: 1,
    packets.read: 6, packets.read_all: 0.7, packets.fetch: 20, packets.exchange: 4,
    packets.acknowledge: 8, packets.acknowledge_near: 2, packets.damaged: 5,
    packets.wrong_length: 5, packets.short: 2, packets.second_byte: 3, packets.unknown: 3,
    packets.empty: 2, packets.any_bytes: 2, packets.any_command: 4,
    words.load: 6, words.address: 5, words.read: 5, words.whole_table: 0.3, words.stop: 2,
    words.starts: 1, words.bad_command: 8, words.twin: 1.5, words.stray: 5, words.status_word: 8,
    bench.put: 12, bench.put_few: 3, bench.put_wrong: 2, bench.fill_priority: 0.5,
    bench.fill_ordinary: 0, bench.full_asleep: 0.1, bench.drain: 2, bench.marked: 3, bench.samples: 3,
    bench.bad_samples: 3, bench.pipe_bytes: 5, bench.timeouts: 0.4, bench.timeout: 2,
    bench.one_pipe_byte: 2, bench.deadline: 3, bench.power: 0.4, bench.malformed: 8,
    output.packet: 3, output.wrong: 2, output.taken: 4, output.hand_over: 2, output.stall: 2, output.both: 1,
    output.timeouts: 0.4, output.sleep: 0.4, output.renewed: 0.4, output.in_exchange: 1,
}

# kind of session: (its share, the factor for each move that it changes)
KINDS = {
    "mixed": (40, {}),
    "blocks": (16, {bench.put: 4, bench.put_few: 4, bench.drain: 5, packets.fetch: 4,
                    bench.fill_priority: 6, packets.initialise: 0.3, bench.power: 0.3}),
    "full": (6, {bench.drain: 20, packets.fetch: 4, packets.initialise: 0.1, bench.sleep: 0.2,
                 bench.power: 0.1, bench.put_few: 3, words.load: 0.3, words.read: 0.3}),
    "words": (18, {words.load: 8, words.read: 6, words.address: 4, words.whole_table: 6,
                   words.starts: 3, packets.initialise: 0.5, bench.sleep: 0.6}),
    "parameters": (8, {packets.write: 8, packets.write_all_asked: 8, writes.listed: 16, packets.read_all: 5,
                       packets.update_edge: 3, packets.initialise_edge: 3}),
    "pipe": (5, {bench.pipe_bytes: 5, bench.timeouts: 20, bench.timeout: 4, bench.samples: 4,
                 bench.bad_samples: 4, output.packet: 4, output.wrong: 4, output.taken: 5, output.hand_over: 5,
                 output.stall: 5, output.both: 8, output.timeouts: 20, output.renewed: 5}),
    "asleep": (4, {bench.sleep: 12, bench.full_asleep: 10, output.sleep: 10, words.stray: 3}),
    "hires": (3, {packets.initialise: 8, bench.sleep: 8, bench.power: 4, output.sleep: 8, output.renewed: 8,
                  writes.listed: 8}),
}

INTERLUDES = (
    packets.initialise, packets.initialise_edge, packets.update, packets.status, bench.sleep,
    packets.read, packets.acknowledge, packets.damaged, packets.wrong_length, packets.second_byte,
    packets.unknown, packets.empty, packets.any_command, words.stop, words.starts,
    words.bad_command, words.bad_command, words.stray, words.stray, words.status_word, words.status_word,
    bench.put, bench.put_wrong, bench.samples, bench.bad_samples, bench.one_pipe_byte,
    bench.timeout, output.packet, output.wrong, output.taken, bench.deadline, bench.power, bench.malformed,
)


class Full(Exception):
    """The session has all its lines."""


class Session:
    """Lines, the answers the model gives to them, and the model's pod behind them."""

    def __init__(self, seed):
        self.seed = seed
        self.rng = random.Random(seed)
        self.pod = Pod()
        self.lines = []
        self.answers = []
        names = list(KINDS)
        self.kind = self.rng.choices(names, [KINDS[name][0] for name in names])[0]
        self.rich = self.kind in ("full", "blocks") and self.rng.random() < 0.8
        self.length = self.rng.randint(300 if self.kind == "full" else 100, 400)
        self.wake = 0.08 if self.kind == "asleep" else 0.3

    def say(self, line):
        """Add a line and its answer."""
        if len(self.lines) == self.length:
            raise Full
        self.answers.append(console_line(self.pod, line))
        self.lines.append(line)

    def interlude(self):
        """A call of any kind, or a few, in the middle of something else."""
        self.rng.choice(INTERLUDES)(self)

    def opening(self):
        """Most sessions initialise at once; some do other things first. Every second one has
        a load and a read of the next length and table in turn."""
        if self.seed % 2 or self.rng.random() < 0.75:
            packets.initialise(self)
        if self.seed % 2:
            turn = self.seed // 2
            words.measured(self, 5 + turn % 3, 4 + turn // 3 % 61)
        if self.kind == "full":
            bench.fill_ordinary(self)
        if self.rng.random() < 0.005:
            self.rng.choice((packets.huge, output.huge))(self)

    def grow(self):
        """Say lines until all are said."""
        moves = list(WEIGHTS)
        factors = KINDS[self.kind][1]
        weights = [WEIGHTS[move] * factors.get(move, 1) for move in moves]
        try:
            self.opening()
            while True:
                if not self.pod.initialised and self.rng.random() < self.wake:
                    packets.initialise(self)
                self.rng.choices(moves, weights)[0](self)
        except Full:
            return self


def make(seed):
    """The session of a seed."""
    return Session(seed).grow()


def main():
    """Sessions for the model alone, or the lines of one."""
    parser = argparse.ArgumentParser(description=__doc__)
    parser.add_argument("--sessions", type=int, default=2000)
    parser.add_argument("--seed", type=int)
    parser.add_argument("--rules", action="store_true", help="print each rule with its count")
    options = parser.parse_args()
    if options.seed is not None:
        sys.stdout.buffer.write(b"".join(line + b"\n" for line in make(options.seed).lines))
        return 0
    begin = time.monotonic()
    lines = size = 0
    for seed in range(options.sessions):
        session = make(seed)
        lines += len(session.lines)
        size += sum(map(len, session.lines))
    if options.rules:
        print(labels.table(), end="")
    for label in labels.missing():
        print("not reached: " + label)
    print("sessions: %d sessions, %d lines, %d MB, %.0f s, %d of %d rules reached" % (
        options.sessions, lines, size // 1000000, time.monotonic() - begin,
        len(labels.COUNTS) - len(labels.missing()), len(labels.COUNTS)))
    return 1 if labels.missing() else 0


if __name__ == "__main__":
    sys.exit(main())
