"""Moves of the program `lab` about the kept list: lists that go with the marks, and such as do not."""

from ports.bounds import LISTS, broken
from ports.params import ASKED, PLACES, missing_of

from . import lab, packets, writes
from .edges import changed, marks, needed, swapped


def some(rng):
    """Some of the asked ids."""
    return rng.sample(ASKED, rng.randint(0, len(ASKED)))


def settle(s, written, kept):
    """The marks and the list, in any order, where they are not so already."""
    settings = needed(s.pod, marks(written, kept))
    s.rng.shuffle(settings)
    lab.set_parts(s, settings)


def matched(s):
    """Other marks and the list that goes with them, and some calls."""
    written = some(s.rng)
    settle(s, written, missing_of(written))
    if s.rng.random() < 0.8:
        lab.set_parts(s, ["transfer -1", "initialised 1"])
    for _ in range(s.rng.randint(1, 3)):
        s.rng.choice((lab.call, packets.status, packets.update, packets.shutdown, writes.again, writes.other,
                      writes.refused, writes.some))(s)


def near(rng, right):
    """A list that is almost right."""
    at = rng.randrange(PLACES)
    one, other = rng.sample(range(PLACES), 2)
    return rng.choice((
        swapped(right, one, other), changed(right, at, rng.choice(ASKED)), changed(right, at, rng.getrandbits(8)),
        changed(right, at, right[at] ^ 1 << rng.randrange(8)), right[at:] + right[:at], right[::-1],
        rng.choice(LISTS)))


def mismatched(s):
    """A list that is almost the one for the marks, some calls, and in half the cases the right one after it."""
    written = s.rng.choice((tuple(s.pod.written), some(s.rng)))
    settle(s, written, near(s.rng, missing_of(written)))
    for _ in range(s.rng.randint(1, 3)):
        lab.call(s)
    if s.rng.random() < 0.5 and any("list" in name for name in broken(s.pod)):
        settle(s, s.pod.written, missing_of(s.pod.written))
        lab.call(s)


def one_bit(s, at, bit):
    """A bit of one place, a call, and the place as it was."""
    was = s.pod.missing[at]
    for id in (was ^ 1 << bit, was):
        lab.set_parts(s, ["missing%d %d" % (at, id)])
        lab.call(s)


def one_mark(s):
    """A mark alone, and a call; then as it was again."""
    id = s.rng.choice(ASKED + ASKED + writes.NOT_ASKED)
    was = int(id in s.pod.written)
    for mark in (s.rng.choice((0, 1, 1 - was)), was):
        lab.set_parts(s, ["written%d %d" % (id, mark)])
        lab.call(s)
