"""Moves about the list of missing ids: writes that strike one out, and all that leaves it alone."""

import struct

from ports.params import ASKED, ROWS

from . import bench, packets

NOT_ASKED = tuple(id for id in ROWS if id not in ASKED)


def send(s, id, value):
    """A parameter write."""
    packets.send(s, struct.pack(">BBBi", 0x93, 1, id, value))


def bounds(s, id):
    """The least and the most that a write of this id may have now: 1 stays below 2."""
    least, most = ROWS[id][:2]
    return s.pod.values[1] + 1 if id == 2 else least, s.pod.values[2] - 1 if id == 1 else most


def taken(s, id):
    """A write that is taken while the pod is initialised."""
    send(s, id, s.rng.randint(*bounds(s, id)))


def not_taken(s, id):
    """A write that is refused."""
    least, most = bounds(s, id)
    send(s, id, s.rng.choice((least - 1, most + 1)))


def again(s):
    """An asked id twice, and now and then something between."""
    id = s.rng.choice(ASKED)
    taken(s, id)
    if s.rng.random() < 0.5:
        s.rng.choice((packets.status, other, refused, packets.update))(s)
    taken(s, id)


def other(s):
    """An id that is not asked."""
    taken(s, s.rng.choice(NOT_ASKED))


def refused(s):
    """A refused write of an asked id."""
    not_taken(s, s.rng.choice(ASKED))


def some(s):
    """Some of the asked ids, in any order."""
    for id in s.rng.sample(ASKED, s.rng.randint(1, 5)):
        taken(s, id)
        if s.rng.random() < 0.3:
            packets.status(s)


def kept(s):
    """A packet that leaves the list as it is."""
    s.rng.choice((packets.update, packets.update_edge, packets.initialise_edge))(s)


def renewed(s):
    """A Shutdown or power in most cases, and an Initialise."""
    s.rng.choice((packets.shutdown, bench.power, packets.status))(s)
    packets.initialise(s)


def listed(s):
    """A few of these, each with a Status behind it in most cases."""
    for move in s.rng.choices((some, again, other, refused, kept, renewed), (6, 4, 3, 4, 3, 1), k=s.rng.randint(2, 5)):
        move(s)
        if s.rng.random() < 0.7:
            packets.status(s)
