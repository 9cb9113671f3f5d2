"""Wrong in what a write that is taken makes of the kept list."""

from model import Pod
from ports.params import ASKED

from .lists import filled, twice, without


def strikes(struck):
    """Two more, named by the docstring of a function: the list behind a write, by the one before it, the id, and whether
    that was written before."""
    class Striking(Pod):
        __doc__ = struck.__doc__

        def parameter_write(self, id, value):
            self.again = id in self.written
            return super().parameter_write(id, value)

        def strike(self, id):
            self.missing = struck(self.missing, id, self.again)

    twice(Striking)
    return struck


@strikes
def leaves(kept, id, again):
    """a write leaves its id"""
    return kept


@strikes
def leaves_first(kept, id, again):
    """a write of 1 leaves it"""
    return kept if id == 1 else without(kept, id)


@strikes
def leaves_last(kept, id, again):
    """a write of 7 leaves it"""
    return kept if id == 7 else without(kept, id)


@strikes
def gap(kept, id, again):
    """a write strikes its id, and the later ones do not move up"""
    return [0 if one == id else one for one in kept]


@strikes
def one_moves(kept, id, again):
    """one id alone moves up"""
    if id not in kept:
        return kept
    at = kept.index(id)
    return filled(kept[:at] + kept[at + 1:at + 2] + [0] + kept[at + 2:])


@strikes
def left_behind(kept, id, again):
    """the last place is left as it was when ids move up"""
    if id not in kept:
        return kept
    at = kept.index(id)
    return filled(kept[:at] + kept[at + 1:5] + kept[4:5])


@strikes
def next_too(kept, id, again):
    """a second write strikes the next one"""
    later = [one for one in kept if one > id]
    return without(kept, later[0] if again and id in ASKED and later else id)


@strikes
def put_back(kept, id, again):
    """a second write puts its id back"""
    return filled(sorted({*kept, id} - {0})) if again and id in ASKED else without(kept, id)


@strikes
def other_strikes(kept, id, again):
    """a write of an id that is not asked strikes the first"""
    return without(kept, id if id in ASKED else kept[0])


@strikes
def other_added(kept, id, again):
    """a write of an id that is not asked adds it"""
    return without(kept, id) if id in ASKED else filled([one for one in kept if one] + [id])


@strikes
def first(kept, id, again):
    """a write strikes the first, whatever its id"""
    return kept if again or id not in ASKED else without(kept, kept[0])


@strikes
def numbered(kept, id, again):
    """a write strikes the place that has its number"""
    return kept if again or id not in ASKED else without(kept, kept[id - 1])


@strikes
def last(kept, id, again):
    """a write puts its id behind the others"""
    return without(kept, id) if again or id not in ASKED else filled([one for one in kept if one not in (0, id)] + [id])


@strikes
def emptied(kept, id, again):
    """a write empties the list"""
    return [0] * 8
