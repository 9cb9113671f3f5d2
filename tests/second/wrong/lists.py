"""Wrong in how the kept list is kept. A pod that judges its list refuses all from then on; so each stands here a second
time, without the judging, and what it keeps must be noticed itself."""

from model import Pod
from ports.params import FRESH, missing_of

from .named import lab_alone, wrong

NONE = [0] * 8


class Unjudged:
    """Any list is taken."""

    def rows(self, call):
        held, self.missing = self.missing, missing_of(self.written)
        try:
            super().rows(call)
        finally:
            self.missing = held


def unjudged(pod):
    """The same, and any list is taken."""
    return type(pod.__name__, (Unjudged, pod), {"__doc__": pod.__doc__ + ", and no list is judged"})


def twice(pod):
    """Two more: one that judges its list and one that does not."""
    wrong(pod)
    wrong(unjudged(pod))
    return pod


def unseen(pod):
    """Two more, of which `V` alone shows the second: whatever comes next refills the list."""
    wrong(pod)
    lab_alone(unjudged(pod))
    return pod


def filled(ids):
    """Ids, and zeros to eight places."""
    return ids + [0] * (8 - len(ids))


def without(kept, id):
    """A list with an id struck out, if it is there, as it should be."""
    return filled([one for one in kept if one not in (0, id)])


@twice
class FreshZeros(Pod):
    """a fresh list of zeros"""

    def parameters_to_starts(self):
        super().parameters_to_starts()
        self.missing = list(NONE)


@twice
class FreshTwelve(Pod):
    """a fresh list of ids that are not asked too"""

    def parameters_to_starts(self):
        super().parameters_to_starts()
        self.missing = [1, 2, 3, 4, 5, 6, 7, 8]


@twice
class Left(Pod):
    """Initialise and power leave the list"""

    def parameters_to_starts(self):
        held = getattr(self, "missing", list(FRESH))
        super().parameters_to_starts()
        self.missing = held


@twice
class LeftByInitialise(Pod):
    """Initialise leaves the list"""

    def initialise(self, code, body):
        held = self.missing
        answer = super().initialise(code, body)
        self.missing = held
        return answer


@unseen
class LeftByPower(Pod):
    """power leaves the list"""

    def power(self):
        held = self.missing
        super().power()
        self.missing = held


@twice
class UpdateRefills(Pod):
    """Update refills the list"""

    def update(self, code, body):
        self.missing = list(FRESH)
        return super().update(code, body)


@unseen
class ShutdownRefills(Pod):
    """Shutdown refills the list"""

    def shutdown(self, code, body):
        self.missing = list(FRESH)
        return super().shutdown(code, body)


@unseen
class ShutdownClears(Pod):
    """Shutdown clears the list"""

    def shutdown(self, code, body):
        self.missing = list(NONE)
        return super().shutdown(code, body)


@twice
class RefusedRefills(Pod):
    """a refused Initialise refills the list"""

    def initialise(self, code, body):
        self.missing = list(FRESH)
        return super().initialise(code, body)


@twice
class RefusedStrikes(Pod):
    """a refused write strikes its id out"""

    def parameter_write(self, id, value):
        taken = super().parameter_write(id, value)
        self.missing = without(self.missing, id)
        return taken


@twice
class Emptied(Pod):
    """Status empties the list"""

    def status(self, code, body):
        answer = super().status(code, body)
        self.missing = list(NONE)
        return answer


class Marks(set):
    """Marks that bring the list with them, whoever sets them."""

    def __init__(self, pod):
        super().__init__()
        self.pod = pod

    def add(self, id):
        super().add(id)
        self.pod.missing = missing_of(self)

    def discard(self, id):
        super().discard(id)
        self.pod.missing = missing_of(self)


@lab_alone
class Brought(Pod):
    """a mark that X sets changes the list too"""

    def parameters_to_starts(self):
        super().parameters_to_starts()
        self.written = Marks(self)
