"""Wrong in how the kept list is judged. Each of these keeps it rightly."""

from model import Pod
from ports.bounds import LISTS
from ports.params import missing_of
from ports.refusal import Refused

from .named import LAB_ALONE, WRONG, lab_alone


def ids(kept):
    """Those of a list that are none of its zeros."""
    return [id for id in kept if id]


# by name, whether the pod takes a list for the right one
JUDGED = {
    "no list is judged": lambda kept, right: True,
    "a list is judged as a set": lambda kept, right: set(kept) == set(right),
    "the order of a list is not judged": lambda kept, right: sorted(kept) == sorted(right),
    "the zeros between ids are not judged": lambda kept, right: ids(kept) == ids(right),
    "the first five places alone are judged": lambda kept, right: kept[:5] == right[:5],
    "the first place alone is judged": lambda kept, right: kept[0] == right[0],
    "the zeros behind a list are not judged": lambda kept, right: kept[:len(ids(right))] == ids(right),
    "the zeros alone are judged": lambda kept, right: [not id for id in kept] == [not id for id in right],
    "the count of ids alone is judged": lambda kept, right: len(ids(kept)) == len(ids(right)),
    "a list with more than is missing is taken": lambda kept, right: set(right) <= set(kept),
    "a list with less than is missing is taken": lambda kept, right: set(kept) - {0} <= set(right),
    "the right list for any marks is taken": lambda kept, right: kept in LISTS,
    "the sum of a list is judged": lambda kept, right: sum(kept) == sum(right),
}
for place in range(8):
    JUDGED["place %d of a list is not judged" % place] = lambda kept, right, at=place: (
        kept[:at] + kept[at + 1:] == right[:at] + right[at + 1:])
    JUDGED["bit %d of a list's ids is not judged" % place] = lambda kept, right, bit=1 << place: (
        [id | bit for id in kept] == [id | bit for id in right])


class Judging(Pod):
    """A pod that looks at its list in another way is one that is shown a right list or a wrong one."""

    def __init__(self, judged):
        self.judged = judged
        super().__init__()

    def rows(self, call):
        held, right = self.missing, missing_of(self.written)
        self.missing = right if self.judged(held, right) else [255] * 8
        try:
            super().rows(call)
        finally:
            self.missing = held


for name, judged in JUDGED.items():
    assert name not in WRONG, name
    LAB_ALONE.add(name)
    WRONG[name] = lambda judged=judged: Judging(judged)


class Sometimes(Pod):
    """No list is judged by some calls."""

    def judges(self, call):
        """Whether this one does."""
        raise NotImplementedError

    def rows(self, call):
        held = self.missing
        if not self.judges(call):
            self.missing = missing_of(self.written)
        try:
            super().rows(call)
        finally:
            self.missing = held


@lab_alone
class PacketsAlone(Sometimes):
    """the packet call alone judges the list"""

    def judges(self, call):
        return call == "packet"


@lab_alone
class NoPackets(Sometimes):
    """the packet call does not judge the list"""

    def judges(self, call):
        return call != "packet"


@lab_alone
class Awake(Sometimes):
    """the list is judged while initialised alone"""

    def judges(self, call):
        return self.initialised


@lab_alone
class AtPower(Pod):
    """power on judges the list"""

    def rows(self, call):
        super().rows(call)
        if self.missing != missing_of(self.written):
            raise Refused(3)


@lab_alone
class Mends(Pod):
    """a wrong list is made right and not refused"""

    def rows(self, call):
        self.missing = missing_of(self.written)
        super().rows(call)
