"""Parameters (document 01, 'Parameters'), and the kept list of the missing ones (request No. 5)."""

from .labels import declare, hit

# id: (least, most, start, asked)
ROWS = {
    1: (-4000, 15000, -2000, True),
    2: (-4000, 15000, 12000, True),
    3: (100, 1000, 950, True),
    4: (40, 60000, 1000, False),
    5: (1, 16, 16, False),
    6: (-4000, 15000, 2000, True),
    7: (0, 3, 0, True),
    8: (0, 7, 0, False),
    9: (-500, 500, 0, False),
    10: (-500, 500, 0, False),
    11: (-500, 500, 0, False),
    12: (-500, 500, 0, False),
}
ASKED = tuple(id for id, row in ROWS.items() if row[3])
PLACES = 8
FRESH = (1, 2, 3, 6, 7, 0, 0, 0)

declare(
    "param write: id 0", "param write: id over 12",
    "param read: id 0", "param read: id over 12",
    "param write: 1 not below 2", "param write: 2 not above 1")
declare(*["param %d: %s" % (id, what) for id in ROWS
          for what in ("under least", "over most", "written", "read")])
declare(*["status: %d asked and %s" % (id, what) for id in ASKED for what in ("missing", "written")])
# from which place an id is struck out, and how many then move up
declare(*["list: struck out at place %d, %d move up" % (place, up) for place in range(5) for up in range(5 - place)])
declare(*["list: %d %s" % (id, what) for id in ASKED for what in (
    "struck out", "written again", "missing, its write refused", "written, its write refused")])
declare(*["list: kept at a write of %d" % id for id in ROWS if id not in ASKED])
declare("initialise: refills the list", "initialise: refills a list that a Shutdown kept", "power: refills the list")
declare(*["%s a list with ids struck out kept" % cause for cause in (
    "initialise: refused,", "update:", "update: refused,", "shutdown:")])


def missing_of(written):
    """'eight ids: the asked parameters not written since Initialise, rising, then zeros.'"""
    ids = [id for id in ASKED if id not in written]
    return ids + [0] * (PLACES - len(ids))


class Parameters:
    """The twelve values, which were written since Initialise, and the list of those that are missing."""

    def parameters_to_starts(self):
        """'parameters ... at their starts', 'nothing marked written'."""
        self.values = {id: row[2] for id, row in ROWS.items()}
        self.written = set()
        self.missing = list(FRESH)

    def parameter_known(self, id, way):
        """'Ids 0 and over 12 get 0x39.'"""
        if id in ROWS:
            return True
        hit("param %s: id 0" % way if id == 0 else "param %s: id over 12" % way)
        return False

    def parameter_write(self, id, value):
        """Take a value if its row and the span rule allow it. True when taken."""
        if not self.parameter_known(id, "write"):
            return False
        if not self.parameter_fits(id, value):
            if id in ASKED:
                hit("list: %d %s, its write refused" % (id, "missing" if id in self.missing else "written"))
            return False
        hit("param %d: written" % id)
        self.values[id] = value
        self.written.add(id)
        self.strike(id)
        return True

    def parameter_fits(self, id, value):
        """Whether its row and the span rule allow it."""
        least, most, _, _ = ROWS[id]
        if value < least:
            hit("param %d: under least" % id)
            return False
        if value > most:
            hit("param %d: over most" % id)
            return False
        # 'A write that would leave 1 not below 2 gets 0x39.'
        if id == 1 and value >= self.values[2]:
            hit("param write: 1 not below 2")
            return False
        if id == 2 and value <= self.values[1]:
            hit("param write: 2 not above 1")
            return False
        return True

    def strike(self, id):
        """A written id leaves the list, and those behind it move up. One that is not in it, since it was
        written before or is not asked, leaves it as it is."""
        if id not in ASKED:
            hit("list: kept at a write of %d" % id)
        elif id not in self.missing:
            hit("list: %d written again" % id)
        else:
            place = self.missing.index(id)
            hit("list: %d struck out" % id)
            hit("list: struck out at place %d, %d move up" % (place, PLACES - 1 - place - self.missing.count(0)))
            self.missing = self.missing[:place] + self.missing[place + 1:] + [0]

    def parameter_read(self, id):
        """The value, or None for an id that is none."""
        if not self.parameter_known(id, "read"):
            return None
        hit("param %d: read" % id)
        return self.values[id]

    def missing_ids(self):
        """'Keep the eight places in the state instead': Status copies them."""
        for id in ASKED:
            hit("status: %d asked and %s" % (id, "missing" if id in self.missing else "written"))
        return bytes(self.missing)

    def count_refilled(self, cause):
        """Whether ids that were struck out come back."""
        if self.missing != list(FRESH):
            hit(cause + ": refills the list")
            if cause == "initialise" and not self.initialised:
                hit("initialise: refills a list that a Shutdown kept")

    def count_unfilled(self, cause):
        """Whether ids that were struck out stay so."""
        if self.missing != list(FRESH):
            hit(cause + " a list with ids struck out kept")
