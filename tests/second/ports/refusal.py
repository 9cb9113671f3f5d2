"""Refused calls (document 01): 'A refused call gives its number and nothing else,
and changes nothing.'

'Lowest number first': rows 1 to 3 look at what is lent and at the state handed in before
the call looks at anything else, and stand here; each call raises its other rows itself,
lower ones first, but for those of request No. 3, '22 before 6, 21 last'. No line of `session`
or `console` leads to rows 1 to 3: their labels are declared with the lines of `lab` that do.
"""

from .bounds import broken, listed
from .labels import declare, hit
from .sizes import BLOCK, CAPACITY, LETTERS, SIZES

# each thing that can be lent, and its right size: 'answer room under 260 bytes'
TABLES = tuple(str(table) for table in SIZES)
RIGHT = {"room": 260}
RIGHT.update({letter: CAPACITY[store] * BLOCK for store, letter in LETTERS.items()})
RIGHT.update(zip(TABLES, SIZES.values()))

# 'Each row applies only to calls that are lent the thing.'
LENT = {
    "packet": ("room", "p", "o") + TABLES, "deadline": (), "put p": ("p",), "put o": ("o",),
    "command word": TABLES, "data word in": TABLES, "data word out": TABLES, "status word": (),
    "samples": (), "pipe byte": (), "pipe timeout": (), "packet out": (), "taken": (),
    "power on": TABLES,
}

declare(*["%s: with bytes in hand" % call for call in LENT])


class Refused(Exception):
    """A call refused by its number in document 01."""

    def __init__(self, number):
        super().__init__(number)
        self.number = number


class Rows:
    """The sizes at which the next call is lent things, and rows 1 to 3."""

    def lend_right(self):
        """Everything at its right size."""
        self.sizes = dict(RIGHT)

    def rows(self, call):
        """'answer room under 260 bytes', 'a lent store or table is not its exact size', 'the
        state handed in breaks a bound below'."""
        lent = LENT[call]
        if "room" in lent and self.sizes["room"] < RIGHT["room"]:
            hit("lab %s: room under 260" % call)
            raise Refused(1)
        wrong = [thing for thing in lent if thing != "room" and self.sizes[thing] != RIGHT[thing]]
        for thing in wrong:
            way = "under" if self.sizes[thing] < RIGHT[thing] else "over"
            hit("lab %s: %s %s its size" % (call, thing, way))
        if wrong:
            raise Refused(2)
        # power on is handed no state, so it mends a list too
        for name in listed(self) if call == "power on" else ():
            hit("lab power on: %s, mended" % name)
        outside = [] if call == "power on" else broken(self)
        if outside:
            hit("lab %s: %s" % (call, outside[0] if len(outside) == 1 else "more than one bound"))
            raise Refused(3)
        if self.hand:
            hit(call + ": with bytes in hand")
