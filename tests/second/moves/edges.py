"""Each bound of the state one inside and one outside, as settings of `X`.

The inside of an edge leaves a state within the bounds if it was within them before; the
outside breaks the edge's bound and no other.
"""

from collections import namedtuple

from ports.bounds import BOUNDS
from ports.params import ASKED, PLACES, ROWS, missing_of
from ports.sizes import CAPACITY, NAMES, SIZES

Edge = namedtuple("Edge", "bound inside outside")

# while one parameter of the span is at the edge of its row, the other is out of its way
SPAN = {1: "param2 12000", 2: "param1 -2000"}


def stores():
    """'place of the oldest block under its capacity, waiting at most its capacity', 'each
    remaining at most its limit'."""
    for digit, (store, capacity) in enumerate(CAPACITY.items()):
        name = NAMES[store]
        yield Edge(name + " oldest", ["oldest%d %d" % (digit, capacity - 1)], ["oldest%d %d" % (digit, capacity)])
        yield Edge(name + " waiting", ["waiting%d %d" % (digit, capacity)], ["waiting%d %d" % (digit, capacity + 1)])
        greatest = (2 ** 16, 2 ** 32)[digit] - 1
        for limit in (0, greatest - 1):
            parts = ["limit%d %d" % (digit, limit), "remaining%d %d" % (digit, limit)]
            yield Edge(name + " remaining", parts, [parts[0], "remaining%d %d" % (digit, limit + 1)])


def parameters():
    """'each parameter in its row and parameter 1 below parameter 2'."""
    for id, (least, most, _, _) in ROWS.items():
        other = [SPAN[id]] if id in SPAN else []
        for end, inside, outside in (("under least", least, least - 1), ("over most", most, most + 1)):
            bound = "parameter %d %s" % (id, end)
            if bound in BOUNDS:
                yield Edge(bound, other + ["param%d %d" % (id, inside)], other + ["param%d %d" % (id, outside)])
    least, most = ROWS[1][:2]
    for low, high in ((least, least + 1), (100, 101), (most - 1, most)):
        same = high if high == most else low
        yield Edge("parameter 1 not below 2", ["param1 %d" % low, "param2 %d" % high],
                   ["param1 %d" % same, "param2 %d" % same])


def numbers():
    """'mode 0 to 3; poll 1 to 60,000; milliseconds 0 to 999', '0 to 7 bytes gathered; timeouts
    0 to 15; each read place at most its table's size', '0 to 8 bytes in hand, and output timeouts
    0 to 15'."""
    for bound, name, inside, outside in (
            ("mode", "mode", 3, 4), ("poll 0", "poll", 1, 0), ("poll over 60000", "poll", 60000, 60001),
            ("milliseconds", "milliseconds", 999, 1000), ("gathered", "gathered", 7, 8),
            ("timeouts", "timeouts", 15, 16), ("in hand", "out", 8, 9), ("output timeouts", "outtimeouts", 15, 16)):
        yield Edge(bound, ["%s %d" % (name, inside)], ["%s %d" % (name, outside)])
    for table, size in SIZES.items():
        yield Edge("place %d" % table, ["place%d %d" % (table, size)], ["place%d %d" % (table, size + 1)])


def transfer(table, reading, n, along, start=0):
    """An open transfer, which asks for an initialised pod."""
    return ["initialised 1", "transfer %d %d %d %d %d" % (table, reading, n, along, start)]


def transfers():
    """'an open transfer 0 to N-1 words along, with N as its command allows, and an open read
    within its table'."""
    for reading, kind in enumerate(("load", "read")):
        for table, size in SIZES.items():
            name = "%s %d " % (kind, table)
            yield Edge(name + "N under 4", transfer(table, reading, 4, 0), transfer(table, reading, 3, 0))
            yield Edge(name + "N over 64", transfer(table, reading, 64, 0), transfer(table, reading, 65, 0))
            yield Edge(name + "along", transfer(table, reading, 64, 63), transfer(table, reading, 64, 64))
            # N words have N-3 data words: the last place from which they fit, and the next one
            for n in (4, 64) if reading else ():
                last = size - (n - 3)
                yield Edge(name + "past its table", transfer(table, 1, n, n - 1, last),
                           transfer(table, 1, n, n - 1, last + 1))


def asleep():
    """'While not initialised, no exchange and no transfer is open.'"""
    for code in (145, 148, 149, 150):
        parts = ["transfer -1", "exchange %d" % code]
        yield Edge("exchange while not initialised", parts + ["initialised 1"], parts + ["initialised 0"])
    for numbers_of in ("1 0 1 0 0", "5 0 4 0 0", "6 1 4 0 0"):
        parts = ["exchange -1", "transfer " + numbers_of]
        yield Edge("transfer while not initialised", parts + ["initialised 1"], parts + ["initialised 0"])
    parts = ["exchange -1", "transfer -1"]
    yield Edge(None, parts + ["initialised 0"], None)


def marks(written, kept):
    """The marks of the asked parameters, and the kept list."""
    return ["written%d %d" % (id, id in written) for id in ASKED] + ["missing%d %d" % pair for pair in enumerate(kept)]


def swapped(kept, one, other):
    """A list with two of its places exchanged."""
    kept = list(kept)
    kept[one], kept[other] = kept[other], kept[one]
    return kept


def changed(kept, at, id):
    """A list with another number at one place."""
    return kept[:at] + [id] + kept[at + 1:]


def lists():
    """'the kept list is exactly the one that document 01 defines from the written marks': two
    swapped, one mark more and one fewer, zeros that are not zero, one place wrong."""
    fresh, few, last = missing_of(()), missing_of((3, 7)), PLACES - 1
    for bound, written, kept in (
            ("list in another order", (), swapped(fresh, 0, 1)), ("list in another order", (3, 7), swapped(few, 2, 3)),
            ("list for other marks", (1,), fresh), ("list for other marks", ASKED[:-1], missing_of(ASKED)),
            ("list with more behind it", (), changed(fresh, last, 1)),
            ("list with more behind it", ASKED, changed(missing_of(ASKED), 0, 4)),
            ("list for no marks", (), changed(fresh, 4, 8)), ("list for no marks", (3, 7), changed(few, 0, 0))):
        yield Edge(bound, marks(written, missing_of(written)), marks(written, kept))


EDGES = [edge for part in (stores, parameters, numbers, transfers, asleep, lists) for edge in part()]
OUTSIDE = [edge for edge in EDGES if edge.outside]
assert {edge.bound for edge in OUTSIDE} == set(BOUNDS)


def lines(settings):
    """The lines that set these parts."""
    return [b"X " + setting.encode() for setting in settings]


def needed(pod, settings):
    """The settings without those of marks and places of the list that are so already."""
    there = {"written%d %d" % (id, id in pod.written) for id in ASKED}
    there |= {"missing%d %d" % pair for pair in enumerate(pod.missing)}
    return [setting for setting in settings if setting not in there]
