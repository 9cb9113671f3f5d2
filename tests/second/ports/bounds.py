"""The bounds of the state (document 01, 'Refused calls'), in the order of their sentence, and of the requests."""

from itertools import combinations

from .params import ASKED, ROWS, missing_of
from .sizes import CAPACITY, NAMES, ORDINARY, PRIORITY, SIZES

# the names of the bounds, but for two that no state breaks alone, since 1 is below 2
BOUNDS = ["%s %s" % (name, part) for name in NAMES.values() for part in ("oldest", "waiting", "remaining")]
BOUNDS += ["parameter %d %s" % (id, end) for id in ROWS for end in ("under least", "over most")
           if (id, end) not in ((1, "over most"), (2, "under least"))]
BOUNDS += ["parameter 1 not below 2", "mode", "poll 0", "poll over 60000", "milliseconds", "gathered", "timeouts",
           "in hand", "output timeouts"]
BOUNDS += ["place %d" % table for table in SIZES]
BOUNDS += ["%s %d %s" % (kind, table, part) for kind in ("load", "read") for table in SIZES
           for part in ("N under 4", "N over 64", "along")]
BOUNDS += ["read %d past its table" % table for table in SIZES]
BOUNDS += ["exchange while not initialised", "transfer while not initialised"]
# one bound, and four ways to break it
LISTED = ["list in another order", "list for other marks", "list with more behind it", "list for no marks"]
BOUNDS += LISTED

# the right lists, one for each choice of marks
LISTS = [missing_of(some) for count in range(len(ASKED) + 1) for some in combinations(ASKED, count)]


def stores(pod):
    """'place of the oldest block under its capacity, waiting at most its capacity'."""
    for store, capacity in CAPACITY.items():
        if pod.oldest[store] >= capacity:
            yield "%s oldest" % NAMES[store]
        if pod.waiting[store] > capacity:
            yield "%s waiting" % NAMES[store]


def parameters(pod):
    """'each parameter in its row and parameter 1 below parameter 2'."""
    for id, (least, most, _, _) in ROWS.items():
        if pod.values[id] < least:
            yield "parameter %d under least" % id
        if pod.values[id] > most:
            yield "parameter %d over most" % id
    if pod.values[1] >= pod.values[2]:
        yield "parameter 1 not below 2"


def fields(pod):
    """'mode 0 to 3; poll 1 to 60,000; milliseconds 0 to 999; each remaining at most its
    limit'."""
    if pod.mode > 3:
        yield "mode"
    if pod.poll < 1:
        yield "poll 0"
    if pod.poll > 60000:
        yield "poll over 60000"
    if pod.milliseconds > 999:
        yield "milliseconds"
    for store in (PRIORITY, ORDINARY):
        if pod.remaining[store] > pod.limit[store]:
            yield "%s remaining" % NAMES[store]


def pipe(pod):
    """'0 to 7 bytes gathered; timeouts 0 to 15'; by request No. 3 '0 to 8 bytes in hand, and
    output timeouts 0 to 15'."""
    if len(pod.gathered) > 7:
        yield "gathered"
    if pod.timeouts > 15:
        yield "timeouts"
    if len(pod.hand) > 8:
        yield "in hand"
    if pod.output_timeouts > 15:
        yield "output timeouts"


def places(pod):
    """'each read place at most its table's size'."""
    for table, size in SIZES.items():
        if pod.places[table] > size:
            yield "place %d" % table


def transfer(pod):
    """'an open transfer 0 to N-1 words along, with N as its command allows, and an open read
    within its table'. A transfer that waits for an address has N 1 and no word yet."""
    held = pod.transfer
    if held is None or held.kind == "address":
        return
    name = "%s %d" % (held.kind, held.table)
    if held.n < 4:
        yield name + " N under 4"
    if held.n > 64:
        yield name + " N over 64"
    if len(held.words) >= held.n:
        yield name + " along"
    if held.kind == "read" and held.start + held.n - 3 > SIZES[held.table]:
        yield name + " past its table"


def asleep(pod):
    """'While not initialised, no exchange and no transfer is open.'"""
    if not pod.initialised and pod.exchange is not None:
        yield "exchange while not initialised"
    if not pod.initialised and pod.transfer is not None:
        yield "transfer while not initialised"


def listed(pod):
    """By request No. 5 'the kept list is exactly the one that document 01 defines from the written
    marks'."""
    right = missing_of(pod.written)
    if pod.missing == right:
        return
    if sorted(pod.missing) == sorted(right):
        yield "list in another order"
    elif pod.missing in LISTS:
        yield "list for other marks"
    elif [id for id in right if id] == pod.missing[:len(right) - right.count(0)]:
        yield "list with more behind it"
    else:
        yield "list for no marks"


def broken(pod):
    """The names of the bounds that the state breaks."""
    parts = (stores, parameters, fields, pipe, places, transfer, asleep, listed)
    return [name for part in parts for name in part(pod)]
