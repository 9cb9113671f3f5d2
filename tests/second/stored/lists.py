"""The kept list of missing ids: what each write makes of it, what leaves it alone, and lists that are refused."""

from itertools import combinations, permutations

from moves.edges import changed, marks, swapped
from ports.bounds import LISTS
from ports.params import ASKED, FRESH, PLACES, ROWS, missing_of

from .book import CALLS, INITIALISE, OTHER, awake, packet, packets, sealed

STATUS, SHUTDOWN = packet("9101"), packet("9F01")
UPDATE = packets.line_of(sealed(b"\x92\x01" + OTHER))
# with mode 4
REFUSED = [packet("%02X01 04" % code + "00" * 18 + "0001") for code in (0x90, 0x92)]
# the lines of every call but power on, one after another
ANY = [line for letter, lines in CALLS.items() if letter != "Z" for line in lines]


def write(id, value=None):
    """The line of a write, of the parameter's start where no value is given."""
    value = ROWS[id][2] if value is None else value
    return packets.line_of(sealed(bytes((0x93, 1, id)) + value.to_bytes(4, "big", signed=True)))


def orders():
    """Orders of the asked ids in which each comes behind each choice of the others."""
    left = {(frozenset(some), id) for id in ASKED for count in range(len(ASKED)) for some in combinations(ASKED, count)
            if id not in some}
    steps = {order: {(frozenset(order[:at]), order[at]) for at in range(len(order))} for order in permutations(ASKED)}
    while left:
        best = max(steps, key=lambda order: len(steps[order] & left))
        left -= steps[best]
        yield best


def struck(book):
    """Each asked id written behind each choice of the others, with a Status behind it; and written again when
    the others have been."""
    book.say(b"Z")
    for order in orders():
        book.refused(INITIALISE, 0)
        for id in order:
            book.refused(write(id), 0)
            book.say(STATUS)
        book.refused(write(order[0]), 0)


def kept(book):
    """What leaves the list alone: a second write, one of an id that is not asked, a refused one, an Update, a Shutdown.
    What refills it: Initialise and power."""
    for turn, written in enumerate(((), (1,), (2, 6), ASKED)):
        book.say(b"Z", INITIALISE)
        book.settle(marks(written, missing_of(written)))
        for id, (least, most, _, _) in ROWS.items():
            book.call(write(id, (least - 1, most + 1)[(turn + id) % 2]))
            if id in written or id not in ASKED:
                book.call(write(id))
        book.call(packet("9301 %02X 00000001" % (0, 13, 126, 255)[turn]))
        # by the span rule: 2 would stand where 1 does
        book.call(write(2, -2000))
        renewed = (INITIALISE, b"Z")[turn % 2]
        for line in (STATUS, UPDATE, STATUS, *REFUSED, b"D", STATUS, SHUTDOWN, STATUS, write(3), renewed, INITIALISE, STATUS):
            book.call(line)


def wrong_lists():
    """Marks, and lists that are not theirs."""
    for turn, written in enumerate(((), (3, 7), ASKED)):
        right = missing_of(written)
        for at in range(PLACES):
            for id in (right[at] ^ 1 << (at + 3 * turn) % 8, (255, 7, 0)[at % 3]):
                yield written, changed(right, at, id)
    for pair in combinations(range(PLACES), 2):
        yield (), swapped(FRESH, *pair)
    for other in LISTS:
        yield (3, 7), other
    # ids twice, with a gap, falling, behind zeros, not asked, in every place
    for other in ([1, 1, 2, 3, 6, 7, 0, 0], [1, 2, 3, 6, 7, 7, 0, 0], [1, 2, 0, 3, 6, 7, 0, 0], [7, 6, 3, 2, 1, 0, 0, 0],
                  [0, 0, 0, 1, 2, 3, 6, 7], [0, 1, 2, 3, 6, 7, 0, 0], [1, 2, 3, 4, 5, 6, 7, 8], [255] * 8):
        yield (), other


def wrong(book):
    """One place wrong, two swapped, zeros that are not zero, a list for other marks: refused by 3 until power, or until
    the list is right again."""
    awake(book)
    for turn, (written, other) in enumerate(wrong_lists()):
        if other == missing_of(written):
            continue
        book.settle(marks(written, other))
        book.refused(ANY[turn % len(ANY)], 3)
        if turn % 4 == 3:
            book.refused(b"Z", 0)
        else:
            book.settle(marks(written, missing_of(written)))
        book.say(b"D")
        assert book.answers[-1] == b"D", (written, other)


def one_mark(book):
    """'`X writtenN` changes the mark alone': one more and one fewer are refused by 3, unless the mark was so before or
    the parameter is not asked."""
    awake(book)
    for written in ((), (3, 7), ASKED):
        for id in ROWS:
            book.settle(marks(written, missing_of(written)))
            was = id in book.pod.written
            for mark in (was, not was):
                book.say(b"X written%d %d" % (id, mark))
                book.refused(STATUS, 3 if mark != was and id in ASKED else 0)
    # only power mends it: a write of the very id, an Update, an Initialise and a Shutdown are refused too
    for id in ASKED:
        book.say(b"Z", INITIALISE, b"X written%d 1" % id)
        for line in (write(id), UPDATE, INITIALISE, SHUTDOWN):
            book.refused(line, 3)
        for line in (b"Z", INITIALISE, STATUS):
            book.refused(line, 0)


def set_by_hand(book):
    """Each place set by itself, and then all of them for the marks that are there."""
    awake(book)
    for at in range(PLACES):
        book.say(b"X missing%d %d" % (at, 100 + at))
        book.look()
    book.refused(STATUS, 3)
    book.say(*(b"X missing%d %d" % pair for pair in enumerate(missing_of((3, 7)))))
    book.refused(STATUS, 0)
    book.refused(write(1), 0)
    book.refused(STATUS, 0)
