"""Every row of the refused calls at its edge, and their order."""

from itertools import product

from ports.refusal import LENT, RIGHT

from .book import CALLS, awake, command, out, packet, put, sampled

# the calls of document 01 by their names: a line that is answered, on a pod with room for it
LINES = {
    "packet": packet("9101"), "deadline": b"D", "put p": put(b"p", 5), "put o": put(b"o", 6),
    "command word": command(6, 4, 0x4000), "data word in": b"W 1234", "data word out": b"R",
    "status word": b"S", "samples": sampled(), "pipe byte": b"I 5A", "pipe timeout": b"T",
    "packet out": out(4), "taken": b"K", "power on": b"Z",
}
# refused by 6
ASLEEP = ("put p", "put o", "pipe byte", "pipe timeout", "packet out", "taken")
assert {line[:1].decode() for line in LINES.values()} == set(CALLS)


def sizes(book):
    """Rows 1 and 2: 'answer room under 260 bytes', 'a lent store or table is not its exact
    size'."""
    awake(book)
    for call, line in LINES.items():
        for thing in LENT[call]:
            right = RIGHT[thing]
            for size in (0, right - 1, right, right + 1, right + 1024):
                book.say(b"L %s %d" % (thing.encode(), size))
                wrong = (size < right, 1) if thing == "room" else (size != right, 2)
                book.refused(line, wrong[1] if wrong[0] else 0)
        if call == "power on":
            awake(book)


def unused(book):
    """'Each row applies only to calls that are lent the thing.'"""
    awake(book)
    for call, line in LINES.items():
        others = [thing for thing in RIGHT if thing not in LENT[call]]
        if others:
            book.say(*(b"L %s %d" % (thing.encode(), RIGHT[thing] - 1) for thing in others))
            book.refused(line, 0)


def edges(book):
    """The other rows at their edges."""
    awake(book)
    for size in (8, 0, 1, 7, 9, 16, 255, 256):
        book.settle(["out 0"])
        book.refused(out(6, size), 0 if size == 8 else 22)
    for count in range(9):
        book.settle(["out %d" % count])
        book.refused(out(7), 21 if count else 0)
    for letter, digit, capacity in ((b"p", 0, 16), (b"o", 1, 128)):
        for size in (0, 1, 255, 256, 257):
            book.refused(put(letter, 3, size), 0 if size == 256 else 4)
        for waiting in (capacity - 1, capacity):
            book.settle(["waiting%d %d" % (digit, waiting)])
            book.refused(put(letter, 9), 7 if waiting == capacity else 0)
    for size in (0, 127, 128, 129):
        book.refused(sampled(size=size), 0 if size == 128 else 4)
    for check, highest in ((31, 1023), (32, 1023), (31, 1024), (255, 65535)):
        book.refused(sampled(check, highest=highest), 0 if (check, highest) == (31, 1023) else 5)
    for asleep in (False, True):
        book.settle(["waiting0 3", "waiting1 3", "exchange -1", "transfer -1", "initialised %d" % (not asleep)])
        for call, line in LINES.items():
            book.refused(line, 6 if asleep and call in ASLEEP else 0)


def lowest(book, call, numbers, line_of):
    """A call with each choice of these rows holding: the first of them is given."""
    for held in product((False, True), repeat=len(numbers)):
        rows = [number for number, holds in zip(numbers, held) if holds]
        book.settle(["mode %d" % (4 if 3 in rows else 2), "initialised %d" % (6 not in rows),
                     "waiting0 %d" % (16 if 7 in rows else 15), "out %d" % (5 if 21 in rows else 0)])
        if 1 in rows:
            book.say(b"L room 259")
        if 2 in rows:
            thing = LENT[call][-1]
            book.say(b"L %s %d" % (thing.encode(), RIGHT[thing] + 1))
        book.refused(line_of(rows), rows[0] if rows else 0)


def orders(book):
    """Every choice of the rows that apply to a call."""
    awake(book)
    book.settle(["exchange -1", "transfer -1"])
    lowest(book, "put p", (2, 3, 4, 6, 7), lambda rows: put(b"p", 7, 255 if 4 in rows else 256))
    lowest(book, "samples", (3, 4, 5), lambda rows: sampled(
        32 if 5 in rows else 31, 127 if 4 in rows else 128, 1024 if 5 in rows else 1023))
    lowest(book, "packet out", (3, 22, 6, 21), lambda rows: out(7, 7 if 22 in rows else 8))
    for call in ("pipe byte", "pipe timeout", "taken"):
        lowest(book, call, (3, 6), lambda rows, call=call: LINES[call])
    for call in ("packet", "command word", "data word in", "data word out"):
        lowest(book, call, (1, 2, 3) if call == "packet" else (2, 3), lambda rows, call=call: LINES[call])
    for line in (b"P", b"P 00"):
        lowest(book, "packet", (1, 2, 3), lambda rows, line=line: line)
