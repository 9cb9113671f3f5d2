"""The output half of the byte pipe: every count in hand with every call of it, and what closes it."""

from .book import INITIALISE, awake, out, packet, sampled

COUNTS = (0, 1, 14, 15)


def hold(book, count):
    """So many bytes in hand, the last ones of a packet."""
    book.settle(["initialised 1", "out 0"])
    if count:
        book.say(out(count), *[b"K"] * (8 - count))


def handed(book):
    """Every count in hand, and a frame behind what each call makes of it."""
    awake(book)
    for count in range(9):
        for turn, line in enumerate((b"K", b"T", out(9), out(9, 7), b"I 5A")):
            hold(book, count)
            book.settle(["gathered %d" % ((count + turn) % 8), "timeouts %d" % COUNTS[turn % 4],
                         "outtimeouts %d" % COUNTS[(turn + count) % 4]])
            book.call(sampled())
            book.call(line)
            book.call(sampled())
    hold(book, 8)
    for _ in range(9):
        book.call(b"K")


def beside(book):
    """Neither half sees the other, and no exchange and no transfer ends."""
    awake(book)
    for line in (out(2), b"K", b"T", b"O 00"):
        for code in (0x91, 0x95):
            hold(book, 0 if line == out(2) else 4)
            book.settle(["gathered 3", "exchange -1", "transfer 7 0 9 2 0"])
            book.say(packet("%02X01" % code))
            book.call(line)
            book.call(packet("%02X017E" % code))


def counted(book):
    """'15 meaning 15 or more', of each half alone and of both at once."""
    for lines in ((b"O",), (b"I 33",), (b"I 33", b"O")):
        book.settle(["gathered 0", "timeouts 13", "out 0", "outtimeouts 13"])
        for turn in range(4):
            book.say(*(out(turn) if line == b"O" else line for line in lines))
            book.call(b"T")
            book.call(sampled())
    book.call(b"T")


def kept(book):
    """Shutdown and Update keep this half, Initialise and power empty it; a refused one does not."""
    for count in (1, 8):
        for line in (INITIALISE, b"Z", packet("9001 04" + "00" * 18 + "0001")):
            awake(book)
            hold(book, count)
            book.call(packet("9201 01" + "00" * 18 + "0001"))
            book.call(packet("9F01"))
            for refused, number in ((out(3), 6), (out(3, 9), 22), (b"K", 6), (b"T", 6), (sampled(), 0)):
                book.refused(refused, number)
            book.call(line)
            book.call(sampled())


def set_by_hand(book):
    """'`out` n, n bytes of 0 in hand'; the output timeouts are kept."""
    hold(book, 5)
    book.settle(["outtimeouts 7"])
    book.look()
    for count in (3, 9, 8):
        book.say(b"X out %d" % count)
        book.look()
    book.call(b"K")
    book.say(b"X outtimeouts 255")
    book.call(b"K")
    book.say(b"X outtimeouts 15")
    book.call(b"T")
