"""Memory that is kept, and each bound of the state with every call."""

from moves.edges import EDGES
from ports.sizes import SIZES

from .book import CALLS, INITIALISE, READ, awake, command, packet, put


def kept_memory(book):
    """'`Z` works in every state and keeps the stores' bytes'; so does Initialise."""
    awake(book)
    for line in (INITIALISE, b"Z"):
        book.call(line)
    for digit, capacity in enumerate((16, 128)):
        # the place behind the last block is the first again
        letter = (b"p", b"o")[digit]
        book.settle(["initialised 1", "limit%d 9" % digit, "remaining%d 2" % digit,
                     "oldest%d %d" % (digit, capacity - 1)])
        for turn in (7, 8, 9):
            book.call(put(letter, turn))
        code = (0x95, 0x96)[digit]
        for line in (packet("%02X01" % code), packet("%02X017E" % code)) * 3:
            book.call(line)
        # 'were the store empty or its remaining 0, neither would change'
        for waiting, remaining in ((0, 2), (2, 0)):
            book.settle(["waiting%d %d" % (digit, waiting), "remaining%d %d" % (digit, remaining),
                         "exchange %d" % code])
            book.call(packet("%02X017E" % code))
    book.call(b"Z")


def free_parts(book):
    """What no bound holds, at its greatest: flags, seconds, limits, marks with the list that goes with
    them, and the given address with reads up to the table's end and past it."""
    awake(book)
    book.settle(["flags 65535", "seconds 4294967295", "limit0 65535", "limit1 4294967295", "remaining1 4294967295"]
                + ["written%d 1" % id for id in range(1, 13)] + ["missing%d 0" % at for at in range(8)])
    for line in (packet("9101"), packet("91017E"), packet("9601"), packet("96017E"), b"S"):
        book.call(line)
    for table, size in SIZES.items():
        for n in (4, 64):
            for start in (size - (n - 3), size - (n - 3) + 1, 65536 - (n - 3), 65535):
                book.settle(["transfer -1", "error 0", "address %d" % start])
                book.call(command(table, n, READ))
            for place in (size - (n - 3), size - (n - 3) + 1, size):
                book.settle(["transfer -1", "error 0", "address -1", "place%d %d" % (table, place)])
                book.call(command(table, n, READ))


def bounds(book):
    """'each bound one inside and one outside with every call'."""
    awake(book)
    for turn, edge in enumerate(EDGES):
        calls = [choice[turn % len(choice)] for choice in CALLS.values()]
        for settings in (edge.outside, edge.inside):
            if not settings:
                continue
            book.say(b"X initialised 1")
            for line in calls:
                book.settle(settings)
                answer = book.call(line)
                assert (b" !3" in answer) == (settings is edge.outside and line != b"Z"), (edge, line)
