"""Moves on the word port."""

from ports.sizes import SIZES

READ = 0x4000


def odd(word):
    """The word with bit 15 set so that the count of ones is odd."""
    word &= 0x7FFF
    return word if bin(word).count("1") % 2 else word | 0x8000


def command_word(command, n, way=0):
    """A command word of right parity."""
    return odd(way | command << 9 | n)


def say_command(s, word):
    """Say a command word."""
    s.say(b"C %04X" % word)


def say_word(s, word):
    """Say a data word in."""
    s.say(b"W %04X" % word)


def some_n(rng):
    """A length that is accepted, often at an edge."""
    return rng.choice((4, 5, 64, 63, rng.randint(4, 64), rng.randint(4, 16), rng.randint(4, 8)))


def load_address(rng, size, count):
    """An address that is taken in most cases, else at an edge outside."""
    if rng.random() < 0.65:
        return rng.choice((0, size - count, rng.randint(0, size - count)))
    return rng.choice((size - count + 1, size - 1, size, 63, 64, 127, 128, 65535,
                       65536 - count, 65535 - count, 0x8000, rng.getrandbits(16)))


def load_words(s, table, n):
    """The words of a load, with none, one or more of the first three wrong."""
    rng = s.rng
    words = [table, load_address(rng, SIZES[table], n - 3), n - 3]
    chance = rng.random()
    if chance < 0.12 or chance > 0.97:
        words[0] = rng.choice((table ^ 1, table + 0x100, table + 0x8000, 0, 5, 6, 7, 0xFFFF,
                               command_word(table, n)))
    if 0.12 < chance < 0.24 or chance > 0.97:
        words[2] = rng.choice((n - 1, n - 2, n - 4, n + 4, n, 0, 0xFFFF, n - 3 + 0x100, n - 3 + 0x8000))
        if words[2] > 0xFF:
            words[1] = rng.randint(0, 3)
    return words + [rng.choice((0, 0xFFFF, rng.getrandbits(16))) for _ in range(n - 3)]


def cut_places(rng, n):
    """Where in a transfer something else is said: mostly nowhere."""
    if rng.random() < 0.55:
        return ()
    return {rng.choice((0, 1, 2, 3, n - 1, rng.randint(0, n - 1)))}


def load(s):
    """A load, perhaps cut, and a look at what it did."""
    rng = s.rng
    table, n = rng.choice((5, 6, 7)), some_n(rng)
    words = load_words(s, table, n)
    cuts = cut_places(rng, n)
    say_command(s, command_word(table, n))
    for at, word in enumerate(words):
        if at in cuts:
            s.interlude()
            if s.pod.transfer is None and rng.random() < 0.7:
                break
        say_word(s, word)
    if rng.random() < 0.5:
        s.say(b"S")
    if rng.random() < 0.5:
        look(s, table, words[1], n)


def look(s, table, address, n):
    """Read the words about an address where they are in the table."""
    first = max(0, min(address, SIZES[table] - 1) - 1)
    count = min(s.rng.choice((n - 1, 2, 3)), SIZES[table] - first, 61)
    give_address(s, first)
    say_command(s, command_word(table, count + 3, READ))
    for _ in range(count + 3):
        s.say(b"R")


def give_address(s, address):
    """Command 1 and its word."""
    say_command(s, command_word(1, 1))
    say_word(s, address)


def measured(s, table, n):
    """A right load of N words, and a read of the same N from the same address."""
    count = n - 3
    first = s.rng.choice((0, SIZES[table] - count, s.rng.randint(0, SIZES[table] - count)))
    say_command(s, command_word(table, n))
    for word in [table, first, count] + [s.rng.getrandbits(16) for _ in range(count)]:
        say_word(s, word)
    give_address(s, first)
    say_command(s, command_word(table, n, READ))
    for _ in range(n):
        s.say(b"R")


def address(s):
    """Give an address at an edge, perhaps cut off."""
    rng = s.rng
    say_command(s, command_word(1, 1))
    if rng.random() < 0.25:
        s.interlude()
    if rng.random() < 0.9:
        say_word(s, rng.choice((0, 1, 3, 60, 61, 62, 63, 64, 65, 67, 124, 127, 128, 65535,
                                65535 - 61, 65536 - 61, rng.getrandbits(16))))
    if rng.random() < 0.6:
        read(s)


def read_length(s, table):
    """A length whose read just fits, just passes the end, or any."""
    rng, pod = s.rng, s.pod
    start = pod.places[table] if pod.address is None else pod.address
    room = SIZES[table] - start
    near = [n for n in (room + 2, room + 3, room + 4) if 4 <= n <= 64]
    return rng.choice(near) if near and rng.random() < 0.5 else some_n(rng)


def read(s):
    """A read, perhaps cut, perhaps one word too many."""
    rng = s.rng
    table = rng.choice((5, 6, 7))
    n = read_length(s, table)
    cuts = cut_places(rng, n)
    say_command(s, command_word(table, n, READ))
    for at in range(n + rng.choice((0, 0, 0, 1))):
        if s.pod.transfer is None and rng.random() < 0.6:
            break
        if at in cuts:
            s.interlude()
        s.say(b"R")
    if rng.random() < 0.3:
        s.say(b"S")


def whole_table(s):
    """Read a whole table from address 0 in as few reads as can be."""
    table = s.rng.choice((5, 6, 7))
    give_address(s, 0)
    left = SIZES[table]
    while left:
        count = min(left, 61)
        say_command(s, command_word(table, count + 3, READ))
        for _ in range(count + 3):
            s.say(b"R")
        left -= count
    say_command(s, command_word(table, 4, READ))


def stop(s):
    """Stop."""
    say_command(s, 0x8000)


def starts(s):
    """Tables to their starts, and perhaps a look."""
    say_command(s, command_word(0, 1))
    if s.rng.random() < 0.5:
        read(s)


def bad_command(s):
    """A command word that is not accepted in most states."""
    rng = s.rng
    table = rng.choice((5, 6, 7))
    say_command(s, rng.choice((
        command_word(table, some_n(rng), rng.choice((0, READ))) ^ 0x8000,
        command_word(*rng.choice(((0, 0), (0, 1), (1, 1)))) ^ 0x8000,
        command_word(0, rng.choice((2, 3, 256, 511))),
        command_word(0, rng.choice((0, 1, 2)), READ),
        command_word(1, rng.choice((0, 2, 257, 511))),
        command_word(1, rng.choice((0, 1)), READ),
        command_word(rng.choice((2, 3, 4, 8, 13, 31)), rng.choice((1, 4, 64)), rng.choice((0, READ))),
        command_word(table, rng.choice((0, 1, 2, 3)), rng.choice((0, READ))),
        command_word(table, rng.choice((65, 66, 68, 128, 260, 511)), rng.choice((0, READ))),
        rng.getrandbits(16))))


def twin(s):
    """The twin, in bit 15, of a command word that is accepted, between two status words: it alone can have set the error."""
    kind = s.rng.choice(((0, 0), (0, 1), (1, 1), (s.rng.choice((5, 6, 7)), some_n(s.rng), s.rng.choice((0, READ)))))
    status_word(s)
    say_command(s, command_word(*kind) ^ 0x8000)
    status_word(s)


def stray(s):
    """A data word in or out, whatever is open."""
    if s.rng.random() < 0.5:
        say_word(s, s.rng.choice((0, 5, 0xFFFF, s.rng.getrandbits(16))))
    else:
        s.say(b"R")


def status_word(s):
    """The status word."""
    s.say(b"S")
