"""Command words and their twins in bit 15."""

from moves.words import command_word

from .book import READ, awake

TABLES = [(table, n, way) for table in (5, 6, 7) for way in (0, READ) for n in (4, 8, 16, 32, 63, 64)]
# the starts come last: until then the tables hold what was loaded
KINDS = [(0, 0), (1, 1)] + TABLES + [(0, 1)]


def twins(book):
    """Each kind of word that is accepted, behind its twin of even parity, which is not: what each leaves, and the status word."""
    awake(book)
    for kind in KINDS:
        word = command_word(*kind)
        for said in (word ^ 0x8000, word):
            book.call(b"C %04X" % said)
            book.say(b"S")
