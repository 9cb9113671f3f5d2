"""The stored session of `lab`: every line of X, L and V, every row at its edge, each kind of command
word in both parities, the kept list through every write, and each bound of the state one inside and one outside with
every call."""

from . import bounds, forms, lists, output, parity, rows
from .book import Book


def make():
    """The session."""
    book = Book()
    for part in (forms.names, forms.numbers, forms.transfers, forms.lent, bounds.kept_memory, bounds.free_parts,
                 output.handed, output.beside, output.counted, output.kept, output.set_by_hand,
                 lists.struck, lists.kept, lists.wrong, lists.one_mark, lists.set_by_hand,
                 parity.twins, rows.sizes, rows.unused, rows.edges, rows.orders, bounds.bounds):
        part(book)
    return book
