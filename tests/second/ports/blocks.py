"""The two stores of waiting blocks, each a ring over its memory.

'Old block bytes may lie in a store, but no answer shows them': so an empty store keeps its
bytes, and so does the place of a block that was dropped.
"""

from .labels import declare, hit
from .refusal import Refused
from .sizes import BLOCK, CAPACITY, LETTERS, NAMES, ORDINARY, PRIORITY

declare(*["put %s: %s" % (name, what) for name in NAMES.values()
          for what in ("not 256 bytes", "not initialised", "full", "taken", "fills the store")])
declare("put: wrong size while not initialised", "put: full while not initialised",
        "put: while its store's exchange is open")


class Blocks:
    """Put, oldest and drop."""

    def stores_new(self):
        """Memory that no block was put to."""
        self.memory = {store: bytearray(CAPACITY[store] * BLOCK) for store in NAMES}

    def stores_empty(self):
        """'stores empty'."""
        self.oldest = {PRIORITY: 0, ORDINARY: 0}
        self.waiting = {PRIORITY: 0, ORDINARY: 0}

    def block_at(self, store, behind):
        """Where the block so many behind the oldest lies."""
        first = (self.oldest[store] + behind) % CAPACITY[store] * BLOCK
        return slice(first, first + BLOCK)

    def put(self, store, block):
        """'The camera's put adds a block behind the others; room freed is used again.'"""
        name = NAMES[store]
        self.rows("put " + LETTERS[store])
        full = self.waiting[store] == CAPACITY[store]
        if len(block) != BLOCK:
            hit("put %s: not 256 bytes" % name)
            if not self.initialised:
                hit("put: wrong size while not initialised")
            raise Refused(4)
        if not self.initialised:
            hit("put %s: not initialised" % name)
            if full:
                hit("put: full while not initialised")
            raise Refused(6)
        if full:
            hit("put %s: full" % name)
            raise Refused(7)
        hit("put %s: taken" % name)
        if self.exchange == store:
            hit("put: while its store's exchange is open")
        self.memory[store][self.block_at(store, self.waiting[store])] = block
        self.waiting[store] += 1
        if self.waiting[store] == CAPACITY[store]:
            hit("put %s: fills the store" % name)

    def drop(self, store):
        """'the oldest block of that store is dropped and its remaining falls by 1; were the
        store empty or its remaining 0, neither would change.'"""
        if self.waiting[store] and self.remaining[store]:
            self.oldest[store] = (self.oldest[store] + 1) % CAPACITY[store]
            self.waiting[store] -= 1
            self.remaining[store] -= 1
