"""Wrong in how the ones of a command word are counted."""

from model import Pod

from .named import WRONG


def ones(word):
    """How many there are."""
    return bin(word).count("1")


# by name, whether the pod takes the count of ones for odd
JUDGED = {
    "even parity is accepted": lambda word: ones(word) % 2 == 0,
    "either parity is accepted": lambda word: True,
    "either parity is accepted of a read": lambda word: ones(word) % 2 == 1 or word & 0x4000 != 0,
    "either parity is accepted of commands 6 and 7": lambda word: ones(word) % 2 == 1 or word >> 9 & 0x1F in (6, 7),
    "8001 is taken for the starts": lambda word: ones(word) % 2 == 1 or word == 0x8001,
    "0201 is taken for an address": lambda word: ones(word) % 2 == 1 or word == 0x0201,
    "the ones of the low byte are counted": lambda word: ones(word & 0xFF) % 2 == 1,
    "the ones of the high byte are counted": lambda word: ones(word >> 8) % 2 == 1,
    "more than seven ones are taken for even": lambda word: ones(word) in (1, 3, 5, 7),
}
# a word that is accepted can have a one at each of these
for place in (0, 1, 2, 3, 4, 5, 6, 9, 10, 11, 14, 15):
    JUDGED["bit %d is not counted" % place] = lambda word, bit=1 << place: ones(word & ~bit) % 2 == 1


class Counting(Pod):
    """Bit 15 says nothing but the parity, so a pod that counts otherwise is one that is told another bit 15."""

    def __init__(self, judged):
        self.judged = judged
        super().__init__()

    def command_word(self, word):
        low = word & 0x7FFF
        top = 0x8000 if self.judged(word) == (ones(low) % 2 == 0) else 0
        return super().command_word(low | top)


for name, judged in JUDGED.items():
    assert name not in WRONG, name
    WRONG[name] = lambda judged=judged: Counting(judged)
