"""'Sizes: priority store 16 blocks, ordinary store 128 blocks, of 256 bytes; table 5 has 64
words, table 6 has 128, table 7 has 64.' A store is named by the code that reads it."""

PRIORITY = 0x95
ORDINARY = 0x96
NAMES = {PRIORITY: "priority", ORDINARY: "ordinary"}
LETTERS = {PRIORITY: "p", ORDINARY: "o"}
BLOCK = 256
CAPACITY = {PRIORITY: 16, ORDINARY: 128}
SIZES = {5: 64, 6: 128, 7: 64}
