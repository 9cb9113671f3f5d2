#!/usr/bin/env python3
"""The lines that the program `show_tables` must print, worked out from document 01's section on table words.

With no word, compares them with crates/show_tables/stdout; with the word print, prints them.
"""
import sys

from shown import held

# The words of each table, and where a read starts on a port just started.
SIZES = {5: 64, 6: 128, 7: 64}
PLACE = 0


def accepted(word):
    """Whether a port just started accepts a command word, with the pod initialised."""
    digits = f"{word:016b}"
    if digits.count("1") % 2 == 0:
        return False
    reading = digits[1] == "1"
    command = int(digits[2:7], 2)
    length = int(digits[7:], 2)
    if command == 0:
        return not reading and length in (0, 1)
    if command == 1:
        return not reading and length == 1
    if command not in SIZES or length not in range(4, 65):
        return False
    return not reading or PLACE + length - 3 <= SIZES[command]


def lines():
    """A line for each word that is accepted, the two that differ in bit 15 alone side by side, and the total."""
    total = 0
    for low in range(32768):
        for word in (low, low + 32768):
            if accepted(word):
                total += 1
                way = "read" if word >> 14 & 1 else "write"
                yield f"parity {word >> 15} {way} {word >> 9 & 31} N {word & 511}"
    yield f"accepted {total} of 65536"


if __name__ == "__main__":
    sys.exit(held("show_tables", lines()))
