#!/usr/bin/env python3
"""The lines that the program vectors must print, from Python's own CRC.

With no word, compares them with crates/vectors/stdout; with the word print, prints them.
"""
import binascii
import sys

from shown import held


def crc(data):
    return "%04X" % binascii.crc_hqx(data, 0xFFFF)


def strings():
    """A string of each length from 0 to 4,096, from the example generator of the C standard."""
    x = 1
    for length in range(4097):
        data = bytearray(length)
        for i in range(length):
            x = (x * 1103515245 + 12345) & 0x7FFFFFFF
            data[i] = (x >> 16) & 0xFF
        yield bytes(data)


def main():
    lines = [crc(b"123456789")] + [crc(data) for data in strings()]
    if lines[0] != "29B1":
        print("vectors: Python's CRC of 123456789 is not the catalogue's 29B1")
        return 1
    return held("vectors", lines)


if __name__ == "__main__":
    sys.exit(main())
