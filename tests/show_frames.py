#!/usr/bin/env python3
"""The two status frames a second time, from document 01 ("Frames and pipe"), request No. 3 and the byte-pipe tables of document 000.

Works out the text that the program `show_frames` prints and compares it with that program's stored stdout.
Prints `show_frames: ok`, or the first line that differs and exits with status 1.
"""
import sys

from shown import held


def place(frame, where, value):
    """Puts value at byte.high-low or byte.bit, as the guide writes it, bit by bit."""
    byte, bits = where.split(".")
    high, _, low = bits.partition("-")
    low = low or high
    for n in range(int(low), int(high) + 1):
        if value >> (n - int(low)) & 1:
            assert not frame[int(byte)] >> n & 1, where
            frame[int(byte)] |= 1 << n
    assert value >> (int(high) - int(low) + 1) == 0, (where, value)


def channel(frame, at, value):
    """Low byte, then bits 9 and 8."""
    place(frame, "%d.7-0" % at, value & 0xFF)
    place(frame, "%d.1-0" % (at + 1), value >> 8)


def frames(samples, gathered, timeouts, initialised, selfcheck, hand=0, dropped=0):
    if len(samples) != 128:
        return "length"
    if max(samples) > 1023:
        return "over"
    averages = [sum(samples[c::8]) // 16 for c in range(8)]
    an03, an47 = [0] * 8, [0] * 8
    place(an03, "0.7-4", timeouts)
    place(an03, "0.3-0", dropped)
    channel(an03, 2, averages[1])
    place(an03, "3.7", 1 if 1 <= gathered <= 7 else 0)
    channel(an03, 4, averages[2])
    place(an03, "5.7", 1 if 1 <= hand <= 8 else 0)
    place(an03, "5.2", 1 if initialised else 0)
    channel(an03, 6, averages[3])
    place(an03, "7.6-2", selfcheck)
    channel(an47, 2, averages[5])
    channel(an47, 4, averages[6])
    channel(an47, 6, averages[7])
    return " ".join("%02X" % b for b in an03 + an47)


def alone(k, v):
    return [v if j == k else 0 for j in range(128)]


def texts():
    zeros = [0] * 128
    yield frames(zeros, 0, 0, False, 0)
    yield frames([1023] * 128, 0, 0, True, 31)
    yield frames(zeros, 0, 0, True, 0)
    for c in range(8):
        yield frames([1023 if k % 8 == c else 0 for k in range(128)], 0, 0, False, 0)
    for v in (1023, 1024):
        for k in range(128):
            yield frames(alone(k, v), 0, 0, False, 0)
    for n in range(32):
        yield frames(zeros, 0, 0, False, n)
    for given in range(1, 9):
        yield frames(zeros, given % 8, 0, False, 0)
    for sent in range(1, 17):
        yield frames(zeros, 0, min(sent, 15), False, 0)
    for taken in range(10):
        yield frames(zeros, 0, 0, False, 0, hand=max(8 - taken, 0))
    for dropped in range(1, 17):
        yield frames(zeros, 0, 0, False, 0, dropped=min(dropped, 15))


if __name__ == "__main__":
    sys.exit(held("show_frames", texts()))
