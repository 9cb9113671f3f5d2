#!/usr/bin/env python3
"""The packet port of document 01 at the edges of its check list, worked out a second time.

Written from document 01 alone. It prints 'show_packets: ok' if the stored output of the program `show_packets`
is the text worked out here, or the first line that differs; the exit status tells the same.
"""
import binascii
import struct
import sys

from shown import held

CRC_START = 0xFFFF

# Code: name, bytes of the packet. From the packet table.
TABLE = {
    0x90: ("initialise", 25),
    0x91: ("status", 4),
    0x92: ("update", 25),
    0x93: ("write", 9),
    0x94: ("read", 5),
    0x95: ("priority", 4),
    0x96: ("data", 4),
    0x9F: ("shutdown", 4),
}


def crc(data):
    return binascii.crc_hqx(bytes(data), CRC_START)


def sealed(data):
    return bytes(data) + struct.pack(">H", crc(data))


def pairs(data):
    return "".join(" %02X" % b for b in data)


def in_bounds(fields):
    mode, _flags, _seconds, ms, plimit, pleft, mlimit, mleft, poll = fields
    return (
        0 <= mode <= 3
        and 0 <= ms <= 999
        and pleft <= plimit
        and mleft <= mlimit
        and 1 <= poll <= 60000
    )


def fields_text(fields):
    text = "".join(" %d" % x for x in fields)
    return text + (" in bounds" if in_bounds(fields) else " out of bounds")


def read_fields(packet):
    mode, flags, time, plimit, pleft, mlimit, mleft, poll = struct.unpack(
        ">BHIHHIIH", packet[2:23]
    )
    return (mode, flags, time >> 10, time & 0x3FF, plimit, pleft, mlimit, mleft, poll)


def is_acknowledgement(p):
    if len(p) != 5 or crc(p[:3]) != struct.unpack(">H", p[3:])[0]:
        return False
    if not 0x90 <= p[0] <= 0x9F:
        return False
    return (p[1] == 0x01 and p[2] == 0x7E) or p[1] == 0x09


def taken_as(p):
    p = bytes(p)
    if not p:
        return " nothing"
    error = lambda number: " error" + pairs([p[0], number])
    if len(p) < 4 or crc(p[:-2]) != struct.unpack(">H", p[-2:])[0]:
        return error(0x01)
    if is_acknowledgement(p):
        return " acknowledgement" + pairs(p[:2])
    if p[0] not in TABLE:
        return error(0x02)
    if p[1] != 0x01:
        return error(0x3C)
    name, size = TABLE[p[0]]
    if len(p) != size:
        return error(0x01)
    text = " " + name
    if name in ("initialise", "update"):
        return text + fields_text(read_fields(p))
    if name == "write":
        value = struct.unpack(">i", p[3:7])[0]
        return text + pairs(p[2:7]) + (" below 0" if value < 0 else "")
    if name == "read":
        return text + pairs(p[2:3])
    return text


def packet_line(p):
    return "P" + pairs(p) + " =" + taken_as(p)


# What stands behind the first three bytes of a packet made for the lists below.
PATTERN = bytes.fromhex(
    "A1B2 12345679 0201 0103 80000009 007FFEFD 03E8 C7D6E5F413243546 57".replace(" ", "")
)


def made(first, second, third, size, off=0):
    body = (bytes([first, second, third]) + PATTERN)[: size - 2]
    p = bytearray(sealed(body))
    p[-1] ^= off
    return bytes(p)


def packets():
    yield b""
    yield made(0x91, 1, 2, 2)
    yield made(0x91, 1, 2, 3)
    yield made(0x91, 1, 2, 3, 1)
    for first in range(0x8F, 0xA1):
        for second in (0, 1, 2, 8, 9, 10):
            yield made(first, second, 2, 4)
    for code in sorted(TABLE):
        size = TABLE[code][1]
        for n in (size - 1, size, size + 1):
            yield made(code, 1, 2, n)
            yield made(code, 1, 2, n, 1)
    for first in (0x8F, 0x90, 0x94, 0x97, 0x9F, 0xA0):
        yield made(first, 0x01, 0x7E, 5)
        yield made(first, 0x01, 0x7E, 5, 0x80)
        for second, third in ((1, 0x7D), (1, 0x7F), (2, 0x7E), (8, 0x7E), (9, 0), (9, 0x7E)):
            yield made(first, second, third, 5)
        yield made(first, 0x09, 0xFF, 5, 1)
        yield made(first, 0x09, 0xFF, 5)
        yield made(first, 0x0A, 0x7E, 5)
        for n in (4, 6):
            yield made(first, 0x01, 0x7E, n)
            yield made(first, 0x09, 0x7E, n)
    for value in (0, 2**31 - 1, -(2**31), -1):
        yield sealed(struct.pack(">BBBi", 0x93, 0x01, 0x05, value))
    # the shown session
    for text in ("9F0105FB", "FFFF0000", "91", ""):
        yield bytes.fromhex(text)


def field_lists():
    base = (3, 0xFFFF, 0xFFFFFFFF, 999, 16, 16, 70000, 70000, 60000)
    changed = lambda place, x: base[:place] + (x,) + base[place + 1 :]
    yield base
    yield changed(0, 4)
    yield changed(3, 1000)
    yield changed(5, 17)
    yield changed(7, 70001)
    yield changed(8, 60001)
    yield changed(8, 0)
    yield changed(8, 1)


ROOM = 262


class Room:
    """A room whose bytes are all 0xEE until an answer is written from its start."""

    def __init__(self):
        self.bytes = bytearray(b"\xEE" * ROOM)

    def write(self, *head_and_body):
        answer = sealed(b"".join(head_and_body))
        self.bytes[: len(answer)] = answer
        return "answer %d :" % len(answer) + pairs(self.bytes)


def answer_lines():
    room = Room()
    yield room.write(bytes([0x9F, 0x09, 0x38]))
    yield room.write(bytes([0x90, 0x01, 0x7E]))
    status = struct.pack(">BHHIB", 3, 0x1234, 0x0110, 0x01020380, 0)
    yield room.write(bytes([0x91, 0x01]), status, bytes([1, 2, 3, 6, 7, 0, 0, 0]))
    block = bytearray(b"\xA5" * 256)
    block[0], block[255] = 0x01, 0xFE
    yield room.write(bytes([0x96, 0x01]), bytes(block))
    for id_, value in ((1, -4000), (12, 15000), (2, -(2**31)), (3, 2**31 - 1)):
        yield Room().write(bytes([0x94, 0x01, id_]), struct.pack(">i", value))


def lines():
    for p in packets():
        yield packet_line(p)
    for fields in field_lists():
        yield "fields" + fields_text(fields)
    yield from answer_lines()


if __name__ == "__main__":
    sys.exit(held("show_packets", lines()))
