#!/usr/bin/env python3
"""The aircraft's half of documents 01 and 02 at its edges, worked out a second time.

Written from those documents alone. It prints 'show_airframe: ok' if the stored output of the program `show_airframe`
is the text worked out here, or the first line that differs; the exit status tells the same.
"""
import binascii
import struct
import sys

from shown import held

FIELD, WRONG, ROOM = 20, 23, 24  # document 02's refusals
LEAST_ROOM = 25
KEPT = 0xEE
MORE_SENDS = 3

# Code: bytes of the answer that is no error. From document 01's packet table.
ANSWERS = {0x90: 5, 0x91: 22, 0x92: 5, 0x93: 5, 0x94: 9, 0x95: 260, 0x96: 260, 0x9F: 5}
TYPE_1 = (0x90, 0x92, 0x93, 0x9F)

# Id: least and most. From document 01's parameter table.
ROWS = {1: (-4000, 15000), 2: (-4000, 15000), 3: (100, 1000), 4: (40, 60000), 5: (1, 16), 6: (-4000, 15000)}
ROWS.update({7: (0, 3), 8: (0, 7)})
ROWS.update({trim: (-500, 500) for trim in range(9, 13)})


def sealed(data, off=0):
    """Bytes with their CRC, of which some bits are off."""
    return bytes(data) + struct.pack(">H", binascii.crc_hqx(bytes(data), 0xFFFF) ^ off)


def pairs(data):
    return "".join(" %02X" % b for b in data)


def decimals(numbers):
    return "".join(" %d" % n for n in numbers)


def shortened(data):
    """How many bytes there are, and where they are many the first three and the last two."""
    text = pairs(data) if len(data) < 24 else pairs(data[:3]) + " -" + pairs(data[-2:])
    return " / %d :" % len(data) + text


# ---- building


def fields_fit(mode, _flags, seconds, ms, plimit, pleft, mlimit, mleft, poll):
    return mode <= 3 and seconds < 2**22 and ms <= 999 and pleft <= plimit and mleft <= mlimit and 1 <= poll <= 60000


def fits(code, carried):
    if code in (0x90, 0x92):
        return fields_fit(*carried)
    if code == 0x93:
        id_, value = carried
        return id_ in ROWS and ROWS[id_][0] <= value <= ROWS[id_][1]
    return code != 0x94 or carried[0] in ROWS


def command_bytes(code, carried):
    head = bytes([code, 0x01])
    if code in (0x90, 0x92):
        mode, flags, seconds, ms, *rest = carried
        return sealed(head + struct.pack(">BHIHHIIH", mode, flags, seconds << 10 | ms, *rest))
    if code == 0x93:
        return sealed(head + struct.pack(">Bi", *carried))
    return sealed(head + bytes(carried))


def into(room, fit, made):
    """A refusal, lowest number first, or the number of bytes; and the room."""
    text = " / %d =" % room
    kept = bytes([KEPT]) * room
    if not fit:
        return text + " !%d :" % FIELD + pairs(kept)
    if room < LEAST_ROOM:
        return text + " !%d :" % ROOM + pairs(kept)
    packet = made()
    return text + " %d :" % len(packet) + pairs(packet + kept[len(packet) :])


def command_in(room, code, *carried):
    return "Q %02X" % code + decimals(carried) + into(room, fits(code, carried), lambda: command_bytes(code, carried))


def acknowledgement_in(room, first, error=None):
    body = [first, 0x01, 0x7E] if error is None else [first, 0x09, error]
    text = "Y" + pairs([first] if error is None else [first, error])
    return text + into(room, 0x90 <= first <= 0x9F, lambda: sealed(body))


LARGEST = (3, 2**16 - 1, 2**22 - 1, 999, 2**16 - 1, 2**16 - 1, 2**32 - 1, 2**32 - 1, 60000)
SMALLEST = (0, 0, 0, 0, 0, 0, 0, 0, 1)


def changed(fields, **places):
    names = ("mode", "flags", "seconds", "ms", "plimit", "pleft", "mlimit", "mleft", "poll")
    return tuple(places.get(name, x) for name, x in zip(names, fields))


def field_lists():
    yield SMALLEST
    yield LARGEST
    yield changed(LARGEST, mode=4)
    yield changed(LARGEST, seconds=2**22)
    yield changed(LARGEST, seconds=2**32 - 1)
    yield changed(LARGEST, ms=1000)
    yield changed(LARGEST, poll=60001)
    yield changed(LARGEST, poll=0)
    yield changed(SMALLEST, pleft=1)
    yield changed(SMALLEST, plimit=1, pleft=1)
    yield changed(SMALLEST, mleft=1)
    yield changed(SMALLEST, mlimit=1, mleft=1)
    yield changed(SMALLEST, mlimit=2**16, mleft=2**16 + 1)


def parameter_commands():
    for id_, (least, most) in ROWS.items():
        for value in (least - 1, least, most, most + 1):
            yield 0x93, id_, value
    for id_ in (0, 13, 255):
        yield 0x93, id_, 0
    for id_ in (0, 1, 12, 13, 255):
        yield 0x94, id_


def built():
    every = list(range(27)) + [40]
    for code in ANSWERS:
        carried = {0x90: SMALLEST, 0x92: SMALLEST, 0x93: (3, 900), 0x94: (3,)}.get(code, ())
        for room in every:
            yield command_in(room, code, *carried)
    for first, error in ((0x96, None), (0x94, 0x01)):
        for room in every:
            yield acknowledgement_in(room, first, error)
    for fields in field_lists():
        for code in (0x90, 0x92):
            for room in (25, 24):
                yield command_in(room, code, *fields)
    for command in parameter_commands():
        for room in (25, 24):
            yield command_in(room, *command)
    for first in (0x00, 0x8F, 0x90, 0x97, 0x9F, 0xA0, 0xFF):
        for error in (None, 0x00, 0xFF):
            for room in (25, 24):
                yield acknowledgement_in(room, first, error)


# ---- reading


def meaning(code, answer):
    """What an answer to a command of this code means, as text."""
    wrong = " !%d" % WRONG
    if code not in ANSWERS or len(answer) < 4 or answer != sealed(answer[:-2]) or answer[0] != code:
        return wrong
    body = answer[2:-2]
    if answer[1] == 0x09:
        return " error" + pairs(body) if len(answer) == 5 else wrong
    if answer[1] != 0x01 or len(answer) != ANSWERS[code]:
        return wrong
    if code in TYPE_1:
        return " done" if body == b"\x7E" else wrong
    if code == 0x91:
        return " status" + decimals(struct.unpack(">BHHIB8B", body))
    if code == 0x94:
        return " value" + decimals(struct.unpack(">Bi", body))
    return " data" + shortened(body)


def read_line(code, answer):
    return "R %02X" % code + shortened(answer) + " =" + meaning(code, answer)


def body(first, second, third):
    """Bytes that differ from their neighbours, behind three that are given."""
    return bytes([first, second, third]) + bytes((i * 7 + 186) % 256 for i in range(3, 261))


def answer_of(size, first, second, third=0x7E, off=0):
    return sealed(body(first, second, third)[: size - 2], off)


def lengths(code, due):
    """Every length up to one more than is due, of the longest answers some."""
    sizes = range(4, due + 2) if due < 260 else [*range(4, 11), 22, 259, 260, 261]
    yield b""
    yield bytes([code])
    yield answer_of(2, code, 0x01)
    yield answer_of(3, code, 0x01)
    for size in sizes:
        for second in (0x01, 0x09):
            yield answer_of(size, code, second)


def seconds(code, size):
    for second in (0x00, 0x01, 0x02, 0x08, 0x09, 0x0A):
        for third in (0x7D, 0x7E, 0x7F):
            yield answer_of(size, code, second, third)


def kinds(code, due):
    for off in (0x0001, 0x0100, 0xFFFF):
        yield answer_of(due, code, 0x01, 0x7E, off)
        yield answer_of(5, code, 0x09, 0x38, off)
    for first in (code ^ 0x01, code ^ 0x80, 0x00, 0xFF):
        yield answer_of(due, first, 0x01, 0x7E)
        yield answer_of(5, first, 0x09, 0x38)
    yield from seconds(code, due)
    for error in (0x00, 0x01, 0x38, 0xFF):
        yield answer_of(5, code, 0x09, error)


def unknown(code):
    yield b""
    for size in (4, 5, 9, 22, 260):
        for second in (0x01, 0x09):
            yield answer_of(size, code, second)


def read():
    for what in (lengths, kinds):
        for code, due in ANSWERS.items():
            for answer in what(code, due):
                yield read_line(code, answer)
    for code in (0x91, 0x94, 0x95, 0x96):
        for answer in seconds(code, 5):
            yield read_line(code, answer)
    for code in (0x00, 0x8F, 0x97, 0xA0, 0xFF):
        for answer in unknown(code):
            yield read_line(code, answer)
    for id_, value in ((200, -1), (0, 0), (255, 2**31 - 1), (3, -(2**31))):
        yield read_line(0x94, sealed(struct.pack(">BBBi", 0x94, 0x01, id_, value)))
    yield read_line(0x91, answer_of(22, 0x91, 0x01, 9))


# ---- sending

NOTHING, DONE, OTHER = 0x00, 0x7E, 0x7F
# A code, and what comes: nothing, or by its third byte done, a wrong answer or an error.
RUNS = (
    (0x90, DONE, NOTHING, 0x01, OTHER, 0x38, DONE),
    (0x9F, NOTHING, NOTHING, NOTHING, NOTHING, NOTHING, DONE),
    (0x90, 0x01, 0x01, 0x01, 0x01, 0x01, DONE),
    (0x93, OTHER, OTHER, OTHER, OTHER, OTHER, DONE),
    (0x9F, NOTHING, 0x01, OTHER, DONE, NOTHING, DONE),
    (0x92, OTHER, 0x01, NOTHING, 0x01, 0x38, NOTHING),
    (0x96, 0x01, NOTHING, DONE, 0x38, DONE, NOTHING),
    (0x97, DONE, NOTHING, 0x38, DONE, DONE, NOTHING),
)


class Sending:
    """A command on its way, and how often it may still be sent; None is nothing on its way."""

    def __init__(self, code):
        self.code, self.left = code, MORE_SENDS

    def state(self):
        return " -" if self.code is None else " %02X %d" % (self.code, self.left)

    def heard(self, text):
        """What is said of no reply or of an answer's meaning."""
        if self.code is None:
            return " idle ;" + self.state()
        if text not in ("", " error 01", " !%d" % WRONG):
            self.code = None
            return text + " ended ;" + self.state()
        if self.left == 0:
            self.code = None
            return text + " lost ;" + self.state()
        self.left -= 1
        return text + " again ;" + self.state()

    def line(self, code, third):
        if third == NOTHING:
            return "P - =" + self.heard("")
        answer = sealed([code, 0x01 if third in (DONE, OTHER) else 0x09, third])
        return "P" + pairs(answer) + " =" + self.heard(meaning(code, answer))


def sent():
    for code, *thirds in RUNS:
        sending = Sending(code)
        yield "S" + sending.state()
        for third in thirds:
            yield sending.line(code, third)


if __name__ == "__main__":
    sys.exit(held("show_airframe", [*built(), *read(), *sent()]))
