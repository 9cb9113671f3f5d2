"""The cases of include/vectors.txt in groups, each with the words that stand above it: each kind of wrong answer, and the courses
that a sending can take."""
from itertools import product

from vector_lines import command, done, failed, read_line, send_line

from airframe.building import acknowledgement
from airframe.reading import LENGTHS
from corners import changed
from ports.packets import crc, sealed

CODES = list(LENGTHS)
AFTER = dict(zip(CODES, CODES[1:] + CODES[:1]))
KINDS = range(3)  # of replies that use up a send: none, error 01, a wrong one


def damage():
    for what, code, answer, places in (
        ("an Initialise's done", 0x90, done(0x90), range(5)),
        ("a Status's error 38", 0x91, failed(0x91, 0x38), range(5)),
        ("a value", 0x94, done(0x94), range(9)),
        ("a status", 0x91, done(0x91), (2, 6, 11, 19, 21)),
    ):
        each = "each byte" if len(places) == len(answer) else "bytes " + ", ".join(map(str, places))
        yield f"Wrong: one bit of {what} is changed, in {each} in turn, so that the CRC does not fit.", [
            read_line(code, changed(answer, at, 1 << at * 3 % 8)) for at in places
        ]
    yield "Wrong: one bit is changed in the answers to the other commands.", [
        read_line(code, changed(done(code), at, way))
        for code, at, way in ((0x92, 3, 1), (0x93, 4, 0x80), (0x95, 129, 4), (0x96, 257, 1), (0x9F, 3, 8))
    ]


def low_bit_first(data):
    """The CRC with the low bit of each byte first, as other catalogue entries have it."""
    turned = bytes(int(f"{byte:08b}"[::-1], 2) for byte in data)
    return int(f"{crc(turned):016b}"[::-1], 2)


def other_crcs():
    bare = done(0x90)[:-2]
    right = crc(bare)
    numbers = crc(b"\xFF\xFF" + bare), low_bit_first(bare), right ^ 0xFFFF, crc(bare[1:]), 0x0000, 0xFFFF
    yield "Wrong: the CRC low byte first; begun with 0000; with the low bit of each byte first; with every bit turned at the end; " \
        "of the bytes behind the first alone; 0000 in its place; FFFF; and none at all.", [
        read_line(0x90, bare + right.to_bytes(2, "little")),
        *(read_line(0x90, bare + number.to_bytes(2, "big")) for number in numbers),
        read_line(0x90, bare),
    ]


def heads():
    yield "Wrong: the first byte is another command's, and the CRC fits. All else is as it is due.", [
        *(read_line(code, sealed(bytes((AFTER[code],)) + done(code)[1:-2])) for code in CODES),
        *(read_line(code, failed(AFTER[code], 0x38)) for code in CODES),
    ]
    pairs = (0x90, 0x9F), (0x92, 0x90), (0x91, 0x94), (0x94, 0x91), (0x95, 0x96), (0x96, 0x95), (0x96, 0x91), (0x93, 0x94)
    yield "Wrong: the whole answer to another command.", [read_line(code, done(other)) for code, other in pairs]
    yield "Wrong: the second byte is neither 01 nor 09, and the CRC fits.", [
        *(
            read_line(code, sealed(bytes((code, second)) + done(code)[2:-2]))
            for code, second in zip(CODES, (0x00, 0x02, 0x08, 0x0A, 0x11, 0x81, 0x7E, 0xFF))
        ),
        *(read_line(0x91, sealed(bytes((0x91, second, 0x38)))) for second in (0x00, 0x08, 0x0B, 0x19, 0x89)),
    ]


def lengths():
    yield "Wrong: an answer without error that is one byte short, and the CRC fits.", [
        read_line(code, sealed(done(code)[:-3])) for code in CODES
    ]
    yield "Wrong: an answer without error that is one byte long, and the CRC fits.", [
        read_line(code, sealed(done(code)[:-2] + b"\x00")) for code in CODES
    ]
    yield "Wrong: an error answer of 4 bytes, and one of 6, and the CRC fits.", [
        read_line(code, sealed(bytes((code, 9)) + body)) for code in CODES for body in (b"", b"\x38\x00")
    ]
    yield "Wrong: an error answer as long as one without error.", [
        read_line(code, sealed(bytes((code, 9)) + done(code)[2:-2])) for code in (0x91, 0x94)
    ]
    pairs = (0x90, 0x91), (0x93, 0x94), (0x91, 0x94), (0x94, 0x91), (0x95, 0x91), (0x91, 0x90), (0x94, 0x90), (0x96, 0x90)
    yield "Wrong: the second byte is 01, and the body is that of another command, or the lone 7E that is due elsewhere.", [
        read_line(code, sealed(bytes((code, 1)) + done(other)[2:-2])) for code, other in pairs
    ]
    yield "Wrong: no 7E where it is due, and the CRC fits.", [
        *(read_line(0x90, sealed(bytes((0x90, 1, byte)))) for byte in (0x00, 0x01, 0x7C, 0x7F, 0xFE)),
        *(read_line(code, sealed(bytes((code, 1, byte)))) for code, byte in ((0x92, 0x00), (0x93, 0x7F), (0x9F, 0x38))),
    ]


def scraps():
    yield "Wrong: no bytes at all.", [read_line(code, b"") for code in CODES]
    yield "Wrong: the first byte alone.", [read_line(code, bytes((code,))) for code in CODES]
    yield "Wrong: two bytes, three bytes, and the CRC of nothing.", [
        read_line(0x91, answer) for answer in (b"\x91\x01", b"\x91\x09", b"\x91\x09\x38", b"\xFF\xFF")
    ]
    yield "Wrong: an echo of the command itself, and one of an acknowledgement, which has the form of a done.", [
        *(read_line(code, command(code)) for code in CODES),
        *(read_line(code, acknowledgement(code)) for code in (0x91, 0x94)),
    ]
    whole, error = done(0x9F), failed(0x91, 0x38)
    yield "Wrong: an answer twice in a row; with a byte before it; with a byte behind it; with its bytes in the other order.", [
        *(read_line(0x9F, answer) for answer in (whole * 2, b"\x00" + whole, whole + b"\x00", whole[::-1])),
        *(read_line(0x91, answer) for answer in (error * 2, b"\x91" + error, error + b"\x0A")),
    ]
    yield "Wrong: whatever answers a code that is no command's, be it one too large for a byte.", [
        *(read_line(code, sealed(bytes((code & 0xFF, 1, 0x7E)))) for code in (0x97, 0x8F, 0x00, 0xFF, 0x190, 0x10090)),
        read_line(0x97, failed(0x97, 0x02)),
        read_line(0x191, failed(0x91, 0x38)),
        read_line(0x191, done(0x91)),
    ]


def course(code, kinds, *behind):
    """A line with replies that use up a send, and others behind them. The wrong ones are a damaged answer, an echo, and an answer to
    another code."""
    wrong = changed(failed(code, 0x38), 2, 1), command(code), failed(code ^ 1, 0x38)
    replies = [(None, failed(code, 0x01), wrong[turn % 3])[kind] for turn, kind in enumerate(kinds)]
    return send_line(code, *replies, *behind)


def shutdowns():
    good, error = done(0x9F), failed(0x9F, 0x38)
    yield "Sending: a Shutdown is answered at once. Any error but 01 is an answer. Whatever comes then is not read.", [
        course(0x9F, (), good, good),
        course(0x9F, (), error, None),
        course(0x9F, (), good, command(0x9F), failed(0x9F, 0x01), None),
    ]
    for used, times in enumerate(("one send that brings", "two sends that bring", "three sends that bring"), 1):
        yield f"Sending: a Shutdown is answered after {times} no reply, error 01 or a wrong answer.", [
            course(0x9F, kinds, error if sum(kinds) % 2 else good) for kinds in product(KINDS, repeat=used)
        ]
    yield "Sending: a Shutdown is lost when the fourth send too brings no reply, error 01 or a wrong answer. What comes late is not " \
        "read.", [
        course(0x9F, (*kinds, sum(kinds) % 3), good if sum(kinds) % 2 else None) for kinds in product(KINDS, repeat=3)
    ]


def others():
    yield "Sending: the other commands, each answered at once, and after one, two and three sends that bring nothing.", [
        course(code, [(code + used + turn) % 3 for turn in range(used)], done(code)) for code in CODES[:-1] for used in range(4)
    ]
    yield "Sending: the other commands lost. Nothing is read afterwards, be it an answer or nothing at all.", [
        course(code, [(code + turn) % 3 for turn in range(4)], None, failed(code, 0x38)) for code in CODES[:-1]
    ]


def no_commands():
    codes = (0x97, 0x00, 0x8F, 0xFF)
    yield "Sending: a code that is no command's. Whatever answers it is wrong and uses up a send, so the pod is lost.", [
        *(send_line(code, failed(code, 0x02), sealed(bytes((code, 1, 0x7E))), None, failed(code, 0x01), None) for code in codes),
        send_line(0x97, None, None, None, failed(0x97, 0x38), failed(0x97, 0x38)),
        send_line(0x97, done(0x90), done(0x91), done(0x94), None, done(0x9F)),
    ]


PARTS = (damage, other_crcs, heads, lengths, scraps, shutdowns, others, no_commands)
