"""The cases of include/vectors.txt in groups, each with the words that stand above it: what is built, and which answers are right.
Those about wrong answers and about sending are in vector_faults.py."""
from vector_lines import ORDINARY, acknowledge_line, build_line, command, crc_line, done, failed, read_line

from airframe.building import BARE, BITS32, FIELDS
from airframe.reading import ERRORS, LENGTHS, TYPE_1
from corners import with_limits
from ports.packets import COMMANDS, sealed
from ports.params import ROWS

OTHERS = [2, 0, 22500, 0, 4, 3, 100, 0, 1000]
LEAST = [least for _, least, _ in FIELDS.values()]
MOST = [most for _, _, most in FIELDS.values()]
OUTSIDE = [4, 2**16, 2**22, 1000, 2**16, 2**16 + 1, 0, 1, 0]
# numbers that are ordinary again when they are cut to their bytes or bits, of Initialise and of Update
CUT = (
    *(("mode", 256), ("mode", 259), ("mode", 2**16 + 1), ("flags", 2**16 + 3), ("seconds", 2**22 + 22320), ("seconds", 2**31)),
    *(("milliseconds", 1024), ("milliseconds", 2**16 + 250), ("priority limit", 2**16 + 4), ("priority remaining", 2**16 + 4)),
    *(("poll", 2**16 + 1), ("poll", 2**16 + 1000), ("poll", 2**32 - 1)),
)
CUT_TOO = (("mode", 259), ("milliseconds", 2**16 + 250), ("poll", 2**16 + 1000))
NO_IDS = (0, 13, 126, 255, 256, 257, 268, 65537, 2**31 + 1, 2**32 - 1)


def crcs():
    yield "The CRC of no bytes, of single bytes, of a pair, and of the digits 1 to 9, for which the catalogues of CRCs have 29B1.", [
        crc_line(data) for data in (b"", b"\x00", b"\x01", b"\x80", b"\xFF", b"\xFF\xFF", b"123456789")
    ]
    rising, falling = bytes(range(0x11, 0xAA, 0x11)), bytes(range(0xF0, 0xDF, -1))
    yield "Runs of 2 to 17 bytes, for code that takes several at a time.", [
        crc_line((rising if size < 10 else falling)[:size]) for size in (2, 3, 4, 5, 7, 8, 9, 15, 16, 17)
    ]
    status, initialise = command(0x91), command(0x90)
    yield "A Status and an Initialise, first without their CRC and then with it behind them.", [
        crc_line(data) for data in (status[:-2], status, initialise[:-2], initialise)
    ]
    yield "An answer with a block, without its CRC: 258 bytes.", [crc_line(done(0x96)[:-2])]


def field_edges(code):
    """Each field at its least and its most, and one outside where 32 bits have such a number."""
    for name, (_, least, most) in FIELDS.items():
        numbers = [least - 1] * (least > 0) + [least, most] + [most + 1] * (most < BITS32)
        yield from (build_line(code, *with_limits(name, number)) for number in numbers)


def limits(code):
    """Each remaining about its limit."""
    for priority in ((0, 0), (0, 1), (3, 3), (3, 4), (256, 255), (255, 256)):
        yield build_line(code, *ORDINARY[:4], *priority, *ORDINARY[6:])
    for memory in ((0, 0), (0, 1), (99, 99), (99, 100), (65536, 65535), (65535, 65536), (2**31, 2**31), (2**31 - 1, 2**31)):
        yield build_line(code, *ORDINARY[:6], *memory, ORDINARY[8])


def fields():
    both = (0x90, 0x92)
    yield "Each command with ordinary numbers.", [
        *(build_line(code, *ORDINARY) for code in both),
        build_line(0x92, *OTHERS),
        build_line(0x93, 1, -1500),
        build_line(0x94, 1),
        *(build_line(code) for code in BARE),
    ]
    yield "Initialise: each number in turn at its least and at its most, and one outside of that. The others are ordinary, but for " \
        "a limit at its most where its remaining is tried.", [*field_edges(0x90)]
    yield "Update has the same bounds: each number in turn one outside.", [
        line for line in field_edges(0x92) if line.endswith("!20")
    ]
    yield "Both: all numbers at their least, all at their most, and all outside.", [
        build_line(code, *numbers) for code in both for numbers in (LEAST, MOST, OUTSIDE)
    ]
    yield "A remaining is at most its limit, and may be equal to it.", [*limits(0x90)]
    yield "Numbers too large for their bytes. Code that cuts them to 8, 10, 16 or 22 bits would send another, ordinary number.", [
        build_line(code, *with_limits(*one)) for code, some in zip(both, (CUT, CUT_TOO)) for one in some
    ]


def parameters():
    yield "Parameter write: each parameter at its least and its most, one under and one over.", [
        build_line(0x93, id, value)
        for id, (least, most, *_) in ROWS.items()
        for value in (least, most, least - 1, most + 1)
    ]
    yield "Parameter write: other values. Those under 0 are two's complement of four bytes.", [
        build_line(0x93, *pair) for pair in ((1, -1), (1, 0), (2, -256), (6, -257), (9, -1), (12, 255), (4, 256))
    ]
    ends = [(id, end) for id in (1, 4) for end in (-(2**31), 2**31 - 1)]
    yield "Parameter write: values that are within the bounds once they are cut to 8 or 16 bits, and the ends of 32 bits.", [
        build_line(0x93, *pair) for pair in [(7, 256), (5, 257), (1, 65536), (9, -65536), *ends]
    ]
    yield "Parameter write: ids that are none. 257 is 1 and 268 is 12 to code that cuts them to a byte.", [
        build_line(0x93, id, 100) for id in (0, 13, 256, 257, 268, 2**32 - 1)
    ]
    yield "Parameter read: each id.", [build_line(0x94, id) for id in ROWS]
    yield "Parameter read: ids that are none. With 126, which is 7E, the bytes would be those of an acknowledgement.", [
        build_line(0x94, id) for id in NO_IDS
    ]


def acknowledgements():
    yield "Acknowledgements 'received', of each first byte that there may be.", [acknowledge_line(code) for code in range(0x90, 0xA0)]
    yield "Acknowledgements 'failed', of each command's code, with the error 01.", [acknowledge_line(code, 1) for code in COMMANDS]
    yield "'Failed' with other errors, which are free, and of the first and the last code that is no command's.", [
        *(acknowledge_line(0x95, error) for error in (0x00, 0x02, 0x38, 0x7E, 0x80, 0xFF)),
        acknowledge_line(0x97, 0x01),
        acknowledge_line(0x9E, 0xFF),
    ]
    yield "First bytes that are none, some of them too large for a byte.", [
        *(acknowledge_line(code) for code in (0x00, 0x10, 0x8F, 0xA0, 0xFF, 0x190, 0x195, 0x19F, 0x10095, 0x80000095)),
        *(acknowledge_line(code, 1) for code in (0x8F, 0xA0, 0x195, 0x10095)),
    ]
    yield "Errors that are too large for a byte.", [acknowledge_line(0x95, error) for error in (0x100, 0x101, 0x10001, 0xFFFFFFFF)]


def errors():
    yield "Done, of each command that is answered so.", [read_line(code, done(code)) for code in TYPE_1]
    shown = (0x93, 0x96)
    yield "Errors: each number that the pod gives, to a Parameter write and to a Data.", [
        read_line(code, failed(code, error)) for code in shown for error in ERRORS
    ]
    yield "Errors to the other commands.", [
        read_line(code, failed(code, error)) for code in LENGTHS if code not in shown for error in (0x01, 0x38)
    ]
    yield "Errors that the pod never gives are read as they stand.", [
        read_line(code, failed(code, error))
        for code, error in ((0x90, 0x00), (0x91, 0x7E), (0x94, 0x03), (0x95, 0x81), (0x9F, 0xFF))
    ]


def status(mode, flags, priority, ordinary, request, *ids):
    """A line with such a status."""
    body = bytes((mode,)) + flags.to_bytes(2, "big") + priority.to_bytes(2, "big") + ordinary.to_bytes(4, "big")
    return read_line(0x91, sealed(b"\x91\x01" + body + bytes((request, *ids)) + bytes(8 - len(ids))))


def value(id, number):
    """A line with such a value."""
    return read_line(0x94, sealed(bytes((0x94, 1, id)) + number.to_bytes(4, "big", signed=True)))


def statuses():
    yield "Status: just after an Initialise; then with blocks waiting; with all asked parameters written; with both stores full.", [
        status(1, 3, 0, 0, 0, 1, 2, 3, 6, 7),
        status(2, 256, 1, 2, 0, 3, 7),
        status(3, 0, 5, 40, 0),
        status(0, 1, 16, 128, 0),
    ]
    yield "Status: each byte of the body another, so that one at a wrong place shows.", [
        read_line(0x91, sealed(b"\x91\x01" + bytes(range(first, first + 18)))) for first in (1, 0x81)
    ]
    yield "Status: each number at its least and at its most, and what the pod never gives: modes over 3, a request that is not 0, " \
        "ids that are none. They are read as they stand. A mode of 126 is 7E, as in a done.", [
        status(0, 0, 0, 0, 0),
        *(status(mode, 0, 0, 0, 0) for mode in (9, 126, 255)),
        status(0, 0xFFFF, 0, 0, 0),
        status(0, 0, 0xFFFF, 0, 0),
        *(status(0, 0, 0, ordinary, 0) for ordinary in (2**31, 2**32 - 1)),
        *(status(0, 0, 0, 0, request) for request in (1, 255)),
        status(0, 0, 0, 0, 0, 0, 13, 0, 126, 255, 1, 1, 12),
        status(255, 0xFFFF, 0xFFFF, 2**32 - 1, 255, *[255] * 8),
    ]


def values():
    yield "Value: ordinary ones, those about 0, each byte another, and the least and the most of 32 bits.", [
        *(value(*pair) for pair in ((1, -1500), (4, 60000), (9, -500), (7, 0), (8, 1), (12, -1))),
        *(value(3, number) for number in (0x12345678, -0x12345678)),
        *(value(2, number) for number in (-(2**31), 2**31 - 1)),
    ]
    yield "Value: ids that are none, 7E among them. A value is read as it stands, of whichever id.", [
        value(id, 5) for id in (0, 13, 126, 255)
    ]
    yield "Block: the bytes 00 to FF of a priority block, and FF to 00 of an ordinary one. The block is bytes 2 to 257.", [
        read_line(code, done(code)) for code in (0x95, 0x96)
    ]


PARTS = (crcs, fields, parameters, acknowledgements, errors, statuses, values)
