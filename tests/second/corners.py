"""Lines for `aircraft` about every edge: each field, each form, each way in which an answer is wrong,
and each order of sends that bring nothing.

Each part yields lines; `make` gives them with the answers of the second program.
"""

from itertools import product

from airframe.building import FIELDS
from airframe.lines import LONGEST, Aircraft, aircraft_line
from airframe.reading import ERRORS, LENGTHS, TYPE_1
from moves.packets import line_of
from ports.packets import sealed
from ports.params import ROWS

GOOD = {"mode": 1, "flags": 3, "seconds": 22320, "milliseconds": 250, "priority limit": 4,
        "priority remaining": 4, "memory limit": 100, "memory remaining": 2, "poll": 1000}
SILENCE = b"P -"
# a line that asks, by its code
ASKS = {0x90: b"Q 90 0 0 0 0 0 0 0 0 1", 0x91: b"Q 91", 0x92: b"Q 92 3 65535 4194303 999 65535 65535 4294967295 "
        b"4294967295 60000", 0x93: b"Q 93 9 -500", 0x94: b"Q 94 12", 0x95: b"Q 95", 0x96: b"Q 96", 0x9F: b"Q 9F"}


def asked(code, numbers):
    """The line of a Q with these numbers, written as they are given."""
    return b"Q %02X" % code + b"".join(b" " + (number if isinstance(number, bytes) else b"%d" % number)
                                       for number in numbers)


def spelled(number):
    """A number as hands and machines write it, right and wrong."""
    plain = b"%d" % number
    yield from (plain, plain.zfill(2), b"0" + plain, plain.zfill(10), plain.zfill(11), b"-" + plain, b"+" + plain,
                plain + b"-", b" " + plain, plain + b" ", b"", b"-", b"--" + plain, plain + b".0", b"0x" + plain,
                b"%X" % (number + 10), plain + b",", b"1" + plain.zfill(10), b"-" + plain.zfill(10),
                b"-" + plain.zfill(11), b"-0", b"-00", b"-0000000000", b"-00000000000", b"0", b"0000000000",
                b"00000000000", b"9999999999", b"-9999999999", b"99999999999", plain[:1] + b"\x00", b"/", b":",
                plain + b"\r", plain.replace(b"0", b"O"), b"\xb2")


def edges_of(name):
    """Numbers about the edges of a field and of its type."""
    widest, least, most = FIELDS[name]
    numbers = {least, least + 1, most, most + 1, most - 1, widest, widest + 1, 2 ** 8, 2 ** 16 - 1, 2 ** 16, 2 ** 22,
               2 ** 31 - 1, 2 ** 31, 2 ** 32 - 1, 2 ** 32, 2 ** 32 + 1, 9999999999, GOOD[name]}
    # numbers that are within the bounds when they are cut to their type
    numbers |= {2 ** width + GOOD[name] for width in (8, 16, 22, 32)}
    return sorted(numbers | {max(least - 1, 0)})


def with_limits(name, number):
    """The good fields with one changed; the limits high where that would hide it."""
    fields = dict(GOOD)
    if name.endswith("remaining"):
        limit = name.replace("remaining", "limit")
        fields[limit] = FIELDS[limit][2]
    fields[name] = number
    return list(fields.values())


def fields():
    """Each field of 0x90 and 0x92 at its edges and in each spelling, and with too few or too many."""
    for code in (0x90, 0x92):
        for at, name in enumerate(FIELDS):
            for number in edges_of(name):
                yield asked(code, with_limits(name, number))
                yield b"N"
            for number in spelled(GOOD[name]):
                yield asked(code, [*GOOD.values()][:at] + [number] + [*GOOD.values()][at + 1:])
        for count in range(12):
            yield asked(code, (list(GOOD.values()) + [1, 1, 1])[:count])
        yield from remainings(code)
        yield asked(code, [4, 65536, 4194304, 1000, 65536, 65536, 4294967296, 4294967296, 0])
        yield asked(code, [0, 0, 0, 0, 0, 0, 0, 0, 1])
        yield asked(code, [3, 65535, 4194303, 999, 65535, 65535, 4294967295, 4294967295, 60000])


def remainings(code):
    """'each remaining at most its limit'."""
    for limit, remaining in product((0, 1, 255, 256, 65534, 65535), repeat=2):
        yield asked(code, [1, 2, 3, 4, limit, remaining, 9, 8, 7])
    for limit, remaining in product((0, 255, 65535, 65536, 2 ** 31 - 1, 2 ** 31, 2 ** 32 - 2, 2 ** 32 - 1), repeat=2):
        yield asked(code, [1, 2, 3, 4, 9, 8, limit, remaining, 7])


def parameters():
    """Each id, each row at its edges and at those of the type, in each spelling."""
    for id in [*range(16), 0x7D, 0x7E, 0x7F, 254, 255, 256, 257, 268, 65535, 65537, 2 ** 31, 2 ** 32 + 1, 9999999999]:
        yield asked(0x94, [id])
        least, most = ROWS.get(id, (0, 1))[:2]
        for value in (least, least - 1, least + 1, most, most - 1, most + 1, 0, -1, 1, -least, -most, 2 ** 31 - 1,
                      2 ** 31, -2 ** 31, -2 ** 31 - 1, 2 ** 32 + most, -2 ** 32 + least, 2 ** 32 - 1, 9999999999,
                      -9999999999):
            yield asked(0x93, [id, value])
            yield b"N"
    for number in spelled(12):
        yield asked(0x94, [number])
        yield asked(0x93, [number, 5])
        yield asked(0x93, [12, number])
    for number in spelled(4000):
        yield asked(0x93, [1, number])
    for code in (0x93, 0x94):
        for count in range(4):
            yield asked(code, [9, 9, 9][:count])


CODES = (b"", b"9", b"9f", b"0x91", b"091", b"91 ", b" 91", b"91\r", b"9 1", b"-91", b"145", b"91\x00", b"91\t", b"9G")
FORMS = (b"|Q|Q |q 91|Q91|Q  91|QQ 91|Y|Y |y 91|Y91|Y  91|YY 91|Y 91  00|Y 91 0|Y 91 000|Y 91 00 00|Y 91 7e|Y 91 -|"
         b"Y 9100|N |N 1|NN|n|N -|N\r| N|P |p|P-|P -|P  -|P - |P --|P -1|P 91 -|P - 91|P -\r|PP|P91|P 9|P 911|P 91 |"
         b" P 91|P\t91|P  91|P 9G|P 9f|P 0x91|P 91,01|P 91\r|P 91 1|\x00|P\x00|\xff|R|R -|R done|? |?|#|A|Z|D|X|V|"
         b"O|O 00|K|\r|\xef\xbb\xbfQ 91|Q\xa091|Q 91#|Q 91 ;|Q 91 -|Q 95 0|Q 9F 9F").split(b"|")


def forms():
    """Lines that are none, while nothing is on its way and while something is; and each byte as a
    code of Q and Y."""
    yield from (SILENCE,) * 4 + (b"Q 94 0",)
    for line in FORMS:
        yield from (line, b"N", b"Q 96", line, b"N")
    yield from (SILENCE,) * 4
    for code in CODES:
        yield from (b"Q " + code, b"Y " + code, b"Y 91 " + code, b"P " + code, b"P 91 " + code)
    for byte in range(256):
        yield from (b"Q %02X" % byte, b"Y %02X" % byte, b"Y %02X 7E" % byte, b"Y 91 %02X" % byte)
    yield b"N"


def longest():
    """Lines about the longest that there is."""
    packet = b"P" + b" 00" * 65535
    assert len(packet) == LONGEST
    yield from (b"Q 96", packet, packet + b" ", packet + b" 00", b"P" * LONGEST, b"P" * (LONGEST + 1), b"N", packet,
                b"Q 91" + b" " * LONGEST, b"Q" * 5000, b"Y 91" + b" 00" * 40000, b"P -", b"P -", packet)
    yield line_of(sealed(b"\x96\x01" + bytes(65531)))


def good(code, turn=0):
    """An answer without error, its bytes differing with the turn."""
    size = LENGTHS[code] - 4
    body = b"\x7E" if code in TYPE_1 else bytes((turn * 31 + i * (2 * turn + 1)) & 0xFF for i in range(size))
    return sealed(bytes((code, 1)) + body)


def changed(answer, at, way):
    """An answer with one byte changed."""
    return answer[:at] + bytes((answer[at] ^ way,)) + answer[at + 1:]


class Asking:
    """Answers to one command, and the command again whenever nothing is on its way."""

    def __init__(self, code):
        self.ask = ASKS[code]
        self.used = 4

    def line(self, line):
        """An answer that is wrong, so that it uses up a send."""
        if self.used == 4:
            self.used = 0
            yield self.ask
        self.used += 1
        yield line

    def last(self, answer):
        """An answer that may end it."""
        yield self.ask
        yield line_of(answer)
        self.used = 4


def damaged(code):
    """Each byte of a good answer and of an error, changed in a few ways: never read as another
    meaning."""
    asking = Asking(code)
    for answer in (good(code, 3), sealed(bytes((code, 9, 0x39)))):
        ways = (0x01, 0x80, 0xFF) if len(answer) < 30 else (0x10,)
        for at in range(len(answer)):
            for way in ways:
                yield from asking.line(line_of(changed(answer, at, way)))
        yield from asking.last(answer)


def lengths(code):
    """Each length, with the CRC of what is there and without."""
    asking = Asking(code)
    answer = good(code, 5) + bytes(8)
    for size in [*range(12), *range(18, 28), *range(254, 268)]:
        if size != LENGTHS[code]:
            yield from asking.line(line_of(answer[:size] + bytes(max(size - len(answer), 0))))
        for second in (1, 9) if size >= 2 else ():
            cut = sealed((bytes((code, second, 0x7E)) + bytes(size))[:size - 2])
            if size in (5, LENGTHS[code]):
                yield from asking.last(cut)
            else:
                yield from asking.line(line_of(cut))


def bytes_of(code):
    """Each first byte, each second byte, each error and each third byte of a type 1 success, with the
    right CRC."""
    for byte in range(256):
        rest = good(code)[1:-2]
        yield from (ASKS[code], line_of(sealed(bytes((byte,)) + rest)))
        yield from (ASKS[code], line_of(sealed(bytes((byte, 9, 0x39)))))
        yield from (ASKS[code], line_of(sealed(bytes((code, 9, byte)))))
        if byte % 16 < 2 or byte in (9, 0x81, 0x89):
            yield from (ASKS[code], line_of(sealed(bytes((code, byte)) + rest[1:])))
            yield from (ASKS[code], line_of(sealed(bytes((code, byte, 0x7E)))))
        if code in TYPE_1:
            yield from (ASKS[code], line_of(sealed(bytes((code, 1, byte)))))


def wrong_answers():
    """Each way in which an answer is wrong, for each command."""
    for code in LENGTHS:
        yield from damaged(code)
        yield from lengths(code)
        yield from bytes_of(code)
        yield from (ASKS[code], b"P", b"P", b"P", b"P", b"P")
        for other in LENGTHS:
            yield from (ASKS[code], line_of(good(other)))


def meanings():
    """Answers that are read as they stand: any status, any value, any block."""
    for fill in (b"\xFF", b"\x00", b"\x80", b"\x7F", b"\x7E"):
        for code, size in LENGTHS.items():
            yield from (ASKS[code], line_of(sealed(bytes((code, 1)) + fill * (size - 4))))
    for at in range(18):
        yield from (b"Q 91", line_of(sealed(b"\x91\x01" + bytes(at) + b"\x9A" + bytes(17 - at))))
    yield from (b"Q 91", line_of(sealed(b"\x91\x01" + bytes(range(1, 19)))))
    for id, value in product((0, 1, 12, 13, 126, 255), (0, 1, -1, 255, 256, -256, 65535, 65536, 15000, -4000, 60001,
                                                       2 ** 31 - 1, -2 ** 31)):
        yield from (b"Q 94 1", line_of(sealed(bytes((0x94, 1, id)) + value.to_bytes(4, "big", signed=True))))
    for turn in range(8):
        yield from (b"Q 95", line_of(good(0x95, turn)), b"Q 96", line_of(good(0x96, turn)))


def sends():
    """Each order of four replies, with lines between them that use up none."""
    for code in LENGTHS:
        error, wrong = line_of(sealed(bytes((code, 9, 1)))), line_of(changed(good(code), 1, 2))
        ends = (line_of(good(code)), line_of(sealed(bytes((code, 9, ERRORS[code % 7])))))
        for replies in product((SILENCE, wrong, error, ends[code % 2]), repeat=4):
            yield ASKS[code]
            yield from replies
        for used, end in product(range(4), ends + (SILENCE,)):
            yield from between(code, used, error)
            yield from (end, end, b"N", b"Y 91", b"P", SILENCE)


def between(code, used, error):
    """Some sends used up, with N, Y, refused and malformed lines between."""
    kept = (b"N", b"Y 91", b"Y 8F", b"Q 94 0", b"Q 93 1 15001", b"Q 97", b"N", b"?")
    yield from (ASKS[code], *kept)
    for turn in range(used):
        yield (SILENCE, b"P", error)[(turn + code) % 3]
        yield from kept
    # a new command has its four sends, however many were left of the last
    yield from (ASKS[0x91 if code == 0x94 else 0x94], SILENCE, SILENCE, SILENCE, b"N", SILENCE, b"N")
    yield ASKS[code]
    yield from (SILENCE,) * used


PARTS = (forms, fields, parameters, longest, meanings, sends, wrong_answers)


def make():
    """The parts, one after another, with the place, the line and the answer of each."""
    aircraft = Aircraft()
    for part in PARTS:
        for number, line in enumerate(part(), 1):
            yield (part.__name__, number), line, aircraft_line(aircraft, line)
