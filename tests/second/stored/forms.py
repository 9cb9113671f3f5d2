"""The lines X, L and V: names, numbers, ranges, and when an `L` ends."""

from ports.lab import PARTS
from ports.refusal import RIGHT

from .book import awake, out, put

NO_NAMES = """
    param0 param13 param01 param10x param written0 written13 written place4 place8 place limit2 limit limit00
    remaining2 remaining oldest oldest2 waiting waiting01 initialise initialisedx Mode mod modes millisecond
    millisecondss milliseconds0milliseconds second polls errors timeout exchanges addres transfers gather outs
    out0 ou outtimeout outtimeout0 outtimeoutss intimeouts
    missing missing8 missing9 missing10 missing00 missing01 missing07 missing7x missings missings0 missin0 Missing0
    room p o 5 6 7 V X""".split()

NO_LINES = (
    b"X|X |X mode|X mode |X  mode 1|X mode  1|X mode 1 | X mode 1|X mode 1 1|Xmode 1|X mode1|x mode 1|X mode +1|"
    b"X mode -|X mode --1|X mode 1-|X mode 0x1|X mode 1.0|X mode 1,0|X mode A|X\tmode 1|X mode\t1|X 1|X mode one|"
    b"X mode /|X mode :|X transfer|X written|X out|X out |X out 1 1|X out1|X out -|"
    b"X outtimeouts|X missing0|X missing0 |X missing7 1 2|X missing 0|X missing 0 1|X missing0 -|X missing0 +1|"
    b"X missing0  1|X missing01|X missing0\t1|X missing-1 1|V |V 1|VV|v| V").split(b"|")

NO_LENDS = (
    b"L|L |L room|L room |L 5|L  5 1|L 5  1|L 5 1 |L 5 64 64|L room -1|L room 00000000260|L room 9999999999|L 4 64|"
    b"L 8 64|L 05 64|L P 4096|L Room 260|L rooms 260|L q 1|L po 1|L mode 1|l room 260|Lroom 260|"
    b"L room\t260").split(b"|")

SPELLED = (
    b"seconds 0000000007|seconds 00000000008|seconds -0|seconds 4294967295|seconds 9999999999|seconds -0000000000|"
    b"seconds -00000000000|seconds 12345678901|param1 -0000000005|param1 -00000000006|param1 -0|param1 -2147483649|"
    b"mode 0256|mode 00255|mode -1|exchange 0000000145|exchange -01|exchange 150|exchange -0|exchange -145|"
    b"exchange -0000000001|address 007|address -1|address -0|address -2|address -001|initialised 01|initialised -1|"
    b"gathered 9|gathered 08|gathered -0|out 10|out 009|out -0|out -1|out 0000000008|outtimeouts 0255|outtimeouts 256|"
    b"outtimeouts -0|outtimeouts 00000000015|missing0 0255|missing0 256|missing0 -0|missing0 -1|missing7 0000000007|"
    b"missing7 00000000008|missing7 65536|missing3 4294967296|missing3 -255|missing3 9999999999").split(b"|")

TRANSFERS = (
    b"1 0 1 0 0|-1|01 -0 001 0000000000 0|-01|5 0 255 255 0|6 1 255 255 255|7 0 0 0 0|5 1 0 0 0|6 0 64 63 0|"
    b"6 0 64 64 0|6 0 64 65 0|7 0 65 255 0|7 1 4 0 255").split(b"|")

NO_TRANSFERS = (
    b"5 0 4 0 1|6 0 64 0 255|5 2 4 0 0|5 255 4 0 0|1 1 1 0 0|1 0 2 0 0|1 0 0 0 0|1 0 1 1 0|1 0 1 0 1|0 0 0 0 0|"
    b"0 0 1 0 0|2 0 4 0 0|4 1 4 0 0|8 0 4 0 0|133 0 4 0 0|255 1 4 0 0|256 0 4 0 0|261 0 4 0 0|5 256 4 0 0|"
    b"5 0 256 0 0|5 0 4 256 0|5 1 4 0 256|-5 0 4 0 0|5 -1 4 0 0|5 1 4 -1 0|5 1 4 0 -1|-1 -1 -1 -1 -1|0|1|-2|5|5 0|"
    b"5 0 4|5 0 4 0|5 0 4 0 0 0|-1 0 0 0 0|-1 0").split(b"|")


def names(book):
    """Each name at the ends of its range, and one over each end."""
    book.look()
    for name, (taken, _) in PARTS.items():
        for number in (taken[-1], taken[-1] + 1, taken[0] - 1):
            book.say(b"X %s %d" % (name.encode(), number))
        book.look()
        book.say(b"X %s %d" % (name.encode(), taken[0]))
        book.look()
    for code in (0, 144, 145, 146, 147, 148, 149, 151):
        book.say(b"X exchange %d" % code)
        book.look()
    book.no_line(*(b"X %s 1" % name.encode() for name in NO_NAMES))
    for id in range(1, 13):
        book.say(b"X written%d %d" % (id, id % 2), b"X param%d %d" % (id, -id))
    book.look()


def numbers(book):
    """'1 to 10 digits, leading zeros allowed, with a leading `-` where they are negative (`-0`
    is 0)'."""
    for setting in SPELLED:
        book.say(b"X " + setting)
        book.look()
    book.no_line(*NO_LINES)
    book.look()


def transfers(book):
    """'`transfer` -1, or `transfer` command reading N along start (1 0 1 0 0 waits for an address;
    a load's words so far are 0, its start 0)'."""
    for numbers_of in TRANSFERS:
        book.say(b"X transfer " + numbers_of)
        book.look()
    book.no_line(*(b"X transfer " + numbers_of for numbers_of in NO_TRANSFERS))
    book.look()
    # a load's words so far: kept by other settings, made 0 by its own
    book.say(b"Z", b"X initialised 1", b"X transfer 5 0 6 0 0", b"W 0005", b"W 0003")
    book.look()
    for line in (b"X error 1", b"X place5 9", b"X transfer 5 0 6 2 0", b"W 0003", b"X transfer 5 0 4 3 0"):
        book.say(line)
        book.look()
    book.say(b"W 0001", b"X error 0", b"X transfer 5 0 4 0 0", b"W 0005", b"W 003F", b"W 0001", b"W BEEF")
    book.look()
    book.say(b"X gathered 3", b"I FF", b"I FE", b"X timeouts 2")
    book.look()
    book.say(b"X gathered 5")
    book.look()
    book.call(b"T")


def lent(book):
    """'up to 1,024 over the right size'; 'X, L, V and `?` lines are no calls; the next call ends
    every `L` that waits, whether it is lent the thing or not and refused or not (`Z` too ..);
    for one thing the last `L` counts.'"""
    awake(book)
    for thing, right in RIGHT.items():
        for size in (0, right - 1, right, right + 1, right + 1024, right + 1025, -1, 2 ** 32 - 1, right):
            book.say(b"L %s %d" % (thing.encode(), size))
    book.call(b"P")
    book.no_line(*NO_LENDS)
    book.call(b"P")
    book.refused(b"P", 0)
    for kept in (b"X error 1", b"V", b"?", b"P 9", b"L 5 65000", b"L room 260", b"X mode 256", b"Z "):
        book.say(b"L 5 63", kept)
        book.refused(b"C 8000", 2)
        book.refused(b"C 8000", 0)
    book.say(b"L 5 63", b"L 5 65", b"L 5 64")
    book.refused(b"C 8000", 0)
    book.say(b"L 5 64", b"L 5 0")
    book.refused(b"C 8000", 2)
    for ends in (b"D", b"S", b"T", put(b"o", 4), b"B p 00", b"I 80", out(2), b"O", b"K", b"Z", b"I 80", b"K"):
        book.say(b"L room 0", b"L p 4097")
        book.call(ends)
        book.refused(b"P", 0)
    book.say(b"L 7 63")
    book.refused(b"Z", 2)
    book.refused(b"Z", 0)
