"""Document 01's shown examples, requests No. 3 and No. 5 and the lines of `lab`, asserted of the model."""

from model import Pod, console_line, session_line
from ports.lab import lab_line
from ports.packets import crc, is_acknowledgement, sealed
from ports.sizes import ORDINARY, PRIORITY

FIELDS = bytes.fromhex("00 0000 00000000 0010 0010 00000080 00000080 03E8")


def initialised():
    """A pod just initialised with flags 0."""
    pod = Pod()
    assert pod.packet(sealed(b"\x90\x01" + FIELDS)) == sealed(b"\x90\x01\x7E")
    return pod


def talk(pod, text, answer_to=console_line):
    """Lines and what they print, as 'line => answer' in each row of the text."""
    for row in text.strip().splitlines():
        line, expected = (part.strip().encode() for part in row.split("=>"))
        answer = answer_to(pod, line)
        assert answer == expected, (row, answer)


def shown_crc():
    """P1 to P3, and the published check value."""
    assert crc(b"") == 0xFFFF
    assert crc(b"\xFF") == 0xFF00
    assert crc(b"\xFF\xFF") == 0x0000
    assert crc(b"123456789") == 0x29B1


def shown_words():
    """P4 to P9."""
    talk(initialised(), "C 8000 => C\n S => S 0000")
    talk(initialised(), "C 0000 => C\n S => S 0002\n S => S 0000")
    for x in (0, 1, 0x1234, 0xFFFF):
        load = "C 0A04 => C\n W 0005 => W\n W %04X => W\n W 0001 => W\n W " + "%04X => W\n" % x
        pod = initialised()
        talk(pod, load % 63 + "S => S 0000")
        assert pod.tables[5] == [0] * 63 + [x]
        pod = initialised()
        talk(pod, load % 64 + "S => S 0002")
        assert pod.tables[5] == [0] * 64
    pod = initialised()
    talk(pod, "C CA04 => C\n R => R 0005\n R => R 0000\n R => R 0001\n R => R 0000\n S => S 0000")
    assert pod.places == {5: 1, 6: 0, 7: 0}
    talk(pod, "R => R 0000\n S => S 0002")


def shown_acknowledgement():
    """P10."""
    packet = sealed(b"\x94\x01\x7E")
    assert is_acknowledgement(packet)
    pod = initialised()
    assert pod.packet(packet) == b"" and pod.exchange is None


def shown_frames():
    """P11 and P12."""
    pod = initialised()
    line = b"A 1F" + b" 03FF" * 128
    assert console_line(pod, line) == b"A 00 00 FF 03 FF 07 FF 7F 00 00 FF 03 FF 03 FF 03"
    zero = b"A 00" + b" 0000" * 128
    for count in range(1, 17):
        assert console_line(pod, b"I AB") == b"I -"
        assert console_line(pod, zero)[:25] == b"A %X0 00 00 80 00 04 00 00" % (count - 1)
        assert console_line(pod, b"T") == b"T AB"
        assert console_line(pod, zero)[:4] == b"A %X0" % min(count, 15)
    assert console_line(pod, b"T") == b"T -"


def first_bytes(pod):
    """Bytes 0 to 7 of the frames of samples that are all 0."""
    return console_line(pod, b"A 00" + b" 0000" * 128)[2:25].decode()


def handed_over():
    """'an eight-byte packet from the aircraft is handed to the camera one byte at a time, each
    byte after the last was taken'."""
    pod = initialised()
    for _ in range(2):
        talk(pod, "K => K -\n T => T -\n O 5A 5B 5C 5D 5E 5F 60 61 => O 5A")
        for byte in range(0x5B, 0x62):
            assert first_bytes(pod) == "00 00 00 00 00 84 00 00"
            talk(pod, "O 01 02 03 04 05 06 07 08 => O !21\n K => K %02X" % byte)
        assert first_bytes(pod) == "00 00 00 00 00 84 00 00"
        talk(pod, "K => K -")
        assert first_bytes(pod) == "00 00 00 00 00 04 00 00"


def dropped():
    """'If the camera stops taking them, the rest of that packet is dropped and an output timeout
    is counted, 15 meaning 15 or more.'"""
    pod = initialised()
    for count in range(1, 18):
        talk(pod, "O 11 22 33 44 55 66 77 88 => O 11\n" + "K => K 22\n" * (count % 2))
        talk(pod, "T => T -\n T => T -\n K => K -")
        assert first_bytes(pod) == "%02X 00 00 00 00 04 00 00" % min(count, 15)
    # one call, and neither half sees the other
    for count in range(1, 18):
        talk(pod, "I AB => I -\n O 00 00 00 00 00 00 00 FF => O 00")
        assert first_bytes(pod) == "%XF 00 00 80 00 84 00 00" % min(count - 1, 15)
        talk(pod, "T => T AB")
        assert first_bytes(pod) == "%XF 00 00 00 00 04 00 00" % min(count, 15)
    talk(pod, "O 01 02 03 04 05 06 07 08 => O 01\n" + "I 77 => I -\n" * 7)
    talk(pod, "I 78 => I 77 77 77 77 77 77 77 78\n K => K 02")


def output_refused():
    """'22 before 6, 21 last'; Shutdown keeps this half, and frames show it."""
    pod = Pod()
    whole, short, long = "O 01 02 03 04 05 06 07 08", "O 01 02 03 04 05 06 07", "O 01 02 03 04 05 06 07 08 09"
    talk(pod, "%s => O !6\n %s => O !22\n %s => O !22\n O => O !22\n K => K !6" % (whole, short, long))
    pod = initialised()
    talk(pod, "%s => O !22\n O => O !22\n %s => O 01\n T => T -\n %s => O 01\n K => K 02" % (short, whole, whole))
    talk(pod, "%s => O !21\n %s => O !22\n P 9F 01 05 FB => P 9F 01 7E 34 FC" % (whole, long))
    talk(pod, "%s => O !6\n %s => O !22\n K => K !6\n T => T !6" % (whole, long))
    assert first_bytes(pod) == "01 00 00 00 00 80 00 00"
    pod.packet(sealed(b"\x90\x01" + FIELDS))
    assert first_bytes(pod) == "00 00 00 00 00 04 00 00"
    talk(pod, "K => K -\n O 08 07 06 05 04 03 02 01 => O 08\n Z => Z\n K => K !6")
    assert first_bytes(pod) == "00 00 00 00 00 00 00 00"
    for line in (b"O ", b"O 1", b"O 01 ", b"O  01", b"O 0g", b"O 0a", b"O01", b"o", b"K ", b"K 01", b"K -", b"k"):
        assert console_line(pod, line) == b"?", line
    for line in (b"O", b"O 01", b"K", b"T"):
        assert session_line(pod, line) == b"?", line
    longest = b"O" + b" 00" * 65535
    assert console_line(pod, longest) == b"O !22" and console_line(pod, longest + b" 00") == b"?"


def shown_session():
    """The four-line session."""
    pod = Pod()
    for line, answer in ((b"P 9F 01 05 FB", b"P 9F 09 38 95 57"),
                         (b"P FF FF 00 00", b"P FF 09 02 99 25"),
                         (b"P 91", b"P 91 09 01 29 2C"), (b"P", b"P -")):
        assert session_line(pod, line) == answer, line
    for line in (b"", b"P ", b"P 9f", b"P  91", b"P 91\r", b"P 9", b"D", b"Z", b"P91"):
        assert session_line(pod, line) == b"?", line
    right = b"P" + b" 00" * 65535
    assert session_line(pod, right) == b"P 00 09 01" + b" %02X %02X" % tuple(crc(b"\0\x09\x01").to_bytes(2, "big"))
    assert session_line(pod, right + b" 00") == b"?"


def drop_without_a_block():
    """'were the store empty or its remaining 0, neither would change': no call leads there, so
    the states are made by hand."""
    acknowledgement = sealed(b"\x95\x01\x7E")
    pod = initialised()
    pod.exchange = PRIORITY
    assert pod.packet(acknowledgement) == b"" and pod.remaining[PRIORITY] == 16
    pod.put(PRIORITY, bytes(256))
    pod.remaining[PRIORITY], pod.exchange = 0, PRIORITY
    assert pod.packet(acknowledgement) == b"" and pod.waiting[PRIORITY] == 1
    assert pod.remaining == {PRIORITY: 0, ORDINARY: 128}


def refused_lines():
    """The examples of refusals that the table of lines names."""
    pod = Pod()
    put = "B p" + " 00" * 256
    talk(pod, "B p 00 => B !4\n B o => B !4\n %s => B !6\n I 00 => I !6\n T => T !6" % put)
    talk(pod, "A 20 => A !4\n A 20%s => A !5\n A 00%s => A !5" % (" 0000" * 128, " 0400" + " 0000" * 127))
    pod = initialised()
    for _ in range(16):
        talk(pod, put + " => B")
    talk(pod, put + " => B !7")
    assert pod.packet(sealed(b"\x95\x01")) == sealed(b"\x95\x01" + bytes(256))


def by_bits(data):
    """The CRC a bit at a time, from its polynomial."""
    rest = 0xFFFF
    for bit in (byte >> place & 1 for byte in data for place in range(7, -1, -1)):
        rest = rest << 1 & 0xFFFF ^ (0x1021 if rest >> 15 ^ bit else 0)
    return "%04X" % rest


def lab_shown():
    """V: fresh from power, and with every part another number."""
    memory = " ".join(map(by_bits, (bytes(16 * 256), bytes(128 * 256), bytes(128), bytes(256),
                                    b"".join(bytes((i, 0)) for i in range(64)))))
    starts = "-2000 12000 950 1000 16 2000 0 0 0 0 0 0"
    pod = Pod()
    talk(pod, "V => V 0 0 0 0 0 0 0 0 0 1000 %s %s 0 0 0 0 0 0 0 0 0 0 -1 0 0 0 0 0 0 FFFF FFFF %s 0 0 FFFF "
         "1 2 3 6 7 0 0 0" % (starts, " ".join("0" * 12), memory), lab_line)
    sets = """initialised 1 mode 2 flags 3 seconds 4 milliseconds 5 limit0 6 remaining0 7 limit1 8 remaining1 9
        poll 10 param1 11 param2 12 param3 13 param4 14 param5 15 param6 16 param7 17 param8 18 param9 19 param10 20
        param11 21 param12 -22 written1 1 written4 1 written12 1 exchange 148 error 1 place5 26 place6 27 place7 28
        address 29 oldest0 30 waiting0 31 oldest1 32 waiting1 33 gathered 8 timeouts 34 out 9 outtimeouts 35
        missing0 255 missing1 36 missing2 37 missing3 38 missing4 39 missing5 40 missing6 41 missing7 42""".split()
    for name, number in zip(sets[::2], sets[1::2]):
        talk(pod, "X %s %s => X" % (name, number), lab_line)
    talk(pod, "X transfer 6 1 23 24 25 => X", lab_line)
    talk(pod, "V => V 1 2 3 4 5 6 7 8 9 10 11 12 13 14 15 16 17 18 19 20 21 -22 1 0 0 1 0 0 0 0 0 0 0 1 148 1 "
         "6 1 23 24 25 26 27 28 29 30 31 32 33 8 34 %s FFFF %s 9 35 %s 255 36 37 38 39 40 41 42" % (
             by_bits(bytes(8)), memory, by_bits(bytes(8))), lab_line)


def lab_refused():
    """A state out of bounds is refused by 3 and a size by 1 or 2, for one call; Z works in every
    state, and is refused by 2."""
    pod = Pod()
    talk(pod, "X mode 4 => X\n P => P !3\n D => D !3\n B p => B !3\n C 8000 => C !3\n W 0000 => W !3\n R => R !3\n"
         "S => S !3\n A 00 => A !3\n I 00 => I !3\n T => T !3\n O => O !3\n K => K !3\n L 5 65 => L\n C 8000 => C !2\n C 8000 => C !3\n"
         "Z => Z\n P => P -", lab_line)
    talk(pod, "L room 259 => L\n L 7 1088 => L\n L p 5121 => ?\n V 1 => ?\n X mode 256 => ?\n X mode 4 => X\n"
         "P => P !1\n P => P !3\n L room 259 => L\n S => S !3\n Z => Z\n P => P -\n L 6 0 => L\n Z => Z !2\n Z => Z\n"
         "L o 0 => L\n L room 0 => L\n Z => Z\n P => P -\n L 5 0 => L\n L 5 64 => L\n R => R 0000\n"
         "L room 1284 => L\n P => P -\n L room 1285 => ?\n P => P -", lab_line)


def lab_read():
    """What is no line of X or L, and numbers in each of their forms."""
    pod = Pod()
    talk(pod, "X seconds 0000000007 => X\n X seconds 00000000007 => ?\n X poll -0 => X\n X exchange -01 => X\n"
         "X exchange 0 => ?\n X exchange 147 => ?\n X address 65536 => ?\n X address -1 => X\n X gathered 9 => ?\n"
         "X param13 0 => ?\n X param0 0 => ?\n X param12 -2147483648 => X\n X param12 2147483648 => ?\n X mode => ?\n"
         "X mode 1 2 => ?\n X  mode 1 => ?\n X mode +1 => ?\n L 4 64 => ?\n L room -1 => ?\n L room -0 => L", lab_line)
    talk(pod, "X transfer 1 0 1 0 0 => X\n X transfer 1 0 2 0 0 => ?\n X transfer 5 0 255 255 0 => X\n"
         "X transfer 5 0 4 0 1 => ?\n X transfer 5 1 4 0 255 => X\n X transfer 5 2 4 0 0 => ?\n"
         "X transfer 4 0 4 0 0 => ?\n X transfer 0 0 0 0 0 => ?\n X transfer -1 => X\n X transfer 5 0 4 0 => ?",
         lab_line)
    assert pod.transfer is None and pod.seconds == 7 and pod.poll == 0 and pod.sizes["room"] == 0


def lab_memory():
    """The words of an open load, at most 64; the ring's first place behind its last; bytes that
    power keeps."""
    pod = Pod()
    shown = lambda: lab_line(pod, b"V").decode().split()[-18:-8]
    talk(pod, "X initialised 1 => X\n X transfer 5 0 6 2 0 => X\n W 0103 => W", lab_line)
    assert shown()[1] == by_bits(b"\0\0\0\0\x01\x03")
    talk(pod, "X transfer 5 0 6 70 0 => X", lab_line)
    assert shown()[1] == by_bits(bytes(128))
    talk(pod, "X transfer -1 => X\n X oldest0 15 => X\n X waiting0 1 => X\n B p%s => B\n Z => Z" % (" 5A" * 256),
         lab_line)
    assert shown()[1:3] == ["FFFF", by_bits(b"\x5A" * 256 + bytes(15 * 256))]
    talk(pod, "X initialised 1 => X\n I 01 => I -\n X gathered 2 => X\n I 02 => I -", lab_line)
    assert shown()[0] == by_bits(b"\0\0\x02")
    talk(pod, "X outtimeouts 3 => X\n O A1 A2 A3 A4 A5 A6 A7 A8 => O A1\n K => K A2", lab_line)
    assert shown()[-3:] == ["7", "3", by_bits(bytes(range(0xA2, 0xA9)))]
    talk(pod, "X out 10 => ?\n X out 2 => X\n K => K 00", lab_line)
    assert shown()[-3:] == ["1", "3", by_bits(b"\0")]
    talk(pod, "T => T 00 00 02", lab_line)
    assert shown()[-3:] == ["0", "4", "FFFF"]


def ids(pod):
    """What Status and V show of the missing ids."""
    told = pod.packet(sealed(b"\x91\x01"))[12:20]
    assert lab_line(pod, b"V").decode().split()[-8:] == [str(id) for id in told]
    return list(told)


def kept_list():
    """Request No. 5: the list through each call; any other list gets refusal 3 from every call but power on."""
    pod = initialised()
    assert ids(pod) == [1, 2, 3, 6, 7, 0, 0, 0]
    for id, value, left in ((3, 500, [1, 2, 6, 7, 0, 0, 0, 0]), (3, 501, [1, 2, 6, 7, 0, 0, 0, 0]),
                            (3, 1001, [1, 2, 6, 7, 0, 0, 0, 0]), (4, 40, [1, 2, 6, 7, 0, 0, 0, 0]),
                            (1, 12000, [1, 2, 6, 7, 0, 0, 0, 0]), (1, 11999, [2, 6, 7, 0, 0, 0, 0, 0])):
        pod.packet(sealed(b"\x93\x01" + bytes((id,)) + value.to_bytes(4, "big")))
        assert ids(pod) == left, (id, value)
    pod.packet(sealed(b"\x92\x01" + FIELDS))
    assert ids(pod) == [2, 6, 7, 0, 0, 0, 0, 0]
    pod.packet(sealed(b"\x9F\x01"))
    assert pod.missing == [2, 6, 7, 0, 0, 0, 0, 0]
    pod.packet(sealed(b"\x90\x01" + FIELDS))
    assert ids(pod) == [1, 2, 3, 6, 7, 0, 0, 0]
    for wrong, right in (("missing0 2", "missing0 1"), ("missing7 1", "missing7 0"), ("written6 1", "written6 0")):
        talk(pod, "X %s => X\n D => D !3\n T => T !3\n X %s => X\n D => D" % (wrong, right), lab_line)
    talk(pod, "X written4 1 => X\n D => D\n X missing0 2 => X\n X missing1 1 => X\n P => P !3\n Z => Z\n P => P -\n"
         "X missing8 0 => ?\n X missing 0 => ?\n X missing0 256 => ?\n X missing0 -1 => ?", lab_line)


def run():
    """All of them."""
    for part in (shown_crc, shown_words, shown_acknowledgement, shown_frames, handed_over, dropped, output_refused,
                 shown_session, drop_without_a_block, refused_lines, lab_shown, lab_refused, lab_read, lab_memory,
                 kept_list):
        part()
    print("model: ok, the shown examples hold")


if __name__ == "__main__":
    run()
