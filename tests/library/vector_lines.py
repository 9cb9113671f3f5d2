"""A line of include/vectors.txt for each thing that can be asked, with what the second program of tests/second says to it."""
import sys
from pathlib import Path

sys.path.insert(0, str(Path(__file__).resolve().parents[1] / "second"))
from airframe import building, reading, sending
from corners import GOOD
from ports.packets import crc, sealed
from ports.refusal import Refused

ORDINARY = list(GOOD.values())
# the numbers of an ordinary command of each code that has some, and the body of an ordinary answer to each
NUMBERS = {0x90: ORDINARY, 0x92: ORDINARY, 0x93: (1, -1500), 0x94: (1,)}
BODIES = {
    **dict.fromkeys(reading.TYPE_1, b"\x7E"),
    0x91: b"\x01\x00\x03" + bytes(7) + b"\x01\x02\x03\x06\x07" + bytes(3),
    0x94: b"\x01\xFF\xFF\xFA\x24",
    0x95: bytes(range(256)),
    0x96: bytes(range(255, -1, -1)),
}


def spelt(data):
    return data.hex(" ").upper()


def line(*words):
    """Words with a space between them; one that is empty takes none."""
    return " ".join(str(word) for word in words if word != "")


def made(make, *words):
    """The bytes of what is built, or the refusal."""
    try:
        return spelt(make(*words))
    except Refused as refused:
        return f"!{refused.number}"


def crc_line(data):
    return line("crc", spelt(data), "=", f"{crc(data):04X}")


def build_line(code, *numbers):
    if any(not -(2**31) <= number < 2**32 for number in numbers):
        raise ValueError(f"a number of {numbers} is none of 32 bits")
    return line("build", f"{code:02X}", *numbers, "=", made(building.command, code, numbers))


def acknowledge_line(code, error=None):
    # the second program takes bytes as errors; one that is none is outside its bounds
    wide = error is not None and error > 0xFF
    said = "!20" if wide else made(building.acknowledgement, code, error)
    return line("acknowledge", f"{code:02X}", "" if error is None else f"{error:02X}", "=", said)


def meant(meaning):
    """A meaning in words and numbers."""
    if meaning.kind == "error":
        return f"error {meaning.numbers[0]:02X}"
    return line({"wrong": "!23", "data": "block"}.get(meaning.kind, meaning.kind), *meaning.numbers)


def command(code):
    """The packet of a code with ordinary numbers."""
    return building.command(code, NUMBERS.get(code, ()))


def done(code):
    """An ordinary answer without error."""
    return sealed(bytes((code, 1)) + BODIES[code])


def failed(code, error):
    """An answer with an error."""
    return sealed(bytes((code, 9, error)))


def read_line(code, answer):
    # any answer to a code that is no command's is wrong
    known = code in reading.LENGTHS
    said = meant(reading.read(command(code), answer)) if known else "!23"
    return line("read", f"{code:02X}", ":", spelt(answer), "=", said)


def heard(aircraft, reply):
    """What an answer means, with the step, by the second program, which knows no code that is no command's: there any is wrong."""
    if aircraft.packet and aircraft.packet[0] not in reading.LENGTHS:
        return reading.WRONG, aircraft.unanswered("a wrong answer")
    return aircraft.reply(reply)


def came_to(aircraft, reply):
    """What a reply comes to; None is no reply."""
    if reply is None:
        return aircraft.silence() or "idle"
    found = heard(aircraft, reply)
    return line(meant(found[0]), found[1] or "ended") if found else "idle"


def send_line(code, *replies):
    aircraft = sending.Aircraft()
    if code in reading.LENGTHS:
        aircraft.send(code, NUMBERS.get(code, ()))
    else:
        aircraft.packet, aircraft.left = sealed(bytes((code, 1))), sending.MORE
    steps = [came_to(aircraft, reply) for reply in replies]
    shown = ["-" if reply is None else spelt(reply) for reply in replies]
    return line("send", f"{code:02X}", ":", " / ".join(shown), "=", " / ".join(steps))
