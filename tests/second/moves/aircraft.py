"""Moves of an aircraft that talks to a pod: commands of any kind, the link's mischief, and lines that
come in between."""

from airframe.building import FIELDS
from ports.params import ROWS

from . import bench
from .packets import damage, line_of, some_limit


def spelled(rng, number):
    """A decimal number, now and then with zeros before it."""
    digits = b"%d" % abs(number)
    if rng.random() < 0.05:
        digits = digits.zfill(rng.randint(1, 10))
    return (b"-" if number < 0 else b"") + digits


def asked(rng, code, *numbers):
    """The line of a command."""
    return b"Q %02X" % code + b"".join(b" " + spelled(rng, number) for number in numbers)


def some_fields(rng, rich):
    """Fields within their bounds."""
    greatest = FIELDS["priority limit"][2], FIELDS["memory limit"][2]
    priority = (greatest[0],) * 2 if rich else some_limit(rng, greatest[0])
    memory = (greatest[1],) * 2 if rich else some_limit(rng, greatest[1])
    return [rng.randint(0, 3), rng.choice((0, 65535, rng.getrandbits(16))), rng.choice((0, 2 ** 22 - 1,
            rng.getrandbits(22))), rng.choice((0, 999, rng.randint(0, 999))), *priority, *memory,
            rng.choice((1, 1000, 60000, rng.randint(1, 60000)))]


def spoiled(rng, fields):
    """The fields with one or two of them out of bounds, most often."""
    for _ in range(rng.choice((1, 1, 2))):
        at = rng.randrange(9)
        widest, least, most = list(FIELDS.values())[at]
        fields[at] = rng.choice((max(least - 1, 0), most + 1, widest + 1, 9999999999, rng.randint(0, widest)))
    return fields


def some_value(rng, id):
    """A value for a parameter, most often within its row."""
    least, most = ROWS[id][:2]
    if rng.random() < 0.15:
        return rng.choice((least - 1, most + 1, 2 ** 31 - 1, 2 ** 31, -2 ** 31, -2 ** 31 - 1, 9999999999, -9999999999))
    return rng.choice((least, most, rng.randint(least, most), rng.randint(least, most)))


def command(t):
    """The line of any command, most often one that is built."""
    rng = t.rng
    code = rng.choice((0x90, 0x91, 0x91, 0x92, 0x93, 0x93, 0x94, 0x94, 0x95, 0x95, 0x95, 0x96, 0x96, 0x96, 0x9F))
    if code in (0x90, 0x9F) and rng.random() < 0.7:
        code = rng.choice((0x95, 0x96))
    if code in (0x90, 0x92):
        fields = some_fields(rng, rng.random() < 0.7)
        return asked(rng, code, *(spoiled(rng, fields) if rng.random() < 0.2 else fields))
    id = rng.choice((0, 13, 126, 255, 256, 9999999999)) if rng.random() < 0.1 else rng.randint(1, 12)
    if code == 0x93:
        return asked(rng, code, id, some_value(rng, id) if id in ROWS else rng.randint(-9, 9))
    return asked(rng, code, id) if code == 0x94 else asked(rng, code)


def initialise(t):
    """An Initialise that is built, until it is answered or the pod is lost."""
    converse(t, asked(t.rng, 0x90, *some_fields(t.rng, True)))


def exchange(t):
    """A command, its answer, and the acknowledgement where one is due."""
    converse(t, command(t))


def converse(t, line):
    """A command, sent again as long as that is said."""
    said = t.say(line)
    while said.startswith(b"P"):
        heard = [t.say(reply) for reply in t.through(said)]
        if heard and t.aircraft.packet is None:
            acknowledge(t, next((one for one in heard if one != b"R -"), b"R -"))
        if t.aircraft.packet is None or t.rng.random() < 0.03:
            return
        if t.rng.random() < 0.08:
            aside(t)
        said = t.say(b"N")


def acknowledge(t, heard):
    """What the aircraft says to data: most often that it came."""
    word = heard.split()[1]
    if word not in (b"status", b"value", b"data") or t.rng.random() < 0.1:
        return
    code = t.asked if t.rng.random() < 0.9 else t.rng.randint(0x8E, 0xA1)
    line = b"Y %02X" % code + (b" %02X" % t.rng.getrandbits(8) if t.rng.random() < 0.15 else b"")
    said = t.say(line)
    if said.startswith(b"P"):
        # what the pod says to a damaged one comes while nothing is on its way
        for reply in t.through(said):
            t.say(reply)


def stray(t):
    """An answer that was held up on the link, or bytes that nobody sent."""
    if t.late and t.rng.random() < 0.7:
        t.say(t.rng.choice(t.late))
    else:
        t.say(line_of(t.rng.randbytes(t.rng.choice((0, 1, 2, 4, 5, 5, 9, 22, 40)))))


def aside(t):
    """A line in the middle of something else, that uses up no send or replaces what is on its way."""
    rng = t.rng
    kind = rng.randint(0, 6)
    if kind == 0:
        t.say(b"N")
    elif kind == 1:
        t.say(b"Y %02X" % rng.randint(0x8C, 0xA2))
    elif kind == 2:
        t.say(b"Y %02X %02X" % (rng.getrandbits(8), rng.getrandbits(8)))
    elif kind == 3:
        t.say(asked(rng, rng.choice((0x90, 0x92)), *spoiled(rng, some_fields(rng, False))))
    elif kind == 4:
        stray(t)
    elif kind == 5:
        t.say(command(t))
    else:
        malformed(t)


def malformed(t):
    """A line that is none, in most cases."""
    rng = t.rng
    if rng.random() < 0.3:
        t.say(rng.choice(bench.FIXED))
    elif t.lines and len(t.lines[-1]) < 2000:
        t.say(bench.mangle(rng, t.lines[-1]))


def silence(t):
    """No reply, whether something was sent or not."""
    t.say(b"P -")


def camera(t):
    """Blocks from the camera; no line of the aircraft."""
    for _ in range(t.rng.randint(1, 3)):
        t.pod_line(bench.put_line(t.rng, t.rng.choice((0x95, 0x96))))


def deadline(t):
    """2 ms pass at the pod; no line of the aircraft."""
    t.pod_line(b"D")


def spoil(rng, line):
    """A line of bytes that the link has damaged."""
    return line_of(damage(rng, bytes.fromhex(line[2:].decode())))
