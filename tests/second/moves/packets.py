"""Moves on the packet port."""

import struct

from ports.packets import COMMANDS, sealed
from ports.params import ROWS

TYPE_2 = (0x91, 0x94, 0x95, 0x96)
NO_CODES = tuple(code for code in range(0x97, 0x9F))


def line_of(packet):
    """A packet as a line."""
    return b"P" + (b" " + packet.hex(" ").upper().encode() if packet else b"")


def send(s, data):
    """Say a packet with its right CRC."""
    s.say(line_of(sealed(data)))


def bare(rng, code):
    """A packet of a code with its right length, without its CRC, most often one that is
    taken."""
    if code in (0x90, 0x92):
        return bytes((code, 1)) + fields(rng)
    if code == 0x93:
        id = rng.randint(1, 12)
        least, most = ROWS[id][:2]
        return struct.pack(">BBBi", code, 1, id, rng.randint(least, most))
    if code == 0x94:
        return bytes((code, 1, rng.randint(1, 12)))
    return bytes((code, 1))


def some_limit(rng, most):
    """A limit, and a remaining within it."""
    limit = rng.choice((0, 1, 2, 3, 5, 16, 20, 128, 200, most, rng.randint(0, most)))
    return limit, rng.choice((0, 1, min(limit, 2), limit, limit, limit, rng.randint(0, limit))) if limit else 0


def pack_fields(mode, flags, time, priority, memory, poll):
    """The 21 bytes that Initialise and Update carry."""
    return struct.pack(">BHIHHIIH", mode, flags, time, *priority, *memory, poll)


def fields(rng, rich=False):
    """Fields within their bounds, often at an edge. Rich: with much remaining."""
    time = rng.choice((0, rng.getrandbits(22))) << 10 | rng.choice((0, 999, rng.randint(0, 999)))
    priority = (0xFFFF, 0xFFFF) if rich else some_limit(rng, 0xFFFF)
    memory = (0xFFFFFFFF, 0xFFFFFFFF) if rich else some_limit(rng, 0xFFFFFFFF)
    return pack_fields(rng.randint(0, 3), rng.choice((0, 0xFFFF, rng.getrandbits(16))), time,
                       priority, memory, rng.choice((1, 1000, 60000, rng.randint(1, 60000))))


def edge_fields(rng):
    """Fields with one (now and then each) at its edge, inside or just outside."""
    mode, time, priority, memory, poll = 1, 5 << 10 | 500, (9, 4), (70000, 69999), 1000
    which = rng.randint(0, 5)
    if which in (0, 5):
        mode = rng.choice((0, 3, 4, 255))
    if which in (1, 5):
        time = time & ~0x3FF | rng.choice((0, 999, 1000, 1023))
    if which in (2, 5):
        limit = rng.choice((0, 1, 255, 256, 65534))
        priority = (limit, rng.choice((limit, limit + 1)))
    if which in (3, 5):
        limit = rng.choice((0, 255, 65535, 65536, 0x7FFFFFFF, 0x80000000, 0xFFFFFFFE))
        memory = (limit, rng.choice((limit, limit + 1)))
    if which in (4, 5):
        poll = rng.choice((0, 1, 60000, 60001, 65535))
    return pack_fields(mode, rng.getrandbits(16), time, priority, memory, poll)


def initialise(s):
    """An Initialise that is taken."""
    send(s, b"\x90\x01" + fields(s.rng, s.rich))


def initialise_edge(s):
    """An Initialise with a field at its edge."""
    send(s, b"\x90\x01" + edge_fields(s.rng))


def update(s):
    """An Update that is taken."""
    send(s, b"\x92\x01" + fields(s.rng, s.rich and s.rng.random() < 0.8))


def update_edge(s):
    """An Update with a field at its edge."""
    send(s, b"\x92\x01" + edge_fields(s.rng))


def status(s):
    """A Status."""
    send(s, b"\x91\x01")


def shutdown(s):
    """A Shutdown."""
    send(s, b"\x9F\x01")


def write_value(s, id):
    """A value for a parameter: at the edges of its row, at the other end of the span, or any."""
    rng = s.rng
    if id not in ROWS:
        return rng.choice((0, 1, 100))
    least, most, start, _ = ROWS[id]
    values = [least, least - 1, most, most + 1, start, rng.randint(least, most),
              rng.randint(least, most), rng.randint(-2 ** 31, 2 ** 31 - 1), -2 ** 31, 2 ** 31 - 1]
    if id in (1, 2):
        other = s.pod.values[3 - id]
        values += [max(other - 1, -2 ** 31), other, min(other + 1, 2 ** 31 - 1)] * 3
    return rng.choice(values)


def write(s):
    """A parameter write, and now and then a read after it."""
    id = s.rng.choice((1, 2, 1, 2, 0, 13, 255) + tuple(ROWS))
    send(s, struct.pack(">BBBi", 0x93, 1, id, write_value(s, id)))
    if s.rng.random() < 0.4:
        send(s, bytes((0x94, 1, id)))


def write_all_asked(s):
    """The asked parameters one after another, with a Status between now and then."""
    for id in s.rng.sample((1, 2, 3, 6, 7), s.rng.randint(2, 5)):
        least, most = ROWS[id][:2]
        value = {1: least, 2: most}.get(id, s.rng.randint(least, most))
        send(s, struct.pack(">BBBi", 0x93, 1, id, value))
        if s.rng.random() < 0.5:
            status(s)
    status(s)


def read(s):
    """A parameter read of any id."""
    send(s, bytes((0x94, 1, s.rng.choice(tuple(ROWS) + (0, 13, 255, 0x7D, 0x7F)))))


def read_all(s):
    """Every id in turn."""
    for id in range(14):
        send(s, bytes((0x94, 1, id)))


def fetch(s):
    """A receive, and what may follow it."""
    rng = s.rng
    code = rng.choice((0x95, 0x96))
    if not s.pod.waiting[code] and s.pod.waiting[0x95 + 0x96 - code] and rng.random() < 0.8:
        code = 0x95 + 0x96 - code
    send(s, bytes((code, 1)))
    follow(s, code)


def follow(s, code):
    """Most often the right acknowledgement; else another end of the exchange."""
    chance = s.rng.random()
    if chance < 0.56:
        send(s, bytes((code, 1, 0x7E)))
    elif chance < 0.64:
        send(s, bytes((code, 9, s.rng.randint(0, 255))))
    elif chance < 0.73:
        send(s, bytes((s.rng.randint(0x90, 0x9F),)) + s.rng.choice((b"\x01\x7E", b"\x09\x7E")))
    elif chance < 0.77:
        s.say(b"D")
    elif chance < 0.85:
        s.interlude()
        send(s, bytes((code, 1, 0x7E)))
    elif chance < 0.9:
        s.say(b"P")
        send(s, bytes((code, 1, 0x7E)))


def exchange(s):
    """A Status or a parameter read, and an acknowledgement of some form."""
    send(s, bare(s.rng, s.rng.choice((0x91, 0x94))))
    acknowledge(s)


def acknowledge(s):
    """An acknowledgement of any form."""
    rng = s.rng
    open_code = s.pod.exchange or rng.choice(TYPE_2)
    code = rng.choice((open_code, open_code, 0x90, rng.choice(TYPE_2), rng.choice(tuple(COMMANDS)),
                       rng.choice(NO_CODES)))
    form = rng.choice((b"\x01\x7E", b"\x01\x7E", b"\x01\x7E", b"\x09\x7E", b"\x09\x01",
                       bytes((9, rng.randint(0, 255))), bytes((2, 0x7E)), bytes((1, 0x7F))))
    packet = sealed(bytes((code,)) + form)
    if rng.random() < 0.2:
        packet = damage(rng, packet)
    s.say(line_of(packet))


def acknowledge_near(s):
    """Almost an acknowledgement: another length, or a first byte beside 0x90 to 0x9F."""
    rng = s.rng
    send(s, rng.choice((bytes((rng.choice((0x8F, 0xA0, 0x00, 0xFF)), 1, 0x7E)),
                        bytes((rng.choice((0x8F, 0xA0)), 9, 0)),
                        bytes((s.pod.exchange or 0x95, 1, 0x7E, 0)),
                        bytes((s.pod.exchange or 0x96, 9, 0x7E, rng.randint(0, 255))),
                        bytes((s.pod.exchange or 0x96, 9)))))


def damage(rng, packet):
    """Change a bit or a byte, cut the packet short, swap its CRC, or add to it."""
    data = bytearray(packet)
    kind = rng.randint(0, 5)
    at = rng.randrange(len(data))
    if kind <= 1:
        data[at] ^= 1 << rng.randint(0, 7)
    elif kind == 2:
        data[at] = rng.randint(0, 255)
    elif kind == 3:
        del data[rng.randint(1, len(data) - 1):]
    elif kind == 4:
        data[-2:] = data[:-3:-1]
    else:
        data += rng.randbytes(rng.randint(1, 3))
    return bytes(data)


def damaged(s):
    """A good packet, damaged."""
    s.say(line_of(damage(s.rng, sealed(bare(s.rng, s.rng.choice(tuple(COMMANDS)))))))


def wrong_length(s):
    """A known code with another length and the right CRC."""
    rng = s.rng
    data = bare(rng, rng.choice(tuple(COMMANDS)))
    kind = rng.randint(0, 3)
    if kind == 0 and len(data) > 2:
        data = data[:-1]
    elif kind == 1 and len(data) > 2:
        data = data[:rng.randint(2, len(data))]
    elif kind == 2:
        data += rng.randbytes(rng.choice((1, 2, 21, 256, 300)))
    else:
        data = data[:2] + b"\x00" * rng.choice((0, 1, 2, 5, 20, 22))
    send(s, data)


def short(s):
    """A packet so short that it cannot be the code's, with its right CRC where it has one."""
    code = s.rng.choice(tuple(COMMANDS) + (0x97, 0x00))
    s.say(line_of(sealed(bytes((code,)) + s.rng.choice((b"", b"\x01", b"\x00")))))
    s.say(line_of(bytes((code, 1, 0x7E))[:s.rng.randint(1, 3)]))


def second_byte(s):
    """A good packet with another second byte and the right CRC."""
    data = bytearray(bare(s.rng, s.rng.choice(tuple(COMMANDS))))
    data[1] = s.rng.choice((0x00, 0x02, 0x09, 0x81, 0xFF, s.rng.randint(0, 255)))
    if s.rng.random() < 0.3:
        del data[2:]
    send(s, bytes(data))


def unknown(s):
    """A first byte that is no code, with the right CRC."""
    code = s.rng.choice(NO_CODES + (0x00, 0x8F, 0xA0, 0xFF, s.rng.randint(0, 0x8F)))
    send(s, bytes((code, s.rng.choice((1, 1, 9, 0)))) + s.rng.randbytes(s.rng.choice((0, 0, 1, 2, 7, 21))))


def empty(s):
    """No bytes at all."""
    s.say(b"P")


def any_bytes(s):
    """Any bytes, half of them with a right CRC."""
    data = s.rng.randbytes(s.rng.randint(1, 40))
    s.say(line_of(sealed(data) if s.rng.random() < 0.5 else data))


def any_command(s):
    """A good packet of any code but Initialise and Shutdown."""
    send(s, bare(s.rng, s.rng.choice((0x91, 0x92, 0x93, 0x94, 0x95, 0x96))))


def huge(s):
    """The longest packet with a right CRC, and one byte more."""
    data = sealed(bytes((s.rng.choice((0x95, 0x97)), 1)) + s.rng.randbytes(65531))
    s.say(line_of(data))
    s.say(line_of(data + b"\x00"))
