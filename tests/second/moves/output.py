"""Moves on the output half of the byte pipe."""

from ports.sizes import CAPACITY

from . import bench, packets


def packet_line(rng, size=8):
    """A packet out of so many bytes."""
    return b"O" + bench.digits(rng.choice((rng.randbytes, rng.randbytes, bytes))(size))


def packet(s):
    """A packet out."""
    s.say(packet_line(s.rng))


def wrong(s):
    """A packet out of another size."""
    s.say(packet_line(s.rng, s.rng.choice((0, 1, 7, 7, 9, 9, 16, 255))))


def taken(s):
    """The camera takes a byte."""
    s.say(b"K")


def begin(s):
    """A packet out, and some of its bytes taken: all eight now and then."""
    packet(s)
    for _ in range(s.rng.choice((0, 0, 7, s.rng.randint(0, 8)))):
        taken(s)


def hand_over(s):
    """A packet taken byte by byte, now and then with something between, and a taken too many."""
    packet(s)
    for _ in range(s.rng.choice((7, 8, 8, 9))):
        if s.rng.random() < 0.15:
            s.rng.choice((packet, wrong, bench.samples, bench.one_pipe_byte, s.__class__.interlude))(s)
        taken(s)


def stall(s):
    """A packet, some bytes of it taken, and a timeout; often something behind it."""
    begin(s)
    bench.timeout(s)
    s.rng.choice((packet, taken, bench.timeout, bench.samples, bench.samples))(s)


def both(s):
    """Something in both halves, and a timeout."""
    for move in s.rng.sample((begin, bench.pipe_bytes), 2):
        move(s)
    bench.samples(s)
    bench.timeout(s)


def timeouts(s):
    """Timeouts of one half or of both, one after another, past 15 in most cases, and a frame."""
    halves = s.rng.choice((b"O", b"O", b"OI", b"OI", b"I"))
    for _ in range(s.rng.choice((3, 14, 15, 16, 17, 18))):
        if b"I" in halves:
            bench.one_pipe_byte(s)
        if b"O" in halves:
            packet(s)
        bench.timeout(s)
        if s.rng.random() < 0.1:
            bench.samples(s)
    bench.samples(s)


def sleep(s):
    """A Shutdown with bytes in hand, what is refused then, and in some cases a new beginning."""
    begin(s)
    packets.shutdown(s)
    for move in s.rng.sample((packet, wrong, taken, bench.timeout, bench.samples), s.rng.randint(1, 4)):
        move(s)
    s.rng.choice((packets.initialise, packets.initialise, packets.initialise_edge, bench.power))(s)
    s.rng.choice((packet, taken, bench.timeout, bench.samples))(s)


def renewed(s):
    """An Initialise, an Update, a refused one or power with bytes in hand, and what is left."""
    begin(s)
    s.rng.choice((packets.initialise, packets.initialise_edge, packets.update, packets.update_edge, bench.power))(s)
    s.rng.choice((packet, taken, bench.timeout, bench.samples))(s)


def in_exchange(s):
    """A receive, calls of this half, the acknowledgement, and the next receive."""
    code = s.rng.choice(packets.TYPE_2)
    bench.open_exchange(s, code)
    for move in s.rng.choices((packet, packet, wrong, taken, taken, bench.timeout), k=s.rng.randint(1, 3)):
        move(s)
    packets.send(s, bytes((code, 1, 0x7E)))
    packets.send(s, bytes((code if code in CAPACITY else 0x91, 1)))


def huge(s):
    """The longest packet out, and one byte more."""
    line = packet_line(s.rng, 65535)
    s.say(line)
    s.say(line + b" 00")
