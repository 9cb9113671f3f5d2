"""Moves on the other ports: blocks, samples, pipe, power, and lines that are none."""

from ports.sizes import CAPACITY, LETTERS, ORDINARY, PRIORITY

from . import packets


def digits(data):
    """A space and two capital digits for each byte."""
    return b" " + data.hex(" ").upper().encode() if data else b""


def put_line(rng, store):
    """A put of a whole block."""
    return b"B " + LETTERS[store].encode() + digits(rng.randbytes(256))


def put(s):
    """One block to either store."""
    s.say(put_line(s.rng, s.rng.choice((PRIORITY, PRIORITY, ORDINARY))))


def put_few(s):
    """A few blocks to one store."""
    store = s.rng.choice((PRIORITY, ORDINARY))
    for _ in range(s.rng.randint(2, 8)):
        s.say(put_line(s.rng, store))


def put_wrong(s):
    """A block of another size."""
    size = s.rng.choice((0, 1, 16, 128, 255, 257, 258, 512))
    s.say(b"B " + s.rng.choice((b"p", b"o")) + digits(s.rng.randbytes(size)))


def fill(s, store):
    """Blocks until a store is full, and one or two more."""
    while s.pod.initialised and s.pod.waiting[store] < CAPACITY[store]:
        s.say(put_line(s.rng, store))
        if s.rng.random() < 0.03:
            s.interlude()
    for _ in range(s.rng.randint(1, 2)):
        s.say(put_line(s.rng, store))


def fill_priority(s):
    """A full priority store."""
    fill(s, PRIORITY)


def fill_ordinary(s):
    """A full ordinary store."""
    fill(s, ORDINARY)


def full_asleep(s):
    """A full store, a shutdown, and a put to it while not initialised."""
    fill(s, PRIORITY)
    packets.shutdown(s)
    s.say(put_line(s.rng, PRIORITY))
    put_wrong(s)


def drain(s):
    """Receive and acknowledge some blocks of one store, and put new ones behind."""
    store = s.rng.choice((PRIORITY, ORDINARY))
    for _ in range(s.rng.randint(2, 12)):
        packets.send(s, bytes((store, 1)))
        packets.send(s, bytes((store, 1, 0x7E)))
        if s.rng.random() < 0.4:
            s.say(put_line(s.rng, store))


def open_exchange(s, code):
    """A type 2 command that is answered: where it wants a block, with one waiting that may be sent."""
    if code in CAPACITY and not s.pod.waiting[code]:
        s.say(put_line(s.rng, code))
    if code in CAPACITY and not s.pod.remaining[code]:
        packets.send(s, b"\x92\x01" + packets.fields(s.rng, True))
    packets.send(s, packets.bare(s.rng, code))


def marked(s):
    """An acknowledgement marked 0x90, of either form: of an exchange that is open, of one that
    a deadline or an Update has closed, and of none."""
    rng = s.rng
    code = rng.choice(packets.TYPE_2 + (None,))
    if code:
        open_exchange(s, code)
    late = rng.choice((None, None, deadline, packets.update))
    if late:
        late(s)
    packets.send(s, b"\x90" + rng.choice((b"\x01\x7E", bytes((9, rng.randint(0, 255))))))
    if rng.random() < 0.5:
        packets.send(s, bytes((code if code in CAPACITY else 0x91, 1)))


def sample_line(check, samples):
    """A line of samples."""
    return b"A %02X" % check + b"".join(b" %04X" % sample for sample in samples)


def some_samples(rng):
    """128 samples within their bound."""
    kind = rng.randint(0, 3)
    if kind == 0:
        return [rng.choice((0, 1023))] * 128
    if kind == 1:
        channel = [rng.randint(0, 1023) for _ in range(8)]
        return [min(1023, max(0, channel[k % 8] + rng.randint(-9, 9))) for k in range(128)]
    if kind == 2:
        return [0] * 127 + [rng.randint(0, 1023)]
    return [rng.randint(0, 1023) for _ in range(128)]


def samples(s):
    """A sample set that is answered."""
    s.say(sample_line(s.rng.choice((0, 31, s.rng.randint(0, 31))), some_samples(s.rng)))


def bad_samples(s):
    """A set of another size, a sample over 1,023, a self-check over 31, or more than one."""
    rng = s.rng
    check, values = rng.randint(0, 31), some_samples(rng)
    kind = rng.randint(0, 5)
    if kind in (0, 4):
        size = rng.choice((0, 1, 8, 64, 120, 127, 129, 136, 256))
        values = (values + values)[:size]
    if kind in (1, 2, 4) and values:
        at = rng.choice((0, len(values) - 1, rng.randrange(len(values))))
        values[at] = rng.choice((1024, 1025, 2047, 32768, 65535))
    if kind in (3, 4):
        check = rng.choice((32, 33, 63, 255))
    s.say(sample_line(check, values))


def pipe_bytes(s):
    """Some pipe bytes, and a timeout now and then."""
    for _ in range(s.rng.randint(1, 9)):
        s.say(b"I %02X" % s.rng.getrandbits(8))
    if s.rng.random() < 0.6:
        s.say(b"T")


def timeouts(s):
    """Timeouts one after another, past 15 in most cases, with a frame behind them."""
    for _ in range(s.rng.choice((3, 14, 15, 16, 17, 18))):
        s.say(b"I %02X" % s.rng.getrandbits(8))
        s.say(b"T")
        if s.rng.random() < 0.1:
            samples(s)
    samples(s)


def timeout(s):
    """One timeout."""
    s.say(b"T")


def one_pipe_byte(s):
    """One pipe byte."""
    s.say(b"I %02X" % s.rng.getrandbits(8))


def deadline(s):
    """The deadline."""
    s.say(b"D")


def power(s):
    """Power off and on, and perhaps a look at what is left."""
    s.say(b"Z")
    look_asleep(s)


def sleep(s):
    """A Shutdown, and perhaps a look at what is left."""
    packets.shutdown(s)
    look_asleep(s)


def look_asleep(s):
    """Calls that are answered while the pod is not initialised."""
    rng = s.rng
    if rng.random() < 0.4:
        samples(s)
    for line in rng.sample((b"R", b"W 0005", b"S", b"S", b"T", b"K", b"C 8000", b"D"), rng.randint(0, 3)):
        s.say(line)
    if rng.random() < 0.3:
        packets.acknowledge(s)


FIXED = (b"", b" ", b"X", b"Q 00", b"?", b"p", b"d", b"z", b"P ", b"P-", b"P -", b"P91", b"P 9",
         b"P 911", b"P 91 ", b" P 91", b"P\t91", b"P  91", b"P 9G", b"P 0x91", b"P 91,01", b"PP", b"D ",
         b"D 00", b"DD", b"B", b"B ", b"B p ", b"B q 00", b"B P 00", b"B 00", b"B p00", b"Bp 00",
         b"B pp", b"C", b"C ", b"C 800", b"C 80000", b"C 80 00", b"C 8000 ", b"C 8000 8000", b"C 0a04",
         b"W", b"W 1", b"W 00001", b"W  0001", b"W 0001 0002", b"R ", b"R 0000", b"RR", b"S 0000", b"S ",
         b"SS", b"A", b"A ", b"A 1", b"A 100", b"A 00 ", b"A 00 00", b"A 00 00000", b"A 0000", b"I", b"I ",
         b"I 0", b"I 000", b"I 00 00", b"T 00", b"T ", b"TT", b"o", b"O ", b"O 0", b"O 000", b"O  00",
         b"O00", b"OO", b"O -", b"O 00 ", b"O 5a", b"O 00 0G", b"O 00\r", b"k", b"K ", b"K 00", b"K -", b"KK",
         b"K\r", b"Z ", b"Z 0", b"ZZ", b"\x00", b"P\x00",
         b"P \x0091", b"\xff", b"\xef\xbb\xbfP 91", b"P 91\r", b"\r", b"D\r", b"C 8000\r", b"P\xa091",
         b"P 91 \xb201", b"#", b"B p 0G", b"A 00 00G0")


def mangle(rng, line):
    """A good line made wrong in one of the ways that hands and machines have."""
    kind = rng.randint(0, 8)
    at = rng.randint(0, len(line))
    if kind == 0:
        return line.lower()
    if kind == 1:
        return line.replace(b" ", b"  ", 1)
    if kind == 2:
        return line + b"\r"
    if kind == 3:
        return line[:-1]
    if kind == 4:
        return line + b" "
    if kind == 5:
        return b" " + line
    if kind == 6:
        return bytes((rng.choice((b"EFGHJLMNQUVXYpdbcwrsaitokz0")),)) + line[1:]
    if kind == 7:
        return line[:at] + rng.choice((b"\x00", b"\t", b" ", b"g", b"\xff", b"\r", b"0")) + line[at:]
    return line.replace(b" ", b"", 1)


def malformed(s):
    """A line that is none, in most cases."""
    rng = s.rng
    if rng.random() < 0.5:
        s.say(rng.choice(FIXED))
    elif s.lines and len(s.lines[-1]) < 2000:
        s.say(mangle(rng, s.lines[-1]))
