"""Moves of the program `lab`: a state that X sets, sizes that L sets, and a call in it."""

from ports.bounds import broken
from ports.lab import PARTS
from ports.params import ROWS
from ports.refusal import RIGHT
from ports.sizes import CAPACITY, ORDINARY, PRIORITY, SIZES

from . import bench, output, packets, words
from .edges import EDGES, lines, needed
from .writes import NOT_ASKED

GREATEST = (2 ** 16 - 1, 2 ** 32 - 1)
CODES = (145, 148, 149, 150)


# a call of each kind

def receive(s):
    """A receive, of either store."""
    packets.send(s, bytes((s.rng.choice((PRIORITY, ORDINARY)), 1)))


def right_ack(s):
    """The acknowledgement of the open exchange."""
    packets.send(s, bytes((s.pod.exchange or PRIORITY, 1, 0x7E)))


def open_load(s):
    """A command word that opens a load."""
    words.say_command(s, words.command_word(s.rng.choice((5, 6, 7)), words.some_n(s.rng)))


def open_read(s):
    """A command word for a read that fits, or just doesn't."""
    table = s.rng.choice((5, 6, 7))
    words.say_command(s, words.command_word(table, words.read_length(s, table), words.READ))


def open_address(s):
    """A command word that asks for an address."""
    words.say_command(s, words.command_word(1, 1))


def word_in(s):
    """The next word of an open load, most often right, or any."""
    held = s.pod.transfer
    if held and held.kind == "load" and s.rng.random() < 0.8:
        right = (held.table, s.rng.randint(0, SIZES[held.table] - 1), held.n - 3)
        words.say_word(s, right[len(held.words)] if len(held.words) < 3 else s.rng.getrandbits(16))
    else:
        words.say_word(s, s.rng.choice((0, 5, 63, 64, 127, 0xFFFF, s.rng.getrandbits(16))))


def word_out(s):
    """A data word out."""
    s.say(b"R")


def put_to(store):
    """A put of a block to a store, now and then of another size."""
    def move(s):
        size = s.rng.choice((256,) * 6 + (0, 255, 257))
        letter = b"p" if store == PRIORITY else b"o"
        s.say(b"B " + letter + bench.digits(s.rng.randbytes(size)))
    return move


def power(s):
    """Power on."""
    s.say(b"Z")


CALLS = {
    "packet": (packets.initialise, packets.initialise_edge, packets.update, packets.update_edge, packets.status,
               packets.write, packets.read, receive, receive, right_ack, right_ack, packets.acknowledge,
               packets.damaged, packets.wrong_length, packets.shutdown, packets.empty, packets.unknown),
    "deadline": (bench.deadline,), "put p": (put_to(PRIORITY),), "put o": (put_to(ORDINARY),),
    "command word": (words.stop, words.starts, words.bad_command, open_load, open_read, open_read, open_address),
    "data word in": (word_in,), "data word out": (word_out,), "status word": (words.status_word,),
    "samples": (bench.samples, bench.bad_samples), "pipe byte": (bench.one_pipe_byte,),
    "pipe timeout": (bench.timeout,), "packet out": (output.packet, output.packet, output.wrong),
    "taken": (output.taken,), "power on": (power,),
}


def call(s, name=None):
    """A call, of any kind or of this one."""
    s.rng.choice(CALLS[name or s.rng.choice(tuple(CALLS) + ("packet", "packet", "command word"))])(s)


# settings that leave a state within its bounds

def ring(rng):
    """Oldest and waiting of a store."""
    digit = rng.randint(0, 1)
    size = tuple(CAPACITY.values())[digit]
    return ["oldest%d %d" % (digit, rng.choice((0, size - 1, rng.randrange(size)))),
            "waiting%d %d" % (digit, rng.choice((0, 1, size - 1, size, rng.randint(0, size))))]


def counts(rng):
    """Limit and remaining of a store."""
    digit = rng.randint(0, 1)
    limit, left = packets.some_limit(rng, GREATEST[digit])
    return ["limit%d %d" % (digit, limit), "remaining%d %d" % (digit, left)]


def span(rng):
    """Parameters 1 and 2."""
    least, most = ROWS[1][:2]
    low = rng.choice((least, most - 1, rng.randint(least, most - 1)))
    return ["param1 %d" % low, "param2 %d" % rng.choice((low + 1, most, rng.randint(low + 1, most)))]


def parameter(rng):
    """One of the others, and some marks that the list does not go by."""
    id = rng.randint(3, 12)
    least, most = ROWS[id][:2]
    marks = ["written%d %d" % (rng.choice(NOT_ASKED), rng.randint(0, 1)) for _ in range(rng.randint(0, 3))]
    return ["param%d %d" % (id, rng.choice((least, most, rng.randint(least, most))))] + marks


def number(rng):
    """One of the numbers that stand by themselves."""
    table = rng.choice((5, 6, 7))
    name, values = rng.choice((
        ("mode", range(4)), ("flags", (0, 0xFFFF, rng.getrandbits(16))), ("seconds", (0, 2 ** 22, 2 ** 32 - 1)),
        ("milliseconds", (0, 999)), ("poll", (1, 1000, 60000)), ("error", (0, 1)), ("gathered", range(8)),
        ("timeouts", (0, 1, 14, 15)), ("out", range(9)), ("outtimeouts", (0, 1, 14, 15)),
        ("place%d" % table, (0, SIZES[table] - 1, SIZES[table], rng.randint(0, 60))),
        ("address", (-1, 0, SIZES[table] - 1, SIZES[table], 0xFFFF, rng.randint(0, 130)))))
    return ["%s %d" % (name, rng.choice(values))]


def exchange(rng):
    """An open exchange, or none."""
    return ["initialised 1", "exchange %d" % rng.choice((-1,) + CODES + (149, 150))]


def transfer(rng):
    """An open transfer, most often near its end, or none."""
    table, n = rng.choice((5, 6, 7)), rng.choice((4, 4, words.some_n(rng)))
    along = rng.choice((0, 0, n - 1, n - 1, rng.randrange(n)))
    start = rng.choice((0, SIZES[table] - (n - 3), rng.randint(0, SIZES[table] - (n - 3))))
    numbers = rng.choice(("-1", "1 0 1 0 0", "%d 0 %d %d 0" % (table, n, along),
                          "%d 1 %d %d %d" % (table, n, along, start)))
    return ["initialised 1", "transfer " + numbers]


def asleep(_):
    """Not initialised."""
    return ["exchange -1", "transfer -1", "initialised 0"]


SETTINGS = (ring, ring, counts, counts, span, parameter, number, number, number, exchange, transfer, transfer, asleep)


def spelled(rng, line):
    """A line of X with a number in another form: more zeros, or `-0`."""
    head, last = line.rsplit(b" ", 1)
    if last == b"0" and rng.random() < 0.5:
        return head + b" -0"
    sign, digits = (b"-", last[1:]) if last.startswith(b"-") else (b"", last)
    return b"%s %s%s" % (head, sign, digits.zfill(rng.randint(len(digits), 10)))


def set_parts(s, settings):
    """Say X lines."""
    for line in lines(settings):
        s.say(spelled(s.rng, line) if s.rng.random() < 0.1 else line)


# what a session does

def sound(s):
    """A state within the bounds, and some calls in it."""
    for _ in range(s.rng.randint(1, 3)):
        set_parts(s, s.rng.choice(SETTINGS)(s.rng))
    for _ in range(s.rng.randint(1, 4)):
        call(s)


def receipt(s):
    """A store with blocks waiting or not, remaining or not, and the end of an exchange."""
    digit = s.rng.randint(0, 1)
    set_parts(s, ["initialised 1"] + ring(s.rng) + counts(s.rng) + ["exchange %d" % (149 + digit)])
    s.rng.choice((right_ack, right_ack, packets.acknowledge, receive, bench.deadline))(s)


def words_on(s):
    """An open transfer, and words one after another."""
    set_parts(s, transfer(s.rng))
    move = s.rng.choice((word_in, word_out))
    for _ in range(s.rng.randint(1, 5)):
        move(s)


def reads(s):
    """A read place or a given address near the table's end or any, and a read."""
    table = s.rng.choice((5, 6, 7))
    n, size = words.some_n(s.rng), SIZES[table]
    near = size - (n - 3) + s.rng.randint(0, 1)
    name, value = s.rng.choice((("place%d" % table, min(near, size)), ("address", near), ("address", 65535),
                                ("address", 65536 - (n - 3)), ("address", s.rng.getrandbits(16))))
    set_parts(s, ["initialised 1", "address -1", "%s %d" % (name, value)])
    words.say_command(s, words.command_word(table, n, words.READ))


def pipe(s):
    """Both halves and their timeouts near their most, and what the pipe and the frame do."""
    gathered, in_hand = s.rng.choice((0, 6, 7, 7)), s.rng.choice((0, 0, 1, 2, 8, s.rng.randint(0, 8)))
    counts = [s.rng.choice((0, 14, 15, 15)) for _ in range(2)]
    set_parts(s, ["initialised 1", "gathered %d" % gathered, "timeouts %d" % counts[0]])
    set_parts(s, ["out %d" % in_hand, "outtimeouts %d" % counts[1]])
    if s.rng.random() < 0.2:
        set_parts(s, asleep(s.rng))
    for _ in range(s.rng.randint(1, 4)):
        s.rng.choice((bench.one_pipe_byte, bench.timeout, bench.timeout, bench.samples, output.packet, output.wrong,
                      output.taken, output.taken))(s)


def edge(s, chosen=None, name=None):
    """One outside a bound and a call, then one inside it and a call."""
    chosen = chosen or s.rng.choice(EDGES)
    if chosen.outside:
        set_parts(s, needed(s.pod, chosen.outside))
        call(s, name)
    set_parts(s, needed(s.pod, chosen.inside))
    call(s, name)


def any_part(rng):
    """A part set to any number that can be written down."""
    if rng.random() < 0.15:
        n, along, start = (rng.choice((0, 3, 4, 64, 65, 255, rng.getrandbits(8))) for _ in range(3))
        reading = rng.randint(0, 1)
        return "transfer %d %d %d %d %d" % (rng.choice((5, 6, 7)), reading, n, along, start if reading else 0)
    name = rng.choice(tuple(PARTS))
    taken = PARTS[name][0]
    return "%s %d" % (name, rng.choice((taken[0], taken[-1], rng.choice(taken))))


def wild(s):
    """Any state at all, some calls in it, and power."""
    set_parts(s, [any_part(s.rng) for _ in range(s.rng.randint(1, 5))])
    for _ in range(s.rng.randint(1, 3)):
        call(s)
    if broken(s.pod):
        s.say(b"Z")


def lent(s):
    """Things at sizes about the right one, now and then a line between, and a call."""
    for _ in range(s.rng.randint(1, 3)):
        thing, right = s.rng.choice(tuple(RIGHT.items()))
        size = right + s.rng.choice((-1, -1, 1, 1, 0, 0, 1024, 1025, -right, -right - 1, s.rng.randint(-right, 1100)))
        s.say(b"L %s %d" % (thing.encode(), size))
    s.rng.choice((call, call, call, out_of_range, malformed))(s)
    call(s)


def wrong_size(s, name, thing, over):
    """One thing about its right size, and a call that is lent it."""
    s.say(b"L %s %d" % (thing.encode(), RIGHT[thing] + over))
    call(s, name)


def just_out(s, name):
    """A part set to a number just out of its range."""
    taken = PARTS[name][0]
    s.say(b"X %s %d" % (name.encode(), s.rng.choice((taken[-1] + 1, taken[0] - 1))))


def out_of_range(s):
    """A number out of its range, a name that is none, another count of numbers, a transfer that
    can't be written down."""
    name = s.rng.choice(tuple(PARTS))
    tail = s.rng.choice(("", "0 0", "1 2 3 4 5", "00000000000", 10 ** 10, "0" * s.rng.choice((11, 300, 70000))))
    transfer_tail = s.rng.choice(("5 0 4 0 1", "5 2 4 0 0", "1 0 1 1 0", "6 1 256 0 0", "4 0 4 0 0", "5 0 4 0", "-2"))
    line = "X %s %s" % s.rng.choice(((name, tail), (name + "0", 1), ("transfer", transfer_tail)))
    s.rng.choice((lambda s: just_out(s, name), lambda s: s.say(line.encode()),
                  lambda s: s.say(s.rng.choice((b"L 4 64", b"L q 1", b"L rooms 9")))))(s)


def malformed(s):
    """A line of X, L or V made wrong in most cases, or one of the console's."""
    setting = any_part(s.rng).encode()
    line = s.rng.choice((b"X " + setting, b"X " + setting, b"L 5 65", b"L room 259", b"V", b"V 0"))
    s.rng.choice((lambda s: s.say(bench.mangle(s.rng, line)), bench.malformed))(s)
