"""The lines of the program `lab`: those of `console`, and X, L and V.

`X` sets a part of the state, 'whatever bound it then breaks'; `L` sets the size at which the
next call is lent a thing; `V` shows the state and the memory. 'A name that isn't one, a number
out of its range, a transfer that can't be written down prints `?` and sets nothing. X, L, V
and `?` lines are no calls'.
"""

import re
import struct

from .bounds import BOUNDS, LISTED, listed
from .labels import declare, hit
from .lines import console_line
from .packets import crc
from .params import ASKED, PLACES, ROWS
from .refusal import LENT, RIGHT
from .sizes import ORDINARY, PRIORITY, SIZES
from .words import Transfer

# 'Numbers are decimal, 1 to 10 digits, leading zeros allowed, with a leading `-` where they are
# negative (`-0` is 0).'
NUMBER = rb" -?[0-9]{1,10}"
SETS = re.compile(rb"X ([a-z0-9]+)((?:%s)+)" % NUMBER)
LENDS = re.compile(rb"L ([a-z0-9]+)(%s)" % NUMBER)

BYTE, BITS16, BITS32 = range(2 ** 8), range(2 ** 16), range(2 ** 32)
STORES = (PRIORITY, ORDINARY)


def whole(name, made=int):
    """Sets a part that stands by itself."""
    return lambda pod, n: setattr(pod, name, made(n))


def one_of(name, key):
    """Sets one of several."""
    return lambda pod, n: getattr(pod, name).update({key: n})


def mark(id):
    """Sets whether a parameter was written: the mark alone, so the list may be one for other marks
    then."""
    def change(pod, n):
        if id not in ASKED:
            hit("lab X written: of one that is not asked")
        else:
            hit("lab X written: as it was" if n == (id in pod.written) else "lab X written: changed")
        (pod.written.add if n else pod.written.discard)(id)
    return change


def place(at):
    """Sets one place of the list of missing ids."""
    def change(pod, n):
        before = any(listed(pod))
        pod.missing[at] = n
        hit("lab X missing: %s before, %s after" % (("right", "wrong")[before], ("right", "wrong")[any(listed(pod))]))
    return change


def or_none(n):
    """-1 is none."""
    return None if n == -1 else n


# name: the numbers it takes, and what sets it; 'Their ranges, whatever the types'
PARTS = {
    "initialised": (range(2), whole("initialised", bool)), "mode": (BYTE, whole("mode")),
    "flags": (BITS16, whole("flags")), "seconds": (BITS32, whole("seconds")),
    "milliseconds": (BITS16, whole("milliseconds")), "poll": (BITS16, whole("poll")),
    "error": (range(2), whole("message_error", bool)), "timeouts": (BYTE, whole("timeouts")),
    "exchange": ((-1, 145, 148, 149, 150), whole("exchange", or_none)),
    "address": (range(-1, 2 ** 16), whole("address", or_none)),
    # '`gathered` n, n bytes of 0'
    "gathered": (range(9), whole("gathered", bytes)),
    # '`out` n, n bytes of 0 in hand'
    "out": (range(10), whole("hand", bytes)), "outtimeouts": (BYTE, whole("output_timeouts")),
}
for _digit, _store in enumerate(STORES):
    _counts = (BITS16, BITS32)[_digit]
    for _name, _range in (("limit", _counts), ("remaining", _counts), ("oldest", BYTE), ("waiting", BYTE)):
        PARTS["%s%d" % (_name, _digit)] = (_range, one_of(_name, _store))
for _id in ROWS:
    PARTS["param%d" % _id] = (range(-2 ** 31, 2 ** 31), one_of("values", _id))
    PARTS["written%d" % _id] = (range(2), mark(_id))
for _at in range(PLACES):
    PARTS["missing%d" % _at] = (BYTE, place(_at))
for _table in SIZES:
    PARTS["place%d" % _table] = (BYTE, one_of("places", _table))

declare(*["lab X %s: %s" % (name, what) for name in [*PARTS, "transfer"] for what in ("set", "out of range")])
declare(*["lab L %s: %s" % (thing, what) for thing in RIGHT for what in ("right", "under", "over", "too large")])
declare("lab X: malformed", "lab X: no such name", "lab X: not one number", "lab X transfer: not five numbers",
        "lab L: malformed", "lab L: no such thing", "lab V: shown", "lab V: malformed", "lab L: last counts",
        "lab L: kept over a line that is no call", "lab L: ended by a call that is not refused",
        "lab L: ended by a refused call")
declare(*["lab X written: " + what for what in ("changed", "as it was", "of one that is not asked")])
declare(*["lab X missing: %s before, %s after" % (before, after) for before in ("right", "wrong")
          for after in ("right", "wrong")])
# rows 1 to 3, which the lines of `console` never meet
declare(*["line %s: refused" % letter for letter in "PDCWRSZ"])
declare("lab packet: room under 260")
declare(*["lab %s: %s %s its size" % (call, thing, way) for call in LENT for thing in LENT[call] if thing != "room"
          for way in ("under", "over")])
declare(*["lab %s: %s" % (call, bound) for call in LENT if call != "power on"
          for bound in BOUNDS + ["more than one bound"]])
declare(*["lab power on: %s, mended" % way for way in LISTED])


def transfer_of(command, reading, n, along, start):
    """'`transfer` command reading N along start (1 0 1 0 0 waits for an address; a load's words
    so far are 0, its start 0)'; None for one that can't be written down."""
    if (command, reading, n, along, start) == (1, 0, 1, 0, 0):
        return Transfer("address", None, 1)
    if command not in SIZES or reading > 1 or (reading == 0 and start != 0):
        return None
    transfer = Transfer("read" if reading else "load", command, n, start)
    transfer.words = [0] * along
    return transfer


def set_transfer(pod, numbers):
    """'`transfer` -1, or `transfer` command reading N along start', 'a transfer's numbers 0 to
    255'. True if it is set."""
    if numbers == [-1]:
        hit("lab X transfer: set")
        pod.transfer = None
        return True
    if len(numbers) != 5:
        hit("lab X transfer: not five numbers")
        return False
    transfer = transfer_of(*numbers) if all(n in BYTE for n in numbers) else None
    if transfer is None:
        hit("lab X transfer: out of range")
        return False
    hit("lab X transfer: set")
    pod.transfer = transfer
    return True


def set_part(pod, name, numbers):
    """A part that takes one number. True if it is set."""
    if name not in PARTS:
        hit("lab X: no such name")
        return False
    if len(numbers) != 1:
        hit("lab X: not one number")
        return False
    taken, change = PARTS[name]
    if numbers[0] not in taken:
        hit("lab X %s: out of range" % name)
        return False
    hit("lab X %s: set" % name)
    change(pod, numbers[0])
    return True


def line_x(pod, line):
    """'sets a part of the state, whatever bound it then breaks'."""
    match = SETS.fullmatch(line)
    if not match:
        hit("lab X: malformed")
        return b"?"
    name, numbers = match[1].decode(), [int(number) for number in match[2].split()]
    done = set_transfer(pod, numbers) if name == "transfer" else set_part(pod, name, numbers)
    return b"X" if done else b"?"


def line_l(pod, line):
    """'the next call is lent that thing at that size, later ones as usual'; 'up to 1,024 over
    the right size (a larger one prints `?`)'; 'for one thing the last `L` counts'. What lies
    behind the right size is shown by nothing: a store or table of another size is refused."""
    match = LENDS.fullmatch(line)
    if not match:
        hit("lab L: malformed")
        return b"?"
    thing, size = match[1].decode(), int(match[2])
    if thing not in RIGHT:
        hit("lab L: no such thing")
        return b"?"
    over = size - RIGHT[thing]
    if size < 0 or over > 1024:
        hit("lab L %s: too large" % thing)
        return b"?"
    if pod.sizes[thing] != RIGHT[thing]:
        hit("lab L: last counts")
    hit("lab L %s: %s" % (thing, "under" if over < 0 else "over" if over else "right"))
    pod.sizes[thing] = size
    return b"L"


def shown_transfer(transfer):
    """'the transfer as five numbers as above (0 0 0 0 0 for none)'."""
    if transfer is None:
        return [0, 0, 0, 0, 0]
    if transfer.kind == "address":
        return [1, 0, 1, 0, 0]
    return [transfer.table, int(transfer.kind == "read"), transfer.n, len(transfer.words), transfer.start]


def shown_numbers(pod):
    """'initialised, mode, flags, seconds, milliseconds, priority limit and remaining, memory
    limit and remaining, poll; the twelve values; the twelve marks; the exchange (0 or its
    code); message error; the transfer ..; the three places; the address or -1; oldest and
    waiting of both stores; gathered; timeouts (all decimal)'."""
    numbers = [int(pod.initialised), pod.mode, pod.flags, pod.seconds, pod.milliseconds]
    numbers += [n for store in STORES for n in (pod.limit[store], pod.remaining[store])] + [pod.poll]
    numbers += [pod.values[id] for id in ROWS] + [int(id in pod.written) for id in ROWS]
    numbers += [pod.exchange or 0, int(pod.message_error)] + shown_transfer(pod.transfer)
    numbers += [pod.places[table] for table in SIZES] + [-1 if pod.address is None else pod.address]
    numbers += [n for store in STORES for n in (pod.oldest[store], pod.waiting[store])]
    return numbers + [len(pod.gathered), pod.timeouts]


def words_bytes(words):
    """'words high byte first'."""
    return struct.pack(">%dH" % len(words), *words)


def shown_memory(pod):
    """'the bytes gathered, .. the words of the open load so far (at most 64; FFFF where no load
    is open), .. the priority store, the ordinary store, tables 5, 6 and 7 (words high byte
    first)'. The CRC of no bytes is FFFF."""
    load = pod.transfer.words if pod.transfer and pod.transfer.kind == "load" else []
    return [pod.gathered, words_bytes(load[:64]), *(pod.memory[store] for store in STORES),
            *(words_bytes(pod.tables[table]) for table in SIZES)]


def shown_output(pod):
    """Behind these: bytes in hand, output timeouts, and the bytes in hand, 8 at most."""
    return [len(pod.hand), pod.output_timeouts], pod.hand[:8]


def line_v(pod, line):
    """'`V` and these, each after one space'."""
    if line != b"V":
        hit("lab V: malformed")
        return b"?"
    hit("lab V: shown")
    counts, hand = shown_output(pod)
    return b"V" + b"".join([b" %d" % n for n in shown_numbers(pod)]
                           + [b" %04X" % crc(part) for part in shown_memory(pod)]
                           + [b" %d" % n for n in counts] + [b" %04X" % crc(hand)]
                           # behind all the rest, the eight places of missing ids
                           + [b" %d" % id for id in pod.missing])


LINES = {b"X": line_x, b"L": line_l, b"V": line_v}


def lab_line(pod, line):
    """What `lab` prints for a line. 'the next call ends every `L` that waits, whether it is
    lent the thing or not and refused or not'."""
    waits = pod.sizes != RIGHT
    if line[:1] in LINES:
        answer = LINES[line[:1]](pod, line)
        called = False
    else:
        answer = console_line(pod, line)
        called = answer != b"?"
    if called:
        pod.lend_right()
    if waits:
        hit("lab L: kept over a line that is no call" if not called else
            "lab L: ended by a refused call" if b"!" in answer else "lab L: ended by a call that is not refused")
    return answer
