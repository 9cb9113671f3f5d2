"""The lines of the programs `session` and `console`: one line in, one line out.

Lines come and go as bytes without their newline. 'Bytes are pairs of capital hex digits
after one space each. Other lines print `?`.'
"""

import re
import struct

from .labels import declare, hit
from .refusal import Refused
from .sizes import ORDINARY, PRIORITY

LONGEST = 1 + 3 * 65535  # a packet may have up to 65,535 bytes

declare("line: too long", "line: empty", "line: unknown letter")
declare(*["line %s: malformed" % letter for letter in "PDBCWRSAITOKZ"])
declare(*["line %s: called" % letter for letter in "PDBCWRSAITOKZ"])
declare(*["line %s: refused" % letter for letter in "BAITOK"])

FORMS = {
    "P": re.compile(rb"P((?: [0-9A-F]{2})*)"),
    "D": re.compile(rb"D"),
    "B": re.compile(rb"B ([po])((?: [0-9A-F]{2})*)"),
    "C": re.compile(rb"C ([0-9A-F]{4})"),
    "W": re.compile(rb"W ([0-9A-F]{4})"),
    "R": re.compile(rb"R"),
    "S": re.compile(rb"S"),
    "A": re.compile(rb"A ([0-9A-F]{2})((?: [0-9A-F]{4})*)"),
    "I": re.compile(rb"I ([0-9A-F]{2})"),
    "T": re.compile(rb"T"),
    "O": re.compile(rb"O((?: [0-9A-F]{2})*)"),
    "K": re.compile(rb"K"),
    "Z": re.compile(rb"Z"),
}


def hexed(data):
    """A space and two capital digits for each byte, or ' -' for none."""
    return b" " + data.hex(" ").upper().encode() if data else b" -"


def raw(text):
    """The bytes that hex digits in pairs stand for; spaces between them are skipped."""
    return bytes.fromhex(text.decode())


def call_packet(pod, match):
    return b"P" + hexed(pod.packet(raw(match[1])))


def call_deadline(pod, _):
    pod.deadline()
    return b"D"


def call_put(pod, match):
    pod.put(PRIORITY if match[1] == b"p" else ORDINARY, raw(match[2]))
    return b"B"


def call_command_word(pod, match):
    pod.command_word(int(match[1], 16))
    return b"C"


def call_data_word_in(pod, match):
    pod.data_word_in(int(match[1], 16))
    return b"W"


def call_data_word_out(pod, _):
    return b"R %04X" % pod.data_word_out()


def call_status_word(pod, _):
    return b"S %04X" % pod.status_word()


def call_samples(pod, match):
    words = raw(match[2])
    samples = struct.unpack(">%dH" % (len(words) // 2), words)
    return b"A" + hexed(pod.samples(int(match[1], 16), samples))


def call_pipe_byte(pod, match):
    return b"I" + hexed(pod.pipe_byte(int(match[1], 16)))


def call_pipe_timeout(pod, _):
    return b"T" + hexed(pod.pipe_timeout())


def call_packet_out(pod, match):
    return b"O" + hexed(pod.packet_out(raw(match[1])))


def call_taken(pod, _):
    return b"K" + hexed(pod.taken())


def call_power(pod, _):
    pod.power()
    return b"Z"


CALLS = {
    "P": call_packet, "D": call_deadline, "B": call_put, "C": call_command_word,
    "W": call_data_word_in, "R": call_data_word_out, "S": call_status_word,
    "A": call_samples, "I": call_pipe_byte, "T": call_pipe_timeout,
    "O": call_packet_out, "K": call_taken, "Z": call_power,
}


def line_out(state, line, forms, calls, what="line"):
    """One line to one line: the answer, '!' and the refusal's number, or '?'."""
    if not line:
        hit(what + ": empty")
        return b"?"
    if len(line) > LONGEST:
        hit(what + ": too long")
        return b"?"
    letter = chr(line[0])
    if letter not in forms:
        hit(what + ": unknown letter")
        return b"?"
    match = forms[letter].fullmatch(line)
    if not match:
        hit("%s %s: malformed" % (what, letter))
        return b"?"
    hit("%s %s: called" % (what, letter))
    try:
        return calls[letter](state, match)
    except Refused as refused:
        hit("%s %s: refused" % (what, letter))
        return b"%s !%d" % (letter.encode(), refused.number)


def console_line(pod, line):
    """What `console` prints for a line."""
    return line_out(pod, line, FORMS, CALLS)


def session_line(pod, line):
    """What `session` prints for a line."""
    return line_out(pod, line, {"P": FORMS["P"]}, CALLS)
