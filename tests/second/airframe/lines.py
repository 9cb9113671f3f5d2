"""The lines of the program `aircraft`: one line in, one line out.

Lines come and go as bytes without their newline, and are cut as those of `session`. 'Codes, errors
and bytes are two capital hex digits; the other numbers decimal, 1 to 10 digits without a sign (a
value may have a leading `-`), each after one space'; 'form is judged before fields', and every
other line prints `?`.
"""

import re

from ports.labels import declare, hit
from ports.lines import LONGEST, hexed, line_out, raw
from ports.refusal import Refused

from .building import acknowledgement
from .sending import Aircraft

NUMBER = rb" [0-9]{1,10}"
BYTE = rb" [0-9A-F]{2}"
FORMS = {
    "Q": re.compile(rb"Q(?: (9[02])((?:%s){9})| (93)(%s -?[0-9]{1,10})| (94)(%s)| (9[156F])())"
                    % (NUMBER, NUMBER, NUMBER)),
    "Y": re.compile(rb"Y(%s)(%s)?" % (BYTE, BYTE)),
    "P": re.compile(rb"P(?: (-)|((?:%s)*))" % BYTE),
    "N": re.compile(rb"N"),
}

declare("aircraft line: too long", "aircraft line: empty", "aircraft line: unknown letter",
        "aircraft line P: of the greatest length", "aircraft line Q: -0", "aircraft line Q: leading zeros",
        "aircraft line Q: ten digits")
declare(*["aircraft line %s: %s" % (letter, what) for letter in FORMS for what in ("malformed", "called")])
declare("aircraft line Q: refused", "aircraft line Y: refused")


def count_spelling(numbers):
    """Ways to write a number."""
    if b"-0" in numbers:
        hit("aircraft line Q: -0")
    if any(len(number) > 1 and number.lstrip(b"-").startswith(b"0") for number in numbers):
        hit("aircraft line Q: leading zeros")
    if any(len(number.lstrip(b"-")) == 10 for number in numbers):
        hit("aircraft line Q: ten digits")


def line_q(aircraft, match):
    """'builds, and puts it on its way'."""
    code, numbers = (group for group in match.groups() if group is not None)
    numbers = numbers.split()
    count_spelling(numbers)
    return b"P" + hexed(aircraft.send(int(code, 16), [int(number) for number in numbers]))


def line_y(_, match):
    """'an acknowledgement of code cc, the 0x01 form, or the 0x09 form with error ee'."""
    return b"P" + hexed(acknowledgement(*(int(group, 16) for group in match.groups() if group)))


def said(meaning):
    """A meaning in words and numbers."""
    if meaning.kind == "wrong":
        return b" !23"
    if meaning.kind == "error":
        return b" error %02X" % meaning.numbers
    word = b" " + meaning.kind.encode()
    if meaning.kind == "data":
        return word + hexed(meaning.data)
    return word + b"".join(b" %d" % number for number in meaning.numbers)


def line_p(aircraft, match):
    """'an answer, as `session` prints it; `P -` is no reply'."""
    if match[1]:
        step = aircraft.silence()
        return b"R -" if step is None else b"R " + step.encode()
    if len(match[0]) == LONGEST:
        hit("aircraft line P: of the greatest length")
    heard = aircraft.reply(raw(match[2]))
    if heard is None:
        return b"R -"
    meaning, step = heard
    return b"R" + said(meaning) + (b" " + step.encode() if step else b"")


def line_n(aircraft, _):
    """'sends again what is on its way'."""
    packet = aircraft.once_more()
    return b"N -" if packet is None else b"P" + hexed(packet)


LINES = {"Q": line_q, "Y": line_y, "P": line_p, "N": line_n}


def aircraft_line(aircraft, line):
    """What `aircraft` prints for a line."""
    return line_out(aircraft, line, FORMS, LINES, "aircraft line")


def answers(data):
    """What `aircraft` prints for an input. 'A last line without its newline counts', an empty rest
    does not."""
    aircraft = Aircraft()
    lines = data.split(b"\n")
    if not lines[-1]:
        lines.pop()
    return b"".join(aircraft_line(aircraft, line) + b"\n" for line in lines)
