"""Commands and acknowledgements from their fields (document 02, No. 1): 'a part that builds every
command and acknowledgement of document 01 from its fields'.

'A field outside document 01's bounds (20; that 1 stays below 2 only the pod judges)'. 20 is given
for every field that is out of its bounds, and for a number too large for its field's type.
"""

import struct

from ports.labels import declare, hit
from ports.packets import sealed
from ports.params import ROWS
from ports.refusal import Refused

BYTE, BITS16, BITS32 = 2 ** 8 - 1, 2 ** 16 - 1, 2 ** 32 - 1

# the fields of 0x90 and 0x92 in their order: the most of its type, least, most; seconds have 22
# bits of the time, and would run into the milliseconds
FIELDS = {
    "mode": (BYTE, 0, 3), "flags": (BITS16, 0, BITS16), "seconds": (BITS32, 0, 2 ** 22 - 1),
    "milliseconds": (BITS16, 0, 999), "priority limit": (BITS16, 0, BITS16),
    "priority remaining": (BITS16, 0, BITS16), "memory limit": (BITS32, 0, BITS32),
    "memory remaining": (BITS32, 0, BITS32), "poll": (BITS16, 1, 60000),
}
BARE = (0x91, 0x95, 0x96, 0x9F)

declare(*["aircraft builds %02X: %s %s" % (code, name, what) for code in (0x90, 0x92) for name in FIELDS
          for what in ("at its least", "at its most", "too large for its type")])
declare(*["aircraft builds %02X: %s" % (code, what) for code in (0x90, 0x92) for what in (
    "mode over its most", "seconds over its most", "milliseconds over its most", "poll over its most",
    "poll under its least", "priority remaining over its limit", "memory remaining over its limit",
    "more than one field out")])
declare(*["aircraft builds %02X: %s" % (code, what) for code in (0x93, 0x94)
          for what in ("id 0", "id over 12", "id too large for its type")])
declare(*["aircraft builds 93: value %d %s" % (id, what) for id in ROWS for what in (
    "under its least", "over its most", "at its least", "at its most", "too large for its type",
    "too small for its type")])
declare(*["aircraft builds 94: id %d" % id for id in ROWS])
declare(*["aircraft builds %02X" % code for code in (0x90, 0x92, 0x93, 0x94) + BARE])
declare(*["aircraft acknowledges, the %02X form: %s" % (form, what) for form in (0x01, 0x09)
          for what in ("first byte under 90", "first byte over 9F", "built")])


def refuse(label):
    """20, for a reason."""
    hit(label)
    raise Refused(20)


def field_fault(name, number):
    """What is wrong with a field by itself, or None."""
    widest, least, most = FIELDS[name]
    if number > widest:
        return name + " too large for its type"
    if number > most:
        return name + " over its most"
    if number < least:
        return name + " under its least"
    return None


def faults(fields):
    """What is wrong with the fields of 0x90 or 0x92. 'each remaining at most its limit'."""
    found = [fault for fault in map(field_fault, fields, fields.values()) if fault]
    for name in ("priority", "memory"):
        if fields[name + " remaining"] > fields[name + " limit"]:
            found.append(name + " remaining over its limit")
    return found


def edges(code, fields):
    """Count the fields that are built at an edge."""
    for name, number in fields.items():
        _, least, most = FIELDS[name]
        if number == least:
            hit("aircraft builds %02X: %s at its least" % (code, name))
        if number == most:
            hit("aircraft builds %02X: %s at its most" % (code, name))


def with_fields(code, numbers):
    """Initialise or Update: 'mode 1, flags 2, time 4 (upper 22 bits seconds, lower 10
    milliseconds), priority limit 2, priority remaining 2, memory limit 4, memory remaining 4,
    poll 2, CRC 2'."""
    fields = dict(zip(FIELDS, numbers))
    found = faults(fields)
    for fault in found:
        hit("aircraft builds %02X: %s" % (code, fault))
    if len(found) > 1:
        hit("aircraft builds %02X: more than one field out" % code)
    if found:
        raise Refused(20)
    edges(code, fields)
    mode, flags, seconds, milliseconds, *rest = numbers
    return struct.pack(">BHIHHIIH", mode, flags, seconds << 10 | milliseconds, *rest)


def known_id(code, id):
    """'Ids 0 and over 12' are none."""
    if id == 0:
        refuse("aircraft builds %02X: id 0" % code)
    if id > BYTE:
        refuse("aircraft builds %02X: id too large for its type" % code)
    if id > 12:
        refuse("aircraft builds %02X: id over 12" % code)


def write(id, value):
    """'id, 4-byte signed', the value against its own row."""
    known_id(0x93, id)
    least, most = ROWS[id][:2]
    name = "aircraft builds 93: value %d " % id
    if value >= 2 ** 31:
        refuse(name + "too large for its type")
    if value < -2 ** 31:
        refuse(name + "too small for its type")
    if value > most:
        refuse(name + "over its most")
    if value < least:
        refuse(name + "under its least")
    if value == least:
        hit(name + "at its least")
    if value == most:
        hit(name + "at its most")
    return struct.pack(">Bi", id, value)


def read(id):
    """'id'."""
    known_id(0x94, id)
    hit("aircraft builds 94: id %d" % id)
    return bytes((id,))


def command(code, numbers):
    """The bytes of a command, or 20."""
    if code in (0x90, 0x92):
        body = with_fields(code, numbers)
    elif code == 0x93:
        body = write(*numbers)
    elif code == 0x94:
        body = read(*numbers)
    else:
        body = b""
    hit("aircraft builds %02X" % code)
    return sealed(bytes((code, 0x01)) + body)


def acknowledgement(first, error=None):
    """'5 bytes, right CRC, first byte 0x90 to 0x9F, and either second byte 0x01 with third 0x7E,
    or second byte 0x09' with an error byte, which is free."""
    form = 0x01 if error is None else 0x09
    name = "aircraft acknowledges, the %02X form: " % form
    if first < 0x90:
        refuse(name + "first byte under 90")
    if first > 0x9F:
        refuse(name + "first byte over 9F")
    hit(name + "built")
    return sealed(bytes((first, form, 0x7E if error is None else error)))
