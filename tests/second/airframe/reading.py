"""What an answer means (document 02, No. 1): 'An answer whose CRC, first two bytes, length with
them, or 0x7E where due is wrong for its command counts as no reply.' (23)

Nothing else is looked at: an error byte that document 01 doesn't have, a value with another id than
was asked for and a status with mode 9 are read as they stand.
"""

import struct
from collections import namedtuple

from ports.labels import declare, hit
from ports.packets import COMMANDS, crc
from ports.params import ROWS

# code: the length of its answer without error
LENGTHS = {0x90: 5, 0x91: 22, 0x92: 5, 0x93: 5, 0x94: 9, 0x95: 260, 0x96: 260, 0x9F: 5}
TYPE_1 = (0x90, 0x92, 0x93, 0x9F)
KINDS = {0x91: "status", 0x94: "value", 0x95: "data", 0x96: "data"}
KINDS.update(dict.fromkeys(TYPE_1, "done"))
ERRORS = (0x01, 0x02, 0x38, 0x39, 0x3A, 0x3B, 0x3C)     # those that document 01 has
assert set(LENGTHS) == set(KINDS) == set(COMMANDS)

# kind: wrong, error, done, status, value or data; numbers: what it tells; data: the block
Meaning = namedtuple("Meaning", "kind numbers data", defaults=((), b""))
WRONG = Meaning("wrong")

FAULTS = ("the CRC", "the first byte", "the second byte", "an error too short", "an error too long",
          "a success too short", "a success too long")
declare(*["aircraft reads %02X: 23 for %s alone" % (code, fault) for code in LENGTHS for fault in FAULTS])
declare(*["aircraft reads %02X: 23 for the 7E alone" % code for code in TYPE_1])
declare(*["aircraft reads %02X: %s" % (code, what) for code in LENGTHS
          for what in ("23 for no bytes", "23 for more than one thing", "error", KINDS[code])])
declare(*["aircraft reads: error %02X" % error for error in ERRORS])
declare("aircraft reads: an error that document 01 doesn't have", "aircraft reads 91: mode over 3",
        "aircraft reads 91: request not 0", "aircraft reads 91: all at their greatest",
        "aircraft reads 94: id that is none", "aircraft reads 94: value under 0",
        "aircraft reads 94: value out of its row", "aircraft reads 94: another id than was asked for")


def length_fault(length, due, what):
    """Whether an answer has another length than is due."""
    if length < due:
        return [what + "too short"]
    return [what + "too long"] if length > due else []


def faults(code, answer):
    """All that is wrong with an answer that has bytes."""
    found = []
    if crc(answer[:-2]) != int.from_bytes(answer[-2:], "big") or len(answer) < 2:
        found.append("the CRC")
    if answer[0] != code:
        found.append("the first byte")
    if answer[1:2] == b"\x09":
        found += length_fault(len(answer), 5, "an error ")
    elif answer[1:2] == b"\x01":
        found += length_fault(len(answer), LENGTHS[code], "a success ")
        if code in TYPE_1 and len(answer) == 5 and answer[2] != 0x7E:
            found.append("the 7E")
    else:
        found.append("the second byte")
    return found


def wrong(code, answer):
    """Whether an answer is wrong for its command."""
    name = "aircraft reads %02X: " % code
    if not answer:
        hit(name + "23 for no bytes")
        return True
    found = faults(code, answer)
    if len(found) == 1:
        hit(name + "23 for %s alone" % found[0])
    elif found:
        hit(name + "23 for more than one thing")
    return bool(found)


def read_status(body):
    """'mode, flags 2, priority blocks waiting 2, ordinary blocks waiting 4, request 0, eight ids'."""
    numbers = struct.unpack(">BHHIB8B", body)
    if numbers[0] > 3:
        hit("aircraft reads 91: mode over 3")
    if numbers[4]:
        hit("aircraft reads 91: request not 0")
    if body == b"\xFF" * 18:
        hit("aircraft reads 91: all at their greatest")
    return Meaning("status", numbers)


def read_value(body, asked):
    """'id, value'."""
    id, value = struct.unpack(">Bi", body)
    if id not in ROWS:
        hit("aircraft reads 94: id that is none")
    if id != asked:
        hit("aircraft reads 94: another id than was asked for")
    if value < 0:
        hit("aircraft reads 94: value under 0")
    if id in ROWS and not ROWS[id][0] <= value <= ROWS[id][1]:
        hit("aircraft reads 94: value out of its row")
    return Meaning("value", (id, value))


def read(packet, answer):
    """What an answer to a command means. Of the command only its code decides."""
    code = packet[0]
    if wrong(code, answer):
        return WRONG
    if answer[1] == 0x09:
        hit("aircraft reads %02X: error" % code)
        hit("aircraft reads: error %02X" % answer[2] if answer[2] in ERRORS
            else "aircraft reads: an error that document 01 doesn't have")
        return Meaning("error", (answer[2],))
    hit("aircraft reads %02X: %s" % (code, KINDS[code]))
    if code == 0x91:
        return read_status(answer[2:-2])
    if code == 0x94:
        return read_value(answer[2:-2], packet[2])
    return Meaning("done") if code in TYPE_1 else Meaning("data", (), answer[2:-2])
