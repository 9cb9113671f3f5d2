"""What is counted: the calls of the pod, in the cases that looked dearest, those of the aircraft's half, and the lines for
`repeats` and `repeats_airframe` that make them.

Two runs that differ in the number of calls alone differ by what those calls cost, whatever starting the program took.
"""
import binascii
from typing import NamedTuple

PACKET_BAR = 32_000  # 2 ms at 16 MHz
WORD_BAR = 576  # 36 us at 16 MHz


class Case(NamedTuple):
    """A call, with what is handed in and how often it is made in the two runs."""

    what: str
    letter: str
    rest: bytes = b""
    waiting: int = 0
    few: int = 100
    many: int = 1100
    program: str = "repeats"

    def line(self, calls):
        """The line for the program."""
        return spelt(self.letter, bytes([self.waiting, calls >> 8, calls & 0xFF]) + self.rest)


def closed(*body):
    """Bytes with their CRC."""
    crc = binascii.crc_hqx(bytes(body), 0xFFFF)
    return bytes(body) + bytes([crc >> 8, crc & 0xFF])


def spelt(letter, data):
    return letter.encode() + b"".join(b" %02X" % byte for byte in data) + b"\n"


DATA = closed(0x96, 0x01)
STATUS = closed(0x91, 0x01)
FIELDS = (1, 0x12, 0x34, 0, 0, 4, 0, 0, 16, 0, 16, 0, 0, 0, 128, 0, 0, 0, 128, 0x03, 0xE8)
INITIALISE = closed(0x90, 0x01, *FIELDS)
UPDATE = closed(0x92, 0x01, *FIELDS)
WRITE = closed(0x93, 0x01, 3, 0, 0, 3, 0x84)
READ = closed(0x94, 0x01, 3)
ANSWER = closed(0x96, 0x01, *(i % 251 for i in range(256)))
REJECTED = bytes([0x96, 0x01]) + bytes(i % 256 for i in range(258))
LOAD_64 = bytes([0x0C, 0x40])
READ_64 = bytes([0xCC, 0x40])
READ_4 = bytes([0xCC, 0x04])
STARTS = bytes([0x00, 0x01])
EVEN = NONE = bytes(2)
BLOCK = bytes(range(256))

PACKETS = (
    Case("packet 0x96, 260 bytes of answer", "P", DATA, 128),
    Case("Initialise", "P", INITIALISE, 128),
    Case("Status", "P", STATUS, 128),
    Case("Update", "P", UPDATE, 128),
    Case("Parameter write, its id written before", "P", WRITE, 128),
    Case("Parameter write, its id struck out", "P", WRITE, 128, few=0, many=1),
    Case("Parameter read", "P", READ, 128),
    Case("rejected: 260 bytes, CRC wrong", "P", REJECTED, 128),
)
WORDS = (
    Case("command word: a read, another is closed", "C", READ_4 + READ_4, few=13, many=113),
    Case("command word: a load, another is closed", "C", LOAD_64 + LOAD_64),
    Case("command word: refused, a read is closed", "C", READ_64 + EVEN, few=0, many=1),
    Case("data word in", "W", LOAD_64 + NONE, few=13, many=63),
    Case("data word in, a read is closed", "W", READ_64 + NONE, few=0, many=1),
    Case("data word out", "R", READ_64 + NONE, few=13, many=63),
    Case("data word out, the last of a read of 64", "R", READ_64 + NONE, few=63, many=64),
    Case("data word out, a load is closed", "R", LOAD_64 + NONE, few=0, many=1),
    Case("status word", "S", NONE + NONE),
)
# These move whole tables.
TABLES = (
    Case("command word: tables to their starts, a load is closed", "C", LOAD_64 + STARTS, few=0, many=1),
    Case("data word in, the last of a load of 64", "W", LOAD_64 + NONE, few=63, many=64),
)
OTHERS = (
    Case("put", "B", BLOCK, few=28, many=128),
    Case("sample set", "A"),
    Case("pipe byte, the eighth", "I", few=7, many=8),
    Case("pipe timeout with seven gathered and eight in hand", "T", few=8, many=9),
    Case("packet out", "O", few=9, many=10),
    Case("taken, one of seven", "K", few=1, many=8),
    Case("deadline", "D", NONE + NONE),
)
# By the word for the C peer.
AIRFRAME = {
    "build": Case("a command of 25 bytes built", "Q", INITIALISE, program="repeats_airframe"),
    "read": Case("an answer of 260 bytes read", "P", ANSWER, program="repeats_airframe"),
}
FLAT = tuple(Case(f"packet 0x96, {n} waiting", "P", DATA, n) for n in (1, 16, 64, 128)) + tuple(
    Case(f"put, behind {n}", "B", BLOCK, n, few=0, many=10) for n in (0, 64, 118)
)
