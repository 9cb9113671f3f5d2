"""The sheet's parts 'Frames' and 'Byte pipe' against the programs and the second model."""
import random
import re

from .desk import Part, checks
from .packets import asked
from .pages import numbers

BYTES = b"EIGHTY C"
OUT = b"SHUTTERS"
BITS = re.compile(r"(\d)\.(\d)(?:-(\d))?")
CHANNEL = re.compile(r"channel (\d), bits (\d) (?:to|and) (\d)")


def places(row):
    """The byte, the highest and the lowest bit of a row of a frame."""
    match = BITS.fullmatch(row[0])
    if not match:
        row.fault("bits that can't be read")
    byte, high = int(match[1]), int(match[2])
    return byte, high, int(match[3]) if match[3] else high


def letter_of(row):
    """The letter of what comes."""
    return {"a byte": "I", "a packet of 8 bytes": "O", "a taken": "K"}.get(row[0], "T")


def spelled(letter, data):
    """A letter and bytes, or `-` for none."""
    return letter + ("".join(" %02X" % byte for byte in data) or " -")


def timed_out(count):
    """So many output timeouts, with nothing gathered."""
    return [(spelled("O", OUT), "O %02X" % OUT[0]), ("T", "T -")] * count


def gathered(data, timeouts=0):
    """Bytes gathered behind so many input timeouts, which end what is in hand."""
    return [("I 55", "I -"), ("T", "T 55")] * timeouts + [("I %02X" % byte, "I -") for byte in data]


def in_hand(count):
    """So many bytes in hand, the last of a packet."""
    taken = [("K", "K %02X" % byte) for byte in OUT[1:]]
    return [(spelled("O", OUT), "O %02X" % OUT[0])] + taken[:8 - count] if count else []


class Camera(Part):
    """The tables of the camera's side."""

    def __init__(self, desk, take, packets):
        super().__init__(desk, take, packets)
        self.frames = [take("Bits", "Shows", "In the guide", heading=name) for name in ("AN03", "AN47")]

    def all(self):
        """Each table once."""
        checks(self.desk, self.check_tiles, self.check_frames, self.check_pipe, self.check_output)

    def check_tiles(self):
        """The rows of a frame are its 64 bits, one after the other."""
        for table in self.frames:
            at = 0
            for row in table:
                byte, high, low = places(row)
                if 8 * byte + 7 - high != at or low > high:
                    row.fault("bit %d.%d comes next" % (at // 8, 7 - at % 8))
                at += high - low + 1
            if at != 64:
                table.rows[-1].fault("the frame ends at bit %d of 64" % at)

    def shown(self, row, state):
        """What a row shows in a state."""
        channel = CHANNEL.fullmatch(row[1])
        if channel:
            high, low = int(channel[2]), int(channel[3])
            return state["averages"][int(channel[1])] >> low & (1 << high - low + 1) - 1
        known = {"0": 0, "input timeouts": state["timeouts"], "1 while 1 to 7 bytes are gathered": int(state["gathered"] > 0),
                 "1 while initialised": int(state["initialised"]), "self-check number": state["check"],
                 "output timeouts": state["output timeouts"], "1 while 1 to 8 bytes are in hand": int(state["in hand"] > 0)}
        if row[1] not in known:
            row.fault("the test knows no such thing to show")
        return known[row[1]]

    def drawn(self, state):
        """The two frames, made of their tables."""
        data = b""
        for table in self.frames:
            frame = [0] * 8
            for row in table:
                byte, _, low = places(row)
                frame[byte] |= self.shown(row, state) << low
            data += bytes(frame)
        return data

    def check_frames(self):
        """Many states, samples at random and at their edges; fresh from power, and kept by a Shutdown."""
        dice = random.Random(1)
        shut = asked(self.packets.packet(0x9F)), self.packets.success(0x9F)
        for turn in range(60):
            samples = [dice.choice((0, 1023, dice.randint(0, 1023))) for _ in range(128)]
            state = self.state(turn % 17, turn % 8, turn * 7 % 18, turn * 4 % 9, turn % 5 != 4)
            state["averages"], state["check"] = [sum(samples[channel::8]) // 16 for channel in range(8)], dice.choice((0, 31, turn % 32))
            pairs = [self.packets.begin()] + timed_out(turn * 7 % 18) + gathered(b"U" * (turn % 8), turn % 17) + in_hand(turn * 4 % 9)
            if turn % 10 == 4:
                pairs, state = [], {**self.state(initialised=False), "averages": state["averages"], "check": state["check"]}
            elif not state["initialised"]:
                pairs.append(shut)
            line = "A %02X" % state["check"] + "".join(" %04X" % one for one in samples)
            pairs.append((line, spelled("A", self.drawn(state))))
            self.desk.case(self.frames[0].rows[0].where + " and its frames", pairs)

    def state(self, timeouts=0, gathered_now=0, output=0, handed=0, initialised=True):
        """What a frame shows besides samples that are all 0."""
        return {"averages": [0] * 8, "timeouts": min(15, timeouts), "gathered": gathered_now, "output timeouts": min(15, output),
                "in hand": handed, "initialised": initialised, "check": 0}

    def framed(self, *numbers_of):
        """The frames of samples that are all 0, in a state."""
        return "A 00" + " 0000" * 128, spelled("A", self.drawn(self.state(*numbers_of)))

    def check_pipe(self):
        """Each row from each count, with each number of timeouts before it."""
        table = self.take("What comes", "Gathered before", "Sent", "Gathered after", "Input timeouts")
        spans = [(row[0], n) for row in table for n in numbers(row[1])]
        if sorted(spans) != sorted((what, n) for what in ("a byte", "a timeout") for n in range(8)):
            table.rows[0].fault("not every count of gathered bytes stands there once for a byte and for a timeout")
        said = {2: ("nothing", "all eight, in order", "those gathered, in order"), 3: ("0", "one more"),
                4: ("kept", "one more, and 15 stays 15")}
        self.known(table, said)
        for row in table:
            for n in numbers(row[1]):
                for before in (0, 1, 14, 15, 16):
                    self.desk.case(row.where, self.piped(row, n, before, before % 3))

    def known(self, table, said):
        """Each cell of some columns is one of the texts that the test knows."""
        for row in table:
            for at, texts in said.items():
                if row[at] not in texts:
                    row.fault("%s is one of: %s" % (table.head[at], "; ".join(texts)))

    def piped(self, row, n, before, handed):
        """n bytes gathered behind some timeouts, some in hand, then what comes; the frame shows what is left."""
        here = bytes(BYTES[:n + 1]) if row[0] == "a byte" else bytes(BYTES[:n])
        sends = {"nothing": False, "all eight, in order": len(here) == 8}.get(row[2], letter_of(row) == "T")
        letter = letter_of(row)
        line = "I %02X" % BYTES[n] if letter == "I" else "T"
        pairs = [self.packets.begin()] + gathered(BYTES[:n], before) + in_hand(handed)
        pairs.append((line, spelled(letter, here if sends else b"")))
        counted = letter == "T" and handed > 0
        return pairs + [self.framed(min(15, before) + row[4].startswith("one more"), 0 if row[3] == "0" else n + 1,
                                    counted, 0 if letter == "T" else handed)]

    def check_output(self):
        """Each row of the output half from each count, with some timeouts before it, and bytes gathered or none."""
        table = self.take("What comes", "In hand before", "Answer", "In hand after", "Output timeouts")
        spans = [(row[0], n) for row in table for n in numbers(row[1])]
        if sorted(spans) != sorted((what, n) for what in ("a packet of 8 bytes", "a taken", "a timeout") for n in range(9)):
            table.rows[0].fault("not every count in hand stands there once for a packet of 8 bytes, for a taken and for a timeout")
        self.known(table, {2: ("its first byte", "refused by 21", "the next byte", "none", "what the input sends"),
                           3: ("8", "one less", "0", "as before"), 4: ("kept", "one more, and 15 stays 15")})
        for row in table:
            for n in numbers(row[1]):
                for before in (0, 1, 14, 15, 16):
                    self.desk.case(row.where, self.handed(row, n, before, before % 3))

    def handed(self, row, n, before, held):
        """n bytes in hand behind some timeouts, some gathered, then what comes; the frame and the bytes taken after it show
        what is left."""
        if row[2] == "the next byte" and n < 2:
            row.fault("of %d in hand there is no next byte" % n)
        told = {"its first byte": spelled("O", BYTES[:1]), "refused by 21": "O !21", "none": "K -",
                "the next byte": spelled("K", OUT[9 - n:10 - n]), "what the input sends": spelled("T", BYTES[:held])}[row[2]]
        after = {"8": 8, "one less": n - 1, "0": 0, "as before": n}[row[3]]
        left = BYTES[1:] if row[2] == "its first byte" else OUT[9 - after:]
        letter = letter_of(row)
        pairs = [self.packets.begin()] + timed_out(before) + gathered(BYTES[:held]) + in_hand(n)
        pairs.append((spelled("O", BYTES) if letter == "O" else letter, told))
        pairs.append(self.framed(letter == "T" and held > 0, 0 if letter == "T" else held,
                                 min(15, before) + row[4].startswith("one more"), after))
        return pairs + [("K", "K %02X" % byte) for byte in left] + [("K", "K -")]
