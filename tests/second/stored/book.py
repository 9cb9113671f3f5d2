"""Lines with the model's answers. Each refused call stands between two `V` lines, and they are
equal."""

from model import Pod
from moves import bench, packets, words
from moves.edges import lines
from ports.lab import lab_line, shown_memory, shown_numbers, shown_output
from ports.packets import sealed

READ = words.READ
FIELDS = packets.pack_fields(1, 0x1234, 5 << 10 | 500, (16, 9), (200, 150), 1000)
OTHER = packets.pack_fields(3, 0xFFFF, 7 << 10 | 999, (3, 3), (0, 0), 60000)


def packet(text):
    """The line of a packet with its right CRC, its bytes given in hex."""
    return packets.line_of(sealed(bytes.fromhex(text)))


def command(*numbers):
    """The line of a command word."""
    return b"C %04X" % words.command_word(*numbers)


def block(turn, size=256):
    """Bytes that differ with the turn."""
    return bytes((turn * 31 + i * (2 * turn + 1)) & 0xFF for i in range(size))


def put(letter, turn, size=256):
    """The line of a put."""
    return b"B " + letter + bench.digits(block(turn, size))


def out(turn, size=8):
    """The line of a packet out."""
    return b"O" + bench.digits(block(turn + 5, size))


def sampled(check=5, size=128, highest=1023):
    """The line of samples that rise to the highest."""
    return bench.sample_line(check, [max(highest - size + 1 + k, 0) for k in range(size)])


INITIALISE = packets.line_of(sealed(b"\x90\x01" + FIELDS))
# the calls by their letter, in turn
CALLS = {
    "P": [INITIALISE, packet("9101"), packets.line_of(sealed(b"\x92\x01" + OTHER)), packet("9301 03 000001F4"),
          packet("9401 01"), packet("9501"), packet("9601"), packet("95017E"), packet("96017E"), packet("91097E"),
          packet("9F01"), b"P", b"P 95 01 7E 00 00"],
    "D": [b"D"],
    "B": [put(letter, turn) for turn in range(1, 4) for letter in (b"p", b"o")],
    "C": [command(0, 0), command(0, 1), command(1, 1), command(5, 4), command(6, 4, READ), b"C 0000",
          command(7, 64, READ)],
    "W": [b"W 0005", b"W 0000", b"W FFFF"],
    "R": [b"R"],
    "S": [b"S"],
    "A": [sampled()],
    "I": [b"I A5", b"I 00"],
    "T": [b"T"],
    "O": [out(1), out(2), out(3, 7)],
    "K": [b"K"],
    "Z": [b"Z"],
}


def state(pod):
    """All that V shows, whole."""
    return shown_numbers(pod), [bytes(part) for part in shown_memory(pod)], shown_output(pod), list(pod.missing)


class Book:
    """Lines with the model's answers, and its pod."""

    def __init__(self):
        self.pod = Pod()
        self.lines = []
        self.answers = []
        self.shown = None       # the last V, while the state is as it was then

    def note(self, line, answer):
        """A line and its answer."""
        self.lines.append(line)
        self.answers.append(answer)

    def say(self, *added):
        """Lines as they are."""
        for line in added:
            self.note(line, lab_line(self.pod, line))
            if line[:1] not in b"LV" and self.answers[-1] != b"?":
                self.shown = None

    def no_line(self, *added):
        """Lines that print `?`."""
        self.say(*added)
        assert set(self.answers[-len(added):]) == {b"?"}, added

    def look(self):
        """V."""
        self.say(b"V")
        self.shown = self.answers[-1]

    def call(self, line):
        """A call and V behind it; where it is refused, V in front of it too, and they are equal."""
        before = self.shown or lab_line(self.pod, b"V")
        answer = lab_line(self.pod, line)
        if b"!" in answer and not self.shown:
            self.note(b"V", before)
        self.note(line, answer)
        self.look()
        assert b"!" not in answer or self.shown == before, line
        return answer

    def settle(self, settings):
        """X lines, without those that change nothing."""
        for line in lines(settings):
            before = state(self.pod)
            answer = lab_line(self.pod, line)
            assert answer == b"X", line
            if state(self.pod) != before:
                self.note(line, answer)
                self.shown = None

    def refused(self, line, number):
        """A call that is refused by this number, or by none."""
        answer = self.call(line)
        assert (b"%s !%d" % (line[:1], number) == answer) if number else b"!" not in answer, (line, answer, number)


def awake(book):
    """An initialised pod with blocks, table words, marks, both halves of the pipe and an open transfer."""
    book.say(b"Z", INITIALISE, packet("9301 03 000001F4"), packet("9301 07 00000002"))
    book.say(*(put(letter, turn) for turn in range(3) for letter in (b"p", b"o")))
    for table in (5, 6, 7):
        load = (table, 60, 3, 0x1111 * table, 0xFFFF, table)
        book.say(command(table, 6), *(b"W %04X" % word for word in load))
    book.say(packet("9501"), packet("95017E"), out(0), b"T", out(1), b"K", b"I 81", b"I 7E")
    book.say(command(6, 8), b"W 0006", b"W 0001")
    book.look()
