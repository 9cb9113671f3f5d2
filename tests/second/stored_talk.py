"""The stored conversation of `aircraft` with `session`: what each prints is what the other reads, but
for what the link between them loses, damages or repeats."""

from collections import namedtuple

from airframe.lines import Aircraft, aircraft_line
from model import Pod, session_line
from moves.packets import line_of
from ports.packets import sealed


def whole(line):
    """The link lets a line through."""
    return [line]


def lost(_):
    """It loses it."""
    return []


def twice(line):
    """It brings it twice."""
    return [line, line]


def cut(size):
    """It brings the first bytes alone."""
    return lambda line: [line[:1 + 3 * size]]


def longer(line):
    """It brings a byte more."""
    return [line + b" 00"]


def changed(at, byte):
    """It brings another byte at a place."""
    return lambda line: [line[:2 + 3 * at] + b"%02X" % byte + line[4 + 3 * at:]]


# a line of Q, Y or N; what the link does with its packet; with the pod's answer; and what it brings
# that this pod never said
Row = namedtuple("Row", "line out back brings", defaults=(whole, whole, ()))
RAMP, A5 = bytes(range(256)), b"\xA5" * 256

ROWS = (
    # before Initialise
    Row("Q 91"), Row("Q 90 4 0 0 0 4 4 100 2 1000"), Row("N"),
    # Initialise: the packet is lost, its answer is lost, then it is done
    Row("Q 90 1 3 22320 250 4 4 100 2 1000", lost), Row("N", back=lost), Row("N"), Row("N"),
    # a Status: the answer is damaged, and then comes twice
    Row("Q 91", back=changed(4, 0x02)), Row("N", back=twice), Row("Y 91"),
    # a write: damaged on its way there, so the pod says 01; a refused line keeps what is on its way
    Row("Q 93 1 -1500", changed(6, 0x25)), Row("Q 93 1 15001"), Row("Q 93 13 0"), Row("N"),
    Row("Q 94 1", back=cut(7)), Row("N"), Row("Y 94"),
    # that 1 stays below 2 the pod judges
    Row("Q 93 2 -1501"), Row("Q 93 2 -01499"), Row("Q 94 2", back=changed(2, 0x01)), Row("N"), Row("Y 94 01"),
    Row("Q 93 3 -0"), Row("Q 93 3 0000000100"), Row("Q 93 7 3"), Row("Q 93 6 2147483648"), Row("Q 94 126"),
    # four sends, and none is answered
    Row("Q 91", lost), Row("N", back=lost), Row("N", lost), Row("N", back=lost), Row("N"),
    Row("Q 91", changed(1, 0x09)), Row("N", changed(1, 0x00)), Row("N", cut(3)), Row("N", longer), Row("N"),
    Row("Q 92 3 65535 4194303 999 65535 65535 4294967295 4294967295 60000", back=changed(2, 0x7F)),
    Row("N", back=longer), Row("N", back=changed(0, 0x90)), Row("N", back=cut(0)), Row("N"),
    # the fourth is answered
    Row("Q 92 2 0 22321 0 4 3 100 0 2000", lost), Row("N", changed(24, 0x00)), Row("N", back=changed(3, 0x00)),
    Row("N"), Row("Q 91"), Row("Y 91"),
    # a new command takes the place of the last, with four sends of its own
    Row("Q 95", lost), Row("Q 95", lost), Row("N"), Row("Q 96", back=changed(2, 0x3B)), Row("Q 94 3"), Row("Y 94"),
    # blocks, from a pod that has some
    Row("Q 95", lost, brings=[sealed(b"\x95\x01" + RAMP)]), Row("Y 95", lost),
    Row("Q 96", lost, brings=[sealed(b"\x96\x01" + A5)[:-1]]),
    Row("N", lost, brings=[sealed(b"\x95\x01" + A5)]), Row("N", lost, brings=[sealed(b"\x96\x01" + A5)] * 2),
    Row("Y 96", lost), Row("Y 8F"), Row("Y A0 3A"), Row("Y 9F FF", lost),
    # answers that are read as they stand
    Row("Q 91", lost, brings=[sealed(b"\x91\x01" + bytes(range(9, 27)))]),
    Row("Q 94 12", lost, brings=[sealed(b"\x94\x01\xFF\x80\x00\x00\x00")]),
    Row("Q 93 12 500", lost, brings=[sealed(b"\x93\x09\xFF")]),
    # lines that are none
    Row("Q 97"), Row("Q 91 "), Row("Q 9f"), Row("Q 94 00000000001"), Row("Q 94 -1"), Row("Q 94"), Row("Q 94 1 1"),
    Row("Y 9"), Row("N 1"), Row(""),
    Row("Q 9F"), Row("Q 91"), Row("Q 9F"),
)


def brought(row, answers):
    """What the aircraft hears after a line that printed a packet: `P -` where nothing comes."""
    lines = [line for answer in answers for line in row.back(answer)] + [line_of(packet) for packet in row.brings]
    return lines or [b"P -"]


def packets(said):
    """The packets that come to the pod, row by row, by what `aircraft` prints to the rows' lines."""
    return [row.out(answer) if answer.startswith(b"P") else [] for row, answer in zip(ROWS, said)]


def heard(said, answers):
    """The lines that `aircraft` reads, by what it prints to the rows' lines and what the pod answers."""
    answers = iter(answers)
    for row, answer, arrived in zip(ROWS, said, packets(said)):
        yield row.line.encode()
        if answer.startswith(b"P"):
            yield from brought(row, [next(answers) for _ in arrived])


def row_answers(lines, answers):
    """What was printed to the rows' lines, of all that was printed."""
    return [answer for line, answer in zip(lines, answers) if not line.startswith(b"P")]


def make():
    """The lines and answers of `aircraft`, and those of `session`, by the second programs."""
    aircraft, pod = Aircraft(), Pod()
    lines, answers, sent, got = [], [], [], []

    def say(line):
        lines.append(line)
        answers.append(aircraft_line(aircraft, line))
        return answers[-1]

    for row in ROWS:
        answer = say(row.line.encode())
        if answer.startswith(b"P"):
            arrived = row.out(answer)
            sent += arrived
            got += [session_line(pod, line) for line in arrived]
            for line in brought(row, got[len(got) - len(arrived):]):
                say(line)
    return lines, answers, sent, got
