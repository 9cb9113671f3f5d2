"""Lines of `aircraft` as its table shows them, and what document 02 asks of both ends, asserted of the
second program with the model of the pod at the other end."""

import random
import struct
from itertools import product

from airframe.building import FIELDS, acknowledgement, command
from airframe.lines import Aircraft, aircraft_line, answers
from airframe.reading import LENGTHS, WRONG, read
from model import Pod
from ports.packets import is_acknowledgement, sealed
from ports.params import ROWS
from ports.refusal import Refused
from ports.sizes import ORDINARY, PRIORITY

STATUS = "P 91 01 01 00 03 00 00 00 00 00 00 00 01 02 03 06 07 00 00 00 71 B8"


def talk(text):
    """Lines and what they print, as 'line => answer' in each row of the text."""
    aircraft = Aircraft()
    for row in text.strip().splitlines():
        line, expected = (part.strip(" ").encode() for part in row.split("=>"))
        answer = aircraft_line(aircraft, line)
        assert answer == expected, (row, answer)


def shown_built():
    """The worked bytes of the interface sheet, built from their fields."""
    talk("""Q 90 1 3 22320 250 4 4 100 2 1000 => P 90 01 01 00 03 01 5C C0 FA 00 04 00 04 00 00 00 64 00 00 00 02 03 E8 DF 50
        Q 92 2 0 22500 0 4 3 100 0 1000 => P 92 01 02 00 00 01 5F 90 00 00 04 00 03 00 00 00 64 00 00 00 00 03 E8 17 BD
        Q 91 => P 91 01 26 F4
        Q 93 1 -1500 => P 93 01 01 FF FF FA 24 46 13
        Q 93 1 -0000001500 => P 93 01 01 FF FF FA 24 46 13
        Q 94 1 => P 94 01 01 4B 75
        Q 95 => P 95 01 EA 30
        Q 96 => P 96 01 BF 63
        Q 9F => P 9F 01 05 FB
        Y 95 => P 95 01 7E F3 3D
        Y 95 01 => P 95 09 01 F5 EC
        Y 94 => P 94 01 7E C4 0D
        Q 94 126 => Q !20
        Y 8F => Y !20
        Y A0 => Y !20
        Y 00 00 => Y !20
        N => P 9F 01 05 FB""")


def shown_refused():
    """20 and `?`: form is judged before fields."""
    good = [1, 3, 22320, 250, 4, 4, 100, 2, 1000]
    for at, out in enumerate((4, 65536, 2 ** 22, 1000, 65536, 5, 2 ** 32, 101, 60001)):
        fields = good[:at] + [out] + good[at + 1:]
        talk("Q 90 %s => Q !20\n N => N -" % " ".join(map(str, fields)))
    talk("Q 92 1 3 22320 250 4 4 100 2 0 => Q !20\n Q 92 9 3 22320 250 4 4 100 2 00000000001 => ?\n"
         "Q 92 9 3 22320 250 4 4 100 2 => ?\n Q 92 9 3 22320 250 4 4 100 2 1 1 => ?\n Q 94 13 => Q !20\n"
         "Q 94 9999999999 => Q !20\n Q 94 09999999999 => ?\n Q 94 -0 => ?\n Q 93 7 -0 => P 93 01 07 00 00 00 00 97 BA\n"
         "Q 93 7 4 => Q !20\n Q 93 7 +1 => ?\n Q 93 7 -- => ?\n Q 93 7 - => ?\n Q 97 => ?\n Q 91 1 => ?\n q 91 => ?\n"
         "Y 9 => ?\n Y 91 1 => ?\n Y => ?\n N 1 => ?\n P 9f => ?\n P - 00 => ?\n"
         "Q 93 1 9999999999 => Q !20\n Q 93 1 -9999999999 => Q !20\n N => P 93 01 07 00 00 00 00 97 BA")
    assert answers(b"") == b"" and answers(b"\n") == b"?\n" and answers(b"N") == b"N -\n" == answers(b"N\n")
    assert answers(b"Q 91\nP" + b" 00" * 65535) == b"P 91 01 26 F4\nR !23 again\n"
    assert answers(b"Q 91\nP" + b" 00" * 65536) == b"P 91 01 26 F4\n?\n"


def shown_sends():
    """'it sends again up to three times and then reports the pod lost'."""
    talk("P - => R -\n P => R -\n N => N -\n Q 91 => P 91 01 26 F4\n P - => R again\n P => R !23 again\n"
         "P 91 09 01 29 2C => R error 01 again\n N => P 91 01 26 F4\n Q 94 0 => Q !20\n Q 97 => ?\n P - => R lost\n"
         "P - => R -\n %s => R -\n N => N -" % STATUS)
    for last, said in (("P", "R !23 lost"), ("P 91 09 01 29 2C", "R error 01 lost"), ("P 91 09 38 8E 56", "R error 38"),
                       (STATUS, "R status 1 3 0 0 0 1 2 3 6 7 0 0 0")):
        talk("Q 91 => P 91 01 26 F4\n P - => R again\n P - => R again\n P - => R again\n %s => %s\n N => N -\n"
             "%s => R -" % (last, said, last))
    talk("Q 91 => P 91 01 26 F4\n P - => R again\n P - => R again\n P - => R again\n Q 95 => P 95 01 EA 30\n"
         "P - => R again\n P - => R again\n P - => R again\n N => P 95 01 EA 30\n Y 91 => P 91 01 7E 2F FD\n P - => R lost")


def over_lists():
    """Over any list of replies 'again' is said at most three times, and lost exactly at the fourth that
    went unanswered."""
    unanswered, ends = (b"P -", b"P", b"P 9F 09 01 32 2D"), (b"P 9F 01 7E 34 FC", b"P 9F 09 38 95 57")
    for replies in product(unanswered + ends, repeat=5):
        aircraft = Aircraft()
        aircraft.send(0x9F, [])
        said = [aircraft_line(aircraft, reply) for reply in replies]
        ended = next((at for at, reply in enumerate(replies) if reply in ends), 5)
        assert [b"again" in one for one in said] == [at < min(ended, 3) for at in range(5)], replies
        assert [b"lost" in one for one in said] == [at == 3 < ended for at in range(5)], replies
        assert said[min(ended, 3) + 1:] == [b"R -"] * (4 - min(ended, 3))


def some_numbers(rng, code):
    """Numbers for a command, within their bounds."""
    if code in (0x90, 0x92):
        numbers = [rng.choice((least, most, rng.randint(least, most))) for _, least, most in FIELDS.values()]
        numbers[5], numbers[7] = rng.randint(0, numbers[4]), rng.randint(0, numbers[6])
        return numbers
    if code == 0x93:
        id = rng.randint(1, 12)
        return [id, rng.randint(*ROWS[id][:2])]
    return [rng.randint(1, 12)] if code == 0x94 else []


def pod_fields(pod):
    """The fields that a pod holds, in their order."""
    limits = [n for store in (PRIORITY, ORDINARY) for n in (pod.limit[store], pod.remaining[store])]
    return [pod.mode, pod.flags, pod.seconds, pod.milliseconds, *limits, pod.poll]


def meant(pod, code, numbers):
    """What a pod means by its answer, from its state after it."""
    if code == 0x91:
        missing = [id for id in ROWS if ROWS[id][3] and id not in pod.written]
        return "status", (pod.mode, pod.flags, pod.waiting[PRIORITY], pod.waiting[ORDINARY], 0,
                          *(missing + [0] * 8)[:8]), b""
    if code == 0x94:
        return "value", (numbers[0], pod.values[numbers[0]]), b""
    if code in (PRIORITY, ORDINARY):
        return "data", (), bytes(pod.memory[code][pod.block_at(code, 0)])
    return "done", (), b""


def both_ends():
    """'A built command must be read by the pod as the same fields, and a pod's answer must be read as
    what the pod meant.'"""
    rng = random.Random(17)
    pod = Pod()
    pod.packet(command(0x90, [0, 0, 0, 0, 9, 9, 9, 9, 1]))
    for _ in range(4000):
        code = rng.choice((0x90, 0x91, 0x92, 0x93, 0x94, 0x95, 0x96, 0x9F))
        numbers = some_numbers(rng, code)
        packet = command(code, numbers)
        awake, before = pod.initialised, dict(pod.values)
        meaning = read(packet, pod.packet(packet))
        if meaning.kind == "error":
            spans = code == 0x93 and numbers[0] in (1, 2) and (
                before[2] <= numbers[1] if numbers[0] == 1 else numbers[1] <= before[1])
            due = 0x38 if not awake and code != 0x90 else 0x39 if spans else 0x3A if not pod.waiting[code] else 0x3B
            assert meaning.numbers == (due,), (packet.hex(" "), meaning)
            continue
        assert tuple(meaning) == meant(pod, code, numbers), (packet.hex(" "), meaning)
        if code in (0x90, 0x92):
            assert pod_fields(pod) == numbers, (packet.hex(" "), numbers)
        if code == 0x93:
            assert pod.values[numbers[0]] == numbers[1]
        if pod.initialised and pod.waiting[PRIORITY] < 16:
            pod.put(rng.choice((PRIORITY, ORDINARY)), rng.randbytes(256))


def acknowledgements():
    """Each is read by the pod as one; `94 01 7E` is never built as a read."""
    for first, error in product(range(256), (None, 0, 1, 0x7E, 255)):
        try:
            packet = acknowledgement(first, error)
        except Refused as refused:
            assert refused.number == 20 and not 0x90 <= first <= 0x9F
            continue
        assert 0x90 <= first <= 0x9F and is_acknowledgement(packet) and Pod().packet(packet) == b""
    assert not any(is_acknowledgement(command(0x94, [id])) for id in ROWS)


def damaged():
    """One byte replaced: never another meaning than 23."""
    for code, length in LENGTHS.items():
        body = b"\x7E" if length == 5 else struct.pack(">%dB" % (length - 4), *(i % 251 for i in range(length - 4)))
        for answer in (sealed(bytes((code, 1)) + body), sealed(bytes((code, 9, 0x38)))):
            assert read(bytes((code, 1, 0)), answer) != WRONG
            for at in range(len(answer)):
                for way in (0x01, 0x08, 0x80, 0xFF):
                    other = answer[:at] + bytes((answer[at] ^ way,)) + answer[at + 1:]
                    assert read(bytes((code, 1, 0)), other) == WRONG, other.hex(" ")


def run():
    """All of them."""
    for part in (shown_built, shown_refused, shown_sends, over_lists, both_ends, acknowledgements, damaged):
        part()
    print("aircraft's half: ok, the shown lines and both ends hold")


if __name__ == "__main__":
    run()
