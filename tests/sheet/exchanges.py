"""The sheet's part 'Exchanges': acknowledgements and what closes an exchange, against the programs and the second model."""
import model
from ports.packets import is_acknowledgement, sealed

from .desk import Part, checks
from .packets import BLOCKS, VALUES, asked, spelled
from .pages import number, numbers


FIRSTS = range(0x90, 0xA0)


def acknowledged(firsts, form):
    """An acknowledgement of each first byte, with what is printed."""
    return [(asked(sealed(bytes((first,)) + form)), "P -") for first in firsts]


class Exchanges(Part):
    """The tables of the exchange."""

    def all(self):
        """Each table once."""
        checks(self.desk, self.check_forms, self.check_exchange)

    def check_forms(self):
        """The two forms of an acknowledgement, over all first bytes."""
        table = self.take("Form", "Byte 0", "Byte 1", "Byte 2", "Bytes 3 and 4")
        for first in range(256):
            for second in (0x00, 0x01, 0x02, 0x08, 0x09, 0x7E):
                for third in (0x00, 0x01, 0x09, 0x7D, 0x7E, 0x7F):
                    is_one = any(first in numbers(row[1]) and second == number(row[2])
                                 and (row[3] == "any" or third == number(row[3])) for row in table)
                    if is_acknowledgement(sealed(bytes((first, second, third)))) != is_one:
                        table.rows[0].fault("%02X %02X %02X is %san acknowledgement" % (first, second, third, "no " * is_one))

    def check_exchange(self):
        """With the first of two priority blocks sent: what comes, what is open then, and which block is sent next."""
        table = self.take("What comes", "Answer", "Exchange", "Block")
        comes = {
            "an acknowledgement *received* of the open code, or of 0x90": acknowledged((0x95, 0x90), b"\x01\x7E"),
            "an acknowledgement *received* of any other code": acknowledged(set(FIRSTS) - {0x95, 0x90}, b"\x01\x7E"),
            "an acknowledgement *failed*, of whatever code": acknowledged(FIRSTS, b"\x09\x7E"),
            "a damaged packet": [("P 95 01 7E 00 00", self.packets.error(0x95, 0x01))],
            "a type 2 command without error": [(asked(self.packets.packet(0x94, {"id": 3})),
                                                self.packets.answer(0x94, {"id": 3, "value": 950}))],
            "any other packet": [(asked(self.packets.packet(0x93, {"id": 3, "value": 0})), self.packets.error(0x93, 0x39))],
            "the deadline call": [("D", "D")],
            "an empty packet": [("P", "P -")],
            "a call of another port": [("S", "S 0000"), ("O 01 02 03 04 05 06 07 08", "O 01"), ("K", "K -"), ("T", "T -")]}
        if table.column(0) != list(comes):
            table.rows[0].fault("what comes is not: %s" % "; ".join(comes))
        fetch = asked(self.packets.packet(0x95))
        block = [self.packets.answer(0x95, {"block": one}) for one in BLOCKS]
        put = [("B p" + spelled("", one), "B") for one in BLOCKS]
        received = (asked(sealed(b"\x95\x01\x7E")), "P -")
        for row, one in ((row, one) for row in table for one in comes[row[0]]):
            begun = [self.packets.begin()] + put + [(fetch, block[0]), one]
            dropped = row[3] == "dropped, and remaining falls by 1"
            stays = row[2] == "stays"
            self.case_exchange(row, begun)
            self.desk.case(row.where, begun + [(fetch, block[dropped])])
            self.desk.case(row.where, begun + [received, (fetch, block[dropped or stays])])

    def case_exchange(self, row, begun):
        """The answer, and what the second model has open then; remaining falls with the block."""
        pod = model.Pod()
        for line, _ in begun:
            model.console_line(pod, line.encode())
        told = begun[-1][1]
        kind = "none" if told in ("P -", "D") else "data" if told[5:7] == "01" else "0x" + told[8:10] if told[5:7] == "09" else ""
        if row[1] != kind and row[1] != "its own":
            row.fault("it is answered with %s" % kind)
        meant = {"closes": None, "stays": 0x95, "closes, then opens for that code": 0x94}
        if row[2] not in meant or meant[row[2]] != pod.exchange:
            row.fault("then the second model has the exchange %s open" % pod.exchange)
        left = VALUES["priority remaining"] - pod.remaining[0x95]
        if row[3] != ("dropped, and remaining falls by 1" if left else "kept") or left + pod.waiting[0x95] != 2:
            row.fault("the second model has %d blocks and the remaining lower by %d" % (pod.waiting[0x95], left))
