"""Packets from the aircraft (document 01, 'Packets')."""

from binascii import crc_hqx

from .labels import declare, hit
from .sizes import ORDINARY, PRIORITY

# code: (packet length, name)
COMMANDS = {
    0x90: (25, "initialise"),
    0x91: (4, "status"),
    0x92: (25, "update"),
    0x93: (9, "parameter_write_packet"),
    0x94: (5, "parameter_read_packet"),
    0x95: (4, "priority_data"),
    0x96: (4, "ordinary_data"),
    0x9F: (4, "shutdown"),
}

declare("packet: empty", "packet: empty keeps an exchange open", "packet: under 4 bytes",
        "packet: CRC wrong", "packet: damage closes an exchange", "packet: unknown code",
        "packet: a whole one closes an exchange", "deadline: closes an exchange",
        "deadline: nothing open")
declare(*["packet %02X: second byte not 01" % code for code in COMMANDS])
declare(*["packet %02X: too short" % code for code in COMMANDS if COMMANDS[code][0] > 4])
declare(*["packet %02X: too long" % code for code in COMMANDS])
declare(*["packet %02X: not initialised" % code for code in COMMANDS if code != 0x90])
declare(*["packet %02X: done" % code for code in COMMANDS])
declare("ack 01: nothing open", "ack 01: of another code", "ack 01: drops a priority block",
        "ack 01: drops an ordinary block", "ack 01: of a status", "ack 01: of a parameter read",
        "ack 09: nothing open", "ack 09: closes and keeps", "ack: not initialised",
        "ack: first byte is no code")
# request No. 2: marked 0x90, of either form, with an exchange open, with one just closed, with none
MARK = 0x90
declare(*["ack 90 %s: %02X %s" % (form, code, ending) for form in ("01", "09") for code in (0x91, 0x94, PRIORITY, ORDINARY)
          for ending in ("is open", "was closed by a deadline", "was closed by an Update")])
# each first byte with a receive open, of either form
declare(*["ack %02X %s: with %02X open" % (first, form, code) for first in range(0x90, 0xA0) for form in ("01", "09")
          for code in (PRIORITY, ORDINARY)])
declare("ack 90 01: nothing open", "ack 90 09: nothing open", "ack 90 01: drops, with an Update's remaining")


def crc(data):
    """'polynomial 0x1021, start 0xFFFF, high bit first, no reflection, no final change'."""
    return crc_hqx(data, 0xFFFF)


def sealed(data):
    """The bytes with their CRC behind them, 'sent high byte first'."""
    return data + crc(data).to_bytes(2, "big")


def error(code, number):
    """'An error answer has 5 bytes: the packet's first byte, 0x09, the error, CRC.'"""
    return sealed(bytes((code, 0x09, number)))


def done(code):
    """'Success of a type 1 command: first byte, 0x01, 0x7E, CRC'."""
    hit("packet %02X: done" % code)
    return sealed(bytes((code, 0x01, 0x7E)))


def is_acknowledgement(packet):
    """'5 bytes, right CRC, first byte 0x90 to 0x9F, and either second byte 0x01 with third
    0x7E, or second byte 0x09.' The CRC was looked at before."""
    return (len(packet) == 5 and 0x90 <= packet[0] <= 0x9F
            and (packet[1] == 0x09 or (packet[1] == 0x01 and packet[2] == 0x7E)))


class Packets:
    """The packet call and the deadline."""

    def packet(self, packet):
        """Checks 1 to 3. The answer is b"" where there is none."""
        self.rows("packet")
        if not packet:
            hit("packet: empty")
            if self.exchange:
                hit("packet: empty keeps an exchange open")
            return b""
        # 'Every other non-empty packet closes an open exchange first, keeping the block.'
        exchange, self.exchange = self.exchange, None
        late, self.late = self.late, None
        if len(packet) < 4:
            hit("packet: under 4 bytes")
            return self.damaged(packet, exchange)
        if crc(packet[:-2]) != packet[-2] * 256 + packet[-1]:
            hit("packet: CRC wrong")
            return self.damaged(packet, exchange)
        if is_acknowledgement(packet):
            if packet[0] == MARK:
                self.marked(packet, exchange, late)
            self.acknowledge(packet, exchange)
            return b""
        if exchange:
            hit("packet: a whole one closes an exchange")
        answer = self.command(packet)
        if exchange and answer == sealed(b"\x92\x01\x7E"):
            self.late = exchange, "an Update"
        return answer

    def damaged(self, packet, exchange):
        """'Under 4 bytes, or CRC wrong: 0x01.'"""
        if exchange:
            hit("packet: damage closes an exchange")
        return error(packet[0], 0x01)

    def acknowledge(self, packet, exchange):
        """'It gets no answer and closes the exchange. If it is the 0x01 form and its first
        byte equals the open exchange's code, and that is 0x95 or 0x96, the oldest block of
        that store is dropped'; by request No. 2 '0x90 closes any open exchange as that
        exchange's own code would'."""
        code, form = packet[0], packet[1]
        if not self.initialised:
            hit("ack: not initialised")
        if code not in COMMANDS:
            hit("ack: first byte is no code")
        if exchange in self.waiting:
            hit("ack %02X %02X: with %02X open" % (code, form, exchange))
        if code == MARK and exchange:
            code = exchange
        if form == 0x09:
            hit("ack 09: closes and keeps" if exchange else "ack 09: nothing open")
        elif exchange is None:
            hit("ack 01: nothing open")
        elif code != exchange:
            hit("ack 01: of another code")
        elif code == PRIORITY:
            hit("ack 01: drops a priority block")
            self.drop(PRIORITY)
        elif code == ORDINARY:
            hit("ack 01: drops an ordinary block")
            self.drop(ORDINARY)
        else:
            hit("ack 01: of a status" if code == 0x91 else "ack 01: of a parameter read")

    def marked(self, packet, exchange, late):
        """Counts where an acknowledgement marked 0x90 arrives; `late` is the exchange closed
        last and what closed it, if no packet came since."""
        start = "ack 90 %02X: " % packet[1]
        if exchange:
            hit(start + "%02X is open" % exchange)
            if exchange in self.waiting and packet[1] == 0x01 and self.updated:
                hit(start + "drops, with an Update's remaining")
        elif late:
            hit(start + "%02X was closed by %s" % late)
        else:
            hit(start + "nothing open")

    def command(self, packet):
        """Checks 4 to 7, then the command itself."""
        code = packet[0]
        if code not in COMMANDS:
            hit("packet: unknown code")
            return error(code, 0x02)
        length, name = COMMANDS[code]
        if packet[1] != 0x01:
            hit("packet %02X: second byte not 01" % code)
            return error(code, 0x3C)
        if len(packet) < length:
            hit("packet %02X: too short" % code)
            return error(code, 0x01)
        if len(packet) > length:
            hit("packet %02X: too long" % code)
            return error(code, 0x01)
        if not self.initialised and code != 0x90:
            hit("packet %02X: not initialised" % code)
            return error(code, 0x38)
        return getattr(self, name)(code, packet[2:-2])

    def data(self, code, body):
        """'of a type 2 command: first byte, 0x01, the body, CRC.' and 'A type 2 answer
        without error opens an exchange.'"""
        hit("packet %02X: done" % code)
        self.exchange = code
        return sealed(bytes((code, 0x01)) + body)

    def deadline(self):
        """'So does the deadline call (2 ms passed).'"""
        self.rows("deadline")
        hit("deadline: closes an exchange" if self.exchange else "deadline: nothing open")
        if self.exchange:
            self.late = self.exchange, "a deadline"
        self.exchange = None
