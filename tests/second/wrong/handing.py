"""Wrong in the calls packet out and taken."""

from model import Pod
from ports.refusal import Refused

from .named import wrong


@wrong
class SixFirst(Pod):
    """6 before 22"""

    def packet_out(self, packet):
        self.rows("packet out")
        if not self.initialised:
            raise Refused(6)
        return super().packet_out(packet)


@wrong
class BusyBeforeSix(Pod):
    """21 before 6"""

    def packet_out(self, packet):
        self.rows("packet out")
        if self.hand and len(packet) == 8:
            raise Refused(21)
        return super().packet_out(packet)


@wrong
class BusyBeforeLength(Pod):
    """21 before 22"""

    def packet_out(self, packet):
        self.rows("packet out")
        if self.hand and self.initialised:
            raise Refused(21)
        return super().packet_out(packet)


@wrong
class Replaces(Pod):
    """a second packet replaces the first"""

    def packet_out(self, packet):
        self.rows("packet out")
        if self.initialised and len(packet) == 8:
            self.hand = b""
        return super().packet_out(packet)


@wrong
class Fills(Pod):
    """a short packet is filled up"""

    def packet_out(self, packet):
        return super().packet_out(packet + bytes(max(8 - len(packet), 0)))


@wrong
class Cuts(Pod):
    """a long packet is cut"""

    def packet_out(self, packet):
        return super().packet_out(packet[:8])


@wrong
class Backwards(Pod):
    """the last byte first"""

    def packet_out(self, packet):
        return super().packet_out(packet[::-1])


@wrong
class ClosesExchange(Pod):
    """a packet out closes an exchange"""

    def packet_out(self, packet):
        first = super().packet_out(packet)
        self.exchange = None
        return first


@wrong
class TakenAsleep(Pod):
    """a taken while not initialised"""

    def taken(self):
        self.rows("taken")
        awake, self.initialised = self.initialised, True
        byte = super().taken()
        self.initialised = awake
        return byte


@wrong
class SameByte(Pod):
    """a taken answers the byte that was taken"""

    def taken(self):
        shown = self.hand[:1]
        super().taken()
        return shown


@wrong
class LastStays(Pod):
    """the last byte stays in hand"""

    def taken(self):
        held = self.hand
        byte = super().taken()
        self.hand = self.hand or held[:1]
        return byte
