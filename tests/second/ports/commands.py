"""What each packet command does (document 01, 'Packets', checks 8 and 9)."""

import struct

from .labels import declare, hit
from .packets import done, error
from .sizes import NAMES, ORDINARY, PRIORITY

declare(*["packet %02X: %s" % (code, what) for code in (0x90, 0x92) for what in (
    "mode over 3", "milliseconds over 999", "priority remaining over limit",
    "memory remaining over limit", "poll 0", "poll over 60000")])
declare(*["packet %02X: %s" % (code, what) for code in NAMES
          for what in ("nothing waiting", "remaining 0", "nothing waiting and remaining 0")])
declare("initialise: while initialised", "initialise: after a shutdown or from power",
        "initialise: refused while initialised", "shutdown: with a transfer open",
        "shutdown: with no transfer open")


def fields_fault(body):
    """The first field outside its bounds, or None. 'Flags are free; the bounds above hold
    for the others.'"""
    mode, _, time, p_limit, p_left, m_limit, m_left, poll = struct.unpack(">BHIHHIIH", body)
    if mode > 3:
        return "mode over 3"
    if time & 0x3FF > 999:
        return "milliseconds over 999"
    if p_left > p_limit:
        return "priority remaining over limit"
    if m_left > m_limit:
        return "memory remaining over limit"
    if poll < 1:
        return "poll 0"
    if poll > 60000:
        return "poll over 60000"
    return None


class Commands:
    """What each command does, checks 8 and 9."""

    def take_fields(self, body):
        """'from byte 2: mode 1, flags 2, time 4 (upper 22 bits seconds, lower 10
        milliseconds), priority limit 2, priority remaining 2, memory limit 4, memory
        remaining 4, poll 2'."""
        (self.mode, self.flags, time, self.limit[PRIORITY], self.remaining[PRIORITY],
         self.limit[ORDINARY], self.remaining[ORDINARY], self.poll) = struct.unpack(">BHIHHIIH", body)
        self.seconds, self.milliseconds = time >> 10, time & 0x3FF

    def initialise(self, code, body):
        """'Initialise puts everything back as from power ..., marks the pod initialised and
        then takes its fields.'"""
        fault = fields_fault(body)
        if fault:
            hit("packet 90: " + fault)
            if self.initialised:
                hit("initialise: refused while initialised")
            self.count_kept("initialise: refused,")
            self.count_unfilled("initialise: refused,")
            return error(code, 0x39)
        hit("initialise: while initialised" if self.initialised
            else "initialise: after a shutdown or from power")
        self.forget_transfer("initialise")
        self.count_forgotten("initialise")
        self.count_refilled("initialise")
        self.power_on()
        self.initialised = True
        self.take_fields(body)
        return done(code)

    def update(self, code, body):
        """'Update takes the fields and keeps the rest.'"""
        fault = fields_fault(body)
        if fault:
            hit("packet 92: " + fault)
            self.count_unfilled("update: refused,")
            return error(code, 0x39)
        self.count_kept("update:")
        self.count_unfilled("update:")
        self.take_fields(body)
        self.updated = True
        return done(code)

    def status(self, code, _):
        """'Status, bytes 2 to 19: mode, flags 2, priority blocks waiting 2, ordinary blocks
        waiting 4, request 0, eight ids'."""
        return self.data(code, struct.pack(
            ">BHHIB", self.mode, self.flags, self.waiting[PRIORITY],
            self.waiting[ORDINARY], 0) + self.missing_ids())

    def parameter_write_packet(self, code, body):
        """'Parameter write, type 1: id, 4-byte signed'."""
        id, value = struct.unpack(">Bi", body)
        return done(code) if self.parameter_write(id, value) else error(code, 0x39)

    def parameter_read_packet(self, code, body):
        """'Parameter read, type 2: id', answered by 'id, value'."""
        value = self.parameter_read(body[0])
        if value is None:
            return error(code, 0x39)
        return self.data(code, struct.pack(">Bi", body[0], value))

    def priority_data(self, code, _):
        """'Priority data, type 2'."""
        return self.receive(code)

    def ordinary_data(self, code, _):
        """'Data, type 2'."""
        return self.receive(code)

    def receive(self, code):
        """'Nothing waiting: 0x3A. Then remaining is 0: 0x3B.'"""
        if not self.waiting[code]:
            hit("packet %02X: nothing waiting" % code)
            if self.remaining[code] == 0:
                hit("packet %02X: nothing waiting and remaining 0" % code)
            return error(code, 0x3A)
        if self.remaining[code] == 0:
            hit("packet %02X: remaining 0" % code)
            return error(code, 0x3B)
        return self.data(code, bytes(self.memory[code][self.block_at(code, 0)]))

    def shutdown(self, code, _):
        """'Shutdown makes the pod not initialised and closes an open transfer, which sets
        message error.'"""
        hit("shutdown: with a transfer open" if self.transfer else "shutdown: with no transfer open")
        self.count_kept("shutdown:")
        self.count_unfilled("shutdown:")
        if self.output_timeouts:
            hit("shutdown: output timeouts kept")
        self.close_transfer("shutdown")
        self.initialised = False
        return done(code)
