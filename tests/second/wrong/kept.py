"""Wrong in what is kept of the output half, what frames show of it, and its bounds."""

from model import Pod

from .named import changed, lab_alone, wrong


@wrong
class ShutdownEmpties(Pod):
    """Shutdown empties"""

    def shutdown(self, code, body):
        self.hand = b""
        return super().shutdown(code, body)


@wrong
class ShutdownClears(Pod):
    """Shutdown sets the count to 0"""

    def shutdown(self, code, body):
        self.output_timeouts = 0
        return super().shutdown(code, body)


@wrong
class Kept(Pod):
    """Initialise and power keep the bytes"""

    def output_fresh(self):
        held = getattr(self, "hand", b"")
        super().output_fresh()
        self.hand = held


@wrong
class CountKept(Pod):
    """Initialise and power keep the count"""

    def output_fresh(self):
        held = getattr(self, "output_timeouts", 0)
        super().output_fresh()
        self.output_timeouts = held


@wrong
class BusyAtEight(Pod):
    """5.7 only while eight are in hand"""

    def an03(self, check, averages):
        frame = super().an03(check, averages)
        return frame if len(self.hand) == 8 else changed(frame, 5, frame[5] & 0x7F)


@wrong
class BusyToTwo(Pod):
    """5.7 not while the last is shown"""

    def an03(self, check, averages):
        frame = super().an03(check, averages)
        return frame if len(self.hand) > 1 else changed(frame, 5, frame[5] & 0x7F)


@wrong
class Exchanged(Pod):
    """the counts in each other's place"""

    def an03(self, check, averages):
        return changed(super().an03(check, averages), 0, self.output_timeouts << 4 | self.timeouts)


@wrong
class HiddenAsleep(Pod):
    """frames show nothing of this half while not initialised"""

    def an03(self, check, averages):
        frame = super().an03(check, averages)
        return frame if self.initialised else changed(changed(frame, 0, frame[0] & 0xF0), 5, frame[5] & 0x7F)


@lab_alone
class NineInHand(Pod):
    """nine in hand are within the bounds"""

    def rows(self, call):
        held, self.hand = self.hand, self.hand[:8]
        try:
            super().rows(call)
        finally:
            self.hand = held


@lab_alone
class SixteenTimeouts(Pod):
    """sixteen output timeouts are within the bounds"""

    def rows(self, call):
        held, self.output_timeouts = self.output_timeouts, min(self.output_timeouts, 15)
        try:
            super().rows(call)
        finally:
            self.output_timeouts = held
