"""Wrong in the pipe timeout."""

from model import Pod

from .named import changed, wrong


@wrong
class CountsNothing(Pod):
    """a timeout is counted with nothing in hand"""

    def output_timeout(self):
        if not self.hand:
            self.output_timeouts = min(self.output_timeouts + 1, 15)
        super().output_timeout()


@wrong
class CountsBytes(Pod):
    """a timeout is counted for each byte"""

    def output_timeout(self):
        count = min(self.output_timeouts + len(self.hand), 15)
        super().output_timeout()
        self.output_timeouts = count


@wrong
class Wraps(Pod):
    """the count goes from 15 to 0"""

    def output_timeout(self):
        over = self.hand and self.output_timeouts == 15
        super().output_timeout()
        if over:
            self.output_timeouts = 0


@wrong
class Passes(Pod):
    """the count passes 15 into 0.7-4"""

    def output_fresh(self):
        super().output_fresh()
        self.beyond = 0

    def output_timeout(self):
        if self.hand and self.output_timeouts == 15:
            self.beyond += 1
        super().output_timeout()

    def an03(self, check, averages):
        frame = super().an03(check, averages)
        return changed(frame, 0, frame[0] + self.beyond)


@wrong
class OneCount(Pod):
    """both halves count in one"""

    def output_timeout(self):
        if self.hand:
            self.timeouts = min(self.timeouts + 1, 15)
            self.hand = b""


@wrong
class RestStays(Pod):
    """the rest stays in hand at a timeout"""

    def output_timeout(self):
        held = self.hand
        super().output_timeout()
        self.hand = held


@wrong
class RestShown(Pod):
    """a timeout answers what it dropped"""

    def pipe_timeout(self):
        rest = self.hand
        return super().pipe_timeout() or rest


@wrong
class InputFirst(Pod):
    """the output is not timed out while bytes are gathered"""

    def output_timeout(self):
        if not self.gathered:
            super().output_timeout()


@wrong
class OutputFirst(Pod):
    """the input is not timed out while bytes are in hand"""

    def pipe_timeout(self):
        held = self.gathered, self.timeouts
        busy, sent = self.hand, super().pipe_timeout()
        if busy:
            (self.gathered, self.timeouts), sent = held, b""
        return sent


@wrong
class TimedAsleep(Pod):
    """the output is timed out while not initialised"""

    def pipe_timeout(self):
        self.rows("pipe timeout")
        if not self.initialised:
            self.output_timeout()
        return super().pipe_timeout()
