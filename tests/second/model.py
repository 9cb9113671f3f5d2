"""A second model of the pod, written from document 01, document 000 and the requests alone.

It is slow and plain on purpose. Each rule stands beside the sentence that it renders, and
each of its branches counts its passages (ports/labels.py). `python3 model.py` runs the
examples that document 01 shows.
"""

from ports.blocks import Blocks
from ports.commands import Commands
from ports.frames import Frames
from ports.lines import console_line, session_line
from ports.output import Output
from ports.packets import Packets
from ports.params import Parameters
from ports.refusal import Rows
from ports.sizes import ORDINARY, PRIORITY
from ports.words import Words

__all__ = ["Pod", "console_line", "session_line"]


class Pod(Rows, Packets, Commands, Parameters, Blocks, Words, Frames, Output):
    """The pod with its two stores and three tables, one method for each call."""

    def __init__(self):
        self.lend_right()
        self.stores_new()
        self.power_on()

    def power(self):
        """The power on call."""
        self.rows("power on")
        self.forget_transfer("power")
        self.count_forgotten("power")
        self.count_refilled("power")
        self.power_on()

    def power_on(self):
        """'Fresh from power: not initialised, mode 0, flags 0, poll 1,000, time, limits and
        remainings 0, stores empty, parameters and tables at their starts.'"""
        self.initialised = False
        self.mode = 0
        self.flags = 0
        self.poll = 1000
        self.seconds = 0
        self.milliseconds = 0
        self.limit = {PRIORITY: 0, ORDINARY: 0}
        self.remaining = {PRIORITY: 0, ORDINARY: 0}
        self.exchange = None
        # for the labels alone: the exchange that was just closed and by what, and whether the fields are an Update's
        self.late = None
        self.updated = False
        self.stores_empty()
        self.parameters_to_starts()
        self.words_fresh()
        self.pipe_fresh()
        self.output_fresh()


if __name__ == "__main__":
    import selftest
    selftest.run()
