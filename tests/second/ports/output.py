"""The output half of the byte pipe (request No. 3): 'an eight-byte packet from the aircraft is
handed to the camera one byte at a time, each byte after the last was taken'.

What is in hand begins with the byte that the camera is shown. Bytes that were taken or dropped
are kept nowhere, so none can show.
"""

from .labels import declare, hit
from .refusal import Refused

PACKET = 8
COUNTS = range(1, PACKET + 1)
HALVES = {(True, True): "both halves", (True, False): "input alone", (False, True): "output alone",
          (False, False): "neither half"}

declare("packet out: no bytes", "packet out: under 8 bytes", "packet out: over 8 bytes",
        "packet out: 22 before 6", "packet out: 22 before 21", "packet out: 22 before 6 and 21",
        "packet out: not initialised", "packet out: 6 before 21")
declare(*["packet out: 21 with %d in hand" % n for n in COUNTS])
declare(*["packet out: accepted, %s" % before for before in (
    "the half fresh", "after the last was taken", "after a timeout")])
declare("taken: not initialised", "taken: not initialised, bytes in hand", "taken: nothing in hand", "taken: the last")
declare(*["taken: next of %d" % n for n in COUNTS[1:]])
declare("pipe timeout: not initialised, bytes in hand", "pipe timeout: nothing in hand",
        "pipe timeout: output counted", "pipe timeout: output stays 15", "pipe timeout: both stay 15",
        "pipe timeout: input stays 15, output counted", "pipe timeout: input counted, output stays 15")
declare(*["pipe timeout: drops %d" % n for n in COUNTS])
declare(*["pipe timeout: %s" % which for which in HALVES.values()])
declare(*["%s: with %s" % (call, what) for call in ("packet out", "taken", "pipe timeout")
          for what in ("an exchange open", "a transfer open")])
declare("packet out: with bytes gathered", "taken: with bytes gathered")
declare(*["%s: %s" % (cause, what) for cause in ("initialise", "power") for what in (
    "empties bytes in hand", "empties bytes in hand that a Shutdown kept", "output timeouts to 0")])
declare("initialise: refused, bytes in hand kept", "update: bytes in hand kept",
        "shutdown: bytes in hand kept", "shutdown: output timeouts kept")
declare(*["samples: %d in hand" % n for n in COUNTS])
declare("samples: output timeouts at 15", "samples: both timeouts at 15", "samples: timeouts that differ",
        "samples: both halves busy", "samples: output busy after a Shutdown", "samples: output timeouts after a Shutdown")


class Output:
    """Packet out, taken, and what a pipe timeout does to this half."""

    def output_fresh(self):
        """'Initialise empties this half too and sets its count to 0'."""
        self.hand = b""
        self.output_timeouts = 0
        # for the labels alone: what emptied this half last
        self.emptied = "the half fresh"

    def packet_out(self, packet):
        """'a packet while one is being handed over (21), one not of 8 bytes (22), and 6 as
        before; 22 before 6, 21 last'. Gives the first byte."""
        self.rows("packet out")
        if len(packet) != PACKET:
            self.count_wrong(packet)
            raise Refused(22)
        if not self.initialised:
            hit("packet out: 6 before 21" if self.hand else "packet out: not initialised")
            raise Refused(6)
        if self.hand:
            hit("packet out: 21 with %d in hand" % len(self.hand))
            raise Refused(21)
        hit("packet out: accepted, " + self.emptied)
        self.count_beside("packet out")
        self.hand = packet
        return self.hand[:1]

    def taken(self):
        """'each byte after the last was taken'; 'A taken .. with nothing in hand does nothing'.
        Gives the next byte."""
        self.rows("taken")
        if not self.initialised:
            hit("taken: not initialised, bytes in hand" if self.hand else "taken: not initialised")
            raise Refused(6)
        self.count_beside("taken")
        if not self.hand:
            hit("taken: nothing in hand")
            return b""
        hit("taken: next of %d" % len(self.hand) if self.hand[1:] else "taken: the last")
        self.hand = self.hand[1:]
        if not self.hand:
            self.emptied = "after the last was taken"
        return self.hand[:1]

    def output_timeout(self):
        """'the rest of that packet is dropped and an output timeout is counted, 15 meaning 15 or
        more'; 'a timeout with nothing in hand does nothing'."""
        if not self.hand:
            hit("pipe timeout: nothing in hand")
            return
        hit("pipe timeout: drops %d" % len(self.hand))
        if self.output_timeouts == 15:
            hit("pipe timeout: output stays 15")
        else:
            hit("pipe timeout: output counted")
            self.output_timeouts += 1
        self.hand = b""
        self.emptied = "after a timeout"

    def count_wrong(self, packet):
        """Which packet is not of 8 bytes, and which rows stand behind this one."""
        hit("packet out: no bytes" if not packet else "packet out: under 8 bytes" if len(packet) < PACKET
            else "packet out: over 8 bytes")
        behind = ["6"] * (not self.initialised) + ["21"] * bool(self.hand)
        if behind:
            hit("packet out: 22 before " + " and ".join(behind))

    def count_beside(self, call):
        """What a call of this half leaves alone: 'Neither half sees the other'."""
        if self.exchange:
            hit(call + ": with an exchange open")
        if self.transfer:
            hit(call + ": with a transfer open")
        if self.gathered and call != "pipe timeout":
            hit(call + ": with bytes gathered")

    def count_halves(self):
        """What a pipe timeout finds in the two halves."""
        self.count_beside("pipe timeout")
        both = bool(self.gathered), bool(self.hand)
        hit("pipe timeout: " + HALVES[both])
        if all(both) and 15 in (self.timeouts, self.output_timeouts):
            hit("pipe timeout: both stay 15" if self.timeouts == self.output_timeouts
                else "pipe timeout: input stays 15, output counted" if self.timeouts == 15
                else "pipe timeout: input counted, output stays 15")

    def count_forgotten(self, cause):
        """What of this half goes with everything else."""
        if self.hand:
            hit(cause + ": empties bytes in hand" + " that a Shutdown kept" * (not self.initialised))
        if self.output_timeouts:
            hit(cause + ": output timeouts to 0")

    def count_kept(self, cause):
        """What of this half a packet leaves alone."""
        if self.hand:
            hit(cause + " bytes in hand kept")

    def count_shown(self):
        """Which of this half's bits AN03 shows."""
        if self.hand:
            hit("samples: %d in hand" % len(self.hand))
            if self.gathered:
                hit("samples: both halves busy")
            if not self.initialised:
                hit("samples: output busy after a Shutdown")
        if self.output_timeouts == 15:
            hit("samples: both timeouts at 15" if self.timeouts == 15 else "samples: output timeouts at 15")
        if self.output_timeouts and self.timeouts not in (0, self.output_timeouts):
            hit("samples: timeouts that differ")
        if self.output_timeouts and not self.initialised:
            hit("samples: output timeouts after a Shutdown")
