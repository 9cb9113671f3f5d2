"""Sample frames and the input half of the byte pipe (document 01, 'Frames and pipe'; document
000, byte-pipe AN03 and AN47). The pipe timeout is of both halves."""

from .labels import declare, hit
from .refusal import Refused

declare("samples: not 128", "samples: not 128, and a number too high",
        "samples: one over 1023", "samples: self-check over 31", "samples: answered",
        "samples: not initialised", "samples: bytes gathered", "samples: timeouts at 15",
        "samples: pipe bits kept after shutdown",
        "pipe byte: not initialised", "pipe byte: gathered", "pipe byte: eighth",
        "pipe timeout: not initialised", "pipe timeout: none gathered",
        "pipe timeout: counted", "pipe timeout: stays 15")
declare(*["samples: channel %d over 1023" % channel for channel in range(8)])


def channel_bytes(average):
    """'low byte, then bits 9 and 8'."""
    return average & 0xFF, average >> 8


class Frames:
    """Samples, pipe byte, pipe timeout."""

    def pipe_fresh(self):
        """'no gathered bytes, timeouts 0'."""
        self.gathered = b""
        self.timeouts = 0

    def samples(self, check, samples):
        """'128 samples, eight channels by sixteen passes, pass after pass; each channel gives
        its sum divided by 16, rounded down.' Gives AN03 and AN47, one behind the other."""
        self.rows("samples")
        if len(samples) != 128:
            hit("samples: not 128")
            if check > 31 or max(samples, default=0) > 1023:
                hit("samples: not 128, and a number too high")
            raise Refused(4)
        if max(samples) > 1023:
            hit("samples: one over 1023")
            hit("samples: channel %d over 1023" % (samples.index(max(samples)) % 8))
            raise Refused(5)
        if check > 31:
            hit("samples: self-check over 31")
            raise Refused(5)
        hit("samples: answered")
        averages = [sum(samples[channel::8]) // 16 for channel in range(8)]
        return self.an03(check, averages) + self.an47(averages)

    def an03(self, check, averages):
        """'In AN03: input timeouts in 0.7-4; 3.7 is 1 when 1 to 7 bytes are gathered; 5.2 is
        1 when initialised; the self-check number in 7.6-2; all else 0.' By request No. 3 'AN03
        then carries the count in 0.3-0 and output busy in 5.7'."""
        self.count_an03()
        low1, high1 = channel_bytes(averages[1])
        low2, high2 = channel_bytes(averages[2])
        low3, high3 = channel_bytes(averages[3])
        busy = 0x80 if self.gathered else 0
        handing = 0x80 if self.hand else 0
        power = 0x04 if self.initialised else 0
        return bytes((self.timeouts << 4 | self.output_timeouts, 0, low1, busy | high1, low2,
                      handing | power | high2, low3, check << 2 | high3))

    def count_an03(self):
        """Which of AN03's bits are shown."""
        self.count_shown()
        if self.gathered:
            hit("samples: bytes gathered")
        if self.timeouts == 15:
            hit("samples: timeouts at 15")
        if not self.initialised:
            hit("samples: not initialised")
            if self.gathered or self.timeouts:
                hit("samples: pipe bits kept after shutdown")

    def an47(self, averages):
        """Channels 5 to 7; all else 0."""
        return bytes((0, 0) + channel_bytes(averages[5]) + channel_bytes(averages[6])
                     + channel_bytes(averages[7]))

    def pipe_byte(self, byte):
        """'Pipe bytes gather; the eighth sends all eight.' Gives the bytes sent."""
        self.rows("pipe byte")
        if not self.initialised:
            hit("pipe byte: not initialised")
            raise Refused(6)
        self.gathered += bytes((byte,))
        if len(self.gathered) < 8:
            hit("pipe byte: gathered")
            return b""
        hit("pipe byte: eighth")
        sent, self.gathered = self.gathered, b""
        return sent

    def pipe_timeout(self):
        """One call times out both halves. Gives the bytes that the input half sends."""
        self.rows("pipe timeout")
        if not self.initialised:
            hit("pipe timeout: not initialised")
            if self.hand:
                hit("pipe timeout: not initialised, bytes in hand")
            raise Refused(6)
        self.count_halves()
        self.output_timeout()
        return self.input_timeout()

    def input_timeout(self):
        """'The pipe timeout sends a short packet and counts one up to 15 (it stays 15); with
        none gathered it does nothing.'"""
        if not self.gathered:
            hit("pipe timeout: none gathered")
            return b""
        if self.timeouts == 15:
            hit("pipe timeout: stays 15")
        else:
            hit("pipe timeout: counted")
            self.timeouts += 1
        sent, self.gathered = self.gathered, b""
        return sent
