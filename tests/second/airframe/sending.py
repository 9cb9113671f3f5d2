"""When it sends again (document 02, No. 1): 'After no reply, or an answer with error 0x01, it sends
again up to three times and then reports the pod lost'; a wrong answer 'counts as no reply' and
'uses up one send'.

The first send is made with the command, so three more are left. When the fourth goes unanswered the
pod is lost. After an answer, or when the pod is lost, nothing is on its way, and a reply is not read.
"""

from ports.labels import declare, hit
from ports.refusal import Refused

from .building import command
from .reading import read

MORE = 3
UNANSWERED = ("no reply", "a wrong answer", "error 01")

declare(*["aircraft sends: %s, %s" % (reason, what) for reason in UNANSWERED
          for what in ["again with %d left" % left for left in (3, 2, 1)] + ["lost"]])
declare(*["aircraft sends: %s with %d left" % (kind, left) for left in range(MORE + 1)
          for kind in ("done", "error", "status", "value", "data")])
declare(*["aircraft sends: a new command with %d left of the last" % left for left in range(MORE + 1)])
declare(*["aircraft sends: a refused command with %d left" % left for left in range(MORE + 1)])
declare("aircraft sends: a new command with nothing on its way",
        "aircraft sends: a refused command with nothing on its way",
        "aircraft sends: an answer with nothing on its way", "aircraft sends: no reply with nothing on its way",
        "aircraft sends: the same answer once more, with nothing on its way",
        "aircraft sends: once more with nothing on its way")
declare(*["aircraft sends: once more with %d left" % left for left in range(MORE + 1)])


class Aircraft:
    """What is on its way, and how often it may still be sent."""

    def __init__(self):
        self.packet = None
        self.left = 0
        self.last = None        # the last answer that was read, for the counts of rules alone

    def state(self):
        """What the counts call it."""
        return "nothing on its way" if self.packet is None else "%d left" % self.left

    def send(self, code, numbers):
        """Build a command and put it on its way, with four sends of which this is one. A refused one
        changes nothing."""
        name = "command with " + self.state()
        try:
            packet = command(code, numbers)
        except Refused:
            hit("aircraft sends: a refused " + name)
            raise
        hit("aircraft sends: a new " + name + ("" if self.packet is None else " of the last"))
        self.packet, self.left = packet, MORE
        return packet

    def once_more(self):
        """The same bytes, or None with nothing on its way. No send is used up by it: the silence or
        the wrong answer before it did that."""
        hit("aircraft sends: once more with " + self.state())
        return self.packet

    def unanswered(self, reason):
        """A send that brought nothing: again, or lost."""
        if self.left == 0:
            hit("aircraft sends: %s, lost" % reason)
            self.packet = None
            return "lost"
        hit("aircraft sends: %s, again with %d left" % (reason, self.left))
        self.left -= 1
        return "again"

    def silence(self):
        """No reply: the next step, or None with nothing on its way."""
        if self.packet is None:
            hit("aircraft sends: no reply with nothing on its way")
            return None
        return self.unanswered("no reply")

    def reply(self, answer):
        """An answer: its meaning and the next step, where one is needed; or None, where it is not
        read."""
        if self.packet is None:
            hit("aircraft sends: an answer with nothing on its way")
            if answer == self.last:
                hit("aircraft sends: the same answer once more, with nothing on its way")
            return None
        self.last = answer
        meaning = read(self.packet, answer)
        if meaning.kind == "wrong":
            return meaning, self.unanswered("a wrong answer")
        if meaning.kind == "error" and meaning.numbers == (0x01,):
            return meaning, self.unanswered("error 01")
        hit("aircraft sends: %s with %d left" % (meaning.kind, self.left))
        self.packet = None
        return meaning, None
