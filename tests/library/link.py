"""The link between examples/receive.c and a pod: it carries packets there and answers back, a line each, and may lose, damage
and hold up either."""
import contextlib
import random
import subprocess
import tempfile
import threading
from collections import Counter

from airframe.reading import read
from module import TOP, fail
from moves.packets import line_of
from ports.packets import error, is_acknowledgement, sealed

LIMIT = 300  # seconds for a flight
MOST = 3000  # packets of a flight
SENDS = 4  # of a command
NONE = b"P -"
MISCHIEF = ("lost", "damaged", "late")


def bytes_of(line):
    return b"" if line == NONE else bytes.fromhex(line[2:].decode())


@contextlib.contextmanager
def started(words, **pipes):
    """A program with pipes that has ended when this does, whichever way that is."""
    process = subprocess.Popen(words, cwd=TOP, **{"stdin": subprocess.PIPE, "stdout": subprocess.PIPE, **pipes})
    try:
        yield process
    finally:
        process.kill()
        for pipe in (process.stdin, process.stdout):
            with contextlib.suppress(BrokenPipeError):
                pipe.close()
        process.wait()


@contextlib.contextmanager
def limited(*processes):
    """Ends what hangs."""

    def stop():
        for process in processes:
            process.kill()

    timer = threading.Timer(LIMIT, stop)
    timer.daemon = True  # it does not keep this program from ending
    timer.start()
    try:
        yield
    finally:
        timer.cancel()


class Pod:
    """A program of the pod: a line in, a line out."""

    def __init__(self, name, process):
        self.has_ports, self.process = name == "console", process  # `session` has packets alone

    def say(self, line):
        answer = b""
        with contextlib.suppress(BrokenPipeError):
            self.process.stdin.write(line + b"\n")
            self.process.stdin.flush()
            answer = self.process.stdout.readline()
        return answer.removesuffix(b"\n") if answer else fail(f"the pod's program ended early, or a flight took {LIMIT} s")


@contextlib.contextmanager
def pod(name):
    with started(["./run", name]) as process:
        yield Pod(name, process)


class Link:
    """A link to a pod, which is given its blocks at the first Status. A rough one does each mischief to that part of what it
    carries; but the send after so many that brought nothing always comes through."""

    spares = SENDS - 1  # so no pod is lost

    def __init__(self, pod, blocks, rough=0.0, seed=0):
        self.pod, self.blocks, self.rough, self.rng = pod, blocks, rough, random.Random(f"link {seed}")
        self.sent, self.handed = [], []  # packets of the aircraft; blocks that came to it whole
        self.tries = []  # of each command in turn, how often it was sent
        self.held = self.late = None  # a packet, an answer, that come with the next one
        self.open = None  # the acknowledgement at which the pod would drop a block
        self.dropped = self.spent = 0  # blocks that it dropped; sends of the present command that brought nothing
        self.seen = Counter()
        if pod.has_ports:
            pod.say(b"Z")

    def carry(self, line):
        """What comes back for a packet."""
        packet = bytes_of(line)
        self.sent.append(packet)
        self.bring()
        if packet[0] == 0x91:
            self.put()
        came = self.back(self.there(line))
        if not is_acknowledgement(packet):
            self.judge(packet, bytes_of(came))
        return came

    def put(self):
        """The camera's blocks, which an Initialise would have thrown away."""
        for store, block in self.blocks:
            if self.pod.say(b"B " + store + line_of(block)[1:]) != b"B":
                fail("the pod did not take a block")
        self.blocks = ()

    def judge(self, packet, answer):
        """Whether that used up a send, by the second program."""
        meaning = read(packet, answer)
        if self.spent == 0:
            self.tries.append(0)
        self.tries[-1] += 1
        self.seen["fourth send"] += self.spent == SENDS - 1
        self.spent = self.spent + 1 if meaning.kind == "wrong" or meaning[:2] == ("error", (0x01,)) else 0
        if meaning.kind == "data":
            self.seen["block again"] += meaning.data in self.handed
            self.handed.append(meaning.data)

    def mischief(self, way):
        if self.spent == self.spares or self.rng.random() >= self.rough * len(MISCHIEF):
            return "none"
        kind = self.rng.choice(MISCHIEF)
        self.seen[f"{kind} {way}"] += kind != "late"  # which is seen when it comes
        return kind

    def damaged(self, line):
        """One byte is another, which no CRC misses."""
        data = bytearray(bytes_of(line))
        data[self.rng.randrange(len(data))] ^= self.rng.randint(1, 255)
        return line_of(bytes(data))

    def bring(self):
        """A packet that was held up comes to the pod just before the next, at times after the pod's 2 ms."""
        held, self.held = self.held, None
        if held and self.pod.has_ports and self.rng.random() < 0.5:
            self.tell(b"D")
        if held:
            self.tell(held)
            self.seen["late there"] += 1

    def there(self, line):
        """A packet to the pod, and its answer."""
        kind = self.mischief("there")
        self.held = line if kind == "late" else None
        if kind in ("lost", "late"):
            return NONE
        return self.tell(self.damaged(line) if kind == "damaged" else line)

    def tell(self, line):
        """A line to the pod: its answer, and what becomes of a block."""
        self.dropped += line == self.open
        answer = self.pod.say(line)
        data = bytes_of(answer) if answer.startswith(b"P") else b""
        self.open = line_of(sealed(bytes((data[0], 0x01, 0x7E)))) if len(data) == 260 else None
        return answer

    def back(self, answer):
        """An answer to the aircraft. One that was held up comes in its place: the aircraft reads one for each send. It is of
        the same command, or of an acknowledgement; later than that, it could be taken for the answer to another Data."""
        late, self.late = self.late, None
        if late and self.spent != self.spares:
            self.seen["late back"] += 1
            return late
        kind = self.mischief("back") if answer != NONE else "none"
        self.late = answer if kind == "late" else None
        if kind in ("lost", "late"):
            return NONE
        return self.damaged(answer) if kind == "damaged" else answer


class Merciless(Link):
    """A rough link over which the pod may be lost."""

    spares = None


class Dead(Link):
    """A link that carries some packets, and then nothing."""

    def __init__(self, pod, blocks, lives):
        super().__init__(pod, blocks)
        self.lives = lives

    def carry(self, line):
        if len(self.sent) < self.lives:
            return super().carry(line)
        self.sent.append(bytes_of(line))
        return NONE


class Refusing:
    """A link to a pod that refuses everything."""

    pod = None

    def __init__(self):
        self.sent = []

    def carry(self, line):
        self.sent.append(bytes_of(line))
        return line_of(error(self.sent[-1][0], 0x39))


def flown(receive, link):
    """The status with which receive ends over a link, and the lines that it says."""
    others = [link.pod.process] if link.pod else []
    with tempfile.TemporaryFile() as said, started(receive, stderr=said) as run, limited(run, *others):
        try:
            for line in run.stdout:
                run.stdin.write(link.carry(line.removesuffix(b"\n")) + b"\n")
                run.stdin.flush()
                if len(link.sent) > MOST:
                    fail(f"receive has not come to its end after {MOST} packets")
            run.stdin.close()
        except BrokenPipeError:  # it ends with an acknowledgement, and waits for nothing then
            pass
        run.wait()
        said.seek(0)
        return run.returncode, said.read().splitlines()
