"""Hostile input for the programs that read lines: they print what the rules say, or stop cleanly when
nobody reads, in bounded memory and within seconds, and miss no line.

This program itself must stay small: a process that is started shows at least the memory of
the one that starts it.
"""

import io
import os
import platform
import random
import signal
import subprocess
import sys
import threading
import time
from itertools import chain, repeat
from pathlib import Path

sys.path.insert(0, str(Path(__file__).resolve().parent / "second"))
from airframe.lines import Aircraft, aircraft_line
from model import Pod, console_line, session_line
from ports.lines import LONGEST
from ports.packets import sealed

ROOT = Path(__file__).resolve().parent.parent
NATIVE = platform.machine() == "x86_64"   # elsewhere the emulator's memory and time count too
MEMORY = (64 if NATIVE else 512) * 1024   # kilobytes
LIMIT = 60 if NATIVE else 300             # seconds until a run counts as hanging
# program: what it begins with, and what it prints for a line
FORMS = {"session": (Pod, session_line), "console": (Pod, console_line), "aircraft": (Aircraft, aircraft_line)}
PIECE = b" 00" * 20000


def answers(program, data):
    """What the rules say to an input on a fresh pod or aircraft, one line after another. 'A last
    line without its newline counts.'"""
    begin, printed = FORMS[program]
    state = begin()
    for line in io.BytesIO(data):
        yield printed(state, line[:-1] if line.endswith(b"\n") else line) + b"\n"


def pour(stream, pieces):
    """Write pieces until they end or nobody reads."""
    try:
        for piece in pieces:
            stream.write(piece)
            stream.flush()
        stream.close()
    except (BrokenPipeError, ValueError, OSError):
        pass


class Run:
    """One run of a program, fed by a thread of its own."""

    def __init__(self, program, pieces):
        self.begin = time.monotonic()
        self.hung = False
        self.process = subprocess.Popen(["./run", program], cwd=ROOT, stdin=subprocess.PIPE,
                                        stdout=subprocess.PIPE, start_new_session=True)
        self.timer = threading.Timer(LIMIT, self.stop)
        self.timer.start()
        self.writer = threading.Thread(target=pour, args=(self.process.stdin, pieces), daemon=True)
        self.writer.start()

    def stop(self):
        """End this run's own processes."""
        self.hung = True
        os.killpg(self.process.pid, signal.SIGKILL)

    def end(self):
        """Wait; what is wrong with the end as text, or None, and the exit status."""
        _, status, usage = os.wait4(self.process.pid, 0)
        self.timer.cancel()
        self.process.returncode = os.waitstatus_to_exitcode(status)
        if self.hung:
            return "no end after %d s" % LIMIT
        if usage.ru_maxrss > MEMORY:
            return "%d KB of memory" % usage.ru_maxrss
        return None


def whole(program, pieces, want):
    """Feed all, read all, compare line by line. What is wrong as text, or None."""
    run = Run(program, pieces)
    difference = differing(run.process.stdout, want)
    run.process.stdout.close()
    fault = run.end()
    run.writer.join(1)
    if fault or difference:
        return fault or difference
    if run.process.returncode != 0:
        return "exit status %d" % run.process.returncode
    return None


def differing(stream, want):
    """The first differing line as text, or None."""
    number = 0
    for number, expected in enumerate(want, 1):
        came = stream.readline(len(expected) + 1)
        if came != expected:
            return "line %d: expected %r, came %r" % (number, expected[:200], came[:200])
    more = stream.read(200)
    return "%d lines expected, then came %r" % (number, more) if more else None


def closed_early(program):
    """Read one line and close, as head -n 1 does, while the input never ends. A clean end is
    exit status 0 or 1, or the signal for a closed pipe."""
    run = Run(program, repeat(b"P 91\n" * 1000))
    first = run.process.stdout.readline()
    run.process.stdout.close()
    fault = run.end()
    if fault:
        return fault
    if first != next(answers(program, b"P 91\n")):
        return "first line %r" % first
    status = run.process.returncode
    clean = (0, 1, -signal.SIGPIPE, 128 + signal.SIGPIPE)
    return None if status in clean else "exit status %d" % status


def packet_line(data):
    """A packet as a line with its newline."""
    return b"P " + data.hex(" ").upper().encode() + b"\n"


INITIALISE = packet_line(sealed(bytes.fromhex("9001000000000000000010001000000080000000800001")))
PIPE_LINES = [b"O 01 02 03 04 05 06 07 08\n"] * 3 + [b"K\n"] * 9 + [b"T\n", b"I 5A\n"] * 2 + [
    b"O FF FE FD FC FB FA F9\n", b"O" + b" 00" * 9 + b"\n", b"O\n", b"O \n", b"O 0\n", b"K 00\n", b"k\n", b"P 9F 01 05 FB\n",
    b"A 1F" + b" 03FF" * 128 + b"\n", INITIALISE, INITIALISE]


def random_text(seed, letters, size):
    """Characters of an alphabet at random."""
    return bytes(random.Random(seed).choices(letters, k=size))


def inputs():
    """Inputs that are held whole: name and bytes."""
    yield "nothing", b""
    yield "one newline", b"\n"
    yield "one packet without newline", b"P 91"
    yield "two lines, the last without newline", b"P 91\nP 9F 01 05 FB"
    yield "a letter without newline", b"x"
    yield "random bytes", random.Random(1).randbytes(1000000)
    yield "random letters", random_text(2, b"PDBCWRSAITOKZpo 0123456789ABCDEF\n\n\n", 600000)
    yield "random letters of an aircraft", random_text(5, b"QYNP 0123459F-\n\n\n", 300000)
    yield "an aircraft's lines", b"Q 96\nP -\nN\nY 96\nQ 94 0\nP 96\nQ 93 9 -9\nP 93 01 7E 41 9D\n" * 10000
    yield "random near letters", random_text(3, b"PDRSTOKZIC 0189AF\n\n\n\n\r\0abz", 600000)
    yield "NULs", b"\0" * 1000000
    yield "NULs in lines", b"P 91\0\n\0P 91\nP\0\n\0\n\0\0\nP 91\n" * 1000
    yield "lower case", b"p 91\nP 9f 01 05 fb\nP 9F 01 05 fB\nd\nP 9F 01 05 FB\n" * 1000
    yield "CRLF", b"P 91\r\nP\r\n\r\nD\r\nP 9F 01 05 FB\r\nP 91\n\r" * 1000
    yield "a million empty lines", b"\n" * 1000000
    yield "every first byte in turn", b"".join(b"P %02X\n" % (n % 256) for n in range(200000))
    yield "lines about the edges of buffers", buffer_edges()
    yield "packets about the longest", longest_packets()
    yield "initialise, then anything", INITIALISE + random_text(4, b"PRSTIKODZ 0159AF\n\n\n\n", 300000)
    yield "initialise, then packets out and what cuts them short", INITIALISE + b"".join(
        random.Random(6).choices(PIPE_LINES, k=30000))


def buffer_edges():
    """Junk and packets of lengths about the powers of two, a packet behind each."""
    parts = []
    for power in range(5, 18):
        for length in range(2 ** power - 2, 2 ** power + 3):
            parts.append(b"x" * length + b"\nP 91\n")
        for count in (2 ** power // 3 - 1, 2 ** power // 3, 2 ** power // 3 + 1):
            parts.append(b"P" + b" 91" * count + b"\nP\n")
    return b"".join(parts)


def longest_packets():
    """65,534 to 65,537 bytes with a right CRC and as packets out, long blocks and sample sets, and
    junk about as long as the longest line."""
    parts = []
    for size in (65534, 65535, 65536, 65537):
        parts.append(packet_line(sealed(b"\x97\x01" + bytes(size - 4))) + b"P 91\n")
        parts.append(b"O" + b" 00" * size + b"\nP 91\n")
    parts.append(b"B p" + b" 00" * 60000 + b"\nP 91\n")
    parts.append(b"A 00" + b" 0000" * 30000 + b"\nP 91\n")
    for length in range(LONGEST - 2, LONGEST + 5):
        parts.append(b"P" * length + b"\nP 91\n")
    return b"".join(parts)


def streams(program):
    """Inputs that are too long to hold: name, pieces and what is expected."""
    good = next(answers(program, b"P 91\n"))
    yield "a line of 100 MB", chain([b"P"], repeat(PIECE, 1667), [b"\nP 91\n"]), [b"?\n", good]
    yield "10 MB without newline", chain([b"P 91\nx"], repeat(PIECE, 167)), [good, b"?\n"]
    slow = b"P 91\n\nP 9F 01 05 FB\nP\nP 91"
    yield "one character at a time", (slow[at:at + 1] for at in range(len(slow))), answers(program, slow)


def cut(data):
    """An input in pieces."""
    return (data[at:at + 65536] for at in range(0, len(data), 65536))


def faults():
    """Each fault as text."""
    for program in FORMS:
        whole(program, [], [])      # the first run may build; it is not measured
        for name, data in inputs():
            yield program, name, whole(program, cut(data), answers(program, data))
        for name, pieces, want in streams(program):
            yield program, name, whole(program, pieces, want)
        yield program, "output closed early", closed_early(program)


def main():
    """The test."""
    begin = time.monotonic()
    for program, name, fault in faults():
        if "-v" in sys.argv:
            print("%6.1f s  %s: %s: %s" % (time.monotonic() - begin, program, name, fault or "ok"), flush=True)
        if fault:
            print("hostile: %s: %s: %s" % (program, name, fault))
            return 1
    print("hostile: ok")
    return 0


if __name__ == "__main__":
    sys.exit(main())
