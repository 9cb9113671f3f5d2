"""include/vectors.txt, which a firm can use without the library: python3 tests/library/vectors.py [--write]

Prints it, or writes it. A line is a case, and what is due stands in it as the second program of tests/second says it: nothing here
uses the proved code. Every rule of the second program about packets and sending must be reached by a line, but for those that need a
number of more than 32 bits or a second command. tests/library/vectors.c makes each line anew as the library has it.
"""
import argparse
import sys
import textwrap
from pathlib import Path

import vector_faults
import vector_groups
from ports import labels

HERE = Path(__file__).resolve().parent
VECTORS = HERE.parents[1] / "include" / "vectors.txt"
PROGRAM = [HERE / name for name in ("vectors.c", "lines.c", "calls.c", "lent.c")]  # what makes the lines anew
WIDTH = 118  # of a comment
BUILDS, READS, SENDS = "aircraft builds ", "aircraft reads ", "aircraft sends: "
# what no line can show: a number of more than 32 bits; a second command while one is on its way
BEYOND = (
    *(f"{BUILDS}{code}: {what} too large for its type" for code in (90, 92) for what in ("seconds", "memory limit", "memory remaining")),
    *(f"{BUILDS}93: value {id} too {what} for its type" for id in range(1, 13) for what in ("large", "small")),
    *(f"{SENDS}a {what} command with " for what in ("new", "refused")),
    f"{SENDS}once more with ",
)
HEAD = """\
Vectors for the packets between an aircraft and a survey pod: what the aircraft sends, what the pod's answers mean, and when a
command is sent again. Code in any language can be held against them.

A line is a case: before '=' stands what is given, and behind it what right code makes of it. A line that begins with '#' says
what the lines below it show.

  crc BYTES = CRC                   the CRC of these bytes
  build CODE NUMBERS = BYTES        the command of this code with these numbers
  acknowledge CODE = BYTES          the acknowledgement 'received' of an answer to this code
  acknowledge CODE ERROR = BYTES    the acknowledgement 'failed' of an answer to this code, with this error
  read CODE : BYTES = MEANING       what these bytes mean as the answer to a command of this code
  send CODE : REPLIES = STEPS       what follows when a command of this code was sent and these replies come

A byte is two capital hex digits. So is a code or an error; where it has more digits it is a number that no byte holds. All other
numbers are decimal. Behind '=' there may be a refusal: !20 where a number is outside its bounds, so that nothing is built, and
!23 where an answer is wrong for its command.

Bytes are counted from 0. A number of several bytes has its high byte first. The last two bytes of every packet are its CRC over
all bytes before them: polynomial 0x1021, from 0xFFFF on, the high bit of each byte first, and nothing is reflected or changed at
the end. So a whole packet, its CRC with it, has the CRC 0000.

COMMANDS. Byte 0 is the code, byte 1 is 01, then come the numbers, if there are any, and the CRC.

  90 Initialise        25 bytes   mode in byte 2, flags in 3 and 4, time in 5 to 8, priority limit in 9 and 10, priority
  92 Update                       remaining in 11 and 12, memory limit in 13 to 16, memory remaining in 17 to 20, poll in 21
                                  and 22
  91 Status             4 bytes
  93 Parameter write    9 bytes   id in byte 2, value in 3 to 6, signed
  94 Parameter read     5 bytes   id in byte 2
  95 Priority data      4 bytes
  96 Data               4 bytes
  9F Shutdown           4 bytes

The upper 22 bits of the time are seconds and the lower 10 milliseconds. The numbers of a line for 90 or 92 are, in this order and
with these bounds: mode 0 to 3, flags 0 to 65535, seconds 0 to 4194303, milliseconds 0 to 999, priority limit 0 to 65535, priority
remaining 0 to its limit, memory limit 0 to 4294967295, memory remaining 0 to its limit, poll 1 to 60000. For 93 they are the id
and the value, for 94 the id. The ids are 1 to 12, and a value has the bounds of its id:

  1, 2 and 6   -4000 to 15000        5   1 to 16        9 to 12   -500 to 500
  3              100 to 1000         7   0 to 3
  4               40 to 60000        8   0 to 7

That parameter 1 stays below parameter 2 only the pod judges.

ACKNOWLEDGEMENTS. 5 bytes: a first byte from 90 to 9F, which is the code of the command that was answered; then 01 and 7E for
'received', or 09 and an error for 'failed'; then the CRC. A status, a value and a block are acknowledged, and the pod answers
nothing to that. It takes 90 for any code too, but a late 90 may drop a block that was not received.

ANSWERS. Byte 0 is the code of the command, byte 1 is 01, or 09 for an error, and the CRC is last.

  error EE             5 bytes   to every command: 09, and the error EE in byte 2
  done                 5 bytes   to 90, 92, 93 and 9F: 01, and 7E in byte 2
  status NUMBERS      22 bytes   to 91: mode in byte 2, flags in 3 and 4, priority blocks waiting in 5 and 6, ordinary
                                 blocks waiting in 7 to 10, request in 11, and eight ids of parameters in 12 to 19:
                                 thirteen numbers, in this order
  value ID NUMBER      9 bytes   to 94: id in byte 2, value in 3 to 6, signed
  block              260 bytes   to 95 and 96: the block in bytes 2 to 257

The errors that the pod gives: 01 the packet came damaged, 02 no such code, 38 not initialised, 39 a number outside its bounds, 3A
no block waits, 3B no remaining, 3C byte 1 is not 01.

An answer is wrong, !23, where its CRC, byte 0, byte 1, the length that goes with them, or the 7E of a done is not as above, and
to a code that is no command's every answer is. Nothing else is looked at.

SENDING. '/' stands between replies, and '-' is no reply in time. No reply, a wrong answer and error 01 each use up a send: the
same bytes are sent again, up to three times, and when the fourth send too has brought nothing else, the pod is lost. Any other
answer ends it. Behind '=' there is for each reply what it means, if it was read, and then the step: again, ended, lost, or idle,
where nothing was on its way any more and the reply is not read."""


def comment(words):
    """The lines of a comment: a part that is set in is kept as it stands."""
    parts = [[part] if part.startswith("  ") else textwrap.wrap(part, WIDTH) for part in words.split("\n\n")]
    lines = "\n\n".join("\n".join(part) for part in parts).split("\n")
    return "".join(f"# {line}".rstrip() + "\n" for line in lines)


def group(words, lines):
    return comment(words) + "".join(f"{line}\n" for line in lines)


def unreached():
    """The rules that no line shows."""
    missing = [label for start in (BUILDS, READS, SENDS, "aircraft acknowledges") for label in labels.missing(start)]
    return [label for label in missing if not label.startswith(BEYOND)]


def text():
    """The whole file."""
    labels.clear()
    parts = [comment(HEAD)]
    parts += [group(words, lines) for part in vector_groups.PARTS + vector_faults.PARTS for words, lines in part()]
    if unreached():
        raise SystemExit("vectors: no line shows this: " + "; ".join(unreached()))
    return "\n".join(parts)


def cases(whole):
    """The lines that are cases, as vectors.c prints them when the library is right."""
    return "".join(line for line in whole.splitlines(keepends=True) if line != "\n" and not line.startswith("#"))


def main():
    parser = argparse.ArgumentParser(description=__doc__, formatter_class=argparse.RawDescriptionHelpFormatter)
    parser.add_argument("--write", action="store_true", help="write include/vectors.txt")
    if not parser.parse_args().write:
        sys.stdout.write(text())
        return
    VECTORS.parent.mkdir(exist_ok=True)
    VECTORS.write_text(text())
    print(f"vectors: written, {cases(text()).count(chr(10))} cases")


if __name__ == "__main__":
    main()
