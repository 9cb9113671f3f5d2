"""The program `aircraft` against a second program, written from documents 01 and 02 alone.

crates/aircraft/stdin and crates/aircraft/stdout are a conversation with `session`; `--write` writes
them anew. They must be what the second programs make of it (tests/second/stored_talk.py), and lines
of the one must be lines of the other: what `./run aircraft` prints goes over the same link to
`./run session`, and what that answers comes back as the stored lines.

Then lines about every edge (tests/second/corners.py) and seeded conversations of aircraft and pod
over a link that loses, damages, repeats and holds up (tests/second/talks.py) go to `./run aircraft`,
many in one run, and each line is compared. The first difference is printed with its seed or part and
its line, and ends the test. Every labelled rule of the second program must have been reached.
"""

import argparse
import subprocess
import sys
from pathlib import Path

from differential import ROOT, Job, play, run, text
import corners
import stored_talk
import talks
from airframe.lines import LONGEST, answers
from ports import labels

STORED = ROOT / "crates" / "aircraft"
BATCH = 300         # conversations in one run
LIMIT = 60          # seconds for a short run


def joined(lines):
    """Lines as a file has them."""
    return b"".join(line + b"\n" for line in lines)


def write(folder):
    """The stored files."""
    lines, printed, _, _ = stored_talk.make()
    folder.mkdir(exist_ok=True)
    for name, part in (("stdin", lines), ("stdout", printed)):
        (folder / name).write_bytes(joined(part))
    print("aircraft: written, %d lines" % len(lines))
    return 0


def differing(what, came, expected):
    """The first line that differs, as text, or None."""
    if came == expected:
        return None
    ends = [b"(nothing)"] * max(len(came), len(expected))
    pairs = enumerate(zip(came + ends, expected + ends), 1)
    number, (one, other) = next((at, pair) for at, pair in pairs if pair[0] != pair[1])
    return "\n".join(("difference in %s: line %d" % (what, number), "  expected " + text(other), "  came     " + text(one)))


def printed_by(program, lines):
    """The lines that a program prints, and its exit status where that is not 0."""
    printed, status = run(program, lines)
    return printed.split(b"\n")[:-1] + ([b"(exit status %d)" % status] if status else [])


def stored_difference():
    """What is wrong with the stored conversation, as text, or None: each file against the second
    program, each program against its answers, and the link between the programs."""
    lines, printed, sent, got = stored_talk.make()
    files = [(STORED / name, part) for name, part in (("stdin", lines), ("stdout", printed))]
    for path, part in files:
        found = path.read_bytes().split(b"\n") if path.exists() else []
        difference = differing("crates/aircraft/%s" % path.name, found, part + [b""])
        if difference:
            return difference
    came = printed_by("aircraft", lines)
    said = stored_talk.row_answers(lines, came)
    arrived = [line for packets in stored_talk.packets(said) for line in packets]
    replies = printed_by("session", arrived)
    return (differing("what aircraft prints to crates/aircraft/stdin", came, printed)
            or differing("the packets that reach session", arrived, sent)
            or differing("what session answers", replies, got)
            or differing("the lines that come back to aircraft", list(stored_talk.heard(said, replies)), lines))


def ends_difference():
    """Inputs whose last line has no newline, and one that has no line, as text, or None."""
    for given in (b"", b"\n", b"Q 91\n\nP -\nN", b"Q 96\nP" + b" 00" * 65535, b"Q 96\nN\n" + b"x" * (LONGEST + 9)):
        done = subprocess.run(["./run", "aircraft"], cwd=ROOT, input=given, stdout=subprocess.PIPE, timeout=LIMIT,
                              check=False)
        if (done.stdout, done.returncode) != (answers(given), 0):
            return "input %s: expected %s, came %s with exit status %d" % (
                text(given), text(answers(given)), text(done.stdout), done.returncode)
    return None


def corner_job():
    """The lines about every edge, in one run."""
    job = Job("aircraft")
    for place, line, answer in corners.make():
        job.add(place, line, answer)
    return job


def jobs(seeds):
    """The conversations, many in one run."""
    for first in range(0, len(seeds), BATCH):
        job = Job("aircraft")
        for seed in seeds[first:first + BATCH]:
            talk = talks.make(seed)
            for number, (line, answer) in enumerate(zip(talk.lines, talk.answers), 1):
                job.add((seed, number), line, answer)
        yield job


def all_of(count):
    """The whole test; its last line, and the exit status."""
    if not (STORED / "src" / "main.rt").exists():
        return "aircraft: there is no program crates/aircraft yet", 1
    difference = stored_difference() or ends_difference()
    if difference:
        return difference, 1
    labels.clear()
    edges = play([corner_job()])
    lines = play(jobs(range(count)))
    if labels.missing("aircraft "):
        return "\n".join("not reached: " + label for label in labels.missing("aircraft ")), 1
    return "aircraft: ok, %d lines about the edges, %d conversations, %d lines, all %d rules reached" % (
        edges, count, lines, sum(label.startswith("aircraft ") for label in labels.COUNTS)), 0


def main():
    """The test."""
    parser = argparse.ArgumentParser(description=__doc__, formatter_class=argparse.RawDescriptionHelpFormatter)
    parser.add_argument("--write", type=Path, nargs="?", const=STORED, help="write the stored conversation")
    parser.add_argument("--talks", type=int, default=600, help="how many conversations, of seeds from 0")
    parser.add_argument("--seed", type=int, help="the conversation of this seed alone")
    options = parser.parse_args()
    if options.write:
        return write(options.write)
    if options.seed is not None:
        print("aircraft: ok, seed %d, %d lines" % (options.seed, play(jobs([options.seed]))))
        return 0
    last, status = all_of(options.talks)
    print(last)
    return status


if __name__ == "__main__":
    sys.exit(main())
