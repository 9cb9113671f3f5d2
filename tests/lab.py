"""The program `lab` against the model: its stored session, and any state with any call.

crates/lab/stdin and crates/lab/stdout are what the model makes of them (tests/second/stored);
`--write` writes them anew. The stored session, and seeded sessions that set any part of the
state and any size, make a call and look at all that it leaves (tests/second/labs.py), go to
`./run lab`, many in one run, and each line is compared. The first difference is printed with
its seed and line, and ends the test. Every labelled rule of the lines must have been reached:
each call refused by each bound alone, at each thing's wrong sizes, each name in and out of its
range.
"""

import argparse
import sys

from differential import ROOT, Job, play, text
import labs
import stored
from ports import labels

STORED = ROOT / "crates" / "lab"
BATCH = 125         # sessions in one run


def joined(lines):
    """Lines as a file has them."""
    return b"".join(line + b"\n" for line in lines)


def stored_files(book):
    """The stored session's files, with what they hold."""
    return ((STORED / "stdin", joined(book.lines)), (STORED / "stdout", joined(book.answers)))


def write(book):
    """The stored files."""
    STORED.mkdir(exist_ok=True)
    for path, content in stored_files(book):
        path.write_bytes(content)
    print("lab: written, %d lines" % len(book.lines))
    return 0


def stored_difference(book):
    """The first line of a stored file that is not the model's, as text, or None."""
    for path, content in stored_files(book):
        found = path.read_bytes() if path.exists() else b""
        if found == content:
            continue
        pairs = zip(found.split(b"\n") + [b"(nothing)"], content.split(b"\n") + [b"(nothing)"])
        number, (came, expected) = next((at, pair) for at, pair in enumerate(pairs, 1) if pair[0] != pair[1])
        return "\n".join(("difference in crates/lab/%s: line %d" % (path.name, number),
                          "  expected " + text(expected), "  stored   " + text(came)))
    return None


def stored_job(book):
    """The stored session, for a run by itself."""
    job = Job("lab")
    for number, (line, answer) in enumerate(zip(book.lines, book.answers), 1):
        job.add(("stored", number), line, answer)
    return job


def jobs(seeds):
    """The seeded sessions, many in one run."""
    for first in range(0, len(seeds), BATCH):
        job = Job("lab")
        for seed, session in labs.make(seeds[first:first + BATCH]):
            for number, (line, answer) in enumerate(zip(session.lines, session.answers), 1):
                job.add((seed, number), line, answer)
        yield job


def main():
    """The test."""
    parser = argparse.ArgumentParser(description=__doc__)
    parser.add_argument("--write", action="store_true", help="write the stored session")
    parser.add_argument("--sessions", type=int, default=1000, help="how many seeds, from 0")
    parser.add_argument("--seed", type=int, help="this seed alone")
    options = parser.parse_args()
    if options.seed is not None:
        print("lab: ok, seed %d, %d lines" % (options.seed, play(jobs([options.seed]))))
        return 0
    book = stored.make()
    if options.write:
        return write(book)
    difference = stored_difference(book)
    if difference:
        print(difference)
        return 1
    play([stored_job(book)])
    labels.clear()
    lines = play(jobs(range(options.sessions)))
    if labels.missing("lab "):
        print("\n".join("not reached: " + label for label in labels.missing("lab ")))
        return 1
    print("lab: ok, %d stored lines, %d sessions, %d lines" % (len(book.lines), options.sessions, lines))
    return 0


if __name__ == "__main__":
    sys.exit(main())
