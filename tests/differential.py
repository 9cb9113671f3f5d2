"""The programs against the model, byte for byte.

Sessions of seeds 0 to N-1 go to `./run console`, many in one run with a `Z` line between
them; some of them also go to `./run session`, each on a fresh pod in a run of its own, its
packet lines alone or, every second one, all its lines. The first difference is printed with
its seed and line, and ends the test. At the end every labelled rule of the model must have
been reached (`--rules` prints how often each was).
"""

import argparse
import subprocess
import sys
from concurrent.futures import ThreadPoolExecutor
from pathlib import Path

sys.path.insert(0, str(Path(__file__).resolve().parent / "second"))
import sessions
from model import Pod, session_line
from ports import labels

ROOT = Path(__file__).resolve().parent.parent
BATCH = 50          # sessions in one run of console
ALONE = 25          # sessions that also go to session, about
LIMIT = 600         # seconds for one run


def run(program, lines):
    """What a program prints for lines, and its exit status."""
    done = subprocess.run(["./run", program], cwd=ROOT, input=b"".join(line + b"\n" for line in lines),
                          stdout=subprocess.PIPE, timeout=LIMIT, check=False)
    return done.stdout, done.returncode


class Job:
    """Lines for one run of a program, each with its seed, its number and its answer."""

    def __init__(self, program):
        self.program = program
        self.lines = []
        self.answers = []
        self.places = []

    def add(self, place, line, answer):
        """One more line."""
        self.lines.append(line)
        self.answers.append(answer)
        self.places.append(place)

    def start(self, pool):
        """Run the program beside the model's work."""
        self.result = pool.submit(run, self.program, self.lines)

    def difference(self):
        """The first difference as text, or None."""
        output, status = self.result.result()
        if output == b"".join(answer + b"\n" for answer in self.answers):
            return None if status == 0 else "%s: exit status %d" % (self.program, status)
        got = output.split(b"\n")
        ended = got.pop()
        for at, answer in enumerate(self.answers):
            if at >= len(got) or got[at] != answer:
                return self.report(at, got[at] if at < len(got) else ended or b"(nothing)", status)
        return "%s: more lines out than in, first: %s (exit status %d)" % (
            self.program, text((got + [ended])[len(self.answers)]), status)

    def report(self, at, came, status):
        """What is printed of a difference."""
        seed, number = self.places[at]
        return "\n".join((
            "difference in %s: seed %s, line %d" % (self.program, seed, number),
            "  line     " + text(self.lines[at]), "  expected " + text(self.answers[at]),
            "  came     " + text(came), "  exit status of the run %d" % status))


def text(line):
    """A line as it may be printed, shortened when it is very long."""
    shown = line.decode("latin-1").encode("unicode_escape").decode()
    return shown if len(shown) < 1000 else "%s... (%d bytes)" % (shown[:1000], len(line))


def console_job(seeds):
    """Sessions for console with power off and on between them."""
    job = Job("console")
    for seed in seeds:
        session = sessions.make(seed)
        for number, (line, answer) in enumerate(zip(session.lines, session.answers), 1):
            job.add((seed, number), line, answer)
        job.add((seed, len(session.lines) + 1), b"Z", b"Z")
    return job


def session_job(seed, whole):
    """One session for session: its packet lines, or all of them, on a fresh pod."""
    job = Job("session")
    pod = Pod()
    for number, line in enumerate(sessions.make(seed).lines, 1):
        if whole or line.startswith(b"P"):
            job.add((seed, number), line, session_line(pod, line))
    return job


def jobs(seeds):
    """All runs of the programs."""
    for first in range(0, len(seeds), BATCH):
        yield console_job(seeds[first:first + BATCH])
    step = max(1, len(seeds) // ALONE)
    for turn, seed in enumerate(seeds[::step]):
        yield session_job(seed, turn % 2 == 1)


def play(made):
    """Run jobs as they are made; the count of lines, or exit at the first difference."""
    lines = 0
    waiting = []
    with ThreadPoolExecutor(max_workers=2) as pool:
        for job in made:
            job.start(pool)
            waiting.append(job)
            lines += len(job.lines)
            if len(waiting) > 2:
                check(waiting.pop(0))
        for job in waiting:
            check(job)
    return lines


def check(job):
    """End the test at a difference."""
    difference = job.difference()
    if difference:
        print(difference, flush=True)
        sys.exit(1)


def main():
    """The test."""
    parser = argparse.ArgumentParser(description=__doc__)
    parser.add_argument("--sessions", type=int, default=2000, help="how many seeds, from 0")
    parser.add_argument("--seed", type=int, help="this seed alone, without the count of rules")
    parser.add_argument("--rules", action="store_true", help="print each rule with its count")
    options = parser.parse_args()
    if options.seed is not None:
        print("differential: ok, seed %d, %d lines" % (options.seed, play(jobs([options.seed]))))
        return 0
    lines = play(jobs(range(options.sessions)))
    if options.rules:
        print(labels.table(), end="")
    if labels.missing():
        print("\n".join("not reached: " + label for label in labels.missing()))
        return 1
    print("rules: %d of %d reached" % (len(labels.COUNTS), len(labels.COUNTS)))
    print("differential: ok, %d sessions, %d lines, every rule line reached" % (options.sessions, lines))
    return 0


if __name__ == "__main__":
    sys.exit(main())
