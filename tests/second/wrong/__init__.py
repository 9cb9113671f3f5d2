"""Pods that are wrong in one rule that a request is about: the seeded sessions and the stored lines of
`lab` must notice each, or they could not notice a program that is wrong so."""

import labs
import sessions
import stored
from model import console_line
from ports.lab import lab_line

from . import handing, judged, kept, lists, parity, struck, timeouts  # each names its own in WRONG
from .named import LAB_ALONE, WRONG

SESSIONS = 150
FEW = 10        # of these, for the pods that they can't notice


def noticed(pod, tells, made):
    """Whether a wrong pod tells anything else than the model did. One that comes to a rule that was never declared is
    where the model can't be."""
    try:
        return any(tells(pod, line) != answer for line, answer in zip(made.lines, made.answers))
    except KeyError:
        return True


def run():
    """Each of them, by the stored lines and by the sessions: of `console`, or of `lab` where only its lines can."""
    book, made = stored.make(), [sessions.make(seed) for seed in range(SESSIONS)]
    by_hand = [session for _, session in labs.make(range(SESSIONS))]
    for name, fresh in WRONG.items():
        assert noticed(fresh(), lab_line, book), "the stored lines of lab don't notice: " + name
        by_sessions = any(noticed(fresh(), console_line, session) for session in made[:FEW if name in LAB_ALONE else None])
        assert by_sessions != (name in LAB_ALONE), "%s: noticed by the sessions is %s" % (name, by_sessions)
        pod = fresh()
        assert by_sessions or any(noticed(pod, lab_line, session) for session in by_hand), "lab's sessions don't notice: " + name
    print("wrong pods: ok, %d of them, each noticed" % len(WRONG))
