"""Which rules a run has reached.

Each port declares a label for each branch of its rules before anything runs,
and counts one at each passage. A label that was not declared is an error.
"""

COUNTS = {}


def declare(*labels):
    """Make labels known, reached no times yet."""
    for label in labels:
        assert label not in COUNTS, label
        COUNTS[label] = 0


def hit(label):
    """Count one passage through a rule."""
    COUNTS[label] += 1


def clear():
    """Count anew."""
    COUNTS.update(dict.fromkeys(COUNTS, 0))


def missing(start=""):
    """The labels, of those with this start, that no call has reached."""
    return [label for label, count in COUNTS.items() if count == 0 and label.startswith(start)]


def table():
    """One line for each label with its count, as text."""
    return "".join("%9d  %s\n" % (count, label) for label, count in COUNTS.items())
