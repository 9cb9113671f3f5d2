"""The wrong pods by their names."""

WRONG = {}
# the names of those that no line of `console` can notice
LAB_ALONE = set()


def wrong(pod):
    """One more, named by its docstring."""
    assert pod.__doc__ not in WRONG, pod.__doc__
    WRONG[pod.__doc__] = pod
    return pod


def lab_alone(pod):
    """One more, wrong where no line of `console` leads: out of the bounds, or in what `V` alone shows."""
    LAB_ALONE.add(pod.__doc__)
    return wrong(pod)


def changed(frame, at, byte):
    """A frame with another byte."""
    return frame[:at] + bytes((byte & 0xFF,)) + frame[at + 1:]
