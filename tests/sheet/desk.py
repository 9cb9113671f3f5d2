"""Lines for the programs with what each must print, from the pages, from the second model, and from the programs."""
import subprocess

import model
from airframe.lines import Aircraft, aircraft_line
from ports.lab import lab_line
from ports.refusal import Refused
from .pages import ROOT, Fault, crates

LIMIT = 120         # seconds for one run
MOST = 12           # differences that are printed
# lines after which nothing is on its way in `aircraft`, as at its start
OVER = [("Q 9F", "P 9F 01 05 FB"), ("P 9F 01 7E 34 FC", "R done")]


class Desk:
    """All lines that the pages lead to. The model is asked at once, the programs at the end, in one run each."""

    def __init__(self):
        self.faults = []
        self.blamed = set()
        self.cases = {"console": [], "lab": [], "aircraft": []}
        self.alone = []
        self.has_lab = "lab" in crates()
        self.lines = self.skipped = 0

    def fault(self, text):
        """One more difference."""
        self.faults.append(text)

    def agreed(self, where, pairs, tells, fresh=model.Pod):
        """Whether the second model says what the page says; of one place the first difference is told."""
        state = fresh()
        for line, prints in pairs:
            told = tells(state, line.encode()).decode()
            if told != prints:
                if where not in self.blamed:
                    self.fault("%s: `%s` prints `%s`, and the second model says `%s`" % (where, cut(line), cut(prints), cut(told)))
                self.blamed.add(where)
                return False
        return True

    def case(self, where, pairs):
        """A session of the console from power on: lines, and what the page says they print."""
        if self.agreed(where, pairs, model.console_line):
            self.cases["console"].append((where, [("Z", "Z")] + list(pairs)))

    def lab(self, where, pairs, alone=False):
        """A session of lab from power on, left out as long as there is no such program. One that shows the bytes of the
        stores, which power on keeps, is played alone."""
        if not self.agreed(where, pairs, lab_line):
            return
        if not self.has_lab:
            self.skipped += len(pairs)
        elif alone:
            self.alone.append(("lab", where, pairs))
        else:
            self.cases["lab"].append((where, [("Z", "Z")] + list(pairs)))

    def session(self, where, pairs):
        """A session of the packet program, in a run of its own."""
        if self.agreed(where, pairs, model.session_line):
            self.alone.append(("session", where, pairs))

    def aircraft(self, where, pairs):
        """Lines of the program aircraft, from nothing on its way."""
        if self.agreed(where, pairs, aircraft_line, Aircraft):
            self.cases["aircraft"].append((where, OVER + list(pairs)))

    def finish(self):
        """Hold all against the programs."""
        for program, cases in self.cases.items():
            if cases:
                self.compare(program, [(where, *pair) for where, pairs in cases for pair in pairs])
        for program, where, pairs in self.alone:
            self.compare(program, [(where, *pair) for pair in pairs])

    def compare(self, program, wanted):
        """One run of a program; of one place the first difference is told."""
        text = "".join(line + "\n" for _, line, _ in wanted)
        got = run(program, text.encode()).stdout.decode("latin-1").split("\n")
        self.lines += len(wanted)
        if len(got) != len(wanted) + 1:
            self.fault("%s printed %d lines for %d" % (program, len(got) - 1, len(wanted)))
        for (where, line, prints), came in zip(wanted, got):
            if came != prints and where not in self.blamed:
                self.blamed.add(where)
                self.fault("%s: `%s` prints `%s`, and %s prints `%s`" % (where, cut(line), cut(prints), program, cut(came)))


def run(program, text, **options):
    """What a program prints."""
    options.setdefault("stdout", subprocess.PIPE)
    return subprocess.run(["./run", program], cwd=ROOT, input=text, timeout=LIMIT, check=False, **options)


def cut(text):
    """A line as it is shown in a difference."""
    return text if len(text) <= 90 else text[:60] + " .. " + text[-20:]


class Part:
    """The tables of one part of the sheet."""

    def __init__(self, desk, take, packets):
        self.desk = desk
        self.take = take
        self.packets = packets


def checks(desk, *parts):
    """Run checks of tables. One that ends early is one difference, also where a row that it needs is missing or can't be read."""
    for part in parts:
        try:
            part()
        except Fault as fault:
            desk.fault(str(fault))
        except (LookupError, ValueError, TypeError, AttributeError, Refused) as error:
            desk.fault("%s.%s: a row that it needs is missing or can't be read: %r" % (
                getattr(part, "__module__", ""), getattr(part, "__name__", ""), error))
