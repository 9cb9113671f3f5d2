#!/usr/bin/env python3
"""The interface sheet against the programs and the second model.

Reads every table of docs/INTERFACE.md and the sessions of docs/TROUBLE.md. Each table has a check that knows its rows: it
makes lines of them, holds what they say against the second model (tests/second) at once, and at the end against what
`console`, `session`, `aircraft` and, where there is one, `lab` print. It fails on a row that is missing or differs, on a table
that no check knows, and on a picture that is not drawn from today's tables.

    tests/interface.py           the test
    tests/interface.py --write   writes what the second model prints into the sessions; read the difference before you keep it
    tests/interface.py --draw    draws the pictures of docs/pictures
"""
import re
import sys
import time
from pathlib import Path

HERE = Path(__file__).resolve().parent
sys.path[:0] = [str(HERE), str(HERE / "second")]
import model
from airframe.lines import Aircraft, aircraft_line
from sheet import aircraft, pictures
from sheet.camera import Camera
from sheet.desk import MOST, Desk, checks
from sheet.exchanges import Exchanges
from sheet.library import Library
from sheet.packets import Packets
from sheet.pages import ROOT, Fault, line_of, number, plain, tables
from sheet.programs import Programs
from sheet.state import State
from sheet.words import Words

SHEET, TROUBLE = "docs/INTERFACE.md", "docs/TROUBLE.md"
SESSIONS = {"Line": "console", "Line of session": "session", "Line of lab": "lab", "Line of aircraft": "aircraft"}
# a fresh state and what a line prints, by the second programs
SECOND = {"console": (model.Pod, model.console_line), "session": (model.Pod, model.session_line),
          "aircraft": (Aircraft, aircraft_line)}


class Sheet:
    """The tables of the sheet: each is taken by the check that knows it."""

    def __init__(self):
        self.tables = [table for table in tables(SHEET) if table.head[0] not in SESSIONS]
        self.sessions = [table for page in (SHEET, TROUBLE) for table in tables(page) if table.head[0] in SESSIONS]
        self.taken = set()

    def take(self, *head, heading=None):
        """The one table with this head (and, where it is given, under this heading)."""
        found = [table for table in self.tables if table.head == head and heading in (None, table.heading)]
        if len(found) != 1 or not found[0].rows:
            raise Fault("%s: there is no one table with the head: %s" % (SHEET, " | ".join(head)))
        self.taken.add(id(found[0]))
        return found[0]

    def left(self):
        """The tables that no check has taken."""
        return [table for table in self.tables if id(table) not in self.taken]


def play(desk, sheet):
    """The sessions of the pages."""
    for table in sheet.sessions:
        pairs = [(line_of(row, 0), line_of(row, 1)) for row in table]
        where = "%s (%s)" % (table.where, table.heading)
        if SESSIONS[table.head[0]] == "lab":
            desk.lab(where, pairs, alone=True)
        else:
            {"console": desk.case, "session": desk.session, "aircraft": desk.aircraft}[SESSIONS[table.head[0]]](where, pairs)


def covered(desk, sheet):
    """Every packet, error, refusal, command and letter has a worked example on the sheet."""
    shown = [(line_of(row, 0), line_of(row, 1)) for table in sheet.sessions
             if table.page == SHEET and table.head[0] in ("Line", "Line of lab") for row in table]
    for row in sheet.take("Code", "Command", "Type", "Bytes", "Answer"):
        code = "%02X" % number(row[0])
        if not any(line.startswith("P %s 01 " % code) and told.startswith("P %s 01 " % code)
                   and len(told) == 1 + 3 * number(row[4]) for line, told in shown):
            desk.fault("%s: there is no worked example of it with its answer" % row.where)
    for row in sheet.take("Error", "Means", "What to do"):
        if not any(re.match(r"P \w\w 09 %02X " % number(row[0]), told) for _, told in shown):
            desk.fault("%s: there is no worked example of it" % row.where)
    for row in sheet.take("No.", "When", "What to do"):
        if not any(told.endswith("!" + row[0]) for _, told in shown):
            desk.fault("%s: there is no worked example of it" % row.where)
    for row in sheet.take("Letter", "Line", "Call", "Prints"):
        if not any(told[:1] == plain(row[0]) and "!" not in told for _, told in shown):
            desk.fault("%s: there is no worked example of it" % row.where)
    if not any(re.search(r"^V .* [1-8] [1-9]\d* [0-9A-F]{4}( \d+){8}$", told) for _, told in shown):
        desk.fault("%s: there is no worked example of `V` with bytes in hand and an output timeout" % SHEET)
    if not any(told.startswith("V ") and not told.endswith(" 1 2 3 6 7 0 0 0") for _, told in shown):
        desk.fault("%s: there is no worked example of `V` with an id struck out of the list" % SHEET)
    for row in sheet.take("Form", "Byte 0", "Byte 1", "Byte 2", "Bytes 3 and 4"):
        if not any(line[5:7] == "%02X" % number(row[2]) and len(line) == 16 and told == "P -" for line, told in shown):
            desk.fault("%s: there is no worked example of it" % row.where)


def write():
    """What the second programs print, written into the sessions of console, session and aircraft."""
    for page in (SHEET, TROUBLE):
        lines = (ROOT / page).read_text().split("\n")
        for table in tables(page):
            talk = table.head == aircraft.TALK
            states = {program: fresh() for program, (fresh, _) in SECOND.items()}
            for row in table.rows if talk or SESSIONS.get(table.head[0], "lab") != "lab" else ():
                program = plain(row[0]) if talk else SESSIONS[table.head[0]]
                told = SECOND[program][1](states[program], line_of(row, talk).encode()).decode()
                if told != line_of(row, talk + 1):
                    cells = row.cells[:talk + 1] + ("`%s`" % told,) + row.cells[talk + 2:]
                    lines[row.number - 1] = "| %s |" % " | ".join(cells)
        (ROOT / page).write_text("\n".join(lines))


def test():
    """All checks; the differences as lines, and the status."""
    begin, desk, sheet = time.monotonic(), Desk(), Sheet()
    try:
        packets = Packets(desk, sheet.take)
        packets.all()
        for part in (Exchanges, State, Words, Camera, Programs, Library, aircraft.AircraftHalf):
            part(desk, sheet.take, packets).all()
        checks(desk, lambda: play(desk, sheet), lambda: covered(desk, sheet), lambda: aircraft.covered(desk, sheet))
        for table in sheet.left():
            desk.fault("%s: no check knows a table with the head: %s" % (table.where, " | ".join(table.head)))
        for name, drawn in pictures.all(sheet.take).items():
            path = ROOT / "docs/pictures" / name
            if not path.is_file() or path.read_text() != drawn:
                desk.fault("docs/pictures/%s is not drawn from today's tables: tests/interface.py --draw" % name)
    except Fault as fault:
        desk.fault(str(fault))
    desk.finish()
    for fault in desk.faults[:MOST]:
        print("interface: " + fault)
    left = "" if desk.has_lab else ", %d lines of lab left out until there is one" % desk.skipped
    print("interface: %s, %d lines%s, %.0f s" % (
        "%d differences" % len(desk.faults) if desk.faults else "ok", desk.lines, left, time.monotonic() - begin))
    return 1 if desk.faults else 0


def main():
    """The test, or what the page is made with."""
    if "--write" in sys.argv:
        write()
    elif "--draw" in sys.argv:
        sheet = Sheet()
        (ROOT / "docs/pictures").mkdir(exist_ok=True)
        for name, drawn in pictures.all(sheet.take).items():
            (ROOT / "docs/pictures" / name).write_text(drawn)
    else:
        return test()
    return 0


if __name__ == "__main__":
    sys.exit(main())
