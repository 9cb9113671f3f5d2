"""The sheet's part 'Programs', and what the other pages say about the repository, against the programs."""
import os
import re
import subprocess
import tempfile
from pathlib import Path

import model
from ports.lines import FORMS, LONGEST
from ports.packets import sealed

from .desk import Part, checks, run
from .packets import asked
from .pages import ROOT, Fault, crates, names, number, plain
from .state import GOOD

ITEMS = re.compile(r"\$ printf '(.*)' \| \./run session\n((?:    .*\n)+)")

# the parts of the state that lab sets to one number
NAMES = "initialised mode flags seconds milliseconds poll error timeouts gathered out outtimeouts".split()
NAMES += [part + store for store in "01" for part in ("limit", "remaining", "oldest", "waiting")]
NAMES += [part + str(id) for part in ("param", "written") for id in range(1, 13)] + ["missing%d" % at for at in range(8)]
NAMES += ["place5", "place6", "place7", "address"]
# a checker that says which crate it is at, sees after a while what was made of that, and ends with nothing proved
CHECKER = """#!/bin/sh
[ "$1" = run ] || exec echo a stand-in
echo 'rt: chose --jobs 2 for %s' >&2
sleep 1.5
cp '%s' '%s'
echo 'rt: chose --jobs 2 for console' >&2
echo 'rt: nothing proved' >&2
exit 1
"""


class Programs(Part):
    """The tables of lines and limits."""

    def all(self):
        """Each table once."""
        checks(self.desk, self.check_letters, self.check_limits, self.check_lab, self.check_ranges, self.check_readme,
               self.check_links, self.check_run, self.check_progress)

    def check_letters(self):
        """The letters of the console."""
        table = self.take("Letter", "Line", "Call", "Prints")
        if table.column(0) != list(FORMS):
            table.rows[0].fault("the letters are not %s" % " ".join(FORMS))
        for row in table:
            letter, pod = plain(row[0]), model.Pod()
            pod.packet(self.packets.sample(0x90))
            told = model.console_line(pod, GOOD.get(letter, "P").encode()).decode()
            kind = "" if told == letter else " and the word" if re.fullmatch(r". [0-9A-F]{4}", told) else " and the "
            if not plain(row[1]).startswith(letter) or row[3][:len(row[0] + kind)] != row[0] + kind or (
                    kind != " and the " and row[3] != row[0] + kind):
                row.fault("it begins with its letter, and prints as `%s` does" % told)
            if re.findall(r"\d+", row[1]) != {"B": ["256", "256"], "A": ["128"], "O": ["8"]}.get(letter, []):
                row.fault("the numbers of its line are others")

    def check_limits(self):
        """The longest packet and the longest line, one inside and one outside."""
        table = self.take("What", "Limit", "Beyond it")
        limits = {row[0]: (number(row[1]), row) for row in table}
        if list(limits) != ["bytes of a packet line", "characters of a line"]:
            table.rows[0].fault("the limits are not of the bytes of a packet line and of the characters of a line")
        most, row = limits["bytes of a packet line"]
        if "packet of {:,} bytes".format(most + 1) not in row[2]:
            row.fault("beyond it is a packet of {:,} bytes".format(most + 1))
        whole = sealed(b"\x97\x01" + bytes(most - 4))
        self.desk.case(row.where, [(asked(whole), self.packets.error(0x97, 0x02)), (asked(whole + b"\0"), "?"), ("S", "S 0000")])
        longest, row = limits["characters of a line"]
        if longest != LONGEST or longest != len(asked(whole)):
            row.fault("the second model's longest line has %d characters" % LONGEST)
        self.desk.case(row.where, [("P" * longest, "?"), ("P" * (longest + 1), "?"), ("D\r", "?"), ("", "?"), ("D", "D")])
        self.check_ends()

    def check_ends(self):
        """A last line without its newline; output that can't be written ends with status 0."""
        if run("console", b"D\nS").stdout != b"D\nS 0000\n":
            raise Fault("docs/INTERFACE.md: a last line without its newline does not count")
        with open("/dev/full", "wb") as full:
            if run("session", b"P 91\n", stdout=full).returncode != 0:
                raise Fault("docs/INTERFACE.md: on a full disk the exit status is not 0 any more: say so under limits")

    def check_lab(self):
        """The lines of lab, and the sizes that it lends."""
        table = self.take("Letter of lab", "Line", "Does", "Prints")
        if table.column(0) != ["X", "L", "V"] or any(not row[at].startswith(row[0]) for row in table for at in (1, 3)):
            table.rows[0].fault("the letters of lab are not X L V, each before its line and what it prints")
        sizes = {"room": 260, "p": 4096, "o": 32768, "5": 64, "6": 128, "7": 64}
        lent = self.take("Name for L", "Right size", "Largest")
        if lent.column(0) != list(sizes):
            lent.rows[0].fault("what lab lends is not: %s" % ", ".join(sizes))
        for row in lent:
            name, right, most = row[0].strip("`"), number(row[1]), number(row[2])
            if right != sizes[name] or most != right + 1024:
                row.fault("its sizes are %d and %d" % (sizes[name], sizes[name] + 1024))
            self.desk.lab(row.where, [("L %s %d" % (name, most), "L"), ("D", "D"), ("L %s %d" % (name, most + 1), "?")])

    def check_ranges(self):
        """The numbers that X takes, one inside and one outside."""
        table = self.take("Name for X", "Least", "Most", "Sets")
        if [name for row in table for name in names(row[0])] != NAMES:
            table.rows[0].fault("the names are not: %s" % " ".join(NAMES))
        for row in table:
            least, most = number(row[1]), number(row[2])
            for name in names(row[0]):
                self.desk.lab(row.where, [("X %s %d" % (name, value), told) for value, told in (
                    (least, "X"), (most, "X"), (least - 1, "?"), (most + 1, "?"))])
        self.desk.lab(row.where, [("X %s 0" % name, "?") for name in (
            "limit2", "param0", "param13", "written13", "missing", "missing8", "place4", "place8", "Mode", "")])

    def check_readme(self):
        """README's session."""
        for page in ("README.md", "docs/OWNER.md", "docs/TROUBLE.md"):
            for lines, shown in ITEMS.findall((ROOT / page).read_text()):
                asks = lines.replace("\\n", "\n").split("\n")[:-1]
                tells = [line.strip() for line in shown.strip("\n").split("\n")]
                self.desk.session("%s, the session" % page, list(zip(asks, tells)))
                if len(asks) != len(tells):
                    raise Fault("%s: a session of %d lines shows %d answers" % (page, len(asks), len(tells)))

    def check_links(self):
        """No page names a page that isn't there; one that names document 01 says first where its rules are."""
        for path in [ROOT / "README.md"] + sorted((ROOT / "docs").glob("**/*.md")):
            text, page = path.read_text(), str(path.relative_to(ROOT))
            for named in re.findall(r"\b(?:docs|tests)/[A-Za-z0-9_/.-]*[A-Za-z0-9_](?!\w)", text):
                if not (ROOT / named).exists():
                    self.desk.fault("%s names %s, which is not there" % (page, named))
            for named in re.findall(r"\]\(([^)#]+)", text):
                if "://" not in named and not (path.parent / named).exists():
                    self.desk.fault("%s links to %s, which is not there" % (page, named))
            at = re.search("document 01", text, re.I)
            if at and page != "docs/INTERFACE.md" and not 0 <= text.find("INTERFACE.md") < at.end() + 200:
                self.desk.fault("%s names document 01 and does not say beside it that its rules are in docs/INTERFACE.md" % page)

    def check_run(self):
        """./run --help has a line for each program."""
        told = subprocess.run(["./run", "--help"], cwd=ROOT, stdout=subprocess.PIPE, check=False)
        listed = re.findall(r"^  (\w+) +\S", told.stdout.decode(), re.M)
        there = sorted(path.parts[-3] for path in ROOT.glob("crates/*/src/main.rt"))
        if told.returncode != 0 or listed != there:
            self.desk.fault("./run --help lists %s, and the programs are %s" % (" ".join(listed), " ".join(there)))

    def check_progress(self):
        """While a checker works, ./run tells which crates it is at; where it fails, what it said. A stand-in is the checker."""
        below, found = crates(), {"console"}
        while any(one not in found for name in found for one in below[name] if one in below):
            found |= {one for name in found for one in below[name] if one in below}
        first = "console"
        while any(one in below for one in below[first]):
            first = next(one for one in below[first] if one in below)
        due = ["proving %d of %d: %s" % (at, len(found), name) for at, name in ((1, first), (len(found), "console"))]
        with tempfile.TemporaryDirectory() as folder:
            stand_in, early, log = (Path(folder) / name for name in ("rt", "early", "log"))
            stand_in.write_text(CHECKER % (first, log, early))
            stand_in.chmod(0o755)
            path = "%s:%s" % (folder, os.environ["PATH"])
            for asked_for in ("1", "0"):
                with log.open("wb") as heard:
                    told = subprocess.run(["./run", "console"], cwd=ROOT, stdin=subprocess.DEVNULL, stdout=subprocess.PIPE,
                                          stderr=heard, check=False, env={**os.environ, "PATH": path, "RUN_PROGRESS": asked_for})
                said = log.read_text()
                tells = early.read_text().split("\n")[:-1], re.findall("^proving .*$", said, re.M)
                if tells != ((due[:1], due) if asked_for == "1" else ([], [])) or told.returncode != 1 \
                        or "rt: nothing proved" not in said or told.stdout:
                    self.desk.fault("./run with RUN_PROGRESS=%s says, with status %d: %s" % (asked_for, told.returncode, said))
