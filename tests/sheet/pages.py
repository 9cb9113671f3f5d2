"""The tables of the pages under docs/."""
import re
from pathlib import Path

ROOT = Path(__file__).resolve().parent.parent.parent
NAMED = re.compile(r"`([A-Za-z0-9_./-]+)` line (\d+)")


class Fault(Exception):
    """What is wrong with a page, and where."""


class Row:
    """A row of a table: its cells, and where it stands."""

    def __init__(self, page, number, cells):
        self.where = "%s line %d" % (page, number)
        self.number = number
        self.cells = cells

    def __getitem__(self, at):
        return self.cells[at]

    def fault(self, text):
        """Ends the check of this table."""
        raise Fault("%s: %s" % (self.where, text))


class Table:
    """A table: the heading above it, its own head, and its rows."""

    def __init__(self, page, number, heading, head):
        self.where = "%s line %d" % (page, number)
        self.page = page
        self.heading = heading
        self.head = head
        self.rows = []

    def __iter__(self):
        return iter(self.rows)

    def column(self, at):
        """All cells of one column, in plain text."""
        return [plain(row[at]) for row in self.rows]


def plain(cell):
    """A cell without its code marks."""
    return cell.replace("`", "")


def cells_of(line):
    """The cells of a line of a table."""
    return tuple(cell.strip() for cell in line.strip().strip("|").split("|"))


def tables(page):
    """The tables of a page, by its name from the top of the repository."""
    found, heading, table = [], "", None
    for number, line in enumerate((ROOT / page).read_text().split("\n"), 1):
        if line.startswith("#"):
            heading = line.lstrip("# ")
        if not line.startswith("|"):
            table = None
        elif table is None:
            table = Table(page, number, heading, cells_of(line))
            found.append(table)
        elif set(line) - set("|-: "):
            row = Row(page, number, cells_of(line))
            if len(row.cells) != len(table.head):
                row.fault("%d cells under a head of %d" % (len(row.cells), len(table.head)))
            table.rows.append(row)
    return found


def line_of(row, at):
    """The line that a cell shows: itself, or a line that it names by file and number."""
    named = NAMED.search(row[at])
    if not named:
        return plain(row[at])
    path, number = ROOT / named[1], int(named[2])
    if not path.is_file():
        row.fault("there is no file %s" % named[1])
    lines = path.read_text().split("\n")
    if not 0 < number < len(lines):
        row.fault("%s has no line %d" % (named[1], number))
    begins = re.search(r"\(`([^`]*)`", row[at])
    if not begins or not lines[number - 1].startswith(begins[1] + " "):
        row.fault("line %d of %s does not begin so" % (number, named[1]))
    return lines[number - 1]


def number(text):
    """A number as the pages write it: 0x and hex digits, or decimal with commas and a sign."""
    text = plain(text).replace(",", "")
    return int(text, 16 if text.startswith("0x") else 10)


def numbers(text):
    """A span of numbers: `4 to 64`, `5`, `3 and 4`, `0x95, 0x96`."""
    text = plain(text)
    if " to " in text:
        least, most = text.split(" to ")
        return range(number(least), number(most) + 1)
    return [number(part) for part in re.split(r", (?=0x)|,? and ", text)]


def names(cell):
    """A name, or a span of names that end in a number: `place5` to `place7`."""
    first, _, last = plain(cell).partition(" to ")
    stem, low = re.fullmatch(r"([a-z]+)(\d*)", first).groups()
    return [stem + str(at) for at in range(int(low), int(last[len(stem):]) + 1)] if last else [first]


def crates():
    """The crates of crates.txt, each with those it stands on."""
    listed = {}
    for line in (ROOT / "crates.txt").read_text().split("\n"):
        name, colon, below = line.split("#")[0].partition(":")
        if colon:
            listed[name.split()[0]] = below.split()
    return listed
