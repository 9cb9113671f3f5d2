"""The sheet's tables of the library `airframe` against its source and its definitions, and of the library for C against its header."""
import re

from .desk import Part, checks
from .pages import ROOT, Fault, crates, plain

SOURCE = "crates/airframe/src"
HEAD = re.compile(r"^( *)pub fn (\w+)\(([^)]*)\) -> ([^\n{]+?)\n(.*?)\n\1\{$", re.M | re.S)
HEADER = "include/tolmezha.h"
EXPORT = re.compile(r"^/\* ((?:(?!\*/).)*)\*/\n\w+ (tolmezha_\w+)\(", re.M | re.S)
NAME = re.compile(r"^#define (TOLMEZHA_\w+) \(?(-?\d+)\)?", re.M)
TYPE = re.compile(r"^pub (?:enum|struct) (\w+) \{\n(.*?)^\}$", re.M | re.S)


class Library(Part):
    """The tables of functions, types and refusals."""

    def all(self):
        """Each table once."""
        checks(self.desk, self.check_functions, self.check_types, self.check_refusals, self.check_exports, self.check_names, self.check_cases)

    def check_functions(self):
        """Every public function with what it takes and gives, none with a condition; and what the library stands on."""
        table = self.take("Function", "Takes", "Gives", "Refuses by")
        found = {}
        for path in sorted((ROOT / SOURCE).glob("*.rt")):
            for indent, name, takes, gives, rest in HEAD.findall(path.read_text()):
                found["Sending::" * bool(indent) + name] = takes, gives
                if "requires" in rest:
                    table.rows[0].fault("%s has a condition" % name)
        if sorted(found) != sorted(table.column(0)):
            table.rows[0].fault("the functions of %s are %s" % (SOURCE, ", ".join(sorted(found))))
        for row in table:
            takes, gives = found[plain(row[0])]
            refuses = {"Result<usize, Refusal>": "20, 24", "Result<Meaning, Refusal>": "23"}.get(gives, "23" if gives == "Heard" and "&[u8]" in takes else "none")
            if plain(row[1]) != takes or not row[2].startswith("`%s`: " % gives) or row[3] != refuses:
                row.fault("it takes %s, gives %s and refuses by %s" % (takes, gives, refuses))
        text = (ROOT / table.page).read_text()
        stands = re.search(r"It stands on the crates\s(.*?)\salone", text, re.S)
        if not stands or sorted(re.findall(r"`(\w+)`", stands[1])) != sorted(crates()["airframe"]):
            raise Fault("%s: airframe stands on %s" % (table.page, ", ".join(crates()["airframe"])))

    def check_types(self):
        """Every type of the library, and the two of `packets` that a command is made of."""
        table = self.take("Type", "Values or parts", "Is")
        found = {}
        for crate in ("airframe", "packets"):
            text = re.sub(r"^ *//.*\n", "", (ROOT / "crates" / crate / "src/lib.rt").read_text(), flags=re.M)
            for name, body in TYPE.findall(text):
                if crate == "airframe" or name in ("Command", "Fields"):
                    found[name] = [part.strip().removeprefix("pub ") for part in body.split(",\n") if part.strip()]
        if sorted(found) != sorted(table.column(0)):
            table.rows[0].fault("the types are %s" % ", ".join(sorted(found)))
        for row in table:
            if re.findall(r"`([^`]*)`", row[1]) != found[plain(row[0])]:
                row.fault("it has %s" % "; ".join(found[plain(row[0])]))

    def check_refusals(self):
        """The numbers, by the definition that the promises use."""
        table = self.take("No.", "Name", "When", "Changes", "What to do")
        rules = (ROOT / "crates/airframe/specs/Building.antt").read_text()
        if list(zip(table.column(1), table.column(0))) != re.findall(r"^refusal_number (\w+) = (\d+)$", rules, re.M):
            table.rows[0].fault("the refusals are not those of refusal_number")
        least = re.search(r"row 24 \(ltb \(length room\) (\d+)\)", rules)[1]
        if "fewer than %s bytes" % least not in table.rows[2][2]:
            table.rows[2].fault("the room has %s bytes or more" % least)
        changes = [row[3] for row in table]
        if changes != ["nothing", "`reply` uses up one send, `read` changes nothing", "nothing"]:
            table.rows[0].fault("20 and 24 change nothing, 23 uses up one send")

    def check_exports(self):
        """Every function of the header, and what its own words, or those of the function that they name, say of refusals."""
        table = self.take("In C", "Behind it", "Returns", "Refuses by")
        text = (ROOT / HEADER).read_text()
        found = {name: words for words, name in EXPORT.findall(text)}
        if list(found) != table.column(0):
            table.rows[0].fault("the functions of %s are %s" % (HEADER, ", ".join(found)))
        numbers = {name: number for name, number in NAME.findall(text) if int(number) < 0}
        for row in table:
            words = found[plain(row[0])]
            like = re.search(r"keeps what (\w+) does", re.sub(r"\s+", " ", words))
            refuses = sorted({-int(number) for name, number in numbers.items() if name in words + (found[like[1]] if like else "")})
            if row[3] != (", ".join(map(str, refuses)) or "none"):
                row.fault("it refuses by %s" % refuses)

    def check_names(self):
        """Every number that the header names."""
        table = self.take("Name in C", "Number", "Is")
        found = [(name.removeprefix("TOLMEZHA_"), number) for name, number in NAME.findall((ROOT / HEADER).read_text())]
        if list(zip(table.column(0), table.column(1))) != found:
            table.rows[0].fault("%s has %s" % (HEADER, found))

    def check_cases(self):
        """The cases that the sheet shows stand in the vectors, and there are some of each kind but the CRC's."""
        shown = re.findall(r"^    ((?:build|acknowledge|read|send) .* = .*)$", (ROOT / "docs/INTERFACE.md").read_text(), re.M)
        stored = (ROOT / "include/vectors.txt").read_text().split("\n")
        for line in shown:
            if line not in stored:
                raise Fault("docs/INTERFACE.md: no such case in include/vectors.txt: %s" % line)
        if {line.split()[0] for line in shown} != {"build", "acknowledge", "read", "send"}:
            raise Fault("docs/INTERFACE.md: no case of some kind is shown")
