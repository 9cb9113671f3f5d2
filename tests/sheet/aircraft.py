"""The sheet's part 'The aircraft's half': fields, answers, sending and lines against the second program and `aircraft`."""
import re

from airframe.building import FIELDS
from airframe.lines import LONGEST, Aircraft, aircraft_line
from airframe.reading import KINDS, LENGTHS, TYPE_1, WRONG, read
from model import Pod, session_line
from ports.packets import sealed
from ports.params import ROWS

from .desk import Part, checks
from .packets import asked
from .pages import ROOT, Fault, line_of, number, plain

GOOD = {"mode": 1, "flags": 3, "seconds": 22320, "milliseconds": 250, "priority limit": 4, "priority remaining": 4,
        "memory limit": 100, "memory remaining": 2, "poll": 1000}
TYPES = {"u8": (0, 255), "u16": (0, 65535), "u32": (0, 4294967295), "i32": (-2147483648, 2147483647)}
NUMBERS = {0x90: " 1 3 22320 250 4 4 100 2 1000", 0x92: " 1 3 22320 250 4 4 100 2 1000", 0x93: " 3 500", 0x94: " 3"}
# the meanings of the library, and the refusal in place of one, by the word of the program
WORDS = {"Wrong": "!23", "Done": "done", "Error": "error", "State": "status", "Value": "value", "Block": "data"}
# the numbers that stand alone, each in a line
FORMS = {("Q 93", "id"): "Q 93 %d 1", ("Q 94", "id"): "Q 94 %d", ("Y", "code"): "Y %02X", ("Y", "error"): "Y 95 %02X"}
TALK = ("Program", "Line", "Prints", "Why")
PIPED = re.compile(r"\$ printf '(.*)' \| \./run aircraft( \| \./run session)?\n((?:    .*\n)+)")
# the lines of the program: conversations that end with such a line and lead to all that it prints
LINES = {
    "Q 90 or Q 92, then mode, flags, seconds, milliseconds, priority limit and remaining, memory limit and remaining, poll":
        [["Q 90" + NUMBERS[0x90]], ["Q 92" + NUMBERS[0x92]], ["Q 90 4" + NUMBERS[0x90][2:]]],
    "Q 93 id value": [["Q 93 3 500"], ["Q 93 3 1001"]], "Q 94 id": [["Q 94 3"], ["Q 94 13"]],
    "Q 91, Q 95, Q 96, Q 9F": [["Q 91"], ["Q 95"], ["Q 96"], ["Q 9F"]],
    "Y code": [["Y 95"], ["Y 8F"]], "Y code error": [["Y 95 01"], ["Y 8F 01"]],
    "P bytes": [["Q 91", "P 91 09 38 8E 56"], ["Q 91", "P 00"], ["Q 91"] + ["P -"] * 3 + ["P 00"], ["P 00"]],
    "P -": [["Q 91", "P -"], ["Q 91"] + ["P -"] * 4, ["P -"]], "N": [["Q 91", "N"], ["N"]]}
# what every worked example together must show
SHOWN = [r"Q 9[0-6F]\b.* -> P ", r"Y \w\w -> P ", r"Y \w\w \w\w -> P ", "Q .* -> Q !20", "Y .* -> Y !20", "N -> P ", "N -> N -",
         r".* -> \?", "P -> R !23 again", "P - -> R again", "P - -> R lost", "P .* -> R -", "P .* -> R !23 lost",
         "P .* -> R error 01 again", "P .* -> R error 01 lost", "P .* -> R error [^0]", "P .* -> R done", "P .* -> R status ",
         "P .* -> R value ", "P .* -> R data "]


def query(code):
    """A line that builds a command of a code."""
    return "Q %02X%s" % (code, NUMBERS.get(code, ""))


def printed(aircraft, line):
    """What the second program prints for a line."""
    return aircraft_line(aircraft, line.encode()).decode()


def told(lines):
    """The lines of a conversation from nothing on its way, with what the second program prints for each."""
    aircraft = Aircraft()
    return [(line, printed(aircraft, line)) for line in lines]


def words(prints):
    """What a line prints, as the table names it: a packet and a meaning by their letter, with the step behind it."""
    if re.fullmatch("R (again|lost|-)|N -|[QY] !20", prints):
        return [prints]
    return [prints[0]] + re.findall("(?:again|lost)$", prints)


def success(code, size=None, third=0x7E):
    """A success with a right CRC, of the length that is due or of another."""
    size = LENGTHS[code] if size is None else size
    return sealed((bytes((code, 0x01, third)) + bytes(260))[:size - 2])


def with_field(code, name, value):
    """The line of an Initialise or Update with one field changed; a changed limit has nothing remaining."""
    fields = {**GOOD, name: value}
    if name.endswith("limit"):
        fields[name.replace("limit", "remaining")] = 0
    return "Q %02X %s" % (code, " ".join(map(str, fields.values())))


def spans(row):
    """How a number is put into its line, with its least and most as the page has them; a value has as many as there are rows."""
    where, name = plain(row[0]), row[1]
    if name == "value":
        if row.cells[3:] != ("its row", "its row"):
            row.fault("a value has the bounds of its row")
        return [(lambda value, id=id: "Q 93 %d %d" % (id, value), *ROWS[id][:2]) for id in ROWS]
    most = GOOD[name.replace("remaining", "limit")] if row[4] == "its limit" else number(row[4])
    if (where, name) in FORMS:
        return [(lambda value: FORMS[where, name] % value, number(row[3]), most)]
    return [(lambda value, code=code: with_field(code, name, value), number(row[3]), most) for code in (0x90, 0x92)]


class AircraftHalf(Part):
    """The tables of the aircraft's half."""

    def all(self):
        """Each table once."""
        checks(self.desk, self.check_fields, self.check_right, self.check_meanings, self.check_sending, self.check_letters,
               self.check_limits, self.check_talk, self.check_piped)

    # -- 20

    def check_fields(self):
        """Each number of a line at its bounds and its type's, and one outside."""
        table = self.take("Of", "Number", "Type", "Least", "Most")
        rows = [("Q 90, Q 92", name) for name in FIELDS] + [("Q 93", "id"), ("Q 93", "value"), *FORMS]
        if [(plain(row[0]), row[1]) for row in table] != list(dict.fromkeys(rows)):
            table.rows[0].fault("the numbers are not: %s" % "; ".join("%s %s" % one for one in rows))
        source = (ROOT / "crates/packets/src/lib.rt").read_text()
        types = {"id": "u8", "value": "i32", "code": "u8", "error": "u8", **dict(re.findall(r"^    pub (\w+): (\w+),", source, re.M))}
        for row in table:
            if plain(row[2]) != types[row[1].replace(" ", "")]:
                row.fault("its type is %s" % types[row[1].replace(" ", "")])
            low, high = TYPES[plain(row[2])]
            for made, least, most in spans(row):
                for value in sorted({least - 1, least, most, most + 1, low - 1, low, high, high + 1, 9999999999}):
                    if row[1] == "value" or 0 <= value <= (255 if row[0] == "`Y`" else value):
                        self.built(row, made(value), least <= value <= most)

    def built(self, row, line, inside):
        """A line is built exactly when its numbers are inside."""
        (_, prints), = told([line])
        if (prints != line[0] + " !20") != inside:
            row.fault("`%s` prints `%s`" % (line, prints))
        self.desk.aircraft(row.where, [(line, prints)])

    # -- 23

    def check_right(self):
        """Each code with right answers, and answers that are wrong in one thing."""
        table = self.take("Code", "Type", "Bytes of a success", "Byte 2 of a success", "Bytes of an error", "A success means")
        if [number(row[0]) for row in table] != list(LENGTHS):
            table.rows[0].fault("the codes are not %s" % " ".join("0x%02X" % code for code in LENGTHS))
        for row in table:
            code, size = number(row[0]), number(row[2])
            due = None if row[3] == "any" else number(row[3])
            if number(row[1]) != (1 if code in TYPE_1 else 2) or WORDS.get(plain(row[5])) != KINDS[code]:
                row.fault("its type or its meaning is another")
            error = sealed(bytes((code, 0x09, 0x38)))
            tries = [(success(code, size), True), (success(code, size - 1), False), (success(code, size + 1), False),
                     (success(code, size, 0x7F), due is None), (success(code, size, due if due is not None else 0), True),
                     (error, len(error) == number(row[4])), (sealed(error[:2]), False), (sealed(error[:-1]), False),
                     (error[:-1] + bytes((error[-1] ^ 1,)), False), (sealed(b"\x97" + error[1:3]), False),
                     (sealed(bytes((code, 0x08, 0x38))), False), (b"", False)]
            lines = []
            for answer, right in tries:
                if (read(bytes((code, 1, 3)), answer) != WRONG) != right:
                    row.fault("%s is %s" % (answer[:6].hex(" ").upper(), "wrong" if right else "right"))
                lines += [query(code), asked(answer)]
            self.desk.aircraft(row.where, told(lines))

    def check_meanings(self):
        """What each meaning prints, from an answer."""
        table = self.take("Meaning", "Of", "Holds", "Answer", "Prints")
        if table.column(0) != list(WORDS):
            table.rows[0].fault("the meanings are not: %s" % ", ".join(WORDS))
        for row in table:
            answer = line_of(row, 3)
            code = int(answer.split()[1], 16)
            (_, _), (_, prints) = pairs = told([query(code), answer])
            if line_of(row, 4) != prints or not prints.startswith("R " + WORDS[plain(row[0])]):
                row.fault("it prints `%s`" % prints[:80])
            self.desk.aircraft(row.where, pairs)

    # -- when to send again

    def check_sending(self):
        """Each kind of reply to each of the four sends, and with nothing on its way."""
        table = self.take("What comes", "To a Status", "Uses up a send", "After sends 1 to 3", "After send 4")
        kinds = ["no reply", "a wrong answer", "error 0x01", "any other error", "a success", "anything, with nothing on its way"]
        if table.column(0) != kinds:
            table.rows[0].fault("what comes is not: %s" % "; ".join(kinds))
        for row in table:
            comes, idle = line_of(row, 1), row[0] == kinds[-1]
            for send in range(4):
                before = [] if idle else ["Q 91"] + ["P -"] * send
                pairs = told(before + [comes, "N"])
                step, prints = re.fullmatch(r"`(\w+)`: `([^`]*)`", row[4 if send == 3 else 3]).groups()
                on_way = pairs[-1][1] != "N -"
                used = "again" in prints or "lost" in prints
                meant = "Idle" if idle else "Again" if on_way else "Lost" if used else "Ended"
                if pairs[-2][1] != prints or step != meant or row[2] != ("yes" if used else "no"):
                    row.fault("after send %d it prints `%s`, then `%s`" % (send + 1, pairs[-2][1], pairs[-1][1]))
                self.desk.aircraft(row.where, pairs)

    # -- the program

    def check_letters(self):
        """The lines of the program, and all that each prints."""
        table = self.take("Letter of aircraft", "Line", "Does", "Prints")
        if table.column(1) != list(LINES):
            table.rows[0].fault("the lines are not: %s" % "; ".join(LINES))
        shown = []
        for row in table:
            prints = [word for lines in LINES[plain(row[1])] for word in words(told(lines)[-1][1])]
            shown = shown if row[3] == "the same" else re.findall(r"`([^`]*)`", row[3])
            if not plain(row[1]).startswith(plain(row[0])) or shown != list(dict.fromkeys(prints)):
                row.fault("it begins with its letter, and prints: %s" % ", ".join(dict.fromkeys(prints)))
            for lines in LINES[plain(row[1])]:
                self.desk.aircraft(row.where, told(lines))

    def check_limits(self):
        """The longest answer and the longest line."""
        longest = (LONGEST - 1) // 3
        self.desk.aircraft("docs/INTERFACE.md, the limits of aircraft", told(
            ["Q 91", "P" + " 00" * longest, "P" + " 00" * (longest + 1), "N" * LONGEST, "N" * (LONGEST + 1), "N\r", "", "N"]))

    def check_talk(self):
        """Lines of the one are lines of the other, but for what the link between them loses or damages."""
        table = self.take(*TALK)
        programs, last = {"aircraft": (Aircraft(), printed), "session": (Pod(), session_told)}, {}
        pairs = {name: [] for name in programs}
        for row in table:
            name, line, prints = plain(row[0]), plain(row[1]), plain(row[2])
            state, tells = programs[name]
            other = last.get("session" if name == "aircraft" else "aircraft")
            if line.startswith("P") and (line == other) == bool(re.match("damaged|lost", row[3])):
                row.fault("the other program printed `%s`" % other)
            if line.startswith("P ") and row[3].startswith("damaged") and (not other or len(line) != len(other)):
                row.fault("damaged, it has the length of `%s`" % other)
            if prints != tells(state, line):
                row.fault("it prints `%s`" % tells(state, line))
            last[name] = prints
            pairs[name].append((line, prints))
        self.desk.aircraft("%s (%s)" % (table.where, table.heading), pairs["aircraft"])
        self.desk.session("%s (%s)" % (table.where, table.heading), pairs["session"])

    def check_piped(self):
        """README's lines, and what they print, through session too where it is so shown."""
        found = PIPED.findall((ROOT / "README.md").read_text())
        if not any(piped for _, piped, _ in found):
            raise Fault("README.md shows no packet that goes from aircraft to session")
        for given, piped, shown in found:
            pairs = told(given.replace("\\n", "\n").split("\n")[:-1])
            tells = [line.strip() for line in shown.strip("\n").split("\n")]
            self.desk.aircraft("README.md, the aircraft's half", pairs)
            if piped:
                self.desk.session("README.md, the aircraft's half", list(zip((prints for _, prints in pairs), tells)))
            if len(tells) != len(pairs) or not piped and tells != [prints for _, prints in pairs]:
                raise Fault("README.md: `%s` prints %s" % (given, pairs))


def session_told(pod, line):
    """What the second session prints for a line."""
    return session_line(pod, line.encode()).decode()


def covered(desk, sheet):
    """The worked lines of aircraft show each command, each form, each refusal and each meaning."""
    shown = ["%s -> %s" % (line_of(row, 0), line_of(row, 1)) for table in sheet.sessions
             if table.page == "docs/INTERFACE.md" and table.head[0] == "Line of aircraft" for row in table]
    for want in SHOWN + ["Q %02X.* -> P %02X 01" % (code, code) for code in LENGTHS]:
        if not any(re.match(want, one) for one in shown):
            desk.fault("docs/INTERFACE.md: no worked line of aircraft shows: %s" % want)
