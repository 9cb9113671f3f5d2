"""The sheet's parts 'Calls', 'Refusals' and 'The state' against the programs and the second model."""
import copy
import itertools
import re

import model
from ports.blocks import CAPACITY
from ports.lines import FORMS
from ports.packets import sealed
from ports.words import SIZES, tables_at_start

from .desk import Part, checks
from .packets import VALUES, asked, spelled
from .pages import ROOT, names, number

BLOCK = spelled("", bytes(256))
GOOD = {"D": "D", "B": "B p" + BLOCK, "C": "C 8000", "W": "W 0005", "R": "R", "S": "S", "A": "A 00" + " 0000" * 128,
        "I": "I 44", "T": "T", "O": "O 01 02 03 04 05 06 07 08", "K": "K", "Z": "Z"}
# thing: (its name in lab, a size that is wrong, the refusal)
LENT = {"room": ("room", 259, "1"), "priority store": ("p", 4095, "2"), "ordinary store": ("o", 32769, "2"),
        "table 5": ("5", 63, "2"), "table 6": ("6", 129, "2"), "table 7": ("7", 65, "2")}
# what the functions call the things that they are lent
THINGS = {"room": "room", "priority": "stores", "ordinary": "stores", "five": "tables", "six": "tables", "seven": "tables",
          "store": "that store", "block": "a block", "load": "the words of a load", "set": "a sample set"}
OTHER = {**VALUES, "mode": 3, "flags": 9, "time": (5, 6), "priority limit": 7, "priority remaining": 6,
         "memory limit": 8, "memory remaining": 5, "poll": 11}
PARTS = {"limits": "limit", "remainings": "remaining", "open exchange": "exchange", "waiting blocks": "waiting",
         "place of the oldest block": "oldest",
         "parameters": "values", "marks of written parameters": "written", "missing ids": "missing", "table words": "tables",
         "read places": "places",
         "given address": "address", "open transfer": "transfer", "message error": "message_error",
         "gathered bytes": "gathered", "input timeouts": "timeouts", "bytes in hand": "hand", "output timeouts": "output_timeouts"}
# what a part's text says where it is not the part's name in lab
SAID = {"timeouts": "input timeouts", "out": "in hand", "outtimeouts": "output timeouts"}
# what the model keeps beside the state: the memory that is lent, at which sizes, and what its counts go by
BESIDE = {"memory", "sizes", "late", "updated", "emptied"}


def borrowed(function):
    """What a function of the pod is lent, by its own head in the code: each thing that it takes by reference."""
    head = re.compile(r"^pub fn %s(?:<[^>]*>)?\(([^)]*)\)" % function, re.M)
    found = [match[1] for path in sorted(ROOT.glob("crates/*/src/*.rt")) for match in head.finditer(path.read_text())
             if re.search(r"\bpod: &(?:mut )?Pod\b", match[1])]
    taken = [name for head in found[:1] for name in re.findall(r"(\w+): &", head)]
    return ", ".join(dict.fromkeys(THINGS[name] for name in taken if name not in ("pod", "bytes"))) or "nothing"


class State(Part):
    """The tables of calls, of what is lent, and of the state."""

    def __init__(self, desk, take, packets):
        super().__init__(desk, take, packets)
        self.calls = take("Call", "Function", "Letter", "Lent besides the state", "Refusals, in order", "Gives")
        self.refusals = take("No.", "When", "What to do")

    def all(self):
        """Each table once."""
        checks(self.desk, self.check_calls, self.check_sizes, self.check_numbers, self.check_refused, self.check_lent,
               self.check_bounds, self.check_parts, self.check_edges)

    def check_calls(self):
        """Every function of the pod and every letter of the console has its row, and what it is lent."""
        source = (ROOT / "crates/pod/src/lib.rt").read_text()
        public = re.findall(r"\w+", " ".join(re.findall(r"^pub (?:use \w+::|fn )(\w+|\{[^}]*\})", source, re.M)))
        for at, listed, whose in ((1, public, "the pod"), (2, list(FORMS), "the second model")):
            if sorted(self.calls.column(at)) != sorted(listed):
                odd = set(listed) ^ set(self.calls.column(at))
                self.calls.rows[0].fault("the calls are not those of %s: %s" % (whose, ", ".join(sorted(odd))))
        for row in self.calls:
            lent = borrowed(row[1].strip("`"))
            if row[3] != lent:
                row.fault("the function is lent %s" % lent)

    def check_sizes(self):
        """What is lent, against the second model's own numbers."""
        table = self.take("Lent", "Size", "Unit", "Is")
        most = max(number(row[4]) for row in self.packets.commands)
        sizes = {"room": most, "priority store": 256 * CAPACITY[0x95], "ordinary store": 256 * CAPACITY[0x96]}
        sizes.update({"table %d" % which: size for which, size in SIZES.items()})
        sizes.update({"block": 256, "sample set": 128, "words of a load": 64})
        if table.column(0) != list(sizes):
            table.rows[0].fault("what is lent is not: %s" % ", ".join(sizes))
        starts = {"starts with every word 0": lambda at: 0, "starts with word i at 256 times i": lambda at: 256 * at}
        for row in table:
            unit = "words" if row[0].startswith(("table", "words")) else "numbers" if row[0] == "sample set" else "bytes"
            if (number(row[1]), row[2]) != (sizes[row[0]], unit):
                row.fault("its size is %d %s" % (sizes[row[0]], unit))
            if row[0].startswith("table"):
                words = tables_at_start()[int(row[0][-1])]
                if words != [starts[row[3]](at) for at in range(len(words))]:
                    row.fault("it starts otherwise")

    def check_numbers(self):
        """The refusals are those that the calls have, with their sizes in the text."""
        listed = [row[0] for row in self.refusals]
        used = sorted({one for row in self.calls for one in row[4].split()}, key=int)
        if listed != used:
            self.refusals.rows[0].fault("the calls have the refusals %s" % " ".join(used))
        for one, texts in {"1": ["260"], "4": ["256", "128"], "5": ["1,023", "31"], "22": ["8"]}.items():
            for text in texts:
                if text not in self.refusals.rows[listed.index(one)][1]:
                    self.refusals.rows[listed.index(one)].fault("%s is not named" % text)

    def things(self, row):
        """The lent things that lab can lend at another size."""
        text = row[3].replace("that store", "priority store").replace("stores", "priority store, ordinary store")
        return text.replace("tables", "table 5, table 6, table 7").split(", ")

    def held(self, row):
        """The refusals whose condition can be made for a call, in its own order."""
        lent = any(LENT[one][2] == "2" for one in self.things(row) if one in LENT)
        can = {"1": "room" in self.things(row), "2": lent, "3": row[1] != "`power_on`", "4": row[2] in ("`B`", "`A`"),
               "5": row[2] == "`A`", "22": row[2] == "`O`", "6": row[2] != "`Z`", "7": row[2] == "`B`", "21": row[2] == "`O`"}
        return [one for one, yes in can.items() if yes]

    def check_refused(self):
        """Each call with each one and each two of the conditions: refused by the first of its row, else answered."""
        for row in self.calls:
            holds, listed = self.held(row), row[4].split()
            lent = [one for one in holds if one in "123"]
            if [one for one in listed if one in "123"] != lent or set(listed) - set(holds):
                row.fault("of what it is lent, the refusals are %s" % " ".join(lent))
            for some in itertools.chain(itertools.combinations(holds, 1), itertools.combinations(holds, 2)):
                first = next((one for one in row[4].split() if one in some), None)
                self.case_refused(row, some, first)

    def case_refused(self, row, some, first):
        """One call under some conditions, by console where they can be had there and else by lab."""
        letter = row[2].strip("`")
        line = GOOD.get(letter) or asked(self.packets.packet(0x91))
        if "4" in some:
            line = {"B": "B p 00", "A": "A 20 0000" if "5" in some else "A 00 0000"}[letter]
        elif "5" in some:
            line = "A 20" + " 0000" * 128
        elif "22" in some:
            line = "O 01 02 03 04 05 06 07"
        pairs = [self.packets.begin()] if "6" not in some or set(some) & {"7", "21"} else []
        if "7" in some:
            pairs += [("B p" + BLOCK, "B")] * 16
        if "21" in some:
            pairs.append((GOOD["O"], "O 01"))
        if "6" in some and pairs:
            pairs.append((asked(self.packets.packet(0x9F)), self.packets.success(0x9F)))
        told = "%s !%s" % (letter, first) if first else self.answer(pairs, line)
        if not first and "!" in told:
            row.fault("the second model says %s to %s" % (told, line[:40]))
        if not set(some) & {"1", "2", "3"}:
            self.desk.case(row.where, pairs + [(line, told)])
            return
        sizes = [LENT[one] for one in self.things(row) if one in LENT and LENT[one][2] in some]
        made = [("X mode 4", "X")] if "3" in some else []
        for wrong in [size for size in sizes if size[2] == "2"] or [None]:
            lend = [("L %s %d" % size[:2], "L") for size in sizes if size[2] == "1" or size == wrong]
            self.desk.lab(row.where, pairs + made + lend + [(line, told)])

    def answer(self, pairs, line):
        """What the second model answers."""
        pod = model.Pod()
        for before, _ in pairs:
            model.console_line(pod, before.encode())
        return model.console_line(pod, line.encode()).decode()

    def check_lent(self):
        """By lab: a thing that a call is not lent may have any size; the next call ends what was lent."""
        for row in self.calls:
            letter = row[2].strip("`")
            line = GOOD.get(letter) or asked(self.packets.packet(0x91))
            told = self.answer([self.packets.begin()], line)
            for thing, (name, size, _) in LENT.items():
                if thing not in self.things(row):
                    pairs = [self.packets.begin(), ("L %s %d" % (name, size), "L"), (line, told), ("D", "D")]
                    self.desk.lab(row.where, pairs)

    def check_bounds(self):
        """The bounds, against the tables and the second model's numbers, and by lab one inside and one outside."""
        table = self.take("Part", "Least", "Most", "Name in `lab`")
        field = {row[1]: (number(row[4]), number(row[5])) for row in self.packets.layout("0x90") if row[1] in ("mode", "poll", "flags")}
        top = {row[1]: number(row[5]) for row in self.packets.layout("0x90") if row[1].endswith("limit")}
        bounds = {}
        for at, code in enumerate((0x95, 0x96)):
            bounds["oldest%d" % at], bounds["waiting%d" % at] = (0, CAPACITY[code] - 1), (0, CAPACITY[code])
        bounds.update(mode=field["mode"], poll=field["poll"], milliseconds=(0, 999), gathered=(0, 7), timeouts=(0, 15))
        bounds.update(out=(0, 8), outtimeouts=(0, 15))
        bounds.update({"place%d" % which: (0, size) for which, size in SIZES.items()})
        bounds.update(flags=field["flags"], seconds=(0, 2 ** 32 - 1), limit0=(0, top["priority limit"]),
                      limit1=(0, top["memory limit"]), address=(0, 65535))
        if table.column(3) != list(bounds):
            table.rows[0].fault("the parts are not: %s" % ", ".join(bounds))
        ranges = {name: (number(row[1]), number(row[2])) for row in self.take("Name for X", "Least", "Most", "Sets")
                  for name in names(row[0])}
        for row in table:
            name, least, most = row[3].strip("`"), number(row[1]), number(row[2])
            if (least, most) != bounds[name]:
                row.fault("its bounds are %d and %d" % bounds[name])
            words = {"0": ["priority"], "1": ["ordinary", "memory"], **{str(table): ["table %d" % table] for table in SIZES}}
            if SAID.get(name, name.rstrip("01567")) not in row[0] or not any(word in row[0] for word in words.get(name[-1], [""])):
                row.fault("the name in lab is that of another part")
            for value, told in ((least, "D"), (most, "D"), (least - 1, "D !3"), (most + 1, "D !3")):
                if ranges[name][0] <= value <= ranges[name][1] and name + str(value) != "address-1":
                    sets = ["remaining0 0", "remaining1 0", "%s %d" % (name, value)]
                    self.desk.lab(row.where, [self.packets.begin()] + [("X " + one, "X") for one in sets] + [("D", told)])

    def check_edges(self):
        """The bounds that hold together, by lab."""
        where = "docs/INTERFACE.md, 'And these hold together'"
        for sets, told in (
                (["param1 100", "param2 101"], "D"), (["param1 100", "param2 100"], "D !3"), (["param3 99"], "D !3"),
                (["limit0 5", "remaining0 5"], "D"), (["limit0 5", "remaining0 6"], "D !3"),
                (["limit1 5", "remaining1 5"], "D"), (["limit1 5", "remaining1 6"], "D !3"),
                (["transfer 5 0 64 63 0"], "D"), (["transfer 5 0 64 64 0"], "D !3"), (["transfer 5 0 3 0 0"], "D !3"),
                (["transfer 6 1 64 0 67"], "D"), (["transfer 6 1 64 0 68"], "D !3"), (["transfer 6 1 65 0 0"], "D !3"),
                (["transfer 1 0 1 0 0"], "D"), (["exchange 145"], "D"), (["exchange 145", "initialised 0"], "D !3"),
                (["transfer 1 0 1 0 0", "initialised 0"], "D !3"), (["initialised 0"], "D"),
                (["missing4 0"], "D !3"), (["missing5 1"], "D !3"), (["missing0 2", "missing1 1"], "D !3"),
                (["written7 1"], "D !3"), (["written7 1", "missing4 0"], "D"), (["written7 0", "written8 1"], "D")):
            self.desk.lab(where, [self.packets.begin()] + [("X " + one, "X") for one in sets] + [("D", told)])

    def check_parts(self):
        """What power on, Initialise, Update and Shutdown leave of every part of the second model's state."""
        table = self.take("Part", "Start", "Power on", "Initialise", "Update", "Shutdown")
        parts = [PARTS.get(row[0], row[0]) for row in table]
        odd = set(parts) ^ (set(vars(model.Pod())) - BESIDE)
        if odd:
            table.rows[0].fault("the parts are not those of the second model: %s" % ", ".join(sorted(odd)))
        fresh = vars(model.Pod())
        packet = {"mode": 3, "flags": 9, "seconds": 5, "milliseconds": 6, "poll": 11,
                  "limit": {0x95: 7, 0x96: 8}, "remaining": {0x95: 6, 0x96: 5}}
        events = [b"Z"] + [asked(self.packets.packet(code, OTHER)).encode() for code in (0x90, 0x92, 0x9F)]
        for row, part in zip(table, parts):
            starts = {"no": [False], "0": [0, {0x95: 0, 0x96: 0}, {5: 0, 6: 0, 7: 0}], "1,000": [1000], "their starts": [fresh[part]]}
            starts["1 2 3 6 7 0 0 0"] = [[1, 2, 3, 6, 7, 0, 0, 0]]
            starts["none"] = [None, set(), b""] + [fresh[part]] * (part == "waiting" and not any(fresh[part].values()))
            if fresh[part] not in starts[row[1]]:
                row.fault("it starts otherwise")
            for at, line in enumerate(events, 2):
                for error, transfer in ((False, True), (True, False)):
                    before = self.used(error, transfer)
                    after = copy.deepcopy(before)
                    model.console_line(after, line)
                    meant = {"start": fresh[part], "kept": vars(before)[part], "packet": packet.get(part), "no": False,
                             "yes": True, "set if a transfer was open": error or transfer}[row[at]]
                    if vars(after)[part] != meant and not (part == "transfer" and row[at] == "kept" and vars(after)[part]):
                        row.fault("%s: in the second model it becomes %s" % (table.head[at], vars(after)[part]))

    def used(self, error, transfer):
        """A model's pod with nothing at its start."""
        pod = model.Pod()
        dropped = [line for code in (0x95, 0x96) for line in (asked(self.packets.packet(code)), asked(sealed(bytes([code, 0x01, 0x7E]))))]
        lines = [asked(self.packets.packet(0x90, VALUES)), *["B p" + BLOCK] * 2, *["B o" + BLOCK] * 2, *dropped,
                 GOOD["O"], "I 55", "T", GOOD["O"], "K", "I 56",
                 asked(self.packets.packet(0x93, {"id": 3, "value": 500})),
                 "C 0A04", "W 0005", "W 0000", "W 0001", "W 7777", "C CA04", "R", "R", "R", "R", "C 8201", "W 0009"]
        lines += ["C 0C04"] if transfer else ["C 0000"] if error else []
        for line in lines + [asked(self.packets.packet(0x95))]:
            model.console_line(pod, line.encode())
        return pod
