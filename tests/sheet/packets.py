"""The sheet's part 'Packets': packets, answers, checks and errors against the programs and the second model."""
import re

import model
import sessions
from ports.blocks import CAPACITY
from ports.packets import COMMANDS, crc, sealed
from ports.params import ASKED, ROWS

from .desk import checks
from .pages import number, numbers, plain

FLAWED = b"\x91\x01\x26\xF5"
BLOCKS = bytes(range(256)), bytes(255 - n for n in range(256))
VALUES = {"mode": 1, "flags": 0xA5C3, "time": (77777, 321), "priority limit": 300, "priority remaining": 200,
          "memory limit": 70000, "memory remaining": 69999, "poll": 1234}
LIMITS = {"priority remaining": "priority limit", "memory remaining": "memory limit"}


def spelled(letter, data):
    """A line of bytes."""
    return letter + "".join(" %02X" % byte for byte in data) if data else letter + " -"


def asked(data):
    """The line of a packet; an empty one is the letter alone."""
    return spelled("P", data) if data else "P"


class Packets:
    """The tables of the packet port, and how packets and answers are made of them."""

    def __init__(self, desk, take):
        self.desk = desk
        self.take = take
        self.commands = take("Code", "Command", "Type", "Bytes", "Answer")
        self.fields = take("In", "Field", "From byte", "Bytes", "Least", "Most")
        self.forms = take("Answer", "Byte 0", "Byte 1", "From byte 2")
        if self.forms.column(0) != ["type 1, done", "type 2, data", "error"]:
            self.forms.rows[0].fault("the answers are not: type 1, done; type 2, data; error")
        self.done, self.data, self.failed = (self.form(at) for at in range(3))

    def form(self, at):
        """What stands behind the first byte of an answer."""
        row = self.forms.rows[at]
        first = plain(row[3]).split(",")[0]
        return bytes([number(row[2])] + ([number(first)] if first.startswith("0x") else []))

    # -- packets and answers by the tables

    def success(self, code):
        """A type 1 command is done."""
        return spelled("P", sealed(bytes([code]) + self.done))

    def error(self, code, which):
        """An error answer."""
        return spelled("P", sealed(bytes([code]) + self.failed + bytes([which])))

    def layout(self, of):
        """The rows of the fields of a packet or an answer."""
        for row in self.fields:
            answer, _, codes = row[0].rpartition("answer to ")
            if of in ["answer to %s" % code if "answer to" in row[0] else code for code in codes.split(", ")]:
                yield row

    def packed(self, of, values):
        """The fields of a packet or an answer, each where the table puts it."""
        data = b""
        for row in self.layout(of):
            name, at, size = row[1].split(":")[0].split(",")[0], number(row[2]), number(row[3])
            if at != 2 + len(data):
                row.fault("byte %d comes next, and not %d" % (2 + len(data), at))
            value = values[name]
            if name == "time":
                value = value[0] << 10 | value[1]
            data += value if isinstance(value, bytes) else (value % 256 ** size).to_bytes(size, "big")
        return data

    def packet(self, code, values=None):
        """A command with its fields and CRC."""
        return sealed(bytes([code, 1]) + self.packed("0x%02X" % code, values or {}))

    def answer(self, code, values):
        """A data answer as it is printed."""
        return spelled("P", sealed(bytes([code]) + self.data + self.packed("answer to 0x%02X" % code, values)))

    def begin(self, **changed):
        """Initialise, as a pair of lines."""
        return asked(self.packet(0x90, {**VALUES, **changed})), self.success(0x90)

    # -- the checks

    def all(self):
        """Each table once."""
        checks(self.desk, self.check_crc, self.check_commands, self.check_lengths, self.check_answers, self.check_taken,
               self.check_bounds, self.check_status, self.check_order, self.check_errors)

    def check_crc(self):
        """Bytes and their CRC."""
        table = self.take("Bytes", "CRC")
        if table.column(0) != ["none", "FF", "FF FF", "31 32 33 34 35 36 37 38 39", "91 01"]:
            table.rows[0].fault("the bytes are not those of the published check, of none, FF, FF FF and of a Status")
        for row in table:
            data = b"" if row[0] == "none" else bytes.fromhex(plain(row[0]))
            if "%04X" % crc(data) != plain(row[1]):
                row.fault("the CRC is %04X" % crc(data))

    def check_commands(self):
        """Codes, lengths, types."""
        listed = {number(row[0]): number(row[3]) for row in self.commands}
        if listed != {code: length for code, (length, _) in COMMANDS.items()}:
            self.commands.rows[0].fault("codes and bytes are not those of the second model")
        for row in self.commands:
            code, kind, answer = number(row[0]), number(row[2]), number(row[4])
            name = {0x96: "ordinary_"}.get(code, "") + row[1].lower().replace(" ", "_")
            if not COMMANDS[code][1].startswith(name):
                row.fault("the second model calls it %s" % COMMANDS[code][1])
            pod = self.ready()
            told = pod.packet(self.sample(code))
            if len(told) != answer or told[1:2] != self.data:
                row.fault("the answer has %d bytes" % len(told))
            if (pod.exchange == code) != (kind == 2):
                row.fault("type %d, and an exchange %s" % (kind, "opens" if pod.exchange else "does not open"))

    def sample(self, code):
        """A command that succeeds on a pod that is ready."""
        return self.packet(code, {**VALUES, "id": 3, "value": 500})

    def ready(self):
        """A model's pod that is initialised, with blocks waiting."""
        pod = model.Pod()
        pod.packet(self.sample(0x90))
        for store in (0x95, 0x96):
            pod.put(store, BLOCKS[0])
        return pod

    def check_lengths(self):
        """The fields fill what the packet table says."""
        for row in self.commands:
            for of, length in ((plain(row[0]), number(row[3])), ("answer to " + plain(row[0]), number(row[4]))):
                fields = list(self.layout(of))
                end = number(fields[-1][2]) + number(fields[-1][3]) if fields else 2
                if end + 2 != length and not (of.startswith("answer") and number(row[2]) == 1):
                    row.fault("%s has %d bytes by the table of fields" % (of, end + 2))

    def check_answers(self):
        """The bounds of what an answer carries: those of the packets, of the stores and of the parameters."""
        same = {row[1]: row.cells[4:] for row in self.layout("0x90")}
        meant = {"mode": same["mode"], "flags": same["flags"], "request": ("0", "0"), "missing ids": ("0", str(max(ASKED))),
                 "priority blocks waiting": ("0", str(CAPACITY[0x95])), "ordinary blocks waiting": ("0", str(CAPACITY[0x96])),
                 "id": (str(min(ROWS)), str(max(ROWS))), "value, signed": ("its row", "its row"), "block": ("any", "any")}
        for row in self.fields:
            if row[0].startswith("answer") or row[1] in ("id", "value, signed"):
                if row.cells[4:] != meant[row[1]]:
                    row.fault("its bounds are %s and %s" % meant[row[1]])

    def check_taken(self):
        """Each field is where the second model takes it from."""
        pod = model.Pod()
        pod.packet(self.packet(0x90, VALUES))
        taken = {"mode": pod.mode, "flags": pod.flags, "time": (pod.seconds, pod.milliseconds), "poll": pod.poll,
                 "priority limit": pod.limit[0x95], "priority remaining": pod.remaining[0x95],
                 "memory limit": pod.limit[0x96], "memory remaining": pod.remaining[0x96]}
        for row in self.layout("0x90"):
            name = row[1].split(":")[0]
            if taken[name] != VALUES[name]:
                row.fault("the second model takes %s as %s, and not %s" % (name, taken[name], VALUES[name]))

    def check_bounds(self):
        """Each field at its bounds and one outside: done, or 0x39."""
        for code in (0x90, 0x92, 0x93, 0x94):
            for row in self.layout("0x%02X" % code):
                for values, inside in edges(row):
                    line = asked(self.packet(code, {**VALUES, "id": 3, "value": 500, **values}))
                    told = self.error(code, 0x39)
                    if inside and code == 0x94:
                        told = self.answer(0x94, {"id": values["id"], "value": {1: -2000, 12: 0}[values["id"]]})
                    elif inside:
                        told = self.success(code)
                    self.desk.case(row.where, [self.begin(), (line, told)] if code != 0x90 else [(line, told)])

    def check_status(self):
        """The answers to Status and Parameter read, field by field."""
        put = [("B %s%s" % (store, spelled("", BLOCKS[0])), "B") for store in "ppooo"]
        for row in self.layout("answer to 0x91"):
            where = row.where
        values = {"mode": 2, "flags": 0xBEEF, "priority blocks waiting": 2, "ordinary blocks waiting": 3, "request": 0,
                  "missing ids": bytes([1, 2, 6, 7, 0, 0, 0, 0])}
        self.desk.case(where, [self.begin(mode=2, flags=0xBEEF)] + put + [
            (asked(self.packet(0x93, {"id": 3, "value": 999})), self.success(0x93)),
            (asked(self.packet(0x91)), self.answer(0x91, values)),
            (asked(self.packet(0x94, {"id": 3})), self.answer(0x94, {"id": 3, "value": 999})),
            (asked(self.packet(0x95)), self.answer(0x95, {"block": BLOCKS[0]}))])

    def check_order(self):
        """Each check against those behind it: the first decides."""
        table = self.take("Check", "When", "Answer")
        none = {"mode": 9, "id": 0, "value": 0}
        probes = {
            "1": [(None, b"")], "2": [(None, b"\x91"), (None, FLAWED), (None, b"\xFF\x01\x00\x00"), (None, b"\x90\x01\x7E")],
            "3": [(None, sealed(b"\x97\x01\x7E")), (None, sealed(b"\x94\x01\x7E")), (None, sealed(b"\x9F\x09\x38"))],
            "4": [(None, sealed(b"\x97\x01")), (None, sealed(b"\xFF\x00\x00")), (None, sealed(b"\x00\x01"))],
            "5": [(None, sealed(b"\x91\x00\x00")), (None, sealed(b"\x90\x02")), (True, sealed(b"\x95\x81"))],
            "6": [(None, sealed(b"\x91\x01\x00")), (True, sealed(b"\x90\x01")), (True, sealed(b"\x94\x01\x00\x00"))],
            "7": [(None, self.packet(0x92, {**VALUES, **none})), (None, self.packet(0x93, none)), (None, self.packet(0x95))],
            "8": [(None, self.packet(0x90, {**VALUES, **none})), (True, self.packet(0x93, none)), (True, self.packet(0x94, none))],
            "9": [(0, self.packet(0x95)), (0, self.packet(0x96)), (5, self.packet(0x95))],
            "9, then": [(-1, self.packet(0x95)), (-1, self.packet(0x96))]}
        if table.column(0) != list(probes):
            table.rows[0].fault("the checks are not %s" % ", ".join(probes))
        named = {"2": ["4"], "5": ["0x01"], "7": ["0x90"], "9, then": ["0"]}
        for row in table:
            if re.findall(r"0x\w+|\d+", row[1]) != named.get(row[0], []):
                row.fault("the numbers in its text are not %s" % " ".join(named.get(row[0], ["none"])))
            for state, packet in probes[row[0]]:
                told = "P -" if row[2].startswith("none") else self.error(packet[0], number(row[2]))
                self.desk.case(row.where, self.opening(state) + [(asked(packet), told)])

    def opening(self, state):
        """Lines that lead to a state: not initialised, initialised, or with so much remaining and perhaps blocks."""
        if state is None:
            return []
        left = {"priority remaining": max(0, state), "memory remaining": max(0, state)} if state is not True else {}
        put = [("B %s%s" % (store, spelled("", BLOCKS[0])), "B") for store in "po"] if state == -1 else []
        return [self.begin(**left)] + put

    def check_errors(self):
        """Exactly the errors that the second model's sessions meet."""
        table = self.take("Error", "Means", "What to do")
        met = set()
        for seed in range(12):
            for told in sessions.make(seed).answers:
                part = told.split(b" ")
                if len(part) == 6 and part[0] == b"P" and part[2] == b"09":
                    met.add(int(part[3], 16))
        listed = [number(row[0]) for row in table]
        if sorted(met) != listed:
            table.rows[0].fault("the errors are %s" % " ".join("0x%02X" % one for one in sorted(met)))


def edges(row):
    """Values of a field at its bounds, and whether they are inside."""
    name, size = row[1].split(":")[0].split(",")[0], number(row[3])
    if "row" in row[4]:
        return
    if name == "time":
        (low, high), (most, top) = numbers(row[4]), numbers(row[5])
        yield from (({"time": value}, True) for value in ((low, high), (most, top)))
        yield from (({"time": value}, False) for value in ((low, high - 1), (low - 1, high), (low, top + 1)) if min(value) >= 0)
        return
    least = number(row[4])
    most = VALUES[LIMITS[name]] if name in LIMITS else number(row[5])
    for value, inside in ((least - 1, False), (least, True), (most, True), (most + 1, False)):
        if 0 <= value < 256 ** size:
            limit = {"priority remaining": 0, "memory remaining": 0} if name.endswith("limit") else {}
            yield {**limit, name: value}, inside
