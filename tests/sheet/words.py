"""The sheet's parts 'Parameters' and 'Table words' against the programs and the second model."""
import re

import model
from ports.params import ROWS
from ports.words import SIZES, tables_at_start

from .desk import Part, checks
from .packets import VALUES, asked
from .pages import number, numbers, plain

READ = 0x4000
# a load of table 5, N 5, that is right: two words at address 10; a read of it; the address 10
LOAD, WORDS = "C 8A05", ["W 0005", "W 000A", "W 0002", "W 1111", "W 2222"]


def silent(*lines):
    """Lines that print their letter."""
    return [(line, line[0]) for line in lines]


def odd(word):
    """The word with the bit that makes its count of ones odd."""
    return word if bin(word).count("1") % 2 else word | 0x8000


class Words(Part):
    """The tables of parameters and of the word port."""

    def all(self):
        """Each table once."""
        checks(self.desk, self.check_parameters, self.check_bits, self.check_commands, self.check_words, self.check_error)

    def check_parameters(self):
        """Rows as the second model has them, and each at its bounds."""
        table = self.take("Id", "What", "Least", "Most", "Start", "Asked")
        listed = {id: (number(row[2]), number(row[3]), number(row[4]), row[5] == "yes", row)
                  for row in table for id in numbers(row[0])}
        if list(listed) != list(ROWS):
            table.rows[0].fault("the ids are not %s" % " ".join(map(str, ROWS)))
        for id, (least, most, start, is_asked, row) in listed.items():
            if row[5] not in ("yes", "no"):
                row.fault("asked is yes or no")
            if (least, most, start, is_asked) != ROWS[id]:
                row.fault("the second model has %s" % (ROWS[id],))
            self.case_parameter(row, id, least, most, start)
        self.case_status(table, [id for id, one in listed.items() if one[3]])

    def case_parameter(self, row, id, least, most, start):
        """Read at its start, written at its bounds and one outside."""
        packets = self.packets
        span = {1: [(2, 15000)], 2: [(1, -4000)]}.get(id, [])
        edge = {1: (least, most - 1), 2: (least + 1, most)}.get(id, (least, most))

        def write(one, value, told):
            return asked(packets.packet(0x93, {"id": one, "value": value})), told

        done, refused = packets.success(0x93), packets.error(0x93, 0x39)
        pairs = [packets.begin(), (asked(packets.packet(0x94, {"id": id})), packets.answer(0x94, {"id": id, "value": start}))]
        pairs += [write(one, value, done) for one, value in span]
        for value in edge:
            pairs += [write(id, value, done), (asked(packets.packet(0x94, {"id": id})), packets.answer(0x94, {"id": id, "value": value}))]
        for value in (least - 1, edge[0] - 1, edge[1] + 1, most + 1, -2 ** 31, 2 ** 31 - 1):
            pairs.append(write(id, value, refused))
        self.desk.case(row.where, pairs)

    def case_status(self, table, ids):
        """The asked ids are missing until each is written; a second write and one of an id that is not asked keep the rest."""
        packets = self.packets
        pairs = [packets.begin()]
        for at in range(len(ids) + 1):
            missing = bytes(ids[at:] + [0] * (8 - len(ids[at:])))
            values = {"mode": VALUES["mode"], "flags": VALUES["flags"], "priority blocks waiting": 0,
                      "ordinary blocks waiting": 0, "request": 0, "missing ids": missing}
            pairs.append((asked(packets.packet(0x91)), packets.answer(0x91, values)))
            for id in [one for one in ROWS if one not in ids] + ids[:at + 1]:
                pairs.append((asked(packets.packet(0x93, {"id": id, "value": ROWS[id][2]})), packets.success(0x93)))
        self.desk.case(table.rows[0].where, pairs)

    def check_bits(self):
        """Where direction, command and N stand: the words of the table of commands are put together by them."""
        table = self.take("Bits", "Hold")
        self.bits = {}
        for row in table:
            high, _, low = row[0].partition(" to ")
            self.bits[re.match(r"\w+", row[1])[0]] = list(range(int(low or high), int(high) + 1))
        if sorted(bit for bits in self.bits.values() for bit in bits) != list(range(16)):
            table.rows[0].fault("the bits of a word are not each there once")

    def word(self, way, command, n):
        """A command word by the table of bits."""
        low = {name: bits[0] for name, bits in self.bits.items()}
        word = way << low["direction"] | command << low["command"] | n << low["length"]
        return word if bin(word).count("1") % 2 else word | 1 << low["parity"]

    def check_commands(self):
        """All 65,536 words: accepted exactly where a row says so."""
        table = self.take("Command", "Direction", "N", "Word", "Does")
        accepted = {}
        for row in table:
            way = {"writes": 0, "reads": 1}[row[1]]
            for n in numbers(row[2]):
                accepted[self.word(way, number(row[0]), n)] = row
            if "%04X" % self.word(way, number(row[0]), numbers(row[2])[0]) != plain(row[3]):
                row.fault("the word of the least N is %04X" % self.word(way, number(row[0]), numbers(row[2])[0]))
        pod = model.Pod()
        pod.packet(self.packets.packet(0x90, VALUES))
        for word in range(65536):
            pod.transfer, pod.message_error, pod.places = None, False, dict.fromkeys(SIZES, 0)
            pod.command_word(word)
            if pod.message_error == (word in accepted):
                table.rows[0].fault("%04X is %saccepted" % (word, "not " * pod.message_error))
        some = [word for word in range(65536) if word in accepted or word % 97 == 0 or word ^ 0x8000 in accepted]
        pairs = [self.packets.begin()]
        for word in some:
            told = "S 0000" if word in accepted else "S 0002"
            pairs += [("C 0001", "C"), ("S", None), ("C %04X" % word, "C"), ("S", told)]
        self.desk.case(table.rows[0].where, self.answered(pairs))

    def answered(self, pairs):
        """Lines whose answer is not at issue get the second model's."""
        pod, out = model.Pod(), []
        for line, prints in pairs:
            told = model.console_line(pod, line.encode()).decode()
            out.append((line, told if prints is None else prints))
        return out

    def check_words(self):
        """A load and a read of every table, word by word, at the edges of the table and one outside."""
        table = self.take("Word", "Is", "Of a load, right when")
        if table.column(0) != ["1", "2", "3", "4 to N"]:
            table.rows[0].fault("the words are not 1, 2, 3, 4 to N")
        starts = tables_at_start()
        for which, size in SIZES.items():
            for n in (4, 5, 64):
                count = n - 3
                for address in {0, 1, size - count, size - count + 1}:
                    head = [which, address, count]
                    data = [(77 * at + which) % 65536 for at in range(count)]
                    right = address + count <= size
                    self.desk.case(table.rows[1].where, self.loaded(which, n, head, data, right, starts))
            for at, wrong in ((0, which + 1), (0, which + 256), (2, 2), (2, 0)):
                head = [which, 0, 1]
                head[at] = wrong
                self.desk.case(table.rows[at].where, self.loaded(which, 4, head, [4321], False, starts))

    def loaded(self, which, n, head, data, right, starts):
        """Load, status word, and a read of the words about it."""
        size, first = SIZES[which], max(0, min(head[1], SIZES[which] - 1) - 1)
        now = list(starts[which])
        if right:
            now[head[1]:head[1] + len(data)] = data
        count = min(61, size - first)
        pairs = [self.packets.begin()] + silent("C %04X" % odd(which << 9 | n), *("W %04X" % word for word in head + data))
        pairs += [("S", "S 0000" if right else "S 0002")]
        pairs += silent("C 8201", "W %04X" % first, "C %04X" % odd(READ | which << 9 | count + 3))
        return pairs + [("R", "R %04X" % word) for word in [which, first, count] + now[first:first + count]] + [("S", "S 0000")]

    def check_error(self):
        """What sets, keeps or clears message error, and what is open then."""
        table = self.take("What comes", "Message error", "Open transfer")
        begin, shut = self.packets.begin(), (asked(self.packets.packet(0x9F)), self.packets.success(0x9F))
        load, read = silent(LOAD, *WORDS[:2]), silent("C 4A06")
        comes = {
            "a command word with an even count of ones": ([begin] + load, silent("C 0A05")),
            "a command word that is not in the table": ([begin] + load, silent("C 0403")),
            "a command word while not initialised": ([], silent("C 8000")),
            "a read that would pass its table's end": ([begin] + silent("C 8201", "W 0040", LOAD), silent("C 4A06")),
            "an accepted command word with no transfer open": ([begin], silent(LOAD)),
            "an accepted command word while a transfer is open": ([begin] + load, silent(LOAD)),
            "the last word of a load that is right": ([begin] + silent(LOAD, *WORDS[:4]), silent(WORDS[4])),
            "the last word of a load that is not right": ([begin] + silent(LOAD, *["W 0006"] * 4), silent("W 0006")),
            "any other word of a load or read": ([begin] + load, silent(WORDS[2])),
            "the data word of command 1": ([begin] + silent("C 8201"), silent("W 0000")),
            "the last word of a read": ([begin] + read + [("R", None)] * 5, [("R", "R 0000")]),
            "a data word in with no load and no address awaited": ([begin] + read, silent("W 0005")),
            "a data word out with no read open; it reads as 0": ([begin] + load, [("R", "R 0000")]),
            "the status word": ([begin] + load, [("S", None)]),
            "Shutdown while a transfer is open": ([begin] + load, [shut]),
            "an accepted Initialise": ([begin] + load, [begin]),
            "power on": ([begin] + load, silent("Z")),
            "any other call": ([begin] + load, silent("D") + [("O 01 02 03 04 05 06 07 08", "O 01"), ("K", "K 02"), ("T", "T -")])}
        if table.column(0) != list(comes):
            table.rows[0].fault("what comes is not: %s" % "; ".join(comes))
        for row in table:
            before, event = comes[row[0]]
            self.case_error(row, before, event)

    def case_error(self, row, before, event):
        """With message error clear before, and where that is possible with it set."""
        told = {"set": ("0002", "0002"), "kept": ("0000", "0002"), "cleared": ("0000", "0000")}[row[1]]
        stir = silent("C 0000")
        clear = [("S", None)] if before else []
        pairs = self.answered(before + clear + event + [("S", "S " + told[0])])
        self.desk.case(row.where, pairs)
        self.desk.case(row.where, self.answered(before[:1] + stir + before[1:] + event + [("S", "S " + told[1])]))
        pod = model.Pod()
        for line, _ in before + clear:
            model.console_line(pod, line.encode())
        was = pod.transfer
        for line, _ in event:
            model.console_line(pod, line.encode())
        then = {(False, False): "none", (True, False): "closes", (False, True): "its own opens"}.get(
            (was is not None, pod.transfer is not None), "stays" if pod.transfer is was else "closes, then its own opens")
        if row[2] != then and (then, row[2]) != ("none", "closes"):
            row.fault("open transfer: in the second model it is '%s'" % then)
