"""Table words (document 01, 'Table words')."""

from .labels import declare, hit
from .sizes import SIZES

KINDS = ("address", "load", "read")

declare("command: even ones", "command: not initialised", "command: stop",
        "command: tables to their starts", "command: tables to their starts, address given",
        "command: address", "command 0: reading", "command 0: N over 1", "command 1: reading",
        "command 1: N not 1", "command: unknown")
declare(*["table %d: %s" % (table, what) for table in SIZES for what in (
    "load opened", "load with N under 4", "load with N over 64", "read with N under 4",
    "read with N over 64", "read at the read place", "read at the given address",
    "read passes the end from the read place", "read passes the end from the given address",
    "load taken to the last word", "load with word 1 wrong", "load with word 3 wrong",
    "load passes the end")])
declare(*["table %d: %s" % (table, what % n) for table in SIZES
          for what in ("load of %d taken", "read of %d finished") for n in range(4, 65)])
declare(*["%s cut by %s" % (kind, cause) for kind in KINDS for cause in (
    "a command word", "shutdown", "initialise", "power")])
declare("read cut by a data word in", "load cut by a data word out",
        "address cut by a data word out", "data word in: nothing open",
        "data word out: nothing open", "address: given", "address: given again over another",
        "status word: error", "status word: none")


def tables_at_start():
    """'Starts: tables 5 and 6 all 0; table 7 word i is 256 times i.'"""
    return {5: [0] * 64, 6: [0] * 128, 7: [256 * i for i in range(64)]}


class Transfer:
    """An open transfer: which kind, which table, N, and the words that have passed."""

    def __init__(self, kind, table, n, start=0):
        self.kind = kind
        self.table = table
        self.n = n
        self.start = start
        self.words = []


class Words:
    """Command word, data word in, data word out, status word."""

    def words_fresh(self):
        """'tables ... at their starts, no transfer, read places 0, no address given, ...
        no message error'."""
        self.tables_to_starts()
        self.transfer = None
        self.message_error = False

    def tables_to_starts(self):
        """'tables to their starts, read places 0, no address given'."""
        self.tables = tables_at_start()
        self.places = {5: 0, 6: 0, 7: 0}
        self.address = None

    def mistake(self, label):
        """Set message error."""
        hit(label)
        self.message_error = True

    def forget_transfer(self, cause):
        """An open transfer goes with everything else, without message error."""
        if self.transfer:
            hit("%s cut by %s" % (self.transfer.kind, cause))
            self.transfer = None

    def close_transfer(self, cause):
        """'closing one before its last word sets message error.'"""
        if self.transfer:
            self.mistake("%s cut by %s" % (self.transfer.kind, cause))
            self.transfer = None

    def command_word(self, word):
        """'bit 15 parity, bit 14 direction (1 is read), bits 13 to 9 command, bits 8 to 0
        length N. The count of ones is odd.' and 'every command word closes an open
        transfer'."""
        self.rows("command word")
        self.close_transfer("a command word")
        if bin(word).count("1") % 2 == 0:
            return self.mistake("command: even ones")
        if not self.initialised:
            return self.mistake("command: not initialised")
        reading, command, n = bool(word & 0x4000), word >> 9 & 0x1F, word & 0x1FF
        if command == 0:
            return self.command_0(reading, n)
        if command == 1:
            return self.command_1(reading, n)
        if command in SIZES:
            return self.table_command(command, reading, n)
        return self.mistake("command: unknown")

    def command_0(self, reading, n):
        """'command 0 writing, N 0 (stop: no more than closing a transfer) or 1 (tables to
        their starts, read places 0, no address given)'."""
        if reading:
            self.mistake("command 0: reading")
        elif n > 1:
            self.mistake("command 0: N over 1")
        elif n == 0:
            hit("command: stop")
        else:
            hit("command: tables to their starts")
            if self.address is not None:
                hit("command: tables to their starts, address given")
            self.tables_to_starts()

    def command_1(self, reading, n):
        """'1 writing, N 1 (next read address)'."""
        if reading:
            self.mistake("command 1: reading")
        elif n != 1:
            self.mistake("command 1: N not 1")
        else:
            hit("command: address")
            self.transfer = Transfer("address", None, 1)

    def table_command(self, table, reading, n):
        """'5, 6, 7 writing or reading, N 4 to 64.'"""
        way = "read" if reading else "load"
        if n < 4:
            self.mistake("table %d: %s with N under 4" % (table, way))
        elif n > 64:
            self.mistake("table %d: %s with N over 64" % (table, way))
        elif reading:
            self.open_read(table, n)
        else:
            hit("table %d: load opened" % table)
            self.transfer = Transfer("load", table, n)

    def open_read(self, table, n):
        """'starting at the given address, used up by an accepted read, else at that table's
        read place. An accepted read at once puts that place just behind its last data
        word'; 'a read that would pass its table's end: message error'."""
        given = self.address is not None
        start = self.address if given else self.places[table]
        where = "the given address" if given else "the read place"
        if start + n - 3 > SIZES[table]:
            return self.mistake("table %d: read passes the end from %s" % (table, where))
        hit("table %d: read at %s" % (table, where))
        self.address = None
        self.places[table] = start + n - 3
        self.transfer = Transfer("read", table, n, start)
        return None

    def data_word_in(self, word):
        """'A data word written or read with no transfer that way sets message error, closes
        any other transfer'."""
        self.rows("data word in")
        transfer = self.transfer
        if transfer is None:
            return self.mistake("data word in: nothing open")
        if transfer.kind == "read":
            return self.close_transfer("a data word in")
        transfer.words.append(word)
        if len(transfer.words) < transfer.n:
            return None
        self.transfer = None
        if transfer.kind == "load":
            return self.judge(transfer)
        hit("address: given" if self.address is None else "address: given again over another")
        self.address = word
        return None

    def judge(self, load):
        """'It is judged with its last word: word 1 right, word 3 right, address plus count at
        most the table's size. Otherwise nothing is written and message error is set.'"""
        name = "table %d: " % load.table
        number, address, count = load.words[:3]
        if number != load.table:
            return self.mistake(name + "load with word 1 wrong")
        if count != load.n - 3:
            return self.mistake(name + "load with word 3 wrong")
        if address + count > SIZES[load.table]:
            return self.mistake(name + "load passes the end")
        hit(name + "load of %d taken" % load.n)
        if address + count == SIZES[load.table]:
            hit(name + "load taken to the last word")
        self.tables[load.table][address:address + count] = load.words[3:]
        return None

    def data_word_out(self):
        """'A read of N gives the same three header words and N-3 data words'; 'Data words are
        read from the table as it is at that moment'; with no read open it 'reads as 0'."""
        self.rows("data word out")
        read = self.transfer
        if read is None:
            self.mistake("data word out: nothing open")
            return 0
        if read.kind != "read":
            self.close_transfer("a data word out")
            return 0
        along = len(read.words)
        if along < 3:
            word = (read.table, read.start, read.n - 3)[along]
        else:
            word = self.tables[read.table][read.start + along - 3]
        read.words.append(word)
        if len(read.words) == read.n:
            hit("table %d: read of %d finished" % (read.table, read.n))
            self.transfer = None
        return word

    def status_word(self):
        """'The status word is 2 with message error, else 0; reading it clears the error.'"""
        self.rows("status word")
        hit("status word: error" if self.message_error else "status word: none")
        word = 2 if self.message_error else 0
        self.message_error = False
        return word
