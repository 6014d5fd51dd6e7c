"""MD: tables of addresses that are read again and again."""

import struct

from . import table_files
from .application import Application, Command, Refused
from .memory import AccessFault
from .table_files import DwellEntry

TABLES = range(1, 5)
LENGTHS = (0, 1, 2, 4)
ENTRIES = 25
DWELL_MESSAGE = 0x0890

NO_TABLE = 4
NO_ENTRY = 5
NO_LENGTH = 6
NO_READ = 7


class Stream:
    """A dwell table as it stands, and the rounds that have begun.

    Wakeups are numbers, and what is read in one follows from its number and
    that of the wakeup in which the stream began.
    """

    def __init__(self, table, begin):
        self.enabled = table.enabled
        self.entries = list(table.entries)
        self.start(begin)

    def start(self, begin):
        self.begin = begin
        self.rounds = {}

    def listed(self):
        """Each entry of the list with the sum of the delays before it."""
        before = 0
        for entry in self.entries:
            if entry.length == 0:
                return
            yield entry, before
            before += entry.delay

    def round_length(self):
        return sum(entry.delay for entry, _ in self.listed())

    def read(self, wakeup_number, memory):
        """Reads the entries whose turn it is, and gives the rounds that end."""
        length = self.round_length()
        if not self.enabled or length == 0:
            return []
        ended = []
        entries = list(self.listed())
        for place, (entry, before) in enumerate(entries):
            since = wakeup_number - self.begin - before
            if since >= 0 and since % length == 0:
                number = since // length
                gathered = self.rounds.get(number, b"")
                self.rounds[number] = gathered + memory.read(entry.address, entry.length)
                if place == len(entries) - 1:
                    ended.append(self.rounds.pop(number))
        return ended


class MemoryDwell(Application):
    name = "MD"
    command_message = 0x1890
    request_message = 0x1891
    housekeeping_message = 0x0890
    commands = {
        2: Command(">H", "start_tables"),
        3: Command(">H", "stop_tables"),
        4: Command(">HHHHI", "jam"),
    }

    def __init__(self, tables):
        super().__init__()
        self.tables = tables
        self.next_wakeup = 0
        self.streams = {}
        for number in TABLES:
            self.activated(table_files.dwell_name(number))

    def activated(self, name):
        number = [table_files.dwell_name(table) for table in TABLES].index(name) + 1
        self.streams[number] = Stream(self.tables[name], self.next_wakeup)

    def step(self, wakeup):
        items = self.answer_all(wakeup)
        for number in TABLES:
            for data in self.streams[number].read(self.next_wakeup, wakeup.memory):
                payload = struct.pack(">HH", number, len(data)) + data
                items.append(self.telemetry(DWELL_MESSAGE + number, payload, wakeup))
        self.next_wakeup += 1
        return items

    def named(self, mask):
        if not 1 <= mask <= 15:
            raise Refused(NO_TABLE)
        return [self.streams[number] for number in TABLES if mask >> number - 1 & 1]

    def start_tables(self, wakeup, mask):
        for stream in self.named(mask):
            stream.enabled = True
            stream.start(self.next_wakeup)

    def stop_tables(self, wakeup, mask):
        for stream in self.named(mask):
            stream.enabled = False

    def jam(self, wakeup, table, entry, length, delay, address):
        if table not in TABLES:
            raise Refused(NO_TABLE)
        if not 1 <= entry <= ENTRIES:
            raise Refused(NO_ENTRY)
        if length not in LENGTHS:
            raise Refused(NO_LENGTH)
        self.ask_read(wakeup, length, address)
        stream = self.streams[table]
        stream.entries[entry - 1] = DwellEntry(length, delay, address)
        stream.start(self.next_wakeup)

    def ask_read(self, wakeup, length, address):
        try:
            if length != 0:
                wakeup.memory.ask_value(address, length)
        except AccessFault as fault:
            raise Refused(NO_READ) from fault

    def housekeeping(self, wakeup):
        enabled = sum(1 << number - 1 for number in TABLES if self.streams[number].enabled)
        return bytes([self.accepted, self.errors, enabled, 0])
