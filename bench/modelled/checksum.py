"""CS: passes over memory, slice by slice, and their baselines."""

import struct

from . import packets, table_files
from .application import Application, Command, Refused

SLICE = 1024
ENTRIES = 16
TABLES = (table_files.EEPROM_CHECKSUMS, table_files.MEMORY_CHECKSUMS)
PLACES = range(ENTRIES * len(TABLES))
EMPTY = 0
ENABLED = 1

NO_TABLE = 4
NO_ENTRY = 5
EMPTY_ENTRY = 6
MISCOMPARE = 101
BASELINE_MESSAGE = 0x08A5


class Checksum(Application):
    """The ring has 32 places: the EEPROM table's entries, then the memory table's."""

    name = "CS"
    command_message = 0x189F
    request_message = 0x18A0
    housekeeping_message = 0x08A4
    commands = {
        2: Command(">", "switch_on"),
        3: Command(">", "switch_off"),
        4: Command(">H", "table_on"),
        5: Command(">H", "table_off"),
        6: Command(">HH", "entry_on"),
        7: Command(">HH", "entry_off"),
        8: Command(">HH", "report"),
    }

    def __init__(self, tables):
        super().__init__()
        self.tables = tables
        self.is_on = True
        self.tables_on = [True] * len(TABLES)
        self.entries_on = [False] * len(PLACES)
        self.baselines = [None] * len(PLACES)
        self.miscompares = [0] * len(TABLES)
        self.whole_passes = 0
        self.current = 0
        self.forget_pass()
        for name in TABLES:
            self.activated(name)

    def forget_pass(self):
        self.pass_place = None
        self.pass_bytes = bytearray()

    def entry(self, place):
        return self.tables[TABLES[place // ENTRIES]][place % ENTRIES]

    def places_of(self, table):
        return range(table * ENTRIES, (table + 1) * ENTRIES)

    def activated(self, name):
        places = self.places_of(TABLES.index(name))
        for place in places:
            self.entries_on[place] = self.entry(place).state == ENABLED
            self.baselines[place] = None
        if self.pass_place in places:
            self.forget_pass()

    def step(self, wakeup):
        return self.answer_all(wakeup) + self.read_slice(wakeup)

    def takes_part(self, place):
        return self.is_on and self.tables_on[place // ENTRIES] and self.entries_on[place]

    def next_place(self):
        ring = [*PLACES[self.current :], *PLACES[: self.current]]
        return next((place for place in ring if self.takes_part(place)), None)

    def read_slice(self, wakeup):
        place = self.next_place()
        if place is None:
            return []
        if self.pass_place != place:
            self.forget_pass()
            self.pass_place = place
        entry = self.entry(place)
        offset = len(self.pass_bytes)
        amount = min(SLICE, entry.length - offset)
        self.pass_bytes += wakeup.memory.read(entry.start + offset, amount)
        self.current = place
        if offset + amount < entry.length:
            return []
        return self.end_pass(place, wakeup)

    def end_pass(self, place, wakeup):
        check = packets.crc(self.pass_bytes)
        self.forget_pass()
        self.current = (place + 1) % len(PLACES)
        self.whole_passes = (self.whole_passes + 1) % 2**32
        if self.baselines[place] is None:
            self.baselines[place] = check
        if self.baselines[place] == check:
            return []
        table = place // ENTRIES
        self.miscompares[table] = (self.miscompares[table] + 1) % 65536
        return [self.event(MISCOMPARE, packets.ERROR, wakeup)]

    def switch_on(self, wakeup):
        self.is_on = True

    def switch_off(self, wakeup):
        self.is_on = False
        self.forget_pass()

    def asked_table(self, table):
        if not 1 <= table <= len(TABLES):
            raise Refused(NO_TABLE)
        return table - 1

    def asked_place(self, table, entry):
        first = self.asked_table(table) * ENTRIES
        if not 1 <= entry <= ENTRIES:
            raise Refused(NO_ENTRY)
        place = first + entry - 1
        if self.entry(place).state == EMPTY:
            raise Refused(EMPTY_ENTRY)
        return place

    def table_on(self, wakeup, table):
        self.tables_on[self.asked_table(table)] = True

    def table_off(self, wakeup, table):
        index = self.asked_table(table)
        self.tables_on[index] = False
        if self.pass_place in self.places_of(index):
            self.forget_pass()

    def entry_on(self, wakeup, table, entry):
        self.entries_on[self.asked_place(table, entry)] = True

    def entry_off(self, wakeup, table, entry):
        place = self.asked_place(table, entry)
        self.entries_on[place] = False
        if self.pass_place == place:
            self.forget_pass()

    def report(self, wakeup, table, entry):
        baseline = self.baselines[self.asked_place(table, entry)]
        shown = (0, 0) if baseline is None else (1, baseline)
        payload = struct.pack(">HHHH", table, entry, *shown)
        return [self.telemetry(BASELINE_MESSAGE, payload, wakeup)]

    def housekeeping(self, wakeup):
        flags = self.is_on | self.tables_on[0] << 1 | self.tables_on[1] << 2
        return struct.pack(
            ">BBBBHHI", self.accepted, self.errors, flags, 0,
            *self.miscompares, self.whole_passes,
        )
