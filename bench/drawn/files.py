"""Random files of tables of every kind, and of bytes to be loaded."""

import struct
from dataclasses import dataclass

from drawn import script
from drawn.packets import NAMES, TELEMETRY
from making.commands import CS, HS, LC, MD, MM, SC
from making.faults import faults_of
from making.tables import EEPROM_TABLE, MEMORY_TABLE, acts_table, actions_table, apps_table, ats_table, checksum_table, counters_table, dwell_table, events_table, load_file, rts_table, watch_table

OPERATORS = (0x8001, 0x8002, 0x8003, 0x8004)
# Kinds of tables that go together, and the applications that most is sent to beside them.
THEMES = (
    (("apps", "events", "counters", "actions", "ats", "rts", "dwell", "eeprom", "memory", "watch", "acts"), (HS, MM, MD, CS, SC, LC)),
    (("apps", "apps", "events", "events", "counters", "actions", "actions", "rts"), (HS, HS, MM, SC)),
    (("ats", "ats", "rts", "rts", "rts"), (SC,)),
    (("watch", "watch", "acts", "acts", "rts", "dwell"), (LC, MM, MD, SC)),
    (("dwell", "dwell", "eeprom", "memory"), (MD, CS, MM)),
)
# The judge of each kind's entries (making.faults), and how its files are named in bench/texts.
JUDGES = {"eeprom": "checksum", "memory": "checksum"}
TEXTS = {"apps": "application monitors", "events": "event monitors", "counters": "execution counters", "actions": "message actions", "ats": "absolute sequences", "rts": "relative sequences"}
TEXTS |= {"dwell": "dwell tables", "eeprom": "EEPROM checksums", "memory": "memory checksums", "watch": "watchpoints", "acts": "actionpoints"}
HEADER = 116


@dataclass(frozen=True)
class File:
    """A word of the command line, what stands in the file, its kind, and which fault was put into it."""

    name: str
    kind: str
    data: bytes
    fault: str = ""


class Files:
    """Draws the files of a rehearsal, and tells its packets which sequences, loads and actionpoints there are."""

    def __init__(self, dice, packets):
        self.dice, self.packets, self.memory = dice, packets, packets.memory
        maker = script_texts.Maker(0)
        maker.dice = dice
        self.expression, self.strange = maker.expression, maker.kinds()

    def some(self, most):
        """Numbers of entries, mostly few."""
        return self.dice.sample(range(1, most + 1), min(most, self.dice.choice((1, 2, 3, 5, most))))

    def action(self):
        return self.dice.choice((0, 1, 2, 3, 4, 4, 5, 5, 6, 7, 8, 9, 10, 11))

    def apps(self):
        return apps_table({entry: (self.dice.choice(NAMES), self.dice.choice((0, 1, 2, 3, 5)), self.action()) for entry in self.some(32)})

    def events(self):
        entries = {entry: (*self.packets.named_event(), self.action()) for entry in self.some(16)}
        self.packets.heard += [(name, event) for name, event, _ in entries.values()]
        return events_table(entries)

    def counters(self):
        return counters_table({entry: (self.dice.choice(NAMES), self.dice.randint(0, 4)) for entry in self.some(32)})

    def actions(self):
        return actions_table({entry: (self.dice.choice((0, 1, 1, 2)), self.dice.choice((0, 0, 1, 2, 5)), self.packet()) for entry in self.dice.choice((range(1, 9), self.some(8)))})

    def packet(self):
        return self.packets.telemetry() if self.dice.random() < 0.1 else self.packets.stored(64)

    def ats(self):
        number, count = self.dice.randint(1, 2), self.dice.choice((1, 5, 10, 30, 100))
        self.packets.absolute.add(number)
        first, frames = self.packets.epoch, self.packets.frames
        last = self.dice.choice((3, frames, 2 * frames))
        places = self.dice.sample(range(1, 1001), count)
        return ats_table(number, [(place, first + self.dice.randint(0, last), self.packets.stored(256)) for place in places])

    def rts(self):
        number, most = self.dice.choice((1, 1, 2, 2, 3, 4, 5, 64, self.dice.randint(1, 64))), self.dice.choice((0, 1, 2, 6))
        self.packets.relative.add(number)
        commands = [(self.dice.randint(0, most), self.packets.stored(100)) for _ in range(self.dice.choice((1, 2, 5, 12)))]
        return rts_table(number, commands)

    def dwell(self):
        entries = []
        for _ in range(self.dice.choice((0, 1, 2, 3, 8, 25))):
            width, at = self.memory.read()
            entries.append((width, self.dice.choice((0, 1, 1, 2, 4)), at))
        return dwell_table(self.dice.randint(1, 4), self.dice.random() < 0.7, entries)

    def checksums(self, name):
        return checksum_table(name, {entry: (self.dice.choice((0, 1, 1, 1, 2)), *self.memory.range(5000)) for entry in self.some(16)})

    def watch(self):
        ids = self.dice.choices(TELEMETRY, k=3)

        def entry():
            limit, mask = self.dice.choice((0, 1, 5, self.dice.getrandbits(8))), self.dice.choice((0xFF, 0xFFFF, 0xFFFFFFFF, self.dice.getrandbits(32)))
            return self.dice.choice((0, 1, 1, 1, 2, 3)), self.dice.choice(ids), self.dice.choice((12, 13, 16, 17, 20, self.dice.randint(0, 30))), self.dice.randint(1, 6), mask, limit

        return watch_table({number: entry() for number in self.dice.choice((range(1, 33), range(1, 9), self.some(32)))})

    def words(self):
        """An expression, mostly of one or two of the first watchpoints."""
        one, two = self.dice.choices(range(8), k=2)
        return self.dice.choice(([one], [one, 0x8004], [one, two, self.dice.choice(OPERATORS[:3])], self.expression()))

    def sequence(self):
        """The number of a relative sequence, mostly one that is loaded."""
        return self.dice.choice(sorted(self.packets.relative)) if self.dice.random() < 0.8 else self.dice.randint(1, 64)

    def acts(self):
        entries = self.some(16)
        self.packets.points.update(entries)
        return acts_table({entry: (self.dice.choice((0, 1, 1, 2)), self.sequence(), self.dice.choice((1, 1, 2, 3)), self.words()) for entry in entries})

    def table(self, kind):
        """The bytes of a table of a kind that have no fault, or of one by bench/texts, whose reads memory mostly doesn't give."""
        if self.dice.random() < (0.01 if kind in ("dwell", "eeprom", "memory") else 0.08):
            return self.strange[TEXTS[kind]]()
        if kind in ("eeprom", "memory"):
            return self.checksums(EEPROM_TABLE if kind == "eeprom" else MEMORY_TABLE)
        return getattr(self, kind)()

    def load(self):
        """A file to be loaded, mostly into one region."""
        self.packets.loads += 1
        if self.dice.random() < 0.005:
            return load_file(self.memory.range(4)[0], bytes(65536))
        at, length = self.memory.tried_range(400)
        return load_file(at, self.dice.randbytes(max(1, min(length, 400))))

    def spoiled(self, kind, data):
        """A file with a fault in its headers, or in one of its entries, and a word for it."""
        if kind == "load" or self.dice.random() < 0.4:
            place = self.dice.choice((self.dice.randrange(8), self.dice.randrange(64, 80), self.dice.randrange(len(data))))
            if self.dice.random() < 0.3:
                return data[:place], "cut"
            return data[:place] + bytes([data[place] ^ 1 << self.dice.randrange(8)]) + data[place + 1 :], "headers"
        for _ in range(300):
            place = self.dice.randrange(HEADER, max(HEADER + 1, len(data)))
            other = data[:place] + bytes([self.dice.randrange(256)]) + data[place + 1 :]
            if is_faulty(JUDGES.get(kind, kind), other):
                return other, "entry"
        return data, ""

    def drawn(self, tables, loads, faults):
        """So many tables, of which some stand by, and loads, in any order; each has a fault with this chance."""
        kinds, self.packets.favours = self.dice.choice(THEMES)
        kinds = self.dice.choices(kinds, k=tables) + ["load"] * loads
        self.dice.shuffle(kinds)
        for number, kind in enumerate(kinds, 1):
            data, fault = self.load() if kind == "load" else self.table(kind), ""
            if self.dice.random() < faults:
                data, fault = self.spoiled(kind, data)
            yield File(f"{number}.{kind}", kind, data, fault)


def is_faulty(judge, data):
    """Whether making.faults tells a fault of a table, or can't read it to its end."""
    try:
        return bool(faults_of(judge, data))
    except struct.error:
        return True


script_texts = script("texts")
