"""The bench: all applications on one memory, frame after frame."""

from . import items, packets, table_files
from .application import Wakeup
from .checksum import Checksum
from .health_and_safety import HealthAndSafety
from .limit_checker import LimitChecker
from .memory import Memory
from .memory_dwell import MemoryDwell
from .memory_manager import MemoryManager
from .pipes import Bus
from .stored_command import StoredCommand
from .table_files import LoadFile, TableFile

TABLE_EVENTS = "TBL"
ACTIVATED = 1
NOT_ACTIVATED = 2
SEQUENCE_RUNS = 3
SEQUENCE_COUNTS = 16384

# The pipe beside its command pipe that an application takes.
SECOND_PIPES = {"HS": "HS.EV", "LC": "LC.TLM"}


class Bench:
    def __init__(self, header, files):
        self.files = files
        self.loads = [file for file in files if isinstance(file, LoadFile)]
        self.has_limit_checker = any(
            isinstance(file, TableFile) and table_files.is_of_limit_checker(file.name)
            for file in files
        )
        self.time = header.epoch
        self.memory = Memory(header.regions)
        self.bus = Bus(self.has_limit_checker)
        self.counts = {}
        self.number = 0
        self.begin(self.time)

    def begin(self, time, made=0, maximum=3):
        """All histories begin: at the run's start, and behind a processor reset."""
        self.tables = table_files.empty_tables()
        # The first file of a table is in force, so the others are put in before it.
        for file in reversed(self.files):
            if isinstance(file, TableFile):
                self.tables[file.name] = file.table
        self.health = HealthAndSafety(self.tables, made, maximum)
        self.sequences = StoredCommand(self.tables, time)
        self.applications = [
            self.health,
            Checksum(self.tables),
            self.sequences,
            MemoryManager(),
            MemoryDwell(self.tables),
        ]
        if self.has_limit_checker:
            self.applications.append(LimitChecker(self.tables))

    def run(self, frame):
        """The lines of one frame."""
        for address, value in frame.upsets:
            self.memory.write(address, bytes([value]))
        operations = []
        given = [self.activate(number) for number in frame.activations]
        for application in self.applications:
            if application.name not in frame.held:
                given += application.step(self.wakeup(application, frame, operations))
        given = [self.stamped(item) for item in given]
        lines = [self.line(item) for item in given]
        if items.RESET in given:
            self.memory.land(operations)
            self.reset()
        else:
            lines += self.deliver(frame.sends, given)
            self.memory.land(operations)
        self.number += 1
        self.time += 1
        return lines

    def wakeup(self, application, frame, operations):
        second = SECOND_PIPES.get(application.name)
        return Wakeup(
            time=self.time,
            commands=self.bus.take(application.name),
            memory=self.memory,
            counters=frame.counters,
            heard=self.bus.take(second) if second else [],
            loads=self.loads,
            operations=operations,
        )

    def owner(self, name):
        """The application whose table this is, by the letters before the dot."""
        return next(
            application
            for application in self.applications
            if application.name == name.partition(".")[0]
        )

    def activate(self, number):
        file = self.files[number - 1] if 1 <= number <= len(self.files) else None
        if not isinstance(file, TableFile):
            return self.table_event(NOT_ACTIVATED, packets.ERROR)
        name = file.name
        if name == table_files.MESSAGE_ACTIONS or table_files.is_of_limit_checker(name):
            return self.table_event(NOT_ACTIVATED, packets.ERROR)
        if self.sequences.runs(name):
            return self.table_event(SEQUENCE_RUNS, packets.ERROR)
        self.tables[name] = file.table
        self.owner(name).activated(name)
        return self.table_event(ACTIVATED, packets.INFORMATION)

    def table_event(self, number, kind):
        return items.event(TABLE_EVENTS, number, kind, self.time)

    def stamped(self, item):
        if not isinstance(item, items.Made):
            return item
        message = packets.identifier(item.packet)
        count = self.counts.get(message, 0)
        self.counts[message] = (count + 1) % SEQUENCE_COUNTS
        return items.Made(packets.with_sequence_count(item.packet, count))

    def line(self, item):
        if isinstance(item, items.Request):
            return f"{self.number} {item.words}"
        return f"{self.number} pkt {item.packet.hex().upper()}"

    def deliver(self, sends, given):
        """Offers the frame's own packets and then the items', and tells the drops."""
        offered = sends + [item.packet for item in given if not isinstance(item, items.Request)]
        lines = []
        for packet in offered:
            drop = self.bus.offer(packet)
            if drop is not None:
                pipe, reason = drop
                lines.append(f"{self.number} drop {pipe} {reason} {packet.hex().upper()}")
        return lines

    def reset(self):
        """Memory, its protection and the sequence counts are kept."""
        self.bus.clear()
        self.begin(self.time + 1, self.health.resets_made, self.health.resets_maximum)
