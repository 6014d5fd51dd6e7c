"""SC: absolute and relative sequences, and the turns of a wakeup."""

import struct
from dataclasses import dataclass

from . import packets, table_files
from .application import Application, Command, Refused
from .items import Stored

TURNS = 8
ABSOLUTE = (1, 2)
RELATIVE = range(1, 65)
FIRST_RELATIVE = 1

NO_SEQUENCE = 4
NOT_LOADED = 5
RUNS = 6
NONE_REMAINS = 7
NONE_RUNS = 8
DISABLED = 9

WRONG_CHECK_IN_ABSOLUTE = 101
WRONG_CHECK_IN_RELATIVE = 102
ABSOLUTE_ENDED = 103
RELATIVE_ENDED = 104


@dataclass
class Running:
    """A relative sequence that runs: what is left, and the time it counts from."""

    left: list
    base: int


class StoredCommand(Application):
    name = "SC"
    command_message = 0x18A9
    request_message = 0x18AA
    housekeeping_message = 0x08AA
    commands = {
        2: Command(">H", "start_absolute"),
        3: Command(">", "stop_absolute"),
        4: Command(">H", "start_relative"),
        5: Command(">H", "stop_relative"),
        6: Command(">H", "disable_relative"),
        7: Command(">H", "enable_relative"),
        8: Command(">", "switch_absolute"),
        9: Command(">I", "jump"),
    }

    def __init__(self, tables, time):
        super().__init__()
        self.tables = tables
        self.absolute = None
        self.absolute_left = []
        self.relative = {}
        self.enabled = set()
        self.sent = 0
        self.wrong = 0
        if self.relative_commands(FIRST_RELATIVE):
            self.enabled.add(FIRST_RELATIVE)
            self.begin_relative(FIRST_RELATIVE, time)

    def absolute_commands(self, number):
        return self.tables[table_files.absolute_name(number)]

    def relative_commands(self, number):
        return self.tables[table_files.relative_name(number)]

    def begin_relative(self, number, time):
        self.relative[number] = Running(list(self.relative_commands(number)), time)

    def runs(self, name):
        """Whether the sequence of this table's name runs."""
        names = [table_files.relative_name(number) for number in self.relative]
        if self.absolute is not None:
            names.append(table_files.absolute_name(self.absolute))
        return name in names

    def step(self, wakeup):
        items = self.answer_all(wakeup)
        for _ in range(TURNS):
            items += self.turn(wakeup)
        return items

    def heads(self):
        """The next command of each sequence: by time, absolute first, by number."""
        if self.absolute is not None:
            yield self.absolute_left[0].time, 0, self.absolute
        for number, running in self.relative.items():
            yield running.base + running.left[0].seconds, 1, number

    def turn(self, wakeup):
        due = [head for head in self.heads() if head[0] <= wakeup.time]
        if not due:
            return []
        _, is_relative, number = min(due)
        if is_relative:
            return self.relative_turn(number, wakeup)
        return self.absolute_turn(wakeup)

    def absolute_turn(self, wakeup):
        packet = self.absolute_left.pop(0).packet
        items = self.send(packet, WRONG_CHECK_IN_ABSOLUTE, wakeup)
        if not self.absolute_left:
            self.absolute = None
            items.append(self.event(ABSOLUTE_ENDED, packets.INFORMATION, wakeup))
        return items

    def relative_turn(self, number, wakeup):
        running = self.relative[number]
        packet = running.left.pop(0).packet
        running.base = wakeup.time
        items = self.send(packet, WRONG_CHECK_IN_RELATIVE, wakeup)
        if not packets.check_is_right(packet):
            del self.relative[number]
        elif not running.left:
            del self.relative[number]
            items.append(self.event(RELATIVE_ENDED, packets.INFORMATION, wakeup))
        return items

    def send(self, packet, wrong_check, wakeup):
        if packets.check_is_right(packet):
            self.sent = (self.sent + 1) % 65536
            return [Stored(packet)]
        self.wrong = (self.wrong + 1) % 65536
        return [self.event(wrong_check, packets.ERROR, wakeup)]

    def run_absolute(self, number, time):
        """A start skips the commands whose time is before the frame's."""
        left = [command for command in self.absolute_commands(number) if command.time >= time]
        if not left:
            raise Refused(NONE_REMAINS)
        self.absolute = number
        self.absolute_left = left

    def start_absolute(self, wakeup, number):
        if number not in ABSOLUTE:
            raise Refused(NO_SEQUENCE)
        if not self.absolute_commands(number):
            raise Refused(NOT_LOADED)
        if self.absolute is not None:
            raise Refused(RUNS)
        self.run_absolute(number, wakeup.time)

    def stop_absolute(self, wakeup):
        self.absolute = None
        self.absolute_left = []

    def switch_absolute(self, wakeup):
        if self.absolute is None:
            raise Refused(NONE_RUNS)
        other = 3 - self.absolute
        if not self.absolute_commands(other):
            raise Refused(NOT_LOADED)
        self.run_absolute(other, wakeup.time)

    def jump(self, wakeup, time):
        if self.absolute is None:
            raise Refused(NONE_RUNS)
        left = [command for command in self.absolute_left if command.time >= time]
        if not left:
            raise Refused(NONE_REMAINS)
        self.absolute_left = left

    def ask_relative(self, number, loaded=False):
        if number not in RELATIVE:
            raise Refused(NO_SEQUENCE)
        if loaded and not self.relative_commands(number):
            raise Refused(NOT_LOADED)

    def start_relative(self, wakeup, number):
        self.ask_relative(number, loaded=True)
        if number not in self.enabled:
            raise Refused(DISABLED)
        if number in self.relative:
            raise Refused(RUNS)
        self.begin_relative(number, wakeup.time)

    def stop_relative(self, wakeup, number):
        self.ask_relative(number)
        self.relative.pop(number, None)

    def disable_relative(self, wakeup, number):
        self.ask_relative(number)
        self.enabled.discard(number)

    def enable_relative(self, wakeup, number):
        self.ask_relative(number, loaded=True)
        self.enabled.add(number)

    def housekeeping(self, wakeup):
        def mask(numbers):
            return sum(1 << number - 1 for number in numbers)

        return struct.pack(
            ">BBBBHHHHQQ",
            self.accepted, self.errors, self.absolute or 0, 0,
            len(self.absolute_left), self.sent, self.wrong, 0,
            mask(self.relative), mask(self.enabled),
        )
