"""LC: watchpoints over telemetry, and actionpoints over watchpoints."""

import operator
import struct

from . import packets, table_files
from .application import Application, Command, Refused
from .items import Stored

START_RELATIVE = 4
STORED_COMMAND = 0x18A9

NO_ACTIONPOINT = 4
UNUSED = 5
FIRED = 101

ACTIVE = 1
# The bytes of a value, by the type of its watchpoint.
SIZES = {1: 1, 2: 2, 3: 4}
RELATIONS = {
    1: operator.lt,
    2: operator.le,
    3: operator.ne,
    4: operator.eq,
    5: operator.ge,
    6: operator.gt,
}
WATCHPOINTS = 32
NOT = 0x8004
OPERATIONS = {0x8001: operator.and_, 0x8002: operator.or_, 0x8003: operator.xor}

# A result is one of these; housekeeping shows it in two bits.
NONE, FALSE, TRUE, ERROR = range(4)


def result_of(watchpoint, packet):
    size = SIZES[watchpoint.type]
    data = packet[watchpoint.offset : watchpoint.offset + size]
    if len(data) < size:
        return ERROR
    value = int.from_bytes(data, "big") & watchpoint.mask
    return TRUE if RELATIONS[watchpoint.operator](value, watchpoint.limit) else FALSE


def value_of(words, results):
    """The value of an expression in reverse Polish form."""
    values = []
    for word in words:
        if word < WATCHPOINTS:
            values.append(results[word] == TRUE)
        elif word == NOT:
            values.append(not values.pop())
        else:
            second, first = values.pop(), values.pop()
            values.append(OPERATIONS[word](first, second))
    return values.pop()


class LimitChecker(Application):
    name = "LC"
    command_message = 0x18A6
    request_message = 0x18A7
    housekeeping_message = 0x08A7
    commands = {2: Command(">H", "set_active"), 3: Command(">H", "set_passive")}

    def __init__(self, tables):
        super().__init__()
        self.watchpoints = tables[table_files.WATCHPOINTS]
        self.actionpoints = tables[table_files.ACTIONPOINTS]
        self.results = [NONE] * len(self.watchpoints)
        self.active = [point.state == ACTIVE for point in self.actionpoints]
        self.failures = [0] * len(self.actionpoints)
        self.fired = 0

    def step(self, wakeup):
        items = self.answer_all(wakeup)
        for packet in wakeup.heard:
            self.look_at(packet)
        for index, point in enumerate(self.actionpoints):
            if self.is_evaluated(point):
                items += self.evaluate(index, point, wakeup)
        return items

    def look_at(self, packet):
        for index, watchpoint in enumerate(self.watchpoints):
            if watchpoint.type and watchpoint.message == packets.identifier(packet):
                self.results[index] = result_of(watchpoint, packet)

    def is_evaluated(self, point):
        """An unused watchpoint never has a result."""
        named = [word for word in point.words if word < WATCHPOINTS]
        return point.state != 0 and all(self.results[word] in (FALSE, TRUE) for word in named)

    def evaluate(self, index, point, wakeup):
        if not value_of(point.words, self.results):
            self.failures[index] = 0
            return []
        self.failures[index] += 1
        if not self.active[index] or self.failures[index] < point.failures:
            return []
        self.active[index] = False
        self.fired = (self.fired + 1) % 65536
        number = struct.pack(">H", point.sequence)
        start = packets.command(STORED_COMMAND, START_RELATIVE, number)
        return [Stored(start), self.event(FIRED, packets.ERROR, wakeup)]

    def asked(self, number):
        if not 1 <= number <= len(self.actionpoints):
            raise Refused(NO_ACTIONPOINT)
        if self.actionpoints[number - 1].state == 0:
            raise Refused(UNUSED)
        return number - 1

    def set_active(self, wakeup, number):
        self.active[self.asked(number)] = True

    def set_passive(self, wakeup, number):
        self.active[self.asked(number)] = False

    def housekeeping(self, wakeup):
        active = sum(1 << index for index, is_active in enumerate(self.active) if is_active)
        results = sum(result << 2 * index for index, result in enumerate(self.results))
        return struct.pack(
            ">BBHHHQ", self.accepted, self.errors, 0, active, self.fired, results
        )
