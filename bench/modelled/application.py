"""What every application does with the packets of its command pipe."""

import struct
from dataclasses import dataclass, field

from . import packets
from .items import Made, event
from .memory import AccessFault, Memory

WRONG_CHECK = 1
UNKNOWN_CODE = 2
WRONG_LENGTH = 3


class Refused(Exception):
    """A command that is refused; it must be raised before anything changes."""

    def __init__(self, reason):
        super().__init__(f"refusal {reason}")
        self.reason = reason


@dataclass(frozen=True)
class Command:
    """How a payload is laid out, and the method that obeys the command."""

    layout: str
    method: str
    shortest_tail: int = 0
    longest_tail: int = 0

    def fields(self, payload):
        """The payload's numbers, and behind them its tail where it has one."""
        size = struct.calcsize(self.layout)
        tail = payload[size:]
        if len(payload) < size or not self.shortest_tail <= len(tail) <= self.longest_tail:
            raise Refused(WRONG_LENGTH)
        numbers = struct.unpack(self.layout, payload[:size])
        return numbers + (tail,) if self.longest_tail else numbers


@dataclass
class Wakeup:
    """All that an application may read in a frame in which it isn't held."""

    time: int
    commands: list
    memory: Memory
    counters: dict = field(default_factory=dict)
    heard: list = field(default_factory=list)
    loads: list = field(default_factory=list)
    operations: list = field(default_factory=list)


NO_OPERATION = Command(">", "no_operation")
RESET_COUNTS = Command(">", "reset_counts")


class Application:
    """The counts, the order of refusals, and the answer to each packet."""

    name = ""
    command_message = 0
    request_message = 0
    housekeeping_message = 0
    commands = {}

    def __init__(self):
        self.accepted = 0
        self.errors = 0

    def event(self, number, kind, wakeup):
        return event(self.name, number, kind, wakeup.time)

    def telemetry(self, message, payload, wakeup):
        return Made(packets.telemetry(message, wakeup.time, payload))

    def answer_all(self, wakeup):
        return [item for packet in wakeup.commands for item in self.answer(packet, wakeup)]

    def answer(self, packet, wakeup):
        message = packets.identifier(packet)
        if message == self.request_message:
            shown = self.housekeeping(wakeup)
            return [self.telemetry(self.housekeeping_message, shown, wakeup)]
        if message != self.command_message:
            return []
        try:
            items = self.obey(packet, wakeup)
        except (Refused, AccessFault) as refused:
            # The faults of memory are refusals of the same number.
            self.errors = (self.errors + 1) % 256
            return [self.event(refused.reason, packets.ERROR, wakeup)]
        accepted = 16 + packets.code(packet)
        return items + [self.event(accepted, packets.INFORMATION, wakeup)]

    def obey(self, packet, wakeup):
        """The packets that a command is answered with before its event."""
        if not packets.check_is_right(packet):
            raise Refused(WRONG_CHECK)
        code = packets.code(packet)
        command = {0: NO_OPERATION, 1: RESET_COUNTS, **self.commands}.get(code)
        if command is None:
            raise Refused(UNKNOWN_CODE)
        items = getattr(self, command.method)(wakeup, *command.fields(packet[8:]))
        if command is not RESET_COUNTS:
            self.accepted = (self.accepted + 1) % 256
        return items or []

    def no_operation(self, wakeup):
        pass

    def reset_counts(self, wakeup):
        self.accepted = 0
        self.errors = 0

    def housekeeping(self, wakeup):
        raise NotImplementedError

    def activated(self, name):
        """Another table of this application became active."""

    def step(self, wakeup):
        """The items of one wakeup."""
        raise NotImplementedError
