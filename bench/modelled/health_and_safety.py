"""HS: application monitors, event monitors, message actions and resets."""

import struct
from dataclasses import dataclass

from . import packets, table_files
from .application import Application, Command
from .items import RESET, Request, Stored

APPLICATION_EVENTS = 100
EVENT_EVENTS = 110
EVENT_LENGTH = 44
NO_COUNTER = 0xFFFFFFFF
WITHOUT_EVENT = 2


@dataclass
class Watched:
    """What the watch saw of one application monitor so far."""

    last: int = 0
    unchanged: int = 0
    acted: bool = False


def is_used(monitor):
    return monitor.number != 0 and monitor.action != 0


class HealthAndSafety(Application):
    name = "HS"
    command_message = 0x18AE
    request_message = 0x18AF
    housekeeping_message = 0x08AD
    commands = {
        2: Command(">", "watch_applications"),
        3: Command(">", "leave_applications"),
        4: Command(">", "watch_events"),
        5: Command(">", "leave_events"),
        8: Command(">", "clear_resets"),
        9: Command(">H", "set_maximum"),
    }

    def __init__(self, tables, made=0, maximum=3):
        super().__init__()
        self.tables = tables
        self.watches_applications = True
        self.watches_events = True
        self.resets_made = made
        self.resets_maximum = maximum
        self.messages_sent = 0
        self.cooldowns = [0] * len(tables[table_files.MESSAGE_ACTIONS])
        self.refresh()

    def refresh(self):
        monitors = self.tables[table_files.APPLICATION_MONITORS]
        self.watch = [Watched() for _ in monitors]

    def activated(self, name):
        if name == table_files.APPLICATION_MONITORS:
            self.refresh()

    def step(self, wakeup):
        self.cooldowns = [max(0, left - 1) for left in self.cooldowns]
        items = self.answer_all(wakeup)
        if self.watches_applications:
            items += self.check_applications(wakeup)
        if self.watches_events:
            items += self.compare_events(wakeup)
        return items

    def check_applications(self, wakeup):
        items = []
        monitors = self.tables[table_files.APPLICATION_MONITORS]
        for monitor, watched in zip(monitors, self.watch):
            if is_used(monitor) and not watched.acted:
                self.check(monitor, watched, wakeup)
                if watched.acted:
                    items += self.perform(monitor, APPLICATION_EVENTS, wakeup)
        return items

    def check(self, monitor, watched, wakeup):
        """An application that has no counter acts as one that hangs."""
        counter = wakeup.counters.get(monitor.name)
        if counter is not None and counter != watched.last:
            watched.last = counter
            watched.unchanged = 0
        else:
            watched.unchanged += 1
            watched.acted = watched.unchanged >= monitor.number

    def compare_events(self, wakeup):
        items = []
        for packet in wakeup.heard:
            if packets.identifier(packet) == packets.EVENT and len(packet) == EVENT_LENGTH:
                items += self.compare(packet, wakeup)
        return items

    def compare(self, packet, wakeup):
        padded, number = struct.unpack_from(">20sH", packet, 12)
        items = []
        for monitor in self.tables[table_files.EVENT_MONITORS]:
            named = monitor.name.encode("ascii").ljust(20, b"\0") == padded
            if monitor.action and named and monitor.number == number:
                items += self.perform(monitor, EVENT_EVENTS, wakeup)
        return items

    def perform(self, monitor, base, wakeup):
        if monitor.action == 1:
            return self.ask_for_reset(base, wakeup)
        if monitor.action == 2:
            told = self.event(base + 2, packets.ERROR, wakeup)
            return [told, Request(f"restart {monitor.name}")]
        if monitor.action == 3:
            told = self.event(base + 3, packets.ERROR, wakeup)
            # Of an application monitor this action is the event alone.
            deletes = base == EVENT_EVENTS
            return [told] + ([Request(f"delete {monitor.name}")] if deletes else [])
        return self.send_message(monitor.action - 4, base, wakeup)

    def ask_for_reset(self, base, wakeup):
        if self.resets_made >= self.resets_maximum:
            return [self.event(base + 5, packets.ERROR, wakeup)]
        self.resets_made += 1
        return [self.event(base + 1, packets.ERROR, wakeup), RESET]

    def send_message(self, index, base, wakeup):
        action = self.tables[table_files.MESSAGE_ACTIONS][index]
        if action.state == 0 or self.cooldowns[index] != 0:
            return []
        self.cooldowns[index] = action.cooldown
        self.messages_sent = (self.messages_sent + 1) % 65536
        items = [Stored(action.packet)]
        if action.state != WITHOUT_EVENT:
            items.append(self.event(base + 4, packets.ERROR, wakeup))
        return items

    def watch_applications(self, wakeup):
        self.watches_applications = True
        self.refresh()

    def leave_applications(self, wakeup):
        self.watches_applications = False

    def watch_events(self, wakeup):
        self.watches_events = True

    def leave_events(self, wakeup):
        self.watches_events = False

    def clear_resets(self, wakeup):
        self.resets_made = 0

    def set_maximum(self, wakeup, maximum):
        self.resets_maximum = maximum

    def watching(self):
        monitors = self.tables[table_files.APPLICATION_MONITORS]
        return sum(
            1 << index
            for index, (monitor, watched) in enumerate(zip(monitors, self.watch))
            if is_used(monitor) and not watched.acted
        )

    def housekeeping(self, wakeup):
        counters = [
            NO_COUNTER if name is None else wakeup.counters.get(name, NO_COUNTER)
            for name in self.tables[table_files.EXECUTION_COUNTERS]
        ]
        return struct.pack(
            ">BBBBHHHHI32I",
            self.accepted,
            self.errors,
            self.watches_applications,
            self.watches_events,
            self.resets_made,
            self.resets_maximum,
            self.messages_sent,
            0,
            self.watching(),
            *counters,
        )
