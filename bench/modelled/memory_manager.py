"""MM: peeks, pokes, loads, fills, dumps, and the protection of EEPROM."""

import struct

from . import packets
from .application import Application, Command, Refused
from .memory import Protect, Write

SIZES = {8: 1, 16: 2, 32: 4}
LONGEST_FILL = 65536
LONGEST_DUMP = 2048
DUMP_PART = 128

NO_SIZE = 8
NO_LENGTH = 9
WRONG_CRC = 10
NO_LOAD = 11
NO_EEPROM = 12

PEEK_MESSAGE = 0x088A
DUMP_MESSAGE = 0x088B


class MemoryManager(Application):
    """Reads go to the frame's image, and writes wait for the frame's end."""

    name = "MM"
    command_message = 0x1888
    request_message = 0x1889
    housekeeping_message = 0x0887
    commands = {
        2: Command(">BI", "peek"),
        3: Command(">BII", "poke"),
        4: Command(">IH", "load", 1, 200),
        5: Command(">H", "load_file"),
        8: Command(">IIB", "fill"),
        11: Command(">B", "unprotect"),
        12: Command(">B", "protect"),
        13: Command(">II", "dump"),
    }

    def step(self, wakeup):
        return self.answer_all(wakeup)

    def ask_size(self, size):
        if size not in SIZES:
            raise Refused(NO_SIZE)
        return SIZES[size]

    def ask_length(self, length, longest):
        if not 1 <= length <= longest:
            raise Refused(NO_LENGTH)

    def peek(self, wakeup, size, address):
        count = self.ask_size(size)
        wakeup.memory.ask_value(address, count)
        value = int.from_bytes(wakeup.memory.read(address, count), "big")
        payload = struct.pack(">BII", size, address, value)
        return [self.telemetry(PEEK_MESSAGE, payload, wakeup)]

    def poke(self, wakeup, size, address, value):
        count = self.ask_size(size)
        wakeup.memory.ask_write(wakeup.memory.ask_value(address, count))
        wakeup.operations.append(Write(address, value.to_bytes(4, "big")[4 - count :]))

    def write(self, wakeup, address, data):
        wakeup.memory.ask_write(wakeup.memory.ask_range(address, len(data)))
        wakeup.operations.append(Write(address, data))

    def load(self, wakeup, address, check, data):
        if packets.crc(data) != check:
            raise Refused(WRONG_CRC)
        self.write(wakeup, address, data)

    def load_file(self, wakeup, number):
        """Load files are counted from 1, among themselves."""
        if not 1 <= number <= len(wakeup.loads):
            raise Refused(NO_LOAD)
        load = wakeup.loads[number - 1]
        self.write(wakeup, load.address, load.data)

    def fill(self, wakeup, address, length, byte):
        self.ask_length(length, LONGEST_FILL)
        self.write(wakeup, address, bytes([byte]) * length)

    def change_protection(self, wakeup, region, on):
        if not wakeup.memory.is_eeprom(region):
            raise Refused(NO_EEPROM)
        wakeup.operations.append(Protect(region, on))

    def unprotect(self, wakeup, region):
        self.change_protection(wakeup, region, False)

    def protect(self, wakeup, region):
        self.change_protection(wakeup, region, True)

    def dump(self, wakeup, address, length):
        self.ask_length(length, LONGEST_DUMP)
        wakeup.memory.ask_range(address, length)
        data = wakeup.memory.read(address, length)
        items = []
        for offset in range(0, length, DUMP_PART):
            part = data[offset : offset + DUMP_PART]
            head = struct.pack(">IH", address + offset, len(part))
            items.append(self.telemetry(DUMP_MESSAGE, head + part, wakeup))
        return items

    def housekeeping(self, wakeup):
        return bytes([self.accepted, self.errors, wakeup.memory.open_regions(), 0])
