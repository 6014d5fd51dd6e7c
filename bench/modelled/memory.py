"""Memory: regions of five kinds, their protection, and the order of access faults."""

from dataclasses import dataclass

OUTSIDE = 4
UNALIGNED = 5
WRONG_SIZE = 6
PROTECTED = 7

# The one size in bytes that a region of these kinds takes.
ONLY_SIZE = {"MEM8": 1, "MEM16": 2, "MEM32": 4}


class AccessFault(Exception):
    def __init__(self, reason):
        super().__init__(f"memory refuses an access with reason {reason}")
        self.reason = reason


@dataclass
class Region:
    kind: str
    start: int
    data: bytearray
    protected: bool

    def holds(self, address, length):
        return self.start <= address and address + length <= self.start + len(self.data)


@dataclass(frozen=True)
class Write:
    address: int
    data: bytes


@dataclass(frozen=True)
class Protect:
    region: int
    on: bool


class Memory:
    def __init__(self, regions):
        self.regions = [
            Region(kind, start, bytearray(length), kind == "EEPROM")
            for kind, start, length in regions
        ]

    def region_of(self, address, length):
        for region in self.regions:
            if region.holds(address, length):
                return region
        raise AccessFault(OUTSIDE)

    def ask_value(self, address, size):
        """The region of a value of 1, 2 or 4 bytes, or the first fault."""
        region = self.region_of(address, size)
        if address % size != 0:
            raise AccessFault(UNALIGNED)
        if ONLY_SIZE.get(region.kind, size) != size:
            raise AccessFault(WRONG_SIZE)
        return region

    def ask_range(self, address, length):
        """The region of a range of bytes, or the first fault."""
        region = self.region_of(address, length)
        unit = ONLY_SIZE.get(region.kind, 1)
        if address % unit != 0 or length % unit != 0:
            raise AccessFault(UNALIGNED)
        return region

    def ask_write(self, region):
        if region.protected:
            raise AccessFault(PROTECTED)

    def read(self, address, length):
        region = self.region_of(address, length)
        offset = address - region.start
        return bytes(region.data[offset : offset + length])

    def write(self, address, data):
        region = self.region_of(address, len(data))
        offset = address - region.start
        region.data[offset : offset + len(data)] = data

    def is_eeprom(self, number):
        return 1 <= number <= len(self.regions) and self.regions[number - 1].kind == "EEPROM"

    def open_regions(self):
        """A bit for each EEPROM region that isn't protected."""
        return sum(
            1 << index
            for index, region in enumerate(self.regions)
            if region.kind == "EEPROM" and not region.protected
        )

    def land(self, operations):
        for operation in operations:
            if isinstance(operation, Protect):
                self.regions[operation.region - 1].protected = operation.on
            else:
                self.write(operation.address, operation.data)
