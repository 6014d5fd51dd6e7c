"""Random memory: regions of each kind, and addresses that lie in them or not."""

from dataclasses import dataclass

WIDTHS = {"RAM": (1, 2, 4), "EEPROM": (1, 2, 4), "MEM8": (1,), "MEM16": (2,), "MEM32": (4,)}
LENGTHS = (4, 64, 256, 256, 2048, 2048, 4096, 9000, 140000)
END_OF_MEMORY = 1 << 32
HIT = 0.85


@dataclass(frozen=True)
class Region:
    """A region of memory by its number, counted from 1."""

    number: int
    kind: str
    start: int
    length: int

    def line(self):
        return f"region {self.kind} 0x{self.start:X} {self.length}"


def drawn_regions(dice):
    """One to eight regions, often one of each kind, some of them side by side or up to the end of memory."""
    kinds = dice.sample(list(WIDTHS), 5) + dice.choices(list(WIDTHS), k=3)
    kinds = kinds[: dice.choice((1, 2, 3, 5, 5, 5, 8))]
    at, regions = dice.choice((0, 0x1000, 0x1000, 0x10000)), []
    for number, kind in enumerate(kinds, 1):
        regions.append(Region(number, kind, at, dice.choice(LENGTHS)))
        at += regions[-1].length + dice.choice((0, 0, 4, 0x100, 0x10000))
    if dice.random() < 0.05:
        last = regions.pop()
        regions.append(Region(last.number, last.kind, END_OF_MEMORY - last.length, last.length))
    return regions


class Memory:
    """Regions, and addresses in them."""

    def __init__(self, dice, regions):
        self.dice, self.regions = dice, regions

    def read(self):
        """A length that a region takes, and an address in it."""
        region = self.dice.choice(self.regions)
        width = self.dice.choice(WIDTHS[region.kind])
        place = self.dice.choice((0, region.length // width - 1, self.dice.randrange(region.length // width), self.dice.randrange(min(8, region.length // width))))
        return width, region.start + width * place

    def range(self, most):
        """The start and the length of bytes of one region, which it takes."""
        region = self.dice.choice(self.regions)
        width = WIDTHS[region.kind][0]
        room = region.length // width
        first = self.dice.choice((0, self.dice.randrange(room)))
        count = self.dice.choice((1, min(room - first, most // width), self.dice.randint(1, room - first)))
        return region.start + width * first, width * max(1, min(count, most // width))

    def tried_read(self):
        """A read, mostly one that memory gives."""
        width, at = self.read()
        if self.dice.random() < HIT:
            return width, at
        return self.dice.choice((1, 2, 4)), self.dice.choice((at + 1, at ^ 0x10000, self.dice.getrandbits(32))) % END_OF_MEMORY

    def tried_range(self, most):
        start, length = self.range(most)
        if self.dice.random() < HIT:
            return start, length
        return self.dice.choice((start, start + 1, self.dice.getrandbits(32))) % END_OF_MEMORY, self.dice.choice((0, length + 1, most, most + 1))
