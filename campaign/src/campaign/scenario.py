"""A scenario's text as frames of lines (docs/SCENARIO.md), read so strictly that what stands here `vigil` accepts too."""

import re
from dataclasses import dataclass
from typing import NamedTuple

from campaign import Wrong

MOST_TEXT = 1 << 24
MOST_LINE = 640
MOST_FRAMES = 100_000
MOST_ITEMS = 64
MOST_REGIONS = 8
MOST_MEMORY = 4_194_304
LAST_EPOCH = 4_294_000_000
APPLICATIONS = ("HS", "CS", "SC", "MM", "MD")
KINDS = ("RAM", "EEPROM", "MEM8", "MEM16", "MEM32")
NUMBER = re.compile("[0-9]{1,10}|0x[0-9a-fA-F]{1,8}")
NAME = re.compile("[0-9A-Za-z_]{1,19}")
HEX = re.compile("(?:[0-9A-Fa-f]{2})*")

# How many words stand behind each first word.
WORDS = {"epoch": 1, "region": 3, "start": 0, "send": 1, "app": 2, "upset": 2, "hold": 1, "activate": 1, "tick": 0, "end": 0}
ITEMS = ("send", "app", "upset", "hold", "activate")


class Refused(Wrong):
    """A line that `vigil` refuses: `line` counts from 1, `reason` is that of docs/SCENARIO.md."""

    def __init__(self, line: int, reason: int, why: str) -> None:
        super().__init__(f"line {line}: {why} (reason {reason})")
        self.line = line
        self.reason = reason


class Line(NamedTuple):
    """A line without its LF, and its words; a skipped line has none."""

    text: str
    words: tuple[str, ...]

    @classmethod
    def of(cls, text: str) -> "Line":
        words = tuple(word for word in text.split(" ") if word)
        return cls(text, () if words and words[0].startswith("#") else words)

    @property
    def first(self) -> str:
        return self.words[0] if self.words else ""


@dataclass(frozen=True)
class Region:
    """A region of memory: `length` bytes from `start`."""

    kind: str
    start: int
    length: int


@dataclass(frozen=True)
class Scenario:
    """An accepted text: the lines up to `start`, those of each frame without its `tick`, the ticks, and those from `end` on."""

    head: tuple[Line, ...]
    regions: tuple[Region, ...]
    frames: tuple[tuple[Line, ...], ...]
    ticks: tuple[Line, ...]
    tail: tuple[Line, ...]
    size: int

    @classmethod
    def read(cls, content: bytes) -> "Scenario":
        """The scenario of a text; Refused with the first bad line where it is none."""
        return _Reader(content).scenario()


def number_of(word: str) -> int | None:
    """The number that a word writes, below 2 to the 32nd, and nothing where it writes none."""
    if not NUMBER.fullmatch(word):
        return None
    value = int(word, 16) if word.startswith("0x") else int(word)
    return value if value < 2**32 else None


def is_packet(word: str) -> bool:
    """Whether HEX is a space packet of 8 to 256 bytes with version 0, sequence flags 3 and the right length field."""
    if not HEX.fullmatch(word):
        return False
    data = bytes.fromhex(word)
    return 8 <= len(data) <= 256 and data[0] >> 5 == 0 and data[2] >> 6 == 3 and int.from_bytes(data[4:6], "big") == len(data) - 7


class _Reader:
    """Reads a text line by line; `part` is what stands before `start`, in a frame, directly behind one, or behind `end`."""

    def __init__(self, content: bytes) -> None:
        self.size = len(content)
        text = content.decode("latin-1")
        self.lines = text.split("\n")
        if self.lines[-1] == "":
            self.lines.pop()
        self.regions: list[Region] = []
        self.head: list[Line] = []
        self.frames: list[tuple[Line, ...]] = []
        self.ticks: list[Line] = []
        self.tail: list[Line] = []
        self.frame: list[Line] = []
        self.items = 0
        self.has_epoch = self.has_start = self.has_end = False

    def scenario(self) -> Scenario:
        end = 0
        for number, text in enumerate(self.lines, 1):
            end = min(end + len(text) + 1, self.size)
            if len(text) > MOST_LINE or end > MOST_TEXT:
                raise Refused(number, 6, f"the line has over {MOST_LINE} bytes, or ends past byte {MOST_TEXT:,} of the text")
            self.take(number, Line.of(text))
        if not self.has_end:
            raise Refused(len(self.lines), 7, "the text has no `end`")
        return Scenario(tuple(self.head), tuple(self.regions), tuple(self.frames), tuple(self.ticks), tuple(self.tail), self.size)

    def take(self, number: int, line: Line) -> None:
        if line.words:
            fault = self.place_fault(line) or self.number_fault(line) or self.later_fault(line)
            if fault:
                raise Refused(number, *fault)
        if self.has_end or line.first == "end":
            self.has_end = True
            self.tail.extend((*self.frame, line))
            self.frame = []
        elif not self.has_start:
            self.head.append(line)
            self.take_header(line)
        elif line.first == "tick":
            self.frames.append(tuple(self.frame))
            self.ticks.append(line)
            self.frame, self.items = [], 0
        else:
            self.frame.append(line)
            self.items += line.first in ITEMS

    def take_header(self, line: Line) -> None:
        if line.first == "epoch":
            self.has_epoch = True
        elif line.first == "region":
            self.regions.append(_region_of(line))
        elif line.first == "start":
            self.has_start = True

    def is_in_place(self, first: str) -> bool:
        if self.has_end or first not in WORDS:
            return False
        if first == "epoch":
            return not self.has_epoch
        if first in ("region", "start"):
            return self.has_epoch and not self.has_start
        return self.has_start and (first != "end" or self.items == 0)

    def place_fault(self, line: Line) -> tuple[int, str] | None:
        first, *rest = line.words
        if not self.is_in_place(first):
            return 1, f"{first!r} is no word of a scenario, or stands out of its place"
        if len(rest) != WORDS[first]:
            return 1, f"{first} has {WORDS[first]} words behind it, not {len(rest)}"
        known = {"region": KINDS, "hold": APPLICATIONS}.get(first)
        if known and rest[0] not in known:
            return 1, f"{rest[0]!r} isn't one of {', '.join(known)}"
        if first == "app" and not NAME.fullmatch(rest[0]):
            return 1, f"{rest[0]!r} isn't 1 to 19 letters, digits and _"
        return None

    def number_fault(self, line: Line) -> tuple[int, str] | None:
        first, *rest = line.words
        numbers = {"epoch": rest[:1], "region": rest[1:], "app": rest[1:], "upset": rest, "activate": rest}.get(first, [])
        for word in numbers:
            if number_of(word) is None:
                return 2, f"{word!r} isn't a number below 2 to the 32nd"
        most = {"epoch": LAST_EPOCH, "upset": 255}.get(first)
        if most is not None and (number_of(numbers[-1]) or 0) > most:
            return 2, f"{numbers[-1]} is over {most}"
        return None

    def later_fault(self, line: Line) -> tuple[int, str] | None:
        first = line.first
        if first == "send" and not is_packet(line.words[1]):
            return 3, "the word behind send is no space packet of 8 to 256 bytes with version 0, sequence flags 3 and its length"
        if first == "region" and len(self.regions) == MOST_REGIONS:
            return 4, f"there are at most {MOST_REGIONS} regions"
        if first == "start" and not _is_map(self.regions):
            return 4, "the regions are no map"
        if first == "upset" and not _has_byte(self.regions, number_of(line.words[1]) or 0):
            return 4, f"{line.words[1]} is in no region"
        if first in ITEMS and self.items == MOST_ITEMS:
            return 5, f"a frame has at most {MOST_ITEMS} items"
        if first == "tick" and len(self.frames) == MOST_FRAMES:
            return 6, f"a scenario has at most {MOST_FRAMES:,} frames"
        return None


def _region_of(line: Line) -> Region:
    return Region(line.words[1], number_of(line.words[2]) or 0, number_of(line.words[3]) or 0)


def _has_byte(regions: list[Region], address: int) -> bool:
    return any(region.start <= address < region.start + region.length for region in regions)


def _is_map(regions: list[Region]) -> bool:
    """1 to 8 regions that share no address, begin and end at multiples of 4, end by 2 to the 32nd and aren't too long together."""
    ordered = sorted(regions, key=lambda region: region.start)
    return (
        1 <= len(regions) <= MOST_REGIONS
        and all(region.start % 4 == 0 and region.length % 4 == 0 and region.length > 0 for region in regions)
        and all(region.start + region.length <= 2**32 for region in regions)
        and sum(region.length for region in regions) <= MOST_MEMORY
        and all(one.start + one.length <= other.start for one, other in zip(ordered, ordered[1:]))
    )
