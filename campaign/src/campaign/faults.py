"""Faults that may befall a scenario, and the text that a seed gives (docs/CAMPAIGNS.md, "Drawn faults")."""

import struct
from collections.abc import Iterator
from dataclasses import dataclass, field
from typing import Any, ClassVar, NamedTuple

from campaign import Wrong
from campaign.draws import Draws, Span
from campaign.scenario import APPLICATIONS, ITEMS, MOST_FRAMES, MOST_ITEMS, MOST_TEXT, NAME, Line, Scenario

EVENT_NUMBER = range(1 << 16)

# The most bytes that a fault of one line adds, with its notes; nothing befalls a text that has less room.
ROOM_OF_FAULT = 1024


class Befallen(NamedTuple):
    """A fault that befell a run: its kind, and the frame in which it began."""

    kind: str
    frame: int


class Place(NamedTuple):
    """The line of an item: its frame, and where it stands among the frame's lines."""

    frame: int
    at: int


class Draft:
    """A scenario that is being changed; it stays one that is accepted, whatever befalls it."""

    def __init__(self, scenario: Scenario) -> None:
        self.scenario = scenario
        self.frames = list(scenario.frames)
        self.room = MOST_TEXT - scenario.size - 1

    def spots(self, first: str, between: Span) -> list[Place]:
        """Where the items with this first word stand, in the frames of the span."""
        frames = range(between.first, min(between.last + 1, len(self.frames)))
        return [Place(frame, at) for frame in frames for at, line in enumerate(self.frames[frame]) if line.first == first]

    def line(self, place: Place) -> Line:
        return self.frames[place.frame][place.at]

    def has_room(self, frame: int, text: str) -> bool:
        """Whether one more item, with a note before it, fits into the frame and into the text."""
        items = sum(line.first in ITEMS for line in self.frames[frame])
        return items < MOST_ITEMS and self.room >= len(text) + 64

    def insert(self, frame: int, at: int, text: str, note: str) -> None:
        """Puts an item before the line `at`, with a note for people above it."""
        lines = self.frames[frame]
        added = (Line.of(f"# fault: {note}"), Line.of(text))
        self.room -= sum(len(line.text) + 1 for line in added)
        self.frames[frame] = (*lines[:at], *added, *lines[at:])

    def append(self, frame: int, text: str, note: str) -> None:
        self.insert(frame, len(self.frames[frame]), text, note)

    def remove(self, place: Place, note: str) -> None:
        """Leaves a note in place of an item."""
        lines = self.frames[place.frame]
        left = Line.of(f"# fault: {note}")
        self.room += len(lines[place.at].text) - len(left.text)
        self.frames[place.frame] = (*lines[: place.at], left, *lines[place.at + 1 :])

    def replace(self, place: Place, text: str, note: str) -> None:
        self.remove(place, note)
        lines = self.frames[place.frame]
        self.room -= len(text) + 1
        self.frames[place.frame] = (*lines[: place.at + 1], Line.of(text), *lines[place.at + 1 :])

    def text(self) -> bytes:
        scenario = self.scenario
        lines = [line.text for line in scenario.head]
        for frame, tick in zip(self.frames, scenario.ticks):
            lines.extend(line.text for line in frame)
            lines.append(tick.text)
        lines.extend(line.text for line in scenario.tail)
        return ("\n".join(lines) + "\n").encode("latin-1")


def _spans(first: int, last: int) -> Any:
    """A field that a plan writes as a span, and its numbers where the plan doesn't say."""
    return field(default=Span(first, last), metadata={"read": Span.read})


@dataclass(frozen=True)
class Fault:
    """What may befall a run: `often` times on average, in frames of `between`; `seed` sets its draws apart."""

    kind: ClassVar[str]
    often: float = 1.0
    seed: int = 0
    between: Span = _spans(0, MOST_FRAMES - 1)

    def befall(self, draft: Draft, draws: Draws) -> int | None:
        """Changes the draft, and gives the frame in which the fault begins; nothing where it finds no place."""
        raise NotImplementedError

    def fault_in(self, scenario: Scenario) -> str | None:
        """Why this can never befall the scenario, if so."""
        return None if any(frame in self.between.numbers() for frame in range(len(scenario.frames))) else "the scenario has no frame of `between`"

    def frame(self, draft: Draft, draws: Draws) -> int | None:
        """A frame of `between`."""
        frames = range(self.between.first, min(self.between.last + 1, len(draft.frames)))
        return frames[draws.below(len(frames))] if frames else None


@dataclass(frozen=True)
class Upset(Fault):
    """A byte of a region (counted from 1; 0 is any) gets a drawn value."""

    kind = "upset"
    region: int = 0
    values: Span = _spans(1, 255)

    def befall(self, draft: Draft, draws: Draws) -> int | None:
        frame, at, value = self.frame(draft, draws), self.address(draft.scenario, draws), draws.within(self.values)
        text = f"upset 0x{at:08X} 0x{value:02X}"
        if frame is None or not draft.has_room(frame, text):
            return None
        draft.append(frame, text, self.kind)
        return frame

    def address(self, scenario: Scenario, draws: Draws) -> int:
        regions = [scenario.regions[self.region - 1]] if self.region else scenario.regions
        place = draws.below(sum(region.length for region in regions))
        for region in regions:
            if place < region.length:
                return region.start + place
            place -= region.length
        raise AssertionError("the place is below the sum of the lengths")

    def fault_in(self, scenario: Scenario) -> str | None:
        if not 0 <= self.region <= len(scenario.regions):
            return f"the scenario has regions 1 to {len(scenario.regions)}, and no region {self.region}"
        return "values are at most 255" if self.values.last > 255 else super().fault_in(scenario)


@dataclass(frozen=True)
class Hold(Fault):
    """An application isn't woken for some frames in a row."""

    kind = "hold"
    app: str = ""
    frames: Span = _spans(1, 5)

    def befall(self, draft: Draft, draws: Draws) -> int | None:
        first, count = self.frame(draft, draws), draws.within(self.frames)
        app = self.app or APPLICATIONS[draws.below(len(APPLICATIONS))]
        text = f"hold {app}"
        if first is None:
            return None
        free = [frame for frame in range(first, min(first + count, len(draft.frames))) if draft.has_room(frame, text)]
        for frame in free:
            draft.append(frame, text, f"{self.kind} from frame {first} on")
        return free[0] if free else None

    def fault_in(self, scenario: Scenario) -> str | None:
        return super().fault_in(scenario) if self.app in ("", *APPLICATIONS) else f"{self.app!r} isn't one of {', '.join(APPLICATIONS)}"


@dataclass(frozen=True)
class Hang(Fault):
    """An execution counter keeps the value that it had before, for some frames in a row or to the end."""

    kind = "hang"
    name: str = ""
    frames: Span = _spans(MOST_FRAMES, MOST_FRAMES)

    def befall(self, draft: Draft, draws: Draws) -> int | None:
        spots = [place for place in draft.spots("app", self.between) if self.name in ("", draft.line(place).words[1])]
        count = draws.within(self.frames)
        if not spots:
            return None
        start = spots[draws.below(len(spots))]
        name = draft.line(start).words[1]
        value = self.value_before(draft, start, name)
        for frame in range(start.frame, min(start.frame + count, len(draft.frames))):
            self.stop(draft, frame, name, value)
        return start.frame

    def value_before(self, draft: Draft, start: Place, name: str) -> str:
        """What the counter last showed before the frame, else what it shows in it."""
        for frame in [*range(start.frame - 1, -1, -1), start.frame]:
            for line in draft.frames[frame]:
                if line.first == "app" and line.words[1] == name:
                    value: str = line.words[2]
                    return value
        raise AssertionError("the frame has a line of the counter")

    def stop(self, draft: Draft, frame: int, name: str, value: str) -> None:
        """Has the frame's lines of the counter show a value."""
        spots = [place for place in draft.spots("app", Span(frame, frame)) if draft.line(place).words[1] == name]
        for place in reversed(spots):
            text = f"app {name} {value}"
            if draft.line(place).words[2] != value and draft.room >= len(text) + 64:
                draft.replace(place, text, self.kind)

    def fault_in(self, scenario: Scenario) -> str | None:
        names = {line.words[1] for frame in scenario.frames for line in frame if line.first == "app"}
        if not names or self.name not in ("", *names):
            return f"the scenario has no execution counter {self.name}".rstrip()
        return super().fault_in(scenario)


@dataclass(frozen=True)
class OfLine(Fault):
    """A fault of a line of the scenario, which is drawn among those with the first word `of`."""

    of: ClassVar[str] = "send"

    def befall(self, draft: Draft, draws: Draws) -> int | None:
        spots = draft.spots(self.of, self.between)
        return self.change(draft, draws, spots[draws.below(len(spots))]) if spots else None

    def change(self, draft: Draft, draws: Draws, place: Place) -> int | None:
        raise NotImplementedError

    def fault_in(self, scenario: Scenario) -> str | None:
        has_line = any(line.first == self.of for frame in scenario.frames for line in frame)
        return super().fault_in(scenario) if has_line else f"the scenario has no `{self.of}` line"


@dataclass(frozen=True)
class Lost(OfLine):
    """A command isn't sent."""

    kind = "lost"

    def change(self, draft: Draft, draws: Draws, place: Place) -> int | None:
        draft.remove(place, self.kind)
        return place.frame


@dataclass(frozen=True)
class Doubled(OfLine):
    """A command is sent twice."""

    kind = "doubled"

    def change(self, draft: Draft, draws: Draws, place: Place) -> int | None:
        text = " ".join(draft.line(place).words)
        if not draft.has_room(place.frame, text):
            return None
        draft.insert(place.frame, place.at + 1, text, self.kind)
        return place.frame


@dataclass(frozen=True)
class Damaged(OfLine):
    """One bit of a command is another; version, sequence flags and length stay, without which it would be no packet."""

    kind = "damaged"

    def change(self, draft: Draft, draws: Draws, place: Place) -> int | None:
        data = bytearray.fromhex(draft.line(place).words[1])
        bits = [bit for bit in range(8 * len(data)) if bit not in KEPT_BITS]
        bit = bits[draws.below(len(bits))]
        data[bit // 8] ^= 0x80 >> bit % 8
        draft.replace(place, f"send {data.hex().upper()}", f"{self.kind} in bit {bit}")
        return place.frame


# Bits of a packet, counted from the most significant one of its first byte: version, sequence flags, length.
KEPT_BITS = {*range(0, 3), *range(16, 18), *range(32, 48)}


@dataclass(frozen=True)
class Moved(OfLine):
    """A line stands some frames earlier or later, at most in the scenario's first or last frame."""

    by: ClassVar[int] = 1
    frames: Span = _spans(1, 5)

    def change(self, draft: Draft, draws: Draws, place: Place) -> int | None:
        line = draft.line(place)
        text = " ".join(line.words)
        target = min(max(place.frame + self.by * draws.within(self.frames), 0), len(draft.frames) - 1)
        if target == place.frame or not draft.has_room(target, text):
            return None
        draft.remove(place, f"{self.kind}, moved to frame {target}")
        draft.append(target, text, f"{self.kind}, from frame {place.frame}")
        return min(place.frame, target)


class Late(Moved):
    """A command is sent some frames later."""

    kind = "late"


class LateTable(Moved):
    """A table becomes active some frames later."""

    kind, of = "late_table", "activate"


class EarlyTable(Moved):
    """A table becomes active some frames earlier."""

    kind, of, by = "early_table", "activate", -1


@dataclass(frozen=True)
class Reset(Fault):
    """The ground sends an event message that the set's event monitors answer by a processor reset (action 1)."""

    kind = "reset"
    event: str = "GROUND 1"

    def befall(self, draft: Draft, draws: Draws) -> int | None:
        frame, text = self.frame(draft, draws), f"send {self.packet().hex().upper()}"
        if frame is None or not draft.has_room(frame, text):
            return None
        draft.append(frame, text, f"{self.kind} by the ground")
        return frame

    def message(self) -> tuple[str, int]:
        """The event's name and its number."""
        name, _, number = self.event.partition(" ")
        if not NAME.fullmatch(name) or not number.isascii() or not number.isdigit() or int(number) not in EVENT_NUMBER:
            raise Wrong(f"event {self.event!r} isn't a name and a number up to 65535, as \"GROUND 1\"")
        return name, int(number)

    def packet(self) -> bytes:
        """An event of type 2 (docs/COMMANDS.md) with time 0."""
        name, number = self.message()
        return struct.pack(">HHHIH20sHHII", 0x0808, 0xC000, 37, 0, 0, name.encode(), number, 2, 66, 1)

    def fault_in(self, scenario: Scenario) -> str | None:
        try:
            self.message()
        except Wrong as wrong:
            return str(wrong)
        return super().fault_in(scenario)


_ALL: tuple[type[Fault], ...] = (Upset, Hold, Hang, Lost, Doubled, Late, Damaged, EarlyTable, LateTable, Reset)
KINDS = {fault.kind: fault for fault in _ALL}

# What may befall a scenario where no plan says it; a reset by the ground needs a set that knows it.
USUAL = (Upset(), *(fault(often=0.25) for kind, fault in KINDS.items() if kind not in ("upset", "reset")))


def perturbed(scenario: Scenario, faults: tuple[Fault, ...], seed: int) -> tuple[bytes, tuple[Befallen, ...]]:
    """The text that a seed gives, and what befell it: each fault in turn, on the text that the ones before it left."""
    draft = Draft(scenario)
    told = tuple(_befall(draft, faults, seed))
    return draft.text(), told


def _befall(draft: Draft, faults: tuple[Fault, ...], seed: int) -> Iterator[Befallen]:
    for fault in faults:
        draws = Draws(f"{fault.kind} {fault.seed} {seed}")
        for _ in range(draws.times(fault.often)):
            frame = fault.befall(draft, draws) if draft.room >= ROOM_OF_FAULT else None
            if frame is not None:
                yield Befallen(fault.kind, frame)
