"""Random scenarios: the frames of a rehearsal, with all that may stand in them."""

import struct

from drawn.packets import NAMES
from making.commands import mm_dump, mm_eeprom_enable, sc_enable_rts, sc_start_ats, send

HELD = ("HS", "CS", "SC", "MM", "MD")
MOST_ITEMS = 64
DUMPED = 0x088B


def counter(dice, frames):
    """The values of a counter frame by frame: it stays, counts, counts up to a frame, or is missing now and then."""
    sort, first, change = dice.choice(("stays", "counts", "hangs", "gaps")), dice.choice((0, 1, 7, 4294967290)), dice.randrange(frames)
    for frame in range(frames):
        if sort == "stays":
            yield first
        elif sort == "counts":
            yield (first + frame) % (1 << 32)
        elif sort == "hangs":
            yield min(frame, change)
        else:
            yield frame if dice.random() < 0.6 else None


class Scenario:
    """Draws the text of a scenario: how busy its frames are, who is held when, and which counters there are."""

    def __init__(self, dice, packets, files):
        self.dice, self.packets, self.files, self.memory = dice, packets, files, packets.memory
        self.busy = dice.choice((0, 1, 3, 3, 8))
        self.floods, self.flooded = dice.choice((0, 0, 0, 0.03, 0.1)), False
        self.upsets, self.activations = dice.choice((0, 0.1, 0.5)), dice.choice((0, 0.1, 0.4))
        self.counters = {name: list(counter(dice, packets.frames)) for name in dice.sample(NAMES, dice.randint(0, len(NAMES)))}
        self.holds = [(dice.choice(HELD), dice.randrange(packets.frames), dice.choice((1, 2, 5, 20))) for _ in range(dice.choice((0, 0, 1, 3)))]
        self.breaks = dice.random() < 0.03

    def held(self, frame):
        return [application for application, first, count in self.holds if first <= frame < first + count]

    def number(self, value):
        return self.dice.choice((str(value), f"0x{value:X}"))

    def upset(self):
        region = self.dice.choice(self.memory.regions)
        at = region.start + self.dice.choice((0, region.length - 1, self.dice.randrange(region.length), self.dice.randrange(min(16, region.length))))
        return f"upset {self.number(at)} {self.number(self.dice.randint(0, 255))}"

    def opening(self):
        """What makes a rehearsal's later commands hit: protection is taken away, sequences are enabled and started."""
        protected = [region.number for region in self.memory.regions if region.kind == "EEPROM"]
        sent = [mm_eeprom_enable(number) for number in protected] + [sc_enable_rts(number) for number in sorted(self.packets.relative)]
        sent.append(sc_start_ats(self.dice.choice(sorted(self.packets.absolute))))
        return [send(packet) for packet in sent if self.dice.random() < 0.7]

    def flood(self):
        """Packets without end: of one kind, of one application, dumps of the largest size, or any."""
        sort, one = self.dice.randrange(4), self.packets.command()
        largest = max(self.memory.regions, key=lambda region: region.length)
        while True:
            if sort == 0:
                yield one
            elif sort == 1:
                application = struct.unpack(">H", one[:2])[0]
                yield self.packets.commands.get(application, self.packets.command)()
            elif sort == 2:
                yield mm_dump(largest.start, min(largest.length, 2048)) if self.dice.random() < 0.7 else self.packets.telemetry([DUMPED])
            else:
                yield self.packets.sent()

    def sends(self, frame):
        """The packets that are sent in a frame."""
        lines = self.opening() if frame == 0 else []
        lines += [send(self.packets.sent()) for _ in range(self.dice.randint(0, self.busy))]
        if self.breaks and self.dice.random() < 0.1:
            lines.append(send(self.packets.broken()))
        return lines

    def frame(self, frame):
        """The lines of a frame, of which mostly at most 64 are items."""
        lines = [f"app {name} {values[frame]}" for name, values in self.counters.items() if values[frame] is not None]
        lines += [f"hold {application}" for application in self.held(frame)]
        if self.dice.random() < self.upsets:
            lines += [self.upset() for _ in range(self.dice.randint(1, 3))]
        if self.dice.random() < self.activations:
            lines += [f"activate {self.dice.randint(0, len(self.files) + 1)}" for _ in range(self.dice.randint(1, 3))]
        lines += self.sends(frame)
        self.flooded = self.dice.random() < (0.5 if self.flooded else self.floods)
        if self.flooded:
            flood = self.flood()
            lines += [send(next(flood)) for _ in range(self.dice.choice((MOST_ITEMS, 30)) - len(lines))]
        if self.dice.random() < 0.5:
            self.dice.shuffle(lines)
        most = MOST_ITEMS + 1 if self.dice.random() < 0.0002 else MOST_ITEMS
        return lines[:most] if most == MOST_ITEMS else lines + lines[:1] * (most - len(lines))

    def text(self):
        """The whole text, which may have comments, further blanks, or a change that refuses it."""
        header = [f"epoch {self.number(self.packets.epoch)}", *(region.line() for region in self.memory.regions), "start"]
        lines = header + [line for frame in range(self.packets.frames) for line in (*self.frame(frame), "tick")] + ["end"]
        if self.dice.random() < 0.1:
            lines = [line.replace(" ", "  ") if self.dice.random() < 0.5 else f" {line} \n# {line}" for line in lines]
        text = ("\n".join(lines) + self.dice.choice(("", "\n", "\n\n"))).encode()
        if self.dice.random() < 0.02:
            place = self.dice.randrange(len(text))
            text = text[:place] + bytes([text[place] ^ 1 << self.dice.randrange(8)]) + text[place + 1 :]
        return text
