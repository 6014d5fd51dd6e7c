"""What was seen of the outputs: lines, events, drops and refusals, so that it shows what the random rehearsals reach."""

import re
from collections import Counter

# The application of each id of telemetry, and the events that it may give (docs/COMMANDS.md; those of TBL in docs/SCENARIO.md).
IDS = {"08AD": "HS", "0887": "MM", "088A": "MM", "088B": "MM", "0890": "MD", "0891": "MD", "0892": "MD", "0893": "MD", "0894": "MD", "08A4": "CS", "08A5": "CS", "08AA": "SC", "08A7": "LC"}
EVENTS = {
    "TBL": (1, 2, 3),
    "HS": (1, 2, 3, *range(16, 22), 24, 25, *range(101, 106), *range(111, 116)),
    "CS": (*range(1, 7), *range(16, 25), 101),
    "SC": (*range(1, 10), *range(16, 26), *range(101, 105)),
    "MM": (*range(1, 13), *range(16, 22), 24, 27, 28, 29),
    "MD": (*range(1, 8), *range(16, 21)),
    "LC": (*range(1, 6), *range(16, 20), 101),
}
REFUSED = re.compile(rb"vigil: (file|scenario) .*refused.*, reason (\d+)")
EVENT_NAME, EVENT_NUMBER = slice(24, 64), slice(64, 68)


def told(counter):
    """A count of each, the most first."""
    return ", ".join(f"{key} {count:,}" for key, count in counter.most_common())


class Counts:
    """Counts over all rehearsals so far, of the first program's outputs."""

    def __init__(self):
        self.rehearsals = self.logged = self.runs = self.lines = self.size = 0
        self.statuses, self.by, self.events, self.drops, self.refusals, self.drawn = (Counter() for _ in range(6))

    def add(self, draw, answer):
        """Counts what a rehearsal was, and the answer to it."""
        status, out, err = answer
        self.rehearsals += 1
        self.statuses[status] += 1
        self.logged += bool(out) and not draw.is_drill
        self.size += len(out)
        self.drawn.update(file.kind for file in draw.files)
        self.drawn.update(f"with a fault ({file.fault})" for file in draw.files if file.fault)
        refused = REFUSED.match(err)
        if refused:
            self.refusals[f"{refused[1].decode()} {refused[2].decode()}"] += 1
        if not draw.is_drill:
            for line in out.decode("ascii").splitlines():
                self.line(line)

    def line(self, line):
        self.lines += 1
        _, sort, *rest = line.split(" ")
        if sort == "drop":
            self.by["drops"] += 1
            self.drops[f"{rest[0]} {rest[1]}"] += 1
        elif sort != "pkt":
            self.by[f"requests of {sort}"] += 1
        elif rest[0][:4] == "0808" and len(rest[0]) == 88:
            name = bytes.fromhex(rest[0][EVENT_NAME]).rstrip(b"\0").decode("ascii", "replace")
            self.by[name if name in EVENTS else "stored"] += 1
            self.events[name, int(rest[0][EVENT_NUMBER], 16)] += 1
        else:
            self.by[IDS.get(rest[0][:4], "stored")] += 1

    def missing(self):
        """The events that no line had."""
        return [f"{name} {number}" for name, numbers in EVENTS.items() for number in numbers if not self.events[name, number]]

    def report(self):
        """Lines that tell all of it."""
        yield f"{self.rehearsals:,} rehearsals in {self.runs:,} runs; {self.logged:,} had log lines, {self.lines:,} of {self.size:,} bytes"
        yield f"statuses: {told(self.statuses)}"
        yield f"refusals by reason: {told(self.refusals)}"
        yield f"files: {told(self.drawn)}"
        yield f"lines: {told(self.by)}"
        yield f"drops: {told(self.drops)}"
        for name, numbers in EVENTS.items():
            yield f"events of {name}: " + ", ".join(f"{number}: {self.events[name, number]:,}" for number in numbers)
        yield f"events that no line had: {', '.join(self.missing()) or 'none'}"
