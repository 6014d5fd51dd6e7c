"""Which of Stored Command's sequences came to their end in a run, as far as its scenario and its log tell.

An end is event 103 (absolute) or 104 (relative), which doesn't say of which sequence. So the starts and stops are
followed: each command in SC's pipe is answered by one event, in order (docs/COMMANDS.md). Of several relative sequences
that run beside each other, one is held to be done only where all of them ended or SC's housekeeping shows which run.
"""

import re
from collections import defaultdict, deque
from dataclasses import dataclass, field
from typing import NamedTuple

from campaign.scenario import Line

_COMMANDS = ("18A9", "18AA")
_REQUEST = "18AA"
_TOLD = re.compile(rb"^([0-9]+) (?:pkt ((?:18A9|18AA|08AA|0808.{20}5343(?:00){18}).*)|drop SC [a-z]+ (.*)|(reset))$", re.M)
START_ATS, STOP_ATS, START_RTS, STOP_RTS, SWITCH_ATS = 2, 3, 4, 5, 8
ACCEPTED, INFORMATION = 16, 2
RTS_STOPPED, ATS_ENDED, RTS_ENDED = 102, 103, 104


class Answer(NamedTuple):
    """An event of SC, or its housekeeping as the set of relative sequences that run."""

    number: int
    kind: int
    running: set[int] | None = None


@dataclass
class Frame:
    """A frame as SC's pipe sees it: what was offered and what was dropped, what SC told, whether it was held, and a reset behind."""

    sent: list[str] = field(default_factory=list)
    dropped: list[str] = field(default_factory=list)
    told: deque[Answer] = field(default_factory=deque)
    is_held: bool = False
    is_reset: bool = False


class Sequences:
    """The sequences that run, and those whose last run came to its end."""

    def __init__(self, has_first: bool) -> None:
        self.done: set[str] = set()
        self.has_first = has_first
        self.begin()

    def begin(self) -> None:
        """SC begins (anew): relative sequence 1 is started where it is loaded."""
        self.absolute = 0
        self.relative: set[int] = {1} if self.has_first else set()
        self.done -= {"RTS1"} if self.has_first else set()
        self.ended = self.stopped = 0

    def obey(self, code: int, number: int) -> None:
        """An accepted command."""
        if code in (START_ATS, SWITCH_ATS):
            self.absolute = number if code == START_ATS else 3 - self.absolute
            self.done.discard(f"ATS{self.absolute}")
        elif code == STOP_ATS:
            self.absolute = 0
        elif code == START_RTS:
            self.relative.add(number)
            self.done.discard(f"RTS{number}")
        elif code == STOP_RTS and number in self.relative:
            self.relative.discard(number)
            self.ended = max(self.ended - 1, 0)

    def hear(self, answer: Answer) -> None:
        """An event of a turn."""
        if answer.number == ATS_ENDED:
            self.done.add(f"ATS{self.absolute}")
            self.absolute = 0
        elif answer.number in (RTS_ENDED, RTS_STOPPED):
            self.ended += answer.number == RTS_ENDED
            self.stopped += answer.number == RTS_STOPPED
            if self.ended + self.stopped >= len(self.relative):
                self.settle(set())

    def settle(self, running: set[int]) -> None:
        """It is known which relative sequences run; which one stopped of several isn't."""
        if self.stopped == 0:
            self.done |= {f"RTS{number}" for number in self.relative - running}
        self.relative, self.ended, self.stopped = set(running), 0, 0

    def step(self, pipe: list[str], told: deque[Answer]) -> None:
        """A wakeup: the commands of the pipe with their answers, and then the turns."""
        for packet in pipe:
            if not told:
                return
            answer = told.popleft()
            code = int(packet[12:14], 16) & 0x7F
            if packet[:4] == _REQUEST and answer.running is not None:
                self.settle(answer.running)
            elif answer.number == ACCEPTED + code and answer.kind == INFORMATION:
                self.obey(code, int(packet[16:20] or "0", 16))
        for answer in told:
            self.hear(answer)


def done_sequences(text: bytes, log: bytes, has_first: bool) -> set[str]:
    """The sequences, as ATS1 or RTS64, whose last run came to its end; `has_first` where the set loads relative sequence 1."""
    frames = _frames(text, log)
    sequences, pipe = Sequences(has_first), list[str]()
    for number in sorted(frames):
        frame = frames[number]
        if not frame.is_held:
            sequences.step(pipe, frame.told)
            pipe = []
        if frame.is_reset:
            sequences.begin()
            pipe = []
        else:
            pipe += _kept(frame)
    return sequences.done


def _kept(frame: Frame) -> list[str]:
    """What the pipe kept of what was offered: the last ones are dropped."""
    kept = frame.sent[::-1]
    for packet in frame.dropped:
        if packet in kept:
            kept.remove(packet)
    return kept[::-1]


def _frames(text: bytes, log: bytes) -> dict[int, Frame]:
    """The frames in which SC is sent something, told something, held, or woken behind such a frame."""
    frames: dict[int, Frame] = defaultdict(Frame)
    number = 0
    for line in map(Line.of, text.decode("latin-1").split("\n")):
        if line.first == "tick":
            number += 1
        elif line.words == ("hold", "SC"):
            frames[number].is_held = True
        elif line.first == "send" and line.words[1][:4].upper() in _COMMANDS:
            frames[number].sent.append(line.words[1].upper())
    for found in _TOLD.finditer(log):
        _hear(frames[int(found[1])], *(part.decode() if part else "" for part in found.groups()[1:]))
    return frames


def _hear(frame: Frame, packet: str, dropped: str, reset: str) -> None:
    """A line of the log that has to do with SC."""
    if reset:
        frame.is_reset = True
    elif dropped:
        frame.dropped.append(dropped)
    elif packet[:4] in _COMMANDS:
        frame.sent.append(packet)
    elif packet[:4] == "08AA":
        running = int(packet[48:64], 16)
        frame.told.append(Answer(0, 0, {number for number in range(1, 65) if running >> (number - 1) & 1}))
    else:
        frame.told.append(Answer(int(packet[64:68], 16), int(packet[68:72], 16)))
