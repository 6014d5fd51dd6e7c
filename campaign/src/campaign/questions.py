"""Questions that a plan asks of each run: lines such as `never event HS 104`, each of which a run holds or breaks."""

import re
from collections.abc import Callable
from dataclasses import dataclass

from campaign import Wrong
from campaign.faults import KINDS, Befallen
from campaign.log import pattern_of
from campaign.scenario import Line
from campaign.sequences import done_sequences

_WITHIN = re.compile(r"within ([0-9]{1,6}) of ([^:]+):(.+)")
_COUNTED = re.compile(r"at (most|least) ([0-9]{1,9}) (.+)")
_DONE = re.compile(r"ends with sequence (ATS[12]|RTS(?:[1-9]|[1-5][0-9]|6[0-4])) done")
FORMS = "`never PATTERN`, `ever PATTERN`, `at most N PATTERN`, `at least N PATTERN`, `within N of TRIGGER: PATTERN`, `ends with sequence ATS1 done`"


@dataclass(frozen=True)
class Run:
    """What a question may read: the log, the scenario's text, its frames, what befell it, and whether the set loads RTS 1."""

    log: bytes
    text: bytes
    frames: int
    befallen: tuple[Befallen, ...]
    has_first_sequence: bool


@dataclass(frozen=True)
class Question:
    """A question's line, and whether a run holds it."""

    line: str
    holds: Callable[[Run], bool]

    @classmethod
    def read(cls, line: str) -> "Question":
        """The question of a line; Wrong where it has no form of a question."""
        words = " ".join(line.split())
        for read in (_never_or_ever, _counted, _within, _done):
            holds = read(words)
            if holds:
                return cls(words, holds)
        raise Wrong(f"{line!r} is no question; there are {FORMS}")


def frames_of(pattern: re.Pattern[bytes], log: bytes) -> list[int]:
    """The frames of the lines that match, in order."""
    return [int(found[1]) for found in pattern.finditer(log)]


def _never_or_ever(line: str) -> Callable[[Run], bool] | None:
    first, _, rest = line.partition(" ")
    if first not in ("never", "ever"):
        return None
    pattern = pattern_of(rest.split())
    return lambda run: (pattern.search(run.log) is None) == (first == "never")


def _counted(line: str) -> Callable[[Run], bool] | None:
    found = _COUNTED.fullmatch(line)
    if not found:
        return None
    pattern, bound = pattern_of(found[3].split()), int(found[2])
    if found[1] == "most":
        return lambda run: len(pattern.findall(run.log)) <= bound
    return lambda run: len(pattern.findall(run.log)) >= bound


def _within(line: str) -> Callable[[Run], bool] | None:
    """Each frame of the trigger has a matching line in it or in the N frames behind it, where all of these belong to the run."""
    found = _WITHIN.fullmatch(line)
    if not found:
        return None
    count, frames, pattern = int(found[1]), _trigger(found[2].split()), pattern_of(found[3].split())

    def holds(run: Run) -> bool:
        told = frames_of(pattern, run.log)
        asked = (frame for frame in frames(run) if frame + count < run.frames)
        return all(any(frame <= at <= frame + count for at in told) for frame in asked)

    return holds


def _trigger(words: list[str]) -> Callable[[Run], list[int]]:
    """The frames in which a fault began, or of the lines of a pattern."""
    if len(words) == 1 and words[0] in ("upset", "hold"):
        return lambda run: _frames_of_items(run, words[0])
    if len(words) == 1 and words[0] in KINDS and words[0] != "reset":
        return lambda run: sorted(fault.frame for fault in run.befallen if fault.kind == words[0])
    try:
        pattern = pattern_of(words)
    except Wrong as wrong:
        raise Wrong(f"{' '.join(words)!r} is no fault ({', '.join(KINDS)}) and no pattern: {wrong}") from wrong
    return lambda run: frames_of(pattern, run.log)


def _frames_of_items(run: Run, first: str) -> list[int]:
    """The frames of the text with an upset; of holds of an application in frames in a row, the first one."""
    frames, frame, before, now = [], 0, set(), set()
    for text in run.text.decode("latin-1").split("\n"):
        line = Line.of(text)
        if line.first == first:
            now.add(line.words[1])
            if first == "upset" or line.words[1] not in before:
                frames.append(frame)
        elif line.first == "tick":
            frame, before, now = frame + 1, now, set()
    return frames


def _done(line: str) -> Callable[[Run], bool] | None:
    found = _DONE.fullmatch(line)
    if not found:
        return None
    sequence = found[1]
    return lambda run: sequence in done_sequences(run.text, run.log, run.has_first_sequence)
