"""What an application gives in a wakeup, each a line of the log."""

from dataclasses import dataclass

from . import packets


@dataclass(frozen=True)
class Made:
    """Telemetry that the application made; it gets a sequence count."""

    packet: bytes


@dataclass(frozen=True)
class Stored:
    """A packet of a table, sent as it is stored."""

    packet: bytes


@dataclass(frozen=True)
class Request:
    """Health and Safety asks for a reset, a restart or a deletion."""

    words: str


RESET = Request("reset")


def event(name, number, kind, seconds):
    return Made(packets.event(name, number, kind, seconds))
