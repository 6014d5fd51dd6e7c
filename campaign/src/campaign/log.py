"""What a log holds (docs/COMMANDS.md): its counts, and patterns that its lines match."""

import re
from collections import Counter
from collections.abc import Callable
from dataclasses import asdict, dataclass

from campaign import Wrong

# Whose telemetry an id is; the commands that a table stores are counted as sent to their application.
TELEMETRY = {
    **dict.fromkeys(["08AD"], "HS"),
    **dict.fromkeys(["08A4", "08A5"], "CS"),
    **dict.fromkeys(["08AA"], "SC"),
    **dict.fromkeys(["0887", "088A", "088B"], "MM"),
    **dict.fromkeys(["0890", "0891", "0892", "0893", "0894"], "MD"),
    **dict.fromkeys(["08A7"], "LC"),
}
COMMANDS = {"18AE": "HS", "18AF": "HS", "189F": "CS", "18A0": "CS", "18A9": "SC", "18AA": "SC", "1888": "MM", "1889": "MM", "1890": "MD", "1891": "MD", "18A6": "LC", "18A7": "LC"}
PIPES = ("HS", "HS.EV", "CS", "SC", "MM", "MD", "LC", "LC.TLM")

_EVENTS = re.compile(rb"^[0-9]+ pkt 0808.{20}(.{48})", re.M)
_PACKETS = re.compile(rb"^[0-9]+ pkt (.{4})", re.M)
_REQUESTS = re.compile(rb"^[0-9]+ (reset|restart .+|delete .+)$", re.M)
_DROPS = re.compile(rb"^[0-9]+ drop ([A-Z.]+ [a-z]+) ", re.M)

_NAME = re.compile("[0-9A-Za-z_]{1,19}")
_ID = re.compile("0x([0-9a-fA-F]{4})")
_NUMBER = re.compile("[0-9]{1,5}")


@dataclass(frozen=True)
class Counts:
    """Counts of a log: packets by application (`to MM`: stored commands), events as "CS 101 type 3", requests, drops by pipe and cause."""

    lines: int
    packets: dict[str, int]
    events: dict[str, int]
    requests: dict[str, int]
    drops: dict[str, int]

    @classmethod
    def of(cls, log: bytes) -> "Counts":
        events = Counter(_EVENTS.findall(log))
        packets: Counter[str] = Counter()
        for code, count in Counter(_PACKETS.findall(log)).items():
            if code != b"0808":
                packets[sender_of(code.decode())] += count
        told: Counter[str] = Counter()
        for payload, count in events.items():
            name, number, kind = event_of(payload)
            packets[name] += count
            told[f"{name} {number} type {kind}"] += count
        return cls(log.count(b"\n"), _sorted(packets), _sorted(told), _counted(_REQUESTS, log), _counted(_DROPS, log))

    def parts(self) -> dict[str, dict[str, int]]:
        """The counts by what they count, without the number of lines."""
        return {name: counts for name, counts in asdict(self).items() if name != "lines"}


def event_of(payload: bytes) -> tuple[str, int, int]:
    """Name, number and type of an event by 48 digits of its payload."""
    name = bytes.fromhex(payload[:40].decode()).rstrip(b"\0").decode("latin-1")
    return name, int(payload[40:44], 16), int(payload[44:48], 16)


def glossed(line: str) -> str:
    """A line of the log; where it is an event, its name and number stand before it in parentheses."""
    found = _EVENTS.match(line.encode("latin-1"))
    return f"({' '.join(map(str, event_of(found[1])[:2]))}) {line}" if found else line


def sender_of(code: str) -> str:
    """Whose packet the four digits of an id tell; `to MM` where it is a command for MM, and the id itself where it is nobody's."""
    if code in COMMANDS:
        return f"to {COMMANDS[code]}"
    return TELEMETRY.get(code, f"0x{code}")


def _sorted(counts: Counter[str]) -> dict[str, int]:
    return dict(sorted(counts.items()))


def _counted(pattern: re.Pattern[bytes], log: bytes) -> dict[str, int]:
    return _sorted(Counter(found.decode("latin-1") for found in pattern.findall(log)))


def pattern_of(words: list[str]) -> re.Pattern[bytes]:
    """The expression of the log's lines that the words name; its group 1 is the frame. Wrong where they name none."""
    rest = _FORMS.get(words[0]) if words else None
    if rest is None:
        raise Wrong(f"{' '.join(words)!r} doesn't begin with {', '.join(_FORMS)}")
    return re.compile(rb"^([0-9]+) " + rest(words[1:]), re.M)


def _event(words: list[str]) -> bytes:
    if len(words) not in (2, 4) or words[2:3] not in ([], ["type"]):
        raise Wrong("an event is written as `event NAME NUMBER` or `event NAME NUMBER type TYPE`")
    name, number, *kind = words
    if name != "any" and not _NAME.fullmatch(name):
        raise Wrong(f"{name!r} is no name of an event")
    shown = b".{40}" if name == "any" else name.encode().ljust(20, b"\0").hex().upper().encode()
    return b"pkt 0808.{20}" + shown + _digits(number) + (_digits(kind[1]) if kind else b"")


def _digits(word: str) -> bytes:
    """Four digits of the log, or any."""
    if word == "any":
        return b".{4}"
    if not _NUMBER.fullmatch(word) or int(word) > 0xFFFF:
        raise Wrong(f"{word!r} is no number up to 65535, and not `any`")
    return b"%04X" % int(word)


def _packet(words: list[str]) -> bytes:
    found = _ID.fullmatch(words[0]) if len(words) == 1 else None
    if found is None:
        raise Wrong("a packet is written as `packet 0x088A`, with four digits")
    return b"pkt " + found[1].upper().encode()


def _drop(words: list[str]) -> bytes:
    if len(words) not in (1, 2) or words[0] not in ("any", *PIPES) or words[1:] not in ([], ["limit"], ["full"]):
        raise Wrong(f"a drop is written as `drop PIPE`, `drop PIPE limit` or `drop PIPE full`; PIPE is any or one of {', '.join(PIPES)}")
    pipe = b"[A-Z.]+" if words[0] == "any" else re.escape(words[0].encode())
    return b"drop " + pipe + (f" {words[1]} " if len(words) == 2 else " ").encode()


def _reset(words: list[str]) -> bytes:
    if words:
        raise Wrong("a processor reset is written as `reset`")
    return b"reset$"


def _named(request: str) -> Callable[[list[str]], bytes]:
    def of(words: list[str]) -> bytes:
        if len(words) != 1 or not _NAME.fullmatch(words[0]):
            raise Wrong(f"it is written as `{request} NAME` or `{request} any`")
        return f"{request} ".encode() + (b".+" if words[0] == "any" else words[0].encode()) + b"$"

    return of


_FORMS: dict[str, Callable[[list[str]], bytes]] = {"event": _event, "packet": _packet, "drop": _drop, "reset": _reset, "restart": _named("restart"), "delete": _named("delete")}
