"""Sets of table files, and the little that a campaign looks at in them (docs/FILES.md)."""

import hashlib
import struct
from dataclasses import dataclass
from functools import cached_property

_TABLE, _NAME, _PAYLOAD = 8, slice(76, 116), 116
_FIRST_SEQUENCE = "SC.RTS_TBL001"
_EVENT_MONITORS = "HS.EventMon_Tbl"
_MONITOR = struct.Struct(">20sHH")
_PROCESSOR_RESET = 1


def hash_of(*parts: bytes) -> str:
    """SHA-256 of the parts: of each its length, 8 bytes, and the part."""
    digest = hashlib.sha256()
    for part in parts:
        digest.update(len(part).to_bytes(8, "big"))
        digest.update(part)
    return digest.hexdigest()


@dataclass(frozen=True)
class TableSet:
    """A set of tables: its name, and the names and contents of its FILEs in order."""

    name: str
    files: tuple[tuple[str, bytes], ...]

    @cached_property
    def hash(self) -> str:
        """Of the contents alone: a set that has another name, or files that lie elsewhere, is no other set."""
        return hash_of(*(content for _, content in self.files))

    def tables(self, name: str) -> list[bytes]:
        """The payloads of the FILEs of a table."""
        return [content[_PAYLOAD:] for _, content in self.files if name_of(content) == name]

    @cached_property
    def has_first_sequence(self) -> bool:
        """Whether relative sequence 1 is loaded: the first FILE of it has a command."""
        return any(map(any, self.tables(_FIRST_SEQUENCE)[:1]))

    def resets_at(self, name: str, number: int) -> bool:
        """Whether an event monitor of any FILE answers this event by a processor reset."""
        wanted = (name.encode().ljust(20, b"\0"), number, _PROCESSOR_RESET)
        return any(
            entry == wanted
            for payload in self.tables(_EVENT_MONITORS)
            for entry in _MONITOR.iter_unpack(payload[: len(payload) // _MONITOR.size * _MONITOR.size])
        )


def name_of(content: bytes) -> str | None:
    """The name of a table file, and nothing for other files."""
    if len(content) < _PAYLOAD or int.from_bytes(content[4:8], "big") != _TABLE:
        return None
    return content[_NAME].rstrip(b"\0").decode("latin-1")
