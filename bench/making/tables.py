"""Files of tables and files to be loaded, laid out as docs/FILES.md tells them."""

import struct

from making import Wrong
from making.log import crc16

DWELL_TABLES, DWELL_ENTRIES, CHECKSUM_ENTRIES = range(1, 5), range(1, 26), range(1, 17)
ATS_TABLES, RTS_TABLES = range(1, 3), range(1, 65)
APP_ENTRIES, EVENT_ENTRIES, COUNTER_ENTRIES, ACTION_ENTRIES = range(1, 33), range(1, 17), range(1, 33), range(1, 9)
WATCHPOINTS, ACTIONPOINTS = range(1, 33), range(1, 17)
EEPROM_TABLE, MEMORY_TABLE = "CS.DefEepromTbl", "CS.DefMemoryTbl"


def table_file(name, payload):
    """The headers of a table file, and its payload."""
    first = struct.pack(">II56x", 0x63464531, 8)
    second = struct.pack(">4xII40s", 0, len(payload), name.encode())
    return first + second + payload


def load_file(at, data):
    """The file of bytes that are to be loaded at an address, with their check."""
    return struct.pack(">II56x", 0x63464531, 100) + struct.pack(">III4x", at, len(data), crc16(data)) + data


def dwell_table(number, enabled, entries):
    """The file of dwell table 1 to 4. Each entry is (length, delay, address); there are at most 25."""
    if number not in DWELL_TABLES:
        raise Wrong(f"there are dwell tables 1 to 4, and no table {number}")
    if len(entries) > len(DWELL_ENTRIES):
        raise Wrong(f"a dwell table has at most {len(DWELL_ENTRIES)} entries, not {len(entries)}")
    rows = b"".join(struct.pack(">HHI", *entry) for entry in entries)
    payload = struct.pack(">HH", int(enabled), 0) + rows.ljust(200, b"\0")
    return table_file(f"MD.DWELL_TABLE{number}", payload)


def placed(about, entries, places, size):
    """Entries of `size` bytes in their places, with zero bytes in all others."""
    for number in entries:
        if number not in places:
            raise Wrong(f"{about} has entries 1 to {len(places)}, and no entry {number}")
    return b"".join(entries.get(number, b"").ljust(size, b"\0") for number in places)


def checksum_table(name, entries):
    """The file of a checksum table. `entries` gives (state, start, length) by the entry's number, 1 to 16."""
    rows = {number: struct.pack(">HHII", state, 0, start, length) for number, (state, start, length) in entries.items()}
    return table_file(name, placed("a checksum table", rows, CHECKSUM_ENTRIES, 12))


def monitors(entries):
    return {number: struct.pack(">20sHH", name.encode(), *numbers) for number, (name, *numbers) in entries.items()}


def apps_table(entries):
    """The file of the application monitors. `entries` gives (name, cycles, action) by the entry's number, 1 to 32."""
    return table_file("HS.AppMon_Tbl", placed("the table of application monitors", monitors(entries), APP_ENTRIES, 24))


def events_table(entries):
    """The file of the event monitors. `entries` gives (name, event, action) by the entry's number, 1 to 16."""
    return table_file("HS.EventMon_Tbl", placed("the table of event monitors", monitors(entries), EVENT_ENTRIES, 24))


def counters_table(entries):
    """The file of the execution counters. `entries` gives (name, type) by the entry's number, 1 to 32."""
    rows = {number: struct.pack(">20sH", name.encode(), sort) for number, (name, sort) in entries.items()}
    return table_file("HS.ExeCount_Tbl", placed("the table of execution counters", rows, COUNTER_ENTRIES, 22))


def actions_table(entries):
    """The file of the message actions. `entries` gives (state, cooldown, packet) by the entry's number, 1 to 8."""
    rows = {number: struct.pack(">HH", state, cooldown) + packet for number, (state, cooldown, packet) in entries.items()}
    return table_file("HS.MsgActs_Tbl", placed("the table of message actions", rows, ACTION_ENTRIES, 68))


def ats_table(number, commands):
    """The file of absolute sequence 1 or 2. Each command is (number, time, packet), as it is stored."""
    if number not in ATS_TABLES:
        raise Wrong(f"there are absolute sequences 1 and 2, and no sequence {number}")
    return table_file(f"SC.ATS_TBL{number}", b"".join(struct.pack(">HI", place, time) + packet for place, time, packet in commands))


def rts_table(number, commands):
    """The file of relative sequence 1 to 64. Each command is (seconds, packet)."""
    if number not in RTS_TABLES:
        raise Wrong(f"there are relative sequences 1 to 64, and no sequence {number}")
    return table_file(f"SC.RTS_TBL{number:03}", b"".join(struct.pack(">H", seconds) + packet for seconds, packet in commands))


def watch_table(entries):
    """The file of the watchpoints. `entries` gives (type, id, offset, operator, mask, limit) by the entry's number, 1 to 32."""
    rows = {number: struct.pack(">HHHHII", *entry) for number, entry in entries.items()}
    return table_file("LC.WDT_Tbl", placed("the table of watchpoints", rows, WATCHPOINTS, 16))


def acts_table(entries):
    """The file of the actionpoints. `entries` gives (state, sequence, failures, words) by the entry's number, 1 to 16; there are at most 16 words."""
    for number, (_, _, _, words) in entries.items():
        if len(words) > 16:
            raise Wrong(f"an actionpoint has at most 16 words, and entry {number} has {len(words)}")
    rows = {number: struct.pack(f">HHHH{len(words)}H", *numbers, len(words), *words) for number, (*numbers, words) in entries.items()}
    return table_file("LC.ADT_Tbl", placed("the table of actionpoints", rows, ACTIONPOINTS, 40))
