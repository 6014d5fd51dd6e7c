"""Files of tables and files to be loaded, byte by byte."""

import re
import struct
from collections import namedtuple

from . import packets
from .packets import ask

CONTENT = 0x63464531
TABLE = 8
LOAD = 100
TABLE_HEADER = 116
LOAD_HEADER = 80

APPLICATION_MONITORS = "HS.AppMon_Tbl"
EVENT_MONITORS = "HS.EventMon_Tbl"
EXECUTION_COUNTERS = "HS.ExeCount_Tbl"
MESSAGE_ACTIONS = "HS.MsgActs_Tbl"
EEPROM_CHECKSUMS = "CS.DefEepromTbl"
MEMORY_CHECKSUMS = "CS.DefMemoryTbl"
WATCHPOINTS = "LC.WDT_Tbl"
ACTIONPOINTS = "LC.ADT_Tbl"

NAME = re.compile(rb"([A-Za-z0-9_]{1,19})\0+\Z")
LAST_ACTION = 11
DWELL_LENGTHS = (0, 1, 2, 4)

# Entries. The number of a monitor is a cycle count in the table of
# applications and an event in that of events.
Monitor = namedtuple("Monitor", "name number action")
MessageAction = namedtuple("MessageAction", "state cooldown packet")
TimedCommand = namedtuple("TimedCommand", "time number packet")
DelayedCommand = namedtuple("DelayedCommand", "seconds packet")
DwellEntry = namedtuple("DwellEntry", "length delay address")
DwellTable = namedtuple("DwellTable", "enabled entries")
Segment = namedtuple("Segment", "state start length")
Watchpoint = namedtuple("Watchpoint", "type message offset operator mask limit")
Actionpoint = namedtuple("Actionpoint", "state sequence failures words")

TableFile = namedtuple("TableFile", "name table")
LoadFile = namedtuple("LoadFile", "address data")


def absolute_name(sequence):
    return f"SC.ATS_TBL{sequence}"


def relative_name(sequence):
    return f"SC.RTS_TBL{sequence:03d}"


def dwell_name(table):
    return f"MD.DWELL_TABLE{table}"


def name_of(padded, used):
    """The name in its 20 bytes, which an unused entry needn't have."""
    match = NAME.match(padded)
    ask(match or not used, "a used entry has a name")
    return match.group(1).decode("ascii") if match else ""


def monitors(payload, needs_number):
    """An application monitor is unused where its cycle count is 0 too."""
    table = []
    for padded, number, action in struct.iter_unpack(">20sHH", payload):
        used = action != 0 and (number != 0 or not needs_number)
        ask(action <= LAST_ACTION, "an action is at most 11")
        table.append(Monitor(name_of(padded, used), number, action))
    return table


def application_monitors(payload):
    return monitors(payload, needs_number=True)


def event_monitors(payload):
    return monitors(payload, needs_number=False)


def execution_counters(payload):
    """The name of each entry, or None where the entry isn't used."""
    return [
        name_of(padded, used=True) if sort else None
        for padded, sort in struct.iter_unpack(">20sH", payload)
    ]


def message_actions(payload):
    actions = []
    for state, cooldown, area in struct.iter_unpack(">HH64s", payload):
        ask(state == 0 or packets.begins_packet(area, longest=64), "an action has a packet")
        packet = area[: packets.whole_length(area)] if state else b""
        actions.append(MessageAction(state, cooldown, packet))
    return actions


def sequence_entries(payload, head):
    """The fields before each command of a sequence, and the command.

    The list ends where zero bytes alone remain, or nothing.
    """
    size = struct.calcsize(head)
    position = 0
    while payload[position:].strip(b"\0"):
        begin = position + size
        rest = payload[begin:]
        begins = packets.begins_packet(rest) and packets.is_command(rest)
        ask(begins, "a command packet begins behind each head of a sequence")
        length = packets.whole_length(rest)
        ask(length <= len(rest), "a command of a sequence ends in it")
        yield struct.unpack(head, payload[position:begin]), rest[:length]
        position = begin + length


def absolute_sequence(payload):
    """The commands in order of time, and at one time in order of number."""
    commands = [
        TimedCommand(time, number, packet)
        for (number, time), packet in sequence_entries(payload, ">HI")
    ]
    return sorted(commands)


def relative_sequence(payload):
    return [
        DelayedCommand(seconds, packet)
        for (seconds,), packet in sequence_entries(payload, ">H")
    ]


def dwell_table(payload):
    (enabled,) = struct.unpack_from(">H", payload)
    entries = [DwellEntry(*entry) for entry in struct.iter_unpack(">HHI", payload[4:])]
    lengths = all(entry.length in DWELL_LENGTHS for entry in entries)
    ask(lengths, "the length of a dwell entry is 0, 1, 2 or 4")
    return DwellTable(enabled == 1, entries)


def segments(payload):
    return [Segment(*entry) for entry in struct.iter_unpack(">H2xII", payload)]


def watchpoints(payload):
    points = [Watchpoint(*entry) for entry in struct.iter_unpack(">HHHHII", payload)]
    ask(all(point.type <= 3 for point in points), "the type of a watchpoint is at most 3")
    related = all(point.type == 0 or 1 <= point.operator <= 6 for point in points)
    ask(related, "the operator of a watchpoint is 1 to 6")
    return points


def actionpoints(payload):
    points = []
    for state, sequence, failures, length, *words in struct.iter_unpack(">20H", payload):
        points.append(Actionpoint(state, sequence, failures, words[:length]))
    return points


# How a payload is read, and the number of its bytes where that is fixed.
_FIXED = {
    APPLICATION_MONITORS: (application_monitors, 768),
    EVENT_MONITORS: (event_monitors, 384),
    EXECUTION_COUNTERS: (execution_counters, 704),
    MESSAGE_ACTIONS: (message_actions, 544),
    EEPROM_CHECKSUMS: (segments, 192),
    MEMORY_CHECKSUMS: (segments, 192),
    WATCHPOINTS: (watchpoints, 512),
    ACTIONPOINTS: (actionpoints, 640),
    **{dwell_name(table): (dwell_table, 204) for table in range(1, 5)},
}
_SEQUENCES = {
    **{absolute_name(sequence): absolute_sequence for sequence in (1, 2)},
    **{relative_name(sequence): relative_sequence for sequence in range(1, 65)},
}


def empty_tables():
    """The tables of a run without files: all bytes 0, and no commands."""
    tables = {name: read(bytes(size)) for name, (read, size) in _FIXED.items()}
    tables.update({name: [] for name in _SEQUENCES})
    return tables


def is_of_limit_checker(name):
    return name in (WATCHPOINTS, ACTIONPOINTS)


def read_table(data):
    offset, count = struct.unpack_from(">II", data, 68)
    name = data[76:TABLE_HEADER].rstrip(b"\0").decode("ascii", "replace")
    payload = data[TABLE_HEADER:]
    ask(offset == 0 and count == len(payload), "a table's header fits its payload")
    if name in _SEQUENCES:
        return TableFile(name, _SEQUENCES[name](payload))
    ask(name in _FIXED and _FIXED[name][1] == len(payload), "a table has its size")
    return TableFile(name, _FIXED[name][0](payload))


def read_load(data):
    address, count, check = struct.unpack_from(">III", data, 64)
    loaded = data[LOAD_HEADER:]
    fits = count == len(loaded) and check == packets.crc(loaded)
    ask(fits, "the header of a load file fits its bytes")
    return LoadFile(address, loaded)


def read_file(data):
    ask(len(data) >= LOAD_HEADER, "a file has headers")
    content, subtype = struct.unpack_from(">II", data)
    ask(content == CONTENT, "a file has the content type of the cFE")
    if subtype == LOAD:
        return read_load(data)
    ask(subtype == TABLE and len(data) >= TABLE_HEADER, "a file is a table or a load")
    return read_table(data)
