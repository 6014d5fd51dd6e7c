"""Which entries no table should have, by the reasons of docs/FILES.md: told before a file is written."""

import struct

from making.packets import is_command, is_packet

NO_NAME = b"\0" * 20
OPERATORS = range(0x8001, 0x8005)


def rows(payload, form):
    """The entries of a payload, each with its number."""
    return enumerate(struct.iter_unpack(">" + form, payload), 1)


def dwell(payload):
    flag, _ = struct.unpack_from(">HH", payload)
    if flag > 1:
        yield 0, f"the enabled flag is {flag}, and not 0 or 1"
    for number, (length, _, address) in rows(payload[4:], "HHI"):
        if length not in (0, 1, 2, 4):
            yield number, f"the length {length} isn't 0, 1, 2 or 4"
        elif length and address % length:
            yield number, f"the address 0x{address:X} isn't a multiple of {length}"


def checksum(payload):
    for number, (state, _, _, length) in rows(payload, "HHII"):
        if state > 2:
            yield number, f"the state {state} is over 2"
        elif state and not length:
            yield number, "the length is 0"


def monitors(payload, sort):
    for number, (name, _, action) in rows(payload, "20sHH"):
        if action > 11:
            yield number, f"the action {action} is over 11"
        if action and name == NO_NAME:
            yield number, f"the {sort} has no name"


def counters(payload):
    for number, (_, sort) in rows(payload, "20sH"):
        if sort > 4:
            yield number, f"the type {sort} is over 4"


def actions(payload):
    for number, (state, _, area) in rows(payload, "HH64s"):
        if state > 2:
            yield number, f"the state {state} is over 2"
        length = struct.unpack_from(">H", area, 4)[0] + 7
        if state and not (length <= 64 and is_packet(area[:length])):
            yield number, "no packet of 8 to 64 bytes begins here"


def watch(payload):
    for number, (sort, _, _, operator, _, _) in rows(payload, "HHHHII"):
        if sort > 3:
            yield number, f"the type {sort} is over 3"
        elif sort and operator not in range(1, 7):
            yield number, f"the operator {operator} isn't 1 to 6"


def values_left(words):
    """How many values an expression leaves, or None where an operand is missing or a word is none."""
    depth = 0
    for word in words:
        depth += 1 if word < 32 else 0 if word == 0x8004 else -1
        if depth < 1 or word >= 32 and word not in OPERATORS:
            return None
    return depth


def acts(payload):
    for number, (state, sequence, failures, length, *words) in rows(payload, "20H"):
        if state > 2:
            yield number, f"the state {state} is over 2"
        elif state and sequence not in range(1, 65):
            yield number, f"the relative sequence {sequence} isn't 1 to 64"
        elif state and not failures:
            yield number, "the number of failures is 0"
        elif state and values_left(words[:length]) != 1:
            yield number, "the expression doesn't leave one value"


def sequence(payload, head):
    place, entry, seen = 0, 0, set()
    while place < len(payload):
        entry += 1
        if head == 6:
            number = struct.unpack_from(">H", payload, place)[0]
            if number not in range(1, 1001):
                yield entry, f"the number {number} isn't 1 to 1000"
            if number in seen:
                yield entry, f"the number {number} is given twice"
            seen.add(number)
        place += head
        length = struct.unpack_from(">H", payload, place + 4)[0] + 7
        if not is_command(payload[place : place + length]):
            return (yield entry, "no command packet begins here")
        place += length


JUDGES = {
    "dwell": dwell,
    "checksum": checksum,
    "apps": lambda payload: monitors(payload, "application monitor"),
    "events": lambda payload: monitors(payload, "event monitor"),
    "counters": counters,
    "actions": actions,
    "watch": watch,
    "acts": acts,
    "ats": lambda payload: sequence(payload, 6),
    "rts": lambda payload: sequence(payload, 2),
    "load": lambda payload: (),
}


def faults_of(sort, data):
    """The faults of a table's file, each as its entry and a sentence."""
    return list(JUDGES[sort](data[116:]))
