"""Lines of the log: a function for each packet that an application makes, and for a drop."""

import struct

EPOCH = 1000


def telemetry(frame, message_id, count, payload):
    """The line of a packet that an application made: its frame, its id, how many of that id came before, and its payload."""
    head = struct.pack(">HHHIH", message_id, 0xC000 + count % 16384, 6 + len(payload) - 1, EPOCH + frame, 0)
    return f"{frame} pkt {(head + payload).hex().upper()}"


def event(frame, application, count, number, kind):
    """The line of an event: type 2 is information, 3 an error."""
    return telemetry(frame, 0x0808, count, struct.pack(">20sHHII", application.encode(), number, kind, 66, 1))


def hs_housekeeping_packet(frame, count, accepted, errors, on, resets, sent, watching, counters):
    """`on` has both monitorings, `resets` those made and their maximum, and `counters` values by the entry's number."""
    shown = [counters.get(number, 0xFFFFFFFF) for number in range(1, 33)]
    return telemetry(frame, 0x08AD, count, struct.pack(">BBBBHHHHI32I", accepted, errors, *on, *resets, sent, 0, watching, *shown))


def stored(frame, sent):
    """The line of a packet that a table stores."""
    return f"{frame} pkt {sent.hex().upper()}"


def reset(frame):
    """The line of a request for a processor reset."""
    return f"{frame} reset"


def restart(frame, name):
    return f"{frame} restart {name}"


def peek_packet(frame, count, size, at, value):
    return telemetry(frame, 0x088A, count, struct.pack(">BII", size, at, value))


def dump_packet(frame, count, at, data):
    """The line of a dump's part, which has at most 128 bytes."""
    return telemetry(frame, 0x088B, count, struct.pack(">IH", at, len(data)) + data)


def mm_housekeeping_packet(frame, count, accepted, errors, open_regions):
    return telemetry(frame, 0x0887, count, bytes([accepted, errors, open_regions, 0]))


def dwell_packet(frame, table, count, values):
    return telemetry(frame, 0x0890 + table, count, struct.pack(">HH", table, len(values)) + values)


def md_housekeeping_packet(frame, count, accepted, errors, enabled):
    return telemetry(frame, 0x0890, count, bytes([accepted, errors, enabled, 0]))


def baseline_packet(frame, count, table, entry, baseline):
    given = (0, 0) if baseline is None else (1, baseline)
    return telemetry(frame, 0x08A5, count, struct.pack(">HHHH", table, entry, *given))


def cs_housekeeping_packet(frame, count, accepted, errors, flags, eeprom, memory, passes):
    return telemetry(frame, 0x08A4, count, struct.pack(">BBBBHHI", accepted, errors, flags, 0, eeprom, memory, passes))


def sc_housekeeping_packet(frame, count, accepted, errors, ats, left, sent, wrong, running, enabled):
    """`ats` is the absolute sequence that runs and `left` what is left of it; `running` and `enabled` are sets of relative ones."""
    masks = [sum(1 << (number - 1) for number in numbers) for numbers in (running, enabled)]
    return telemetry(frame, 0x08AA, count, struct.pack(">BBBBHHHHQQ", accepted, errors, ats, 0, left, sent, wrong, 0, *masks))


def lc_housekeeping_packet(frame, count, accepted, errors, active, fired, results):
    """`active` is a set of actionpoints, and `results` has 1 (it doesn't hold), 2 (it holds) or 3 (outside) by the watchpoint's number."""
    mask = sum(1 << (number - 1) for number in active)
    shown = sum(result << 2 * (number - 1) for number, result in results.items())
    return telemetry(frame, 0x08A7, count, struct.pack(">BBHHHQ", accepted, errors, 0, mask, fired, shown))


def drop(frame, pipe, why, lost):
    return f"{frame} drop {pipe} {why} {lost.hex().upper()}"


def crc16(data, crc=0):
    """CRC-16/ARC: each byte's lowest bit first, polynomial 0xA001, no final change."""
    for byte in data:
        for place in range(8):
            odd = (crc ^ (byte >> place)) & 1
            crc = (crc >> 1) ^ (0xA001 if odd else 0)
    return crc
