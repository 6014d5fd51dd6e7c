"""Packets: their fields, their check, and the CRC of memory and loads."""

import struct

EVENT = 0x0808
INFORMATION = 2
ERROR = 3

SPACECRAFT = 66
PROCESSOR = 1

SHORTEST = 8
LONGEST = 256


class Malformed(Exception):
    """A text or a file that isn't what the documents ask of it."""


def ask(holds, rule):
    if not holds:
        raise Malformed(f"it must hold that {rule}")


def identifier(packet):
    return int.from_bytes(packet[0:2], "big")


def is_command(packet):
    return identifier(packet) & 0x1800 == 0x1800


def code(packet):
    return packet[6] & 0x7F


def whole_length(data):
    """How many bytes the packet that begins here says it has."""
    return int.from_bytes(data[4:6], "big") + 7


def begins_packet(data, longest=LONGEST):
    """Whether version, sequence flags and length field are those of a packet."""
    if len(data) < 6 or data[0] >> 5 != 0 or data[2] >> 6 != 3:
        return False
    return SHORTEST <= whole_length(data) <= longest


def is_packet(data):
    return begins_packet(data) and whole_length(data) == len(data)


def exclusive_or(data):
    result = 0
    for byte in data:
        result ^= byte
    return result


def check_is_right(packet):
    return exclusive_or(packet) == 0xFF


def command(message, number, payload):
    """A command as a table would store it, without a sequence count."""
    head = struct.pack(">HHHB", message, 0xC000, len(payload) + 1, number)
    check = 0xFF ^ exclusive_or(head) ^ exclusive_or(payload)
    return head + bytes([check]) + payload


def telemetry(message, seconds, payload):
    """A telemetry packet whose sequence count is still 0."""
    return struct.pack(">HHHIH", message, 0xC000, len(payload) + 5, seconds, 0) + payload


def event(name, number, kind, seconds):
    payload = struct.pack(
        ">20sHHII", name.encode("ascii"), number, kind, SPACECRAFT, PROCESSOR
    )
    return telemetry(EVENT, seconds, payload)


def with_sequence_count(packet, count):
    return packet[0:2] + struct.pack(">H", 0xC000 | count) + packet[4:]


def _crc_of_byte(value):
    for _ in range(8):
        value = (value >> 1) ^ (0xA001 if value & 1 else 0)
    return value


_CRC_OF_BYTES = [_crc_of_byte(value) for value in range(256)]


def crc(data):
    """CRC-16/ARC: 0xBB3D for the digits 1 to 9."""
    result = 0
    for byte in data:
        result = (result >> 8) ^ _CRC_OF_BYTES[(result ^ byte) & 0xFF]
    return result
