"""The CRC that `vigil` tells of a drill's log: CRC-16/ARC (docs/FILES.md), begun with 0."""

import struct


def _shifted(value: int, bits: int) -> int:
    for _ in range(bits):
        value = (value >> 1) ^ (0xA001 if value & 1 else 0)
    return value


# What 16 bits become when they are shifted out, so that a step takes two bytes.
_PAIRS = tuple(_shifted(pair, 16) for pair in range(1 << 16))


def crc16(data: bytes) -> int:
    """The CRC of the bytes: 0xBB3D for `123456789`."""
    crc = 0
    for pair in struct.unpack(f"<{len(data) // 2}H", data[: len(data) & ~1]):
        crc = _PAIRS[crc ^ pair]
    return _shifted(crc ^ data[-1], 8) if len(data) % 2 else crc
