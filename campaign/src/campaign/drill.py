"""The text that `drill:K` stands for (docs/SCENARIO.md, "A generated scenario")."""

import re

FRAMES = 2000
_WORD = re.compile(r"drill:([0-9]{1,6})")
_REGION = 65536


def number_of(word: str) -> int | None:
    """K of the word `drill:K`, and nothing for any other word."""
    found = _WORD.fullmatch(word)
    return int(found[1]) if found else None


class _Numbers:
    """The drill's own numbers: the upper 16 bits of a linear congruential generator."""

    def __init__(self, start: int) -> None:
        self._state = start

    def draw(self) -> int:
        self._state = (1664525 * self._state + 1013904223) % 2**32
        return self._state >> 16


def _command(code: int, payload: bytes) -> str:
    """The line that sends a command to Memory Manager; byte 7 makes the exclusive or of all bytes 0xFF."""
    packet = bytearray.fromhex("1888C000") + (len(payload) + 1).to_bytes(2, "big") + bytes([code, 0]) + payload
    check = 0xFF
    for byte in packet:
        check ^= byte
    packet[7] = check
    return f"send {packet.hex().upper()}"


def _sent(kind: int, number: int, at: int) -> str:
    """A peek, a poke or a fill, by the rest of `number` modulo 3."""
    address = at.to_bytes(4, "big")
    if kind == 0:
        return _command(2, b"\x08" + address)
    if kind == 1:
        return _command(3, b"\x08" + address + (number % 256).to_bytes(4, "big"))
    length = (1 + number % 256).to_bytes(4, "big")
    return _command(8, (at % 32768).to_bytes(4, "big") + length + bytes([at % 256]))


def text_of(number: int) -> str:
    """The text of `drill:K`, K from 0 to 999,999: 2,000 frames."""
    numbers = _Numbers(number)
    lines = ["epoch 1000000", f"region RAM 0 {_REGION}", f"region EEPROM {_REGION} {_REGION}", "start"]
    for _ in range(FRAMES):
        counter, upset = numbers.draw(), numbers.draw()
        lines.append(f"app LOAD {counter % 4}")
        if upset % 4 == 0:
            lines.append(f"upset {numbers.draw()} {upset % 256}")
        sent, at = numbers.draw(), numbers.draw()
        lines.append(_sent(sent % 3, sent, at))
        lines.append("tick")
    return "\n".join([*lines, "end"]) + "\n"
