"""Words that stand for a packet: its bytes as HEX, or a function of `send` and its words."""

import re

from making import Wrong
from making.commands import command, damaged, housekeeping
from making.words import SENT, argument, choice, counted, usage

DIGITS = re.compile("[0-9A-Fa-f]+")
PIECE = re.compile(r"((?:[0-9A-Fa-f]{2})+)(?:\*([0-9]{1,6}))?")


def packet_of(words):
    """The packet of a function of `send` and its words, such as mm_peek 8 0x1010, also behind the word `send`; behind `damaged` its
    check is wrong by one bit. Behind the words of `command` a payload may stand as HEX."""
    if words[:1] == ["damaged"]:
        return damaged(packet_of(words[1:]))
    if words[:1] == ["send"]:
        words = words[1:]
    if not words:
        raise Wrong("a packet is missing")
    if len(words) == 1 and DIGITS.fullmatch(words[0]):
        return bytes_of(words)
    name, *words = words
    function = choice(name, {function.__name__: function for function in SENT})
    if function is housekeeping:
        # The names of the requests' ids mean their applications.
        words = [word.removesuffix("_HOUSEKEEPING") for word in words]
    if function is command and len(words) > 2:
        return command(argument("ID", words[0]), argument("CODE", words[1]), bytes_of(words[2:]))
    counted([name, *words], usage(function))
    names = SENT[function].split()
    names += names[-1:] * (len(words) - len(names))
    return function(*map(argument, names, words))


def bytes_of(words):
    """The bytes of words of HEX, of which each may be repeated: 0A0B 00*20 are two bytes and twenty zeros."""
    data = b""
    for word in words:
        piece = PIECE.fullmatch(word)
        if not piece:
            raise Wrong(f"{word!r} isn't an even number of hexadecimal digits, or such with * and a number behind them")
        data += bytes.fromhex(piece[1]) * int(piece[2] or 1)
    return data


def is_packet(data):
    """Whether these bytes are a space packet as docs/SCENARIO.md asks."""
    return 8 <= len(data) <= 256 and data[0] < 0x20 and data[2] >= 0xC0 and data[4] * 256 + data[5] + 7 == len(data)


def is_command(data):
    return is_packet(data) and data[0] & 0x18 == 0x18


def sent_line(line):
    """A line of a scenario, in which a function of `send` stands for its packet."""
    words = line.split()
    if words[:1] != ["send"] or len(words) < 2 or DIGITS.fullmatch(words[1]):
        return line
    return "send " + packet_of(words[1:]).hex().upper()
