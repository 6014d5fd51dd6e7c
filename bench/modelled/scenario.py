"""The text of a scenario: its header and its frames."""

import re
from dataclasses import dataclass, field

from . import packets
from .packets import ask

DECIMAL = re.compile(rb"[0-9]{1,10}\Z")
HEXADECIMAL = re.compile(rb"0x([0-9A-Fa-f]{1,8})\Z")
DIGITS = re.compile(rb"([0-9A-Fa-f]{2})*\Z")
NAME = re.compile(rb"[A-Za-z0-9_]{1,19}\Z")
KINDS = ("RAM", "EEPROM", "MEM8", "MEM16", "MEM32")
APPLICATIONS = ("HS", "CS", "SC", "MM", "MD")


@dataclass
class Header:
    epoch: int = 0
    regions: list = field(default_factory=list)


@dataclass
class Frame:
    sends: list = field(default_factory=list)
    counters: dict = field(default_factory=dict)
    upsets: list = field(default_factory=list)
    held: set = field(default_factory=set)
    activations: list = field(default_factory=list)


def number(word):
    match = HEXADECIMAL.match(word)
    if match:
        return int(match.group(1), 16)
    ask(DECIMAL.match(word) and int(word) < 2**32, "a number has its form")
    return int(word)


def packet(word):
    ask(DIGITS.match(word), "the bytes of a packet are pairs of digits")
    data = bytes.fromhex(word.decode("ascii"))
    ask(packets.is_packet(data), "what is sent is a packet")
    return data


def name(word):
    ask(NAME.match(word), "a name has its form")
    return word.decode("ascii")


def one_of(word, known):
    text = word.decode("ascii", "replace")
    ask(text in known, f"a word is one of {', '.join(known)}")
    return text


def lines(stream):
    """The words of each line that isn't skipped; a space alone parts them."""
    for line in stream:
        words = [word for word in line.rstrip(b"\n").split(b" ") if word]
        if words and not words[0].startswith(b"#"):
            yield words


class Reader:
    """Reads the header at once and the frames as they are asked for."""

    def __init__(self, stream):
        self.lines = lines(stream)
        self.header = Header()
        self._read_header()

    def _read_header(self):
        words = next(self.lines, [])
        ask(len(words) == 2 and words[0] == b"epoch", "the epoch stands first")
        self.header.epoch = number(words[1])
        words = next(self.lines, [])
        while len(words) == 4 and words[0] == b"region":
            kind = one_of(words[1], KINDS)
            self.header.regions.append((kind, number(words[2]), number(words[3])))
            words = next(self.lines, [])
        ask(words == [b"start"], "the regions end with start")

    def frames(self):
        frame = Frame()
        fresh = True
        for words in self.lines:
            if words == [b"tick"]:
                yield frame
                frame, fresh = Frame(), True
            elif words == [b"end"] and fresh:
                return
            else:
                self._item(frame, words[0], words[1:])
                fresh = False
        ask(False, "a scenario has an end")

    def _item(self, frame, first, rest):
        if first == b"send" and len(rest) == 1:
            frame.sends.append(packet(rest[0]))
        elif first == b"app" and len(rest) == 2:
            # The first line of a name counts.
            frame.counters.setdefault(name(rest[0]), number(rest[1]))
        elif first == b"upset" and len(rest) == 2:
            frame.upsets.append((number(rest[0]), number(rest[1])))
        elif first == b"hold" and len(rest) == 1:
            frame.held.add(one_of(rest[0], APPLICATIONS))
        elif first == b"activate" and len(rest) == 1:
            frame.activations.append(number(rest[0]))
        else:
            ask(False, "a frame has no such line")
