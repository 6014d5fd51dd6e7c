"""Numbers that are drawn from names alone, so that a seed gives one text on every machine and with every Python."""

import hashlib
import re
from dataclasses import dataclass

from campaign import Wrong

SPAN = re.compile(r"([0-9]{1,9})(?:\.\.([0-9]{1,9}))?")


@dataclass(frozen=True)
class Span:
    """The whole numbers from `first` to `last`, both among them."""

    first: int
    last: int

    @classmethod
    def read(cls, word: object) -> "Span":
        """A span that is written as a number or as "2..8"; anything else is Wrong."""
        parts = SPAN.fullmatch(str(word)) if isinstance(word, (int, str)) and not isinstance(word, bool) else None
        if parts is None:
            raise Wrong(f"{word!r} is no number and no span such as \"2..8\"")
        span = cls(int(parts[1]), int(parts[2] or parts[1]))
        if span.last < span.first:
            raise Wrong(f"{word!r} ends before it begins")
        return span

    def numbers(self) -> range:
        return range(self.first, self.last + 1)


class Draws:
    """A stream of draws with a name.

    Draw i, counted from 0, of the stream NAME is the number of 64 bits that the first eight bytes of SHA-256 of the
    text "NAME i" give, the most significant byte first.
    """

    def __init__(self, name: str) -> None:
        self._name = name
        self._drawn = 0

    def _next(self) -> int:
        digest = hashlib.sha256(f"{self._name} {self._drawn}".encode()).digest()
        self._drawn += 1
        return int.from_bytes(digest[:8], "big")

    def below(self, bound: int) -> int:
        """A number from 0 to `bound` - 1: the draw times `bound`, divided by 2 to the 64th and rounded down."""
        return self._next() * bound >> 64

    def within(self, span: Span) -> int:
        """A number of the span."""
        return span.first + self.below(len(span.numbers()))

    def times(self, mean: float) -> int:
        """The whole part of `mean`, and one more as often as its fraction says."""
        whole = int(mean)
        return whole + (self._next() < int((mean - whole) * 2**64))
