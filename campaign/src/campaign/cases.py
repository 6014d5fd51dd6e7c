"""What is run: a scenario that is written, drawn or generated, and the seed of its text."""

import json
from dataclasses import asdict, dataclass
from functools import cached_property, lru_cache

from campaign import drill
from campaign.faults import Befallen, Fault, perturbed
from campaign.scenario import Scenario
from campaign.tables import hash_of


@dataclass(frozen=True)
class Written:
    """A scenario's file."""

    content: bytes

    @cached_property
    def hash(self) -> str:
        return hash_of(b"written", self.content)

    def text(self, seed: int) -> tuple[bytes, tuple[Befallen, ...]]:
        return self.content, ()


@dataclass(frozen=True)
class Drawn:
    """A scenario and what may befall it; each seed gives one text."""

    content: bytes
    faults: tuple[Fault, ...]

    @cached_property
    def hash(self) -> str:
        faults = [{"kind": fault.kind, **asdict(fault)} for fault in self.faults]
        return hash_of(b"drawn", self.content, json.dumps(faults, sort_keys=True).encode())

    def text(self, seed: int) -> tuple[bytes, tuple[Befallen, ...]]:
        return perturbed(_read(self.content), self.faults, seed)


@dataclass(frozen=True)
class Generated:
    """The texts of `drill:K`; the seed is K."""

    @cached_property
    def hash(self) -> str:
        return hash_of(b"generated")

    def text(self, seed: int) -> tuple[bytes, tuple[Befallen, ...]]:
        return drill.text_of(seed).encode(), ()


Source = Written | Drawn | Generated


@lru_cache(maxsize=8)
def _read(content: bytes) -> Scenario:
    return Scenario.read(content)


@dataclass(frozen=True)
class Case:
    """One text to be run: the scenario's name, the hash of its source, and the seed; a written one has none."""

    scenario: str
    source: str
    seed: int | None = None

    @property
    def name(self) -> str:
        return self.scenario if self.seed is None else f"{self.scenario} seed {self.seed}"
