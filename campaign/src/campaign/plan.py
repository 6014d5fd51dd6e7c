"""A plan, a TOML file that says what is run (docs/CAMPAIGNS.md, "The plan"); paths in it begin at its folder."""

import dataclasses
import glob
import re
import tomllib
from collections.abc import Iterable, Iterator
from dataclasses import dataclass
from functools import cached_property
from pathlib import Path
from typing import Any

from campaign import Wrong
from campaign.cases import Case, Drawn, Generated, Source, Written
from campaign.draws import Span
from campaign.faults import KINDS, USUAL, Fault, Reset
from campaign.questions import Question
from campaign.scenario import Scenario
from campaign.tables import TableSet, hash_of

_NAME = re.compile(r"[\w.-]{1,40}")
_ALLOWED = re.compile(r"([0-9A-Za-z_]{1,19}) ([0-9]{1,5}|any)")
_DRILLS = re.compile(r"drill:([0-9]{1,6}(?:\.\.[0-9]{1,6})?)")
MOST_FILES = 100
MOST_OF_SPAN = 1_000_000


@dataclass(frozen=True)
class Limits:
    """How long a run may take, in seconds, how many cases a task has at most, and how many workers a local cluster has (0: as processors)."""

    seconds: float = 10.0
    batch: int = 50
    workers: int = 0


@dataclass(frozen=True)
class Plan:
    """What is run with what, read whole: the program's and all files' contents stand in it."""

    path: Path
    text: str
    program: bytes
    subjects: bool
    sets: tuple[TableSet, ...]
    sources: dict[str, Source]
    cases: tuple[Case, ...]
    questions: tuple[str, ...]
    allow: frozenset[str]
    limits: Limits

    @cached_property
    def program_hash(self) -> str:
        """Of the program and of how it is called."""
        return hash_of(self.program, b"--subjects" if self.subjects else b"")

    def allowing(self, words: Iterable[str]) -> "Plan":
        """The plan with more events of type 3 that are wanted."""
        return dataclasses.replace(self, allow=self.allow | frozenset(words))

    @classmethod
    def read(cls, path: Path) -> "Plan":
        """The plan of a file; Wrong with the file and the key or line of the first fault."""
        try:
            text = path.read_text(encoding="utf-8")
            return _Reader(path, text, tomllib.loads(text)).plan()
        except OSError as error:
            raise Wrong(f"{path}: {error.strerror}") from error
        except UnicodeDecodeError as error:
            raise Wrong(f"{path}: byte {error.start} is no UTF-8") from error
        except tomllib.TOMLDecodeError as error:
            raise Wrong(f"{path}: {error}") from error


def allowed_of(word: str) -> str:
    """An event of type 3 that is wanted: "CS 101", or "CS any"."""
    if not _ALLOWED.fullmatch(word):
        raise Wrong(f"{word!r} isn't the name and the number of an event, as \"CS 101\" or \"CS any\"")
    return word


class _Reader:
    """Reads the keys of a plan; each fault is told with its key."""

    KEYS = ("program", "subjects", "sets", "scenarios", "drawn", "questions", "allow", "workers", "seconds", "batch")
    DRAWN_KEYS = ("name", "scenario", "seeds", "faults")

    def __init__(self, path: Path, text: str, keys: dict[str, Any]) -> None:
        self.path, self.text, self.keys = path, text, keys
        self.folder = path.parent

    def wrong(self, key: str, why: object) -> Wrong:
        return Wrong(f"{self.path}: {key}: {why}")

    def plan(self) -> Plan:
        self.known("", self.keys, self.KEYS)
        program = self.content("program", self.typed("program", str, None))
        sets = tuple(self.sets())
        named = [*self.scenarios(), *self.drawn(sets)]
        if not named:
            raise self.wrong("scenarios", "nothing is to be run; name scenarios, or draw faults over one in [[drawn]]")
        self.distinct(named)
        sources = {source.hash: source for _, source, _ in named}
        cases = tuple(Case(name, source.hash, seed) for name, source, seeds in named for seed in seeds)
        return Plan(
            self.path, self.text, program, self.typed("subjects", bool, False), sets, sources, cases,
            tuple(self.lines("questions", lambda line: Question.read(line).line)), frozenset(self.lines("allow", allowed_of)), self.limits(),
        )

    def known(self, where: str, keys: dict[str, Any], names: tuple[str, ...]) -> None:
        for key in keys:
            if key not in names:
                raise self.wrong(f"{where}{key}", f"there is no such key; known are {', '.join(names)}")

    def typed(self, key: str, kind: type, usual: Any) -> Any:
        """The value of a key at the top."""
        value = self.keys.get(key, usual)
        if value is None:
            raise self.wrong(key, "the key is missing")
        if not isinstance(value, kind) or (isinstance(value, bool) and kind is not bool):
            raise self.wrong(key, f"{value!r} isn't of the type {kind.__name__}")
        return value

    def strings(self, key: str, value: object) -> list[str]:
        if not isinstance(value, list) or not all(isinstance(word, str) for word in value):
            raise self.wrong(key, "it is a list of strings")
        return value

    def lines(self, key: str, read: Any) -> Iterator[str]:
        for index, line in enumerate(self.strings(key, self.keys.get(key, []))):
            try:
                yield read(line)
            except Wrong as wrong:
                raise self.wrong(f"{key}[{index}]", wrong) from wrong

    def content(self, key: str, name: object) -> bytes:
        """The content of a file that a key names."""
        if not isinstance(name, str):
            raise self.wrong(key, f"{name!r} is no name of a file")
        try:
            return (self.folder / name).read_bytes()
        except OSError as error:
            raise self.wrong(key, f"{self.folder / name}: {error.strerror}") from error

    def sets(self) -> Iterator[TableSet]:
        sets = self.typed("sets", dict, None)
        if not sets:
            raise self.wrong("sets", "there is no set; a set without FILEs is written as `bare = []`")
        for name, files in sets.items():
            if not _NAME.fullmatch(name):
                raise self.wrong(f"sets.{name}", "the name of a set has 1 to 40 letters, digits, `_`, `.` and `-`")
            words = self.strings(f"sets.{name}", files)
            if len(words) > MOST_FILES:
                raise self.wrong(f"sets.{name}", f"the program takes at most {MOST_FILES} FILEs, not {len(words)}")
            yield TableSet(name, tuple((word, self.content(f"sets.{name}[{index}]", word)) for index, word in enumerate(words)))

    def scenarios(self) -> Iterator[tuple[str, Source, list[int | None]]]:
        for index, word in enumerate(self.strings("scenarios", self.keys.get("scenarios", []))):
            key = f"scenarios[{index}]"
            if word.startswith("drill:"):
                if not _DRILLS.fullmatch(word):
                    raise self.wrong(key, f"{word!r} isn't written as `drill:7` or `drill:0..9999`")
                yield "drill", Generated(), [*self.span(key, word.removeprefix("drill:")).numbers()]
            else:
                for name in self.names(key, word):
                    yield name, Written(self.content(key, name)), [None]

    def names(self, key: str, pattern: str) -> list[str]:
        """The files that match a pattern, by name, as they are seen from the plan's folder."""
        found = sorted(glob.glob(pattern, root_dir=self.folder, recursive=True))
        names = [name for name in found if (self.folder / name).is_file()]
        if not names:
            raise self.wrong(key, f"no file of {self.folder} matches {pattern!r}")
        return names

    def span(self, key: str, word: object) -> Span:
        try:
            span = Span.read(word)
        except Wrong as wrong:
            raise self.wrong(key, wrong) from wrong
        if len(span.numbers()) > MOST_OF_SPAN:
            raise self.wrong(key, f"{word} has over {MOST_OF_SPAN:,} numbers")
        return span

    def drawn(self, sets: tuple[TableSet, ...]) -> Iterator[tuple[str, Source, list[int | None]]]:
        tables = self.keys.get("drawn", [])
        if not isinstance(tables, list) or not all(isinstance(table, dict) for table in tables):
            raise self.wrong("drawn", "it is written as [[drawn]]")
        for index, table in enumerate(tables):
            where = f"drawn[{index}]."
            self.known(where, table, self.DRAWN_KEYS)
            content = self.content(f"{where}scenario", table.get("scenario"))
            name = table.get("name", Path(table["scenario"]).stem)
            if not isinstance(name, str) or not _NAME.fullmatch(name):
                raise self.wrong(f"{where}name", "it has 1 to 40 letters, digits, `_`, `.` and `-`")
            try:
                scenario = Scenario.read(content)
            except Wrong as wrong:
                raise self.wrong(f"{where}scenario", f"{self.folder / table['scenario']}: {wrong}") from wrong
            yield name, Drawn(content, self.faults(where, table, scenario, sets)), [*self.span(f"{where}seeds", table.get("seeds")).numbers()]

    def faults(self, where: str, table: dict[str, Any], scenario: Scenario, sets: tuple[TableSet, ...]) -> tuple[Fault, ...]:
        written = table.get("faults")
        if written is None:
            return tuple(fault for fault in USUAL if fault.fault_in(scenario) is None)
        if not isinstance(written, list) or not all(isinstance(keys, dict) for keys in written):
            raise self.wrong(f"{where}faults", "it is a list of tables, as {{ kind = \"upset\", often = 1 }}")
        faults = tuple(self.fault(f"{where}faults[{index}]", keys, scenario, sets) for index, keys in enumerate(written))
        streams = [(fault.kind, fault.seed) for fault in faults]
        for index, stream in enumerate(streams):
            if stream in streams[:index]:
                raise self.wrong(f"{where}faults[{index}].seed", f"an earlier fault is {stream[0]} with seed {stream[1]} too, and would draw the same")
        return faults

    def fault(self, where: str, keys: dict[str, Any], scenario: Scenario, sets: tuple[TableSet, ...]) -> Fault:
        fault = self.fault_of_keys(where, keys)
        why = fault.fault_in(scenario)
        if why is None and isinstance(fault, Reset):
            deaf = [each.name for each in sets if not each.resets_at(*fault.message())]
            why = f"no event monitor of set {deaf[0]} answers the event {fault.event} by action 1, a processor reset" if deaf else None
        if why:
            raise self.wrong(f"{where} ({fault.kind})", why)
        return fault

    def fault_of_keys(self, where: str, keys: dict[str, Any]) -> Fault:
        kind = KINDS.get(str(keys.get("kind")))
        if kind is None:
            raise self.wrong(f"{where}.kind", f"{keys.get('kind')!r} isn't one of {', '.join(KINDS)}")
        fields = {field.name: field for field in dataclasses.fields(kind)}
        self.known(f"{where}.", keys, ("kind", *fields))
        values: dict[str, Any] = {}
        for key, value in keys.items():
            if key != "kind":
                values[key] = self.value(f"{where}.{key}", fields[key], value)
        return kind(**values)

    def value(self, key: str, field: dataclasses.Field[Any], value: object) -> object:
        if "read" in field.metadata:
            return self.span(key, value)
        if field.name == "often":
            if isinstance(value, bool) or not isinstance(value, (int, float)) or not 0 <= value <= 1000:
                raise self.wrong(key, f"{value!r} isn't a number from 0 to 1000")
            return float(value)
        kind = type(field.default)
        if type(value) is not kind:
            raise self.wrong(key, f"{value!r} isn't of the type {kind.__name__}")
        return value

    def distinct(self, named: list[tuple[str, Source, list[int | None]]]) -> None:
        """Two scenarios with one name couldn't be told apart in a report."""
        seen: set[tuple[str, int | None]] = set()
        for name, _, seeds in named:
            for seed in seeds:
                if (name, seed) in seen:
                    raise self.wrong("scenarios", f"{Case(name, '', seed).name} is there twice; give one of them another `name`")
                seen.add((name, seed))

    def limits(self) -> Limits:
        limits = Limits(float(self.typed("seconds", (int, float), 10.0)), self.typed("batch", int, 50), self.typed("workers", int, 0))  # type: ignore[arg-type]
        if not 0 < limits.seconds <= 86_400:
            raise self.wrong("seconds", "it is over 0, and at most 86400")
        if not 1 <= limits.batch <= 10_000:
            raise self.wrong("batch", "it is from 1 to 10000")
        if not 0 <= limits.workers <= 1_000:
            raise self.wrong("workers", "it is from 0 (as many as processors) to 1000")
        return limits
