"""What differs between the runs of two sets, and what failed."""

import re
from collections import Counter
from dataclasses import dataclass
from enum import IntEnum

from campaign import Wrong
from campaign.cases import Case
from campaign.store import Row, Store

# The sequence count of a packet: one packet more changes it in all later ones, so it doesn't count as a difference in size.
_COUNT = re.compile(rb"(^[0-9]+ (?:pkt|drop [A-Z.]+ [a-z]+) .{4}).{4}", re.M)


class Verdict(IntEnum):
    """Exit statuses for a gate."""

    ALIKE = 0
    DIFFERS = 1
    FAILED = 2


@dataclass(frozen=True)
class Split:
    """The first line in which two logs differ: its number from 1, its frame, and both lines; one is empty behind a log's end."""

    line: int
    frame: int
    first: str
    second: str


@dataclass(frozen=True)
class Difference:
    """A scenario whose runs with two sets aren't alike: where their logs part, how many lines one has and the other hasn't, and the counts."""

    first: Row
    second: Row
    split: Split | None
    size: int
    deltas: dict[str, int]

    @property
    def case(self) -> Case:
        return self.first.case


def split_of(first: bytes, second: bytes) -> Split | None:
    """Where two logs part; nothing where they are alike."""
    ones, others = first.splitlines(), second.splitlines()
    alike = min(len(ones), len(others))
    at = next((place for place in range(alike) if ones[place] != others[place]), alike)
    if at == len(ones) == len(others):
        return None
    shown = [lines[at].decode("latin-1") if at < len(lines) else "" for lines in (ones, others)]
    return Split(at + 1, min(int(line.split(" ")[0]) for line in shown if line), *shown)


def size_of(first: bytes, second: bytes) -> int:
    """How many lines one log has and the other hasn't, sequence counts aside."""
    ones, others = (Counter(_COUNT.sub(rb"\1", log).splitlines()) for log in (first, second))
    return (ones - others).total() + (others - ones).total()


def deltas_of(first: Row, second: Row) -> dict[str, int]:
    """By how much the counts of the second run are over those of the first, without those that are equal."""
    told = {}
    for part in first.counts:
        ones, others = first.counts[part], second.counts[part]
        for name in sorted({*ones, *others}):
            delta = others.get(name, 0) - ones.get(name, 0)
            if delta:
                told[f"{part} {name}"] = delta
    return told


def difference_of(store: Store, first: Row, second: Row) -> Difference:
    """The difference of two runs that aren't alike; without lines where a log of them wasn't kept."""
    logs = store.log(first.log_hash), store.log(second.log_hash)
    split = split_of(logs[0], logs[1]) if logs[0] is not None and logs[1] is not None else None
    size = size_of(logs[0], logs[1]) if logs[0] is not None and logs[1] is not None else 0
    return Difference(first, second, split, size, deltas_of(first, second))


def differences(store: Store, first: str, second: str) -> list[Difference]:
    """The scenarios that ran with both sets and aren't alike, in the plan's order."""
    ones, others = store.runs(first), store.runs(second)
    return [difference_of(store, row, others[case]) for case, row in ones.items() if case in others and row.fingerprint != others[case].fingerprint]


def unlike_cases(tables: list[dict[Case, Row]]) -> list[Case]:
    """The cases whose runs aren't alike with all sets."""
    cases = dict.fromkeys(case for rows in tables for case in rows)
    return [case for case in cases if len({rows[case].fingerprint for rows in tables if case in rows}) > 1]


def missing_runs(store: Store, tables: list[dict[Case, Row]]) -> int:
    """How many runs of the plan have no row."""
    return sum(case not in rows for case in store.cases() for rows in tables)


def failed_rows(tables: list[dict[Case, Row]], allow: frozenset[str]) -> list[Row]:
    """The runs that failed, each once; a table has a set's runs."""
    rows = {row.number: row for each in tables for row in each.values()}
    return [row for row in rows.values() if row.failures(allow)]


def verdict_of(store: Store, tables: list[dict[Case, Row]], allow: frozenset[str]) -> Verdict:
    """2 where a run failed or is missing, else 1 where a scenario isn't alike with all the sets, else 0; a table has a set's runs."""
    if failed_rows(tables, allow) or missing_runs(store, tables):
        return Verdict.FAILED
    return Verdict.DIFFERS if unlike_cases(tables) else Verdict.ALIKE


def other_run(store: Store, row: Row) -> Row | None:
    """The first run of the row's scenario with another set of the plan that isn't alike."""
    for name in store.sets():
        for other in store.runs(name).values():
            is_of_case = (other.case.source, other.case.seed) == (row.case.source, row.case.seed)
            if is_of_case and other.fingerprint != row.fingerprint:
                return other
    return None


def log_of(store: Store, row: Row) -> bytes:
    """A run's log; Wrong where it wasn't kept."""
    log = store.log(row.log_hash)
    if log is None:
        raise Wrong(f"run {row.number} ({row.case.name}) neither differs nor failed, so its log wasn't kept; `campaign show {row.number} --scenario` prints its text")
    return log
