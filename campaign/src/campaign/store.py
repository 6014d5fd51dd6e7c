"""The results of a campaign in one SQLite file: a row a run, and the logs that are kept."""

import fcntl
import json
import sqlite3
import time
import zlib
from collections.abc import Iterable, Iterator
from contextlib import contextmanager
from dataclasses import dataclass
from pathlib import Path
from typing import Any

from campaign import Wrong
from campaign.cases import Case
from campaign.plan import Plan
from campaign.work import Batch, Done, Known, Outcome, Result, failures, fingerprint_of

_TABLES = """
CREATE TABLE IF NOT EXISTS runs (
    number INTEGER PRIMARY KEY, set_name TEXT NOT NULL, set_hash TEXT NOT NULL, scenario TEXT NOT NULL,
    scenario_hash TEXT NOT NULL, seed INTEGER, program_hash TEXT NOT NULL,
    outcome TEXT NOT NULL, status INTEGER, error TEXT NOT NULL, frames INTEGER NOT NULL, lines INTEGER NOT NULL,
    packets TEXT NOT NULL, events TEXT NOT NULL, requests TEXT NOT NULL, drops TEXT NOT NULL, answers TEXT NOT NULL,
    crc TEXT NOT NULL, length INTEGER NOT NULL, log_hash TEXT NOT NULL,
    seconds REAL NOT NULL, worker TEXT NOT NULL, ended REAL NOT NULL);
CREATE UNIQUE INDEX IF NOT EXISTS runs_once ON runs (set_hash, scenario_hash, ifnull(seed, -1), program_hash);
CREATE TABLE IF NOT EXISTS logs (log_hash TEXT PRIMARY KEY, log BLOB NOT NULL);
CREATE TABLE IF NOT EXISTS mishaps (
    number INTEGER PRIMARY KEY, at REAL NOT NULL, what TEXT NOT NULL, worker TEXT NOT NULL, runs INTEGER NOT NULL, first TEXT NOT NULL);
CREATE TABLE IF NOT EXISTS plans (
    number INTEGER PRIMARY KEY, path TEXT NOT NULL, text TEXT NOT NULL, program_hash TEXT NOT NULL, allow TEXT NOT NULL,
    begun REAL NOT NULL, ended REAL, ran INTEGER, seconds REAL, program_seconds REAL, worker_seconds REAL, processor_seconds REAL,
    engine_seconds REAL, workers INTEGER);
CREATE TABLE IF NOT EXISTS plan_sets (place INTEGER PRIMARY KEY, name TEXT NOT NULL, set_hash TEXT NOT NULL);
CREATE TABLE IF NOT EXISTS plan_cases (place INTEGER PRIMARY KEY, scenario TEXT NOT NULL, scenario_hash TEXT NOT NULL, seed INTEGER);
"""
_RESULT = """
INSERT INTO runs (set_name, set_hash, scenario, scenario_hash, seed, program_hash, outcome, status, error, frames, lines,
    packets, events, requests, drops, answers, crc, length, log_hash, seconds, worker, ended)
VALUES (?, ?, ?, ?, ?, ?, ?, ?, ?, ?, ?, ?, ?, ?, ?, ?, ?, ?, ?, ?, ?, ?)
ON CONFLICT (set_hash, scenario_hash, ifnull(seed, -1), program_hash) DO UPDATE SET
    set_name = excluded.set_name, scenario = excluded.scenario, outcome = excluded.outcome, status = excluded.status,
    error = excluded.error, frames = excluded.frames, lines = excluded.lines, packets = excluded.packets,
    events = excluded.events, requests = excluded.requests, drops = excluded.drops, answers = excluded.answers,
    crc = excluded.crc, length = excluded.length, log_hash = excluded.log_hash, seconds = excluded.seconds,
    worker = excluded.worker, ended = excluded.ended
"""
_RUNS_OF_PLAN = """
SELECT runs.*, plan_cases.scenario AS named FROM plan_cases JOIN plan_sets JOIN runs ON runs.set_hash = plan_sets.set_hash
    AND runs.scenario_hash = plan_cases.scenario_hash AND ifnull(runs.seed, -1) = ifnull(plan_cases.seed, -1)
    AND runs.program_hash = ?
WHERE plan_sets.name = ? ORDER BY plan_cases.place
"""


@dataclass(frozen=True)
class Row:
    """A run as it is stored."""

    number: int
    set_name: str
    case: Case
    outcome: str
    status: int | None
    error: str
    frames: int
    lines: int
    counts: dict[str, dict[str, int]]
    answers: dict[str, bool]
    crc: str
    length: int
    log_hash: str
    seconds: float
    worker: str

    @classmethod
    def of(cls, row: sqlite3.Row) -> "Row":
        counts = {part: json.loads(row[part]) for part in ("packets", "events", "requests", "drops")}
        case = Case(row["scenario"], row["scenario_hash"], row["seed"])
        names = ("number", "set_name", "outcome", "status", "error", "frames", "lines", "crc", "length", "log_hash", "seconds", "worker")
        return cls(case=case, counts=counts, answers=json.loads(row["answers"]), **{name: row[name] for name in names})

    @property
    def fingerprint(self) -> str:
        return fingerprint_of(self.outcome, self.status, self.error, self.log_hash)

    def failures(self, allow: Iterable[str]) -> list[str]:
        return failures(self.outcome, self.status, self.error, self.counts["events"], self.answers, frozenset(allow))


class Store:
    """A results file that is open; each batch is one transaction, so a campaign that is killed loses the batches under way alone."""

    def __init__(self, path: Path, must_exist: bool = True) -> None:
        if must_exist and not path.is_file():
            raise Wrong(f"{path}: there are no results; `campaign run PLAN.toml` writes them, and --results names another file")
        self.path = path
        try:
            self.base = sqlite3.connect(path)
            self.base.row_factory = sqlite3.Row
            self.base.execute("PRAGMA journal_mode = WAL")
            self.base.execute("PRAGMA synchronous = NORMAL")
            self.base.executescript(_TABLES)
        except sqlite3.Error as error:
            raise Wrong(f"{path}: no results file: {error}") from error

    @contextmanager
    def alone(self) -> Iterator[None]:
        """Holds the file against another campaign that would write into it."""
        with open(self.path, "rb") as file:
            try:
                fcntl.flock(file, fcntl.LOCK_EX | fcntl.LOCK_NB)
            except BlockingIOError as error:
                raise Wrong(f"{self.path}: another campaign writes into these results") from error
            yield

    def begin(self, plan: Plan) -> int:
        """Makes the plan the one that reports speak of, and gives its number."""
        with self.base:
            self.base.execute("DELETE FROM plan_sets")
            self.base.execute("DELETE FROM plan_cases")
            self.base.executemany("INSERT INTO plan_sets (name, set_hash) VALUES (?, ?)", [(each.name, each.hash) for each in plan.sets])
            cases = [(case.scenario, case.source, case.seed) for case in plan.cases]
            self.base.executemany("INSERT INTO plan_cases (scenario, scenario_hash, seed) VALUES (?, ?, ?)", cases)
            values = (str(plan.path), plan.text, plan.program_hash, json.dumps(sorted(plan.allow)), time.time())
            made = self.base.execute("INSERT INTO plans (path, text, program_hash, allow, begun) VALUES (?, ?, ?, ?, ?)", values)
        return made.lastrowid or 0

    def end(self, plan_number: int, values: dict[str, float]) -> None:
        """Writes what a campaign took."""
        names = ", ".join(f"{name} = ?" for name in values)
        with self.base:
            self.base.execute(f"UPDATE plans SET ended = ?, {names} WHERE number = ?", (time.time(), *values.values(), plan_number))

    def known(self, plan: Plan) -> dict[tuple[str, str, int | None], Known]:
        """By set, source and seed: the runs of the plan's program that ran and answered all questions of the plan."""
        known = {}
        kept = {row[0] for row in self.base.execute("SELECT log_hash FROM logs")}
        columns = "set_hash, scenario_hash, seed, outcome, status, error, log_hash, answers"
        for row in self.base.execute(f"SELECT {columns} FROM runs WHERE program_hash = ? AND outcome = ?", (plan.program_hash, Outcome.RAN)):
            if set(plan.questions) <= json.loads(row["answers"]).keys():
                told = fingerprint_of(row["outcome"], row["status"], row["error"], row["log_hash"])
                known[row["set_hash"], row["scenario_hash"], row["seed"]] = Known(told, row["log_hash"] in kept)
        return known

    def add(self, plan: Plan, done: Done) -> None:
        """Writes what a batch gave, all or nothing."""
        logs = [(log.log_hash, log.log) for log in done.logs]
        logs += [(result.log_hash, result.log) for result in done.results if result.log is not None]
        with self.base:
            self.base.executemany(_RESULT, [_values(plan, result) for result in done.results])
            self.base.executemany("INSERT OR IGNORE INTO logs VALUES (?, ?)", logs)

    def add_mishap(self, what: str, worker: str, batch: Batch) -> None:
        runs = sum(len(job.wanted) for job in batch.jobs)
        with self.base:
            values = (time.time(), what, worker, runs, batch.jobs[0].case.name)
            self.base.execute("INSERT INTO mishaps (at, what, worker, runs, first) VALUES (?, ?, ?, ?, ?)", values)

    def plan(self) -> sqlite3.Row:
        """The plan that was run last."""
        row = self.base.execute("SELECT * FROM plans ORDER BY number DESC LIMIT 1").fetchone()
        if row is None:
            raise Wrong(f"{self.path}: no campaign was run with these results")
        return row  # type: ignore[no-any-return]

    def allow(self) -> frozenset[str]:
        return frozenset(json.loads(self.plan()["allow"]))

    def sets(self) -> list[str]:
        return [row["name"] for row in self.base.execute("SELECT name FROM plan_sets ORDER BY place")]

    def cases(self) -> list[Case]:
        return [Case(*row) for row in self.base.execute("SELECT scenario, scenario_hash, seed FROM plan_cases ORDER BY place")]

    def runs(self, set_name: str) -> dict[Case, Row]:
        """The runs of the last plan with a set of it, by their cases."""
        if set_name not in self.sets():
            raise Wrong(f"{self.path}: there is no set {set_name!r}; the last plan has {', '.join(self.sets())}")
        rows = self.base.execute(_RUNS_OF_PLAN, (self.plan()["program_hash"], set_name))
        return {Case(row["named"], row["scenario_hash"], row["seed"]): Row.of(row) for row in rows}

    def run(self, number: int) -> Row:
        row = self.base.execute("SELECT * FROM runs WHERE number = ?", (number,)).fetchone()
        if row is None:
            raise Wrong(f"{self.path}: there is no run {number}")
        return Row.of(row)

    def log(self, log_hash: str) -> bytes | None:
        """A log, where it was kept."""
        row = self.base.execute("SELECT log FROM logs WHERE log_hash = ?", (log_hash,)).fetchone()
        return zlib.decompress(row[0]) if row else None

    def mishaps(self) -> list[sqlite3.Row]:
        """Those of the last plan's run."""
        return self.base.execute("SELECT * FROM mishaps WHERE at >= ? ORDER BY number", (self.plan()["begun"],)).fetchall()


def _values(plan: Plan, result: Result) -> tuple[Any, ...]:
    table_set, case, counts = plan.sets[result.set_index], result.case, result.counts
    parts = [json.dumps(part) for part in counts.parts().values()]
    return (
        table_set.name, table_set.hash, case.scenario, case.source, case.seed, plan.program_hash,
        result.outcome, result.status, result.error, result.frames, counts.lines, *parts, json.dumps(result.answers or {}),
        f"{result.crc:04X}", result.length, result.log_hash, result.seconds, result.worker, time.time(),
    )
