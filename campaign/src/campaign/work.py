"""What a worker does: it makes the texts of a batch, runs the program on each with each set, and reads the logs."""

import errno
import hashlib
import os
import re
import shutil
import subprocess
import tempfile
import threading
import time
import zlib
from collections.abc import Collection, Iterator
from dataclasses import dataclass, replace
from enum import StrEnum
from functools import cached_property
from pathlib import Path

from campaign.cases import Case, Source
from campaign.crc import crc16
from campaign.faults import Befallen
from campaign.log import Counts
from campaign.questions import Question, Run
from campaign.tables import TableSet, hash_of

_TICK = re.compile(rb"^ *tick *$", re.M)
_REFUSED_LINE = re.compile(r"vigil: scenario refused at line ([0-9]+),")
_ERROR_TYPE = " type 3"
_RUN_WHOLE, _SCENARIO_REFUSED = (0, 4, 5), 3
_DISK_IS_FULL = (errno.ENOSPC, errno.EDQUOT)


class Outcome(StrEnum):
    """How a run ended: only one that RAN has a status and a log to be judged."""

    RAN = "ran"
    TIME_LIMIT = "time limit"
    WORKER_DIED = "worker died"
    DISK_FULL = "disk full"
    NOT_STARTED = "not started"


@dataclass(frozen=True)
class Kit:
    """What all runs of a campaign share, by content; `seconds` is the time limit of a run."""

    program: bytes
    subjects: bool
    sets: tuple[TableSet, ...]
    sources: dict[str, Source]
    questions: tuple[str, ...]
    allow: frozenset[str]
    seconds: float

    @cached_property
    def hash(self) -> str:
        asked = [*self.questions, *sorted(self.allow), str(self.seconds), str(self.subjects)]
        return hash_of(self.program, *(table_set.hash.encode() for table_set in self.sets), *(word.encode() for word in asked))


@dataclass(frozen=True)
class Known:
    """What is known of a run that isn't to be made: the fingerprint of what it gave, and whether its log is kept."""

    fingerprint: str
    has_log: bool


@dataclass(frozen=True)
class Job:
    """A case, the sets that it is to be run with (their places in the kit), and what is known of the other ones."""

    case: Case
    wanted: tuple[int, ...]
    known: dict[int, Known]


@dataclass(frozen=True)
class Batch:
    """The jobs of one task, and those of their sources that the kit doesn't have."""

    jobs: tuple[Job, ...]
    sources: dict[str, Source]

    def halves(self) -> tuple["Batch", "Batch"]:
        middle = len(self.jobs) // 2
        return Batch(self.jobs[:middle], self.sources), Batch(self.jobs[middle:], self.sources)


@dataclass(frozen=True)
class Result:
    """A run, as its row tells it; `log` is compressed by zlib where it is kept, `seconds` is the program's wall clock."""

    case: Case
    set_index: int
    outcome: Outcome
    worker: str
    status: int | None = None
    error: str = ""
    frames: int = 0
    counts: Counts = Counts(0, {}, {}, {}, {})
    crc: int = 0
    length: int = 0
    log_hash: str = ""
    answers: dict[str, bool] | None = None
    seconds: float = 0.0
    log: bytes | None = None

    @property
    def fingerprint(self) -> str:
        """Two runs are alike where their fingerprints are."""
        return fingerprint_of(self.outcome, self.status, self.error, self.log_hash)


@dataclass(frozen=True)
class AnotherLog:
    """The log of a run that was made before, given again because another set's log differs from it; compressed."""

    log_hash: str
    log: bytes


@dataclass(frozen=True)
class Done:
    """What a batch gave, and the wall clock seconds and processor seconds that it took on its worker."""

    results: list[Result]
    logs: list[AnotherLog]
    seconds: float
    processor_seconds: float


def fingerprint_of(outcome: str, status: int | None, error: str, log_hash: str) -> str:
    """What two runs that are alike have in common."""
    return f"{outcome} {status} {error} {log_hash}"


def unwanted_errors(events: dict[str, int], allow: Collection[str]) -> list[str]:
    """The events of type 3, as "CS 101", that nobody allowed."""
    told = [event.removesuffix(_ERROR_TYPE) for event in events if event.endswith(_ERROR_TYPE)]
    return [event for event in told if event not in allow and f"{event.split(' ')[0]} any" not in allow]


def failures(outcome: str, status: int | None, error: str, events: dict[str, int], answers: dict[str, bool], allow: Collection[str]) -> list[str]:
    """Why a run failed, and nothing where it didn't."""
    if outcome != Outcome.RAN:
        return [f"{outcome}: {error}"]
    told = [f"status {status}: {error}".removesuffix(": ")] if status != 0 else []
    told += [f"event {event} of type 3" for event in unwanted_errors(events, allow)]
    return told + [f"breaks `{line}`" for line, holds in answers.items() if not holds]


class Bench:
    """The program and the sets' files in a folder of a worker, and the questions ready to be asked."""

    def __init__(self, kit: Kit, folder: Path) -> None:
        self.kit = kit
        self.folder = folder
        self.questions = [Question.read(line) for line in kit.questions]
        self.program = folder / "program"
        self.files = [[folder / f"{place}-{index}" for index in range(len(each.files))] for place, each in enumerate(kit.sets)]
        self.clear()
        folder.mkdir(parents=True)
        self.program.write_bytes(kit.program)
        self.program.chmod(0o755)
        for paths, each in zip(self.files, kit.sets):
            for path, (_, content) in zip(paths, each.files):
                path.write_bytes(content)

    def clear(self) -> None:
        shutil.rmtree(self.folder, ignore_errors=True)

    def run(self, job: Job, source: Source, worker: str) -> tuple[list[Result], list[AnotherLog]]:
        """The results of a job with their logs where they differ or fail, and logs of earlier runs that differ from these."""
        text, befallen = source.text(job.case.seed or 0)
        handle, name = tempfile.mkstemp(dir=self.folder)
        path = Path(name)
        try:
            with os.fdopen(handle, "wb") as file:
                file.write(text)
            made = [self.call(job.case, place, path, text, befallen, worker) for place in job.wanted]
            prints = {known.fingerprint for known in job.known.values()} | {result.fingerprint for result, _ in made}
            is_alike = len(prints) == 1
            results = [self.kept(result, log, is_alike) for result, log in made]
            again = [] if is_alike else [place for place, known in job.known.items() if not known.has_log]
            logs = [self.call(job.case, place, path, text, befallen, worker) for place in again]
        finally:
            path.unlink()
        return results, [AnotherLog(result.log_hash, zlib.compress(log)) for result, log in logs]

    def kept(self, result: Result, log: bytes, is_alike: bool) -> Result:
        failed = failures(result.outcome, result.status, result.error, result.counts.events, result.answers or {}, self.kit.allow)
        if is_alike and not failed:
            return result
        return replace(result, log=zlib.compress(log))

    def call(self, case: Case, place: int, path: Path, text: bytes, befallen: tuple[Befallen, ...], worker: str) -> tuple[Result, bytes]:
        """Runs the program on a text with a set, and gives the result without its log, and the log."""
        words: list[str | Path] = [self.program, *(["--subjects"] if self.kit.subjects else []), path, *self.files[place]]
        begun = time.perf_counter()
        try:
            ended = subprocess.run(words, stdin=subprocess.DEVNULL, capture_output=True, timeout=self.kit.seconds, check=False)
            outcome, status, log, error = Outcome.RAN, ended.returncode, ended.stdout, ended.stderr.decode("latin-1").strip()
        except subprocess.TimeoutExpired as expired:
            outcome, status, log, error = Outcome.TIME_LIMIT, None, expired.stdout or b"", f"over {self.kit.seconds:g} s"
        seconds = time.perf_counter() - begun
        frames = frames_run(text, status, error)
        asked = Run(log, text, frames, befallen, self.kit.sets[place].has_first_sequence)
        answers = {question.line: question.holds(asked) for question in self.questions} if outcome == Outcome.RAN else {}
        hash_ = hashlib.sha256(log).hexdigest()
        return Result(case, place, outcome, worker, status, error, frames, Counts.of(log), crc16(log), len(log), hash_, answers, seconds), log


def frames_run(text: bytes, status: int | None, error: str) -> int:
    """How many frames of the text were run to their end, as the status tells."""
    if status in _RUN_WHOLE:
        return len(_TICK.findall(text))
    found = _REFUSED_LINE.match(error) if status == _SCENARIO_REFUSED else None
    return len(_TICK.findall(b"\n".join(text.split(b"\n")[: int(found[1]) - 1]))) if found else 0


_BENCHES: dict[Path, Bench] = {}
_MOST_BENCHES = 4
_MAKING = threading.Lock()


def bench_of(kit: Kit, folder: Path) -> Bench:
    """The bench of a kit in this process, which is made once; of many kits the oldest one's is cleared away."""
    path = folder / f"campaign-{kit.hash[:16]}-{os.getpid()}"
    with _MAKING:
        if path not in _BENCHES:
            _BENCHES[path] = Bench(kit, path)
            if len(_BENCHES) > _MOST_BENCHES:
                _BENCHES.pop(next(iter(_BENCHES))).clear()
        return _BENCHES[path]


def run_batch(kit: Kit, batch: Batch, folder: Path, worker: str) -> Done:
    """Runs a batch; what can't be run for want of disk, or can't be started, is told as rows."""
    begun, processor = time.perf_counter(), _processor_seconds()
    results: list[Result] = []
    logs: list[AnotherLog] = []
    for job in batch.jobs:
        try:
            source = kit.sources.get(job.case.source) or batch.sources[job.case.source]
            made, again = bench_of(kit, folder).run(job, source, worker)
            results += made
            logs += again
        except OSError as error:
            results += unmade(job, worker, error)
    return Done(results, logs, time.perf_counter() - begun, _processor_seconds() - processor)


def unmade(job: Job, worker: str, error: OSError) -> Iterator[Result]:
    """A row for each run of a job that the system refused."""
    outcome = Outcome.DISK_FULL if error.errno in _DISK_IS_FULL else Outcome.NOT_STARTED
    for place in job.wanted:
        yield Result(job.case, place, outcome, worker, error=f"{error.strerror or error}")


def _processor_seconds() -> float:
    """Of this process and the programs that it ran."""
    used = os.times()
    return used.user + used.system + used.children_user + used.children_system
