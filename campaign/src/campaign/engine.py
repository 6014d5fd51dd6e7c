"""Spreads a plan's runs over Dask's workers, batch by batch, and writes each batch as it comes (docs/CAMPAIGNS.md)."""

import logging
import os
import signal
import sys
import tempfile
import time
import warnings
import zipfile
from collections.abc import Callable, Iterator
from contextlib import ExitStack, contextmanager
from dataclasses import dataclass
from pathlib import Path
from typing import Any

from campaign import Wrong
from campaign.cases import Drawn, Generated, Source
from campaign.plan import Plan
from campaign.store import Store
from campaign.work import Batch, Done, Job, Kit, Outcome, Result, run_batch

_IN_FLIGHT = 3
_TRIES_ALONE = 2
_KIT = "campaign-kit-"

# What a local cluster looks after less often than Dask would: how punctual its loops are, and what they do.
_QUIET = {"distributed.admin.tick.interval": "1s", "distributed.worker.profile.enabled": False}


@dataclass
class Totals:
    """What a campaign took.

    `seconds` is its wall clock; `program_seconds` and `worker_seconds` are the wall clock of the program and of whole
    batches, summed over workers; the processor seconds are those of workers with the program, and of this process, in
    which Dask's scheduler runs too where the cluster is a local one.
    """

    wanted: int = 0
    before: int = 0
    ran: int = 0
    seconds: float = 0.0
    program_seconds: float = 0.0
    worker_seconds: float = 0.0
    processor_seconds: float = 0.0
    engine_seconds: float = 0.0
    workers: int = 0

    def add(self, done: Done) -> None:
        self.ran += len(done.results)
        self.program_seconds += sum(result.seconds for result in done.results)
        self.worker_seconds += done.seconds
        self.processor_seconds += done.processor_seconds


@dataclass
class Task:
    """A batch that is handed to a worker; `tries_alone` counts how often nothing else was under way beside it."""

    batch: Batch
    tries_alone: int = 0


def kit_of(plan: Plan) -> Kit:
    """What all runs of the plan share; written scenarios go with the batches that need them."""
    shared: dict[str, Source] = {name: source for name, source in plan.sources.items() if isinstance(source, (Drawn, Generated))}
    return Kit(plan.program, plan.subjects, plan.sets, shared, plan.questions, plan.allow, plan.limits.seconds)


def jobs_of(plan: Plan, store: Store) -> Iterator[Job]:
    """What isn't known yet, case by case."""
    known = store.known(plan)
    hashes = [each.hash for each in plan.sets]
    for case in plan.cases:
        told = {place: known.get((name, case.source, case.seed)) for place, name in enumerate(hashes)}
        wanted = tuple(place for place, of in told.items() if of is None and hashes[place] not in hashes[:place])
        if wanted:
            yield Job(case, wanted, {place: of for place, of in told.items() if of is not None})


def batches_of(plan: Plan, jobs: list[Job], workers: int) -> Iterator[Batch]:
    """The jobs in their order, as many a batch as the plan says, and fewer where each worker wouldn't get a few batches."""
    size = max(min(plan.limits.batch, len(jobs) // (max(workers, 1) * _IN_FLIGHT)), 1)
    for start in range(0, len(jobs), size):
        part = tuple(jobs[start : start + size])
        written = {job.case.source for job in part if not isinstance(plan.sources[job.case.source], (Drawn, Generated))}
        yield Batch(part, {name: plan.sources[name] for name in written})


def run_on_worker(kit: Kit, batch: Batch) -> Done:
    """A task: the batch in the worker's own folder."""
    from distributed import get_worker

    worker = get_worker()
    return run_batch(kit, batch, Path(worker.local_directory), str(worker.name))


def handed_on(kit: Kit) -> Kit:
    """The task that holds the kit: workers fetch its result from one another, and it is made again where all of them died."""
    return kit


@contextmanager
def connected(scheduler: str | None, workers: int) -> Iterator[Any]:
    """A client of the cluster at an address, or of a local one with so many worker processes of one thread each."""
    import dask
    from distributed import Client, LocalCluster

    # What goes wrong is told in this package's own words.
    for name in ("distributed", "distributed.client"):
        logging.getLogger(name).setLevel(logging.CRITICAL)
    with ExitStack() as stack:
        if scheduler:
            try:
                client = stack.enter_context(Client(scheduler, timeout="15s"))
            except (OSError, ValueError) as error:
                raise Wrong(f"no scheduler answers at {scheduler}: {error}") from error
            client.register_worker_plugin(_package(Path(stack.enter_context(tempfile.TemporaryDirectory()))))
            yield client
            return
        folder = stack.enter_context(tempfile.TemporaryDirectory(prefix="campaign-", ignore_cleanup_errors=True))
        # A batch whose worker died comes back at once, so that it is told, and cut until the run is alone that did it.
        settings = {"distributed.scheduler.allowed-failures": 0, "temporary-directory": folder, **_QUIET}
        stack.enter_context(dask.config.set(settings))
        with _no_interrupt():
            cluster = stack.enter_context(LocalCluster(n_workers=workers, threads_per_worker=1, processes=True, dashboard_address=":0", silence_logs=50, local_directory=folder))
        yield stack.enter_context(Client(cluster))


@contextmanager
def _no_interrupt() -> Iterator[None]:
    """Has the processes that are started here leave Ctrl-C to this one, which ends them."""
    before = signal.signal(signal.SIGINT, signal.SIG_IGN)
    try:
        yield
    finally:
        signal.signal(signal.SIGINT, before)


def _package(folder: Path) -> Any:
    """This package as a zip file that workers import, so that nothing need be installed beside distributed there."""
    from distributed.diagnostics.plugin import UploadFile

    path = folder / "campaign.zip"
    with zipfile.ZipFile(path, "w") as file:
        for module in sorted(Path(__file__).parent.glob("*.py")):
            file.write(module, f"campaign/{module.name}")
    return UploadFile(str(path))


class Engine:
    """Keeps a few batches a worker under way, and writes what comes back."""

    def __init__(self, plan: Plan, store: Store, client: Any, told: Callable[[int], object]) -> None:
        from distributed import as_completed

        self.plan, self.store, self.client, self.told = plan, store, client, told
        self.totals = Totals()
        self.kit = self.handed_kit()
        self.waiting: list[Task] = []
        self.suspects: list[Task] = []
        self.tasks: dict[str, Task] = {}
        self.futures = as_completed()
        self.made = 0

    def handed_kit(self) -> Any:
        with warnings.catch_warnings():
            # Dask would have large contents scattered; those are lost where all workers that hold them die.
            warnings.filterwarnings("ignore", message="Large object")
            return self.client.submit(handed_on, kit_of(self.plan), key=f"{_KIT}{time.time_ns()}")

    def run(self, batches: Iterator[Batch]) -> Totals:
        begun, processor = time.perf_counter(), time.process_time()
        try:
            self.fill(batches)
            for future in self.futures:
                self.take(self.tasks.pop(future.key), future)
                self.fill(batches)
        finally:
            self.totals.seconds = time.perf_counter() - begun
            self.totals.engine_seconds = time.process_time() - processor
        return self.totals

    def fill(self, batches: Iterator[Batch]) -> None:
        """Hands on batches until each worker thread has a few, however many there are by now; suspects come last, one by one."""
        threads = sum(self.client.nthreads().values())
        self.totals.workers = max(self.totals.workers, threads)
        while len(self.tasks) < max(threads, 1) * _IN_FLIGHT:
            batch = None if self.waiting else next(batches, None)
            if batch is None and not self.waiting:
                break
            self.hand_on(Task(batch) if batch else self.waiting.pop())
        if not self.tasks and self.suspects:
            task = self.suspects.pop()
            self.hand_on(Task(task.batch, task.tries_alone + 1))

    def hand_on(self, task: Task) -> None:
        self.made += 1
        future = self.client.submit(run_on_worker, self.kit, task.batch, key=f"campaign-batch-{self.made}-{time.time_ns()}", pure=False)
        self.tasks[future.key] = task
        self.futures.add(future)

    def take(self, task: Task, future: Any) -> None:
        """Writes what a batch gave, or sees to one whose worker died."""
        from distributed.scheduler import KilledWorker

        if future.status == "finished":
            return self.write(future.result())
        if future.status != "error":
            raise ConnectionError("the scheduler has gone")
        error = future.exception()
        if isinstance(error, KilledWorker):
            return self.died(task, error.task, str(error.last_worker.name))
        # What isn't foreseen is told as rows too; the other batches go on.
        self.write(Done(list(_told(task.batch, Outcome.NOT_STARTED, "", f"{type(error).__name__}: {error}")), [], 0, 0))

    def died(self, task: Task, key: str, worker: str) -> None:
        """A worker died that had a batch, perhaps behind another one: it is halved, and a single job becomes a suspect.

        A suspect with which two workers died while nothing else was under way is told as rows.
        """
        if key.startswith(_KIT):
            # It died as it took the kit, which has nothing to do with the batch.
            if self.kit.status == "error":
                self.kit = self.handed_kit()
            self.waiting.append(task)
            return
        self.store.add_mishap(Outcome.WORKER_DIED, worker, task.batch)
        if len(task.batch.jobs) > 1:
            self.waiting.extend(map(Task, task.batch.halves()))
        elif task.tries_alone < _TRIES_ALONE:
            self.suspects.append(task)
        else:
            self.write(Done(list(_told(task.batch, Outcome.WORKER_DIED, worker, "each worker that ran it died")), [], 0, 0))

    def write(self, done: Done) -> None:
        self.store.add(self.plan, done)
        self.totals.add(done)
        self.told(len(done.results))


def _told(batch: Batch, outcome: Outcome, worker: str, error: str) -> Iterator[Result]:
    """A row for each run of a batch that wasn't made."""
    for job in batch.jobs:
        for place in job.wanted:
            yield Result(job.case, place, outcome, worker, error=error)


def run_plan(plan: Plan, store: Store, scheduler: str | None, workers: int | None) -> Totals:
    """Runs what isn't known of a plan, with a bar on a terminal, and gives what it took."""
    from tqdm import tqdm

    with store.alone():
        number = store.begin(plan)
        jobs = list(jobs_of(plan, store))
        wanted = sum(len(job.wanted) for job in jobs)
        before = len(plan.cases) * len({each.hash for each in plan.sets}) - wanted
        if not jobs:
            return Totals(before=before)
        count = workers or plan.limits.workers or os.cpu_count() or 1
        with connected(scheduler, count) as client, tqdm(total=wanted, unit="run", disable=not sys.stderr.isatty(), smoothing=0.05) as bar:
            engine = Engine(plan, store, client, bar.update)
            totals = engine.run(batches_of(plan, jobs, sum(client.nthreads().values())))
        totals.wanted, totals.before = wanted, before
        store.end(number, {name: getattr(totals, name) for name in ("ran", "seconds", "program_seconds", "worker_seconds", "processor_seconds", "engine_seconds", "workers")})
        return totals
