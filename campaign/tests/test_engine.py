"""Whole campaigns on local clusters: their rows beside a plain loop of the program, cuts, deaths, and what runs again."""

import errno
import hashlib
import os
import re
import shutil
import signal
import sqlite3
import subprocess
import sys
import time
from pathlib import Path

import pytest
from conftest import CASES, TOP, plan_text

from campaign import work
from campaign.engine import Engine, batches_of, connected, jobs_of, kit_of
from campaign.plan import Plan
from campaign.store import Store
from campaign.work import Batch, run_batch
from campaign.words import main

# A program that kills its worker, sleeps or is well, as a word of the scenario's comment says.
FAKE = """#!/bin/sh
grep -q kill_the_worker "$1" && kill -9 $PPID
grep -q take_long "$1" && sleep 60
echo "0 reset"
"""


def rows(folder: Path, columns: str = "*", rest: str = "") -> list[tuple]:
    return sqlite3.connect(folder / "campaign.sqlite").execute(f"SELECT {columns} FROM runs {rest}").fetchall()


def run(folder: Path, *words: str) -> int:
    return main(["run", str(folder / "PLAN.toml"), "--workers", "2", "--results", str(folder / "campaign.sqlite"), *words])


def command(folder: Path, *words: str) -> list[str]:
    return [str(TOP / "campaign" / "campaign"), "run", str(folder / "PLAN.toml"), "--workers", "2", "--results", str(folder / "campaign.sqlite"), *words]


def plainly(plan: Plan, folder: Path) -> dict[tuple[str, str, int], tuple[int, str, int]]:
    """The program called for each case with each set, one after another: status, hash of the log, bytes."""
    told = {}
    for each in plan.sets:
        files = []
        for index, (_, content) in enumerate(each.files):
            files.append(folder / f"plain-{index}")
            files[-1].write_bytes(content)
        for case in plan.cases:
            text = folder / "plain-scenario"
            text.write_bytes(plan.sources[case.source].text(case.seed or 0)[0])
            done = subprocess.run([plan.path.parent / "vigil", text, *files], capture_output=True, check=False)
            told[each.name, case.scenario, -1 if case.seed is None else case.seed] = (done.returncode, hashlib.sha256(done.stdout).hexdigest(), len(done.stdout))
    return told


def test_a_campaign_tells_what_a_plain_loop_does(folder: Path, program: Path, capsys: pytest.CaptureFixture[str]) -> None:
    shutil.copy(program, folder / "vigil")
    assert run(folder) == 1
    plan = Plan.read(folder / "PLAN.toml")
    told = {row[:3]: row[3:] for row in rows(folder, "set_name, scenario, ifnull(seed, -1), status, log_hash, length")}
    plain = plainly(plan, folder)
    assert told == plain
    unlike = {key[1:] for key, value in plain.items() if value != plain["flown", *key[1:]]}
    capsys.readouterr()
    assert main(["compare", "flown", "next", "--results", str(folder / "campaign.sqlite")]) == 1
    names = re.findall(r"^(\S+)(?: seed (\d+))?: runs", capsys.readouterr().out, re.M)
    assert {(name, int(seed or -1)) for name, seed in names} == unlike and 0 < len(unlike) < len(plan.cases)
    kept = {row[0] for row in sqlite3.connect(folder / "campaign.sqlite").execute("SELECT log_hash FROM logs")}
    assert kept == {value[1] for key, value in plain.items() if key[1:] in unlike}


def test_only_what_changed_runs_again(folder: Path) -> None:
    assert run(folder) == 1
    before = {row[0]: row[1:] for row in rows(folder, "number, set_name, ended")}
    assert run(folder) == 1
    assert {row[0]: row[1:] for row in rows(folder, "number, set_name, ended")} == before
    shutil.copy(folder / "apps_flown.table", folder / "apps_next.table")
    assert run(folder) == 0
    assert {row[0]: row[1:] for row in rows(folder, "number, set_name, ended")} == before
    shutil.copy(CASES / "standby" / "apps_2.table", folder / "apps_next.table")
    assert run(folder) == 1
    after = rows(folder, "number, set_name, ended")
    assert {row[0]: row[1:] for row in after if row[0] in before} == before
    assert {row[1] for row in after if row[0] not in before} == {"next"} and len(after) == 36
    path = folder / "PLAN.toml"
    path.write_text(path.read_text().replace('"never drop any"', '"never drop any", "never restart LOAD"'))
    assert run(folder) == 2
    assert len(rows(folder, "number")) == 36


def test_a_log_is_made_again_where_a_later_run_differs_from_it(folder: Path) -> None:
    """With equal sets no log is kept; then one set changes, and the other's log is wanted too."""
    next_ = (folder / "apps_next.table").read_bytes()
    shutil.copy(folder / "apps_flown.table", folder / "apps_next.table")
    assert run(folder) == 0
    base = sqlite3.connect(folder / "campaign.sqlite")
    assert base.execute("SELECT count(*) FROM logs").fetchone() == (0,)
    (folder / "apps_next.table").write_bytes(next_)
    assert run(folder) == 1
    assert base.execute("SELECT count(*) FROM runs JOIN plan_sets USING (set_hash) WHERE name = 'flown' AND log_hash IN (SELECT log_hash FROM logs)").fetchone()[0] > 0


def test_statuses_and_allowed_events(folder: Path) -> None:
    path = folder / "PLAN.toml"
    path.write_text(path.read_text().replace('allow = ["CS any", "HS any"]', 'allow = ["CS 101", "HS 114"]'))
    assert run(folder) == 2
    assert run(folder, "--allow", "HS 102") == 1
    results = ["--results", str(folder / "campaign.sqlite")]
    assert main(["compare", "flown", "flown", *results, "--allow", "HS 102"]) == 0
    assert main(["compare", "flown", "nothing", *results]) == 3
    assert main(["run", str(folder / "NOPLAN.toml"), *results]) == 3
    assert main(["run"]) == 3
    page = folder / "page.html"
    assert main(["report", str(page), *results]) == 1
    text = page.read_text()
    assert "stalls seed" in text and "<svg" in text and "viewport" in text
    assert not re.search(r'(src|href)="(?!#)', text) and "@import" not in text


def test_a_worker_that_is_killed_costs_no_run(folder: Path, program: Path) -> None:
    (folder / "PLAN.toml").write_text(plan_text(program, "0..99"))
    plan, store = Plan.read(folder / "PLAN.toml"), Store(folder / "campaign.sqlite", must_exist=False)
    store.begin(plan)
    jobs = list(jobs_of(plan, store))
    with connected(None, 2) as client:
        workers = list(client.run(os.getpid).values())

        def told(_: int) -> None:
            if workers:
                os.kill(workers.pop(0), signal.SIGKILL)
                workers.clear()

        totals = Engine(plan, store, client, told).run(batches_of(plan, jobs, 2))
    assert totals.ran == len(rows(folder)) == 2 * len(plan.cases)
    assert rows(folder, "DISTINCT outcome") == [("ran",)]
    assert [mishap["what"] for mishap in store.mishaps()][:1] == ["worker died"]


def test_a_campaign_that_is_cut_goes_on(folder: Path, program: Path) -> None:
    (folder / "PLAN.toml").write_text(plan_text(program, "0..99"))
    begun = subprocess.Popen(command(folder), stdout=subprocess.DEVNULL, stderr=subprocess.DEVNULL, start_new_session=True)
    try:
        while not (folder / "campaign.sqlite").is_file() or count(folder) < 40:
            assert begun.poll() is None
            time.sleep(0.02)
    finally:
        begun.kill()
        begun.wait()
    before = set(rows(folder, "number, ended"))
    assert 40 <= len(before) < 204
    again = subprocess.run(command(folder), capture_output=True, text=True, check=False)
    assert again.returncode == 1 and f"{len(before)} runs were known, {204 - len(before)} ran now" in again.stdout and not again.stderr
    assert before < set(rows(folder, "number, ended")) and count(folder) == 204


def count(folder: Path) -> int:
    try:
        return len(rows(folder, "number"))
    except sqlite3.OperationalError:
        return 0


def test_what_can_t_be_run_is_told_as_rows(folder: Path) -> None:
    """One scenario kills each worker that runs it, and one takes too long; the others are as they are."""
    fake = folder / "fake"
    fake.write_text(FAKE)
    upset = folder / "contingencies" / "upset.scenario"
    (folder / "contingencies" / "kills.scenario").write_text(upset.read_text() + "# kill_the_worker\n")
    (folder / "contingencies" / "sleeps.scenario").write_text(upset.read_text() + "# take_long\n")
    (folder / "PLAN.toml").write_text(plan_text(fake, "0..3", "seconds = 1"))
    assert run(folder) == 2
    told = {(row[0], row[1]) for row in rows(folder, "scenario, outcome")}
    assert told == {
        ("contingencies/kills.scenario", "worker died"),
        ("contingencies/sleeps.scenario", "time limit"),
        ("contingencies/stalled.scenario", "ran"),
        ("contingencies/upset.scenario", "ran"),
        ("stalls", "ran"),
    }
    assert len(rows(folder)) == 16


def test_a_full_disk_is_told_as_rows(folder: Path, monkeypatch: pytest.MonkeyPatch) -> None:
    plan = Plan.read(folder / "PLAN.toml")
    jobs = tuple(jobs_of(plan, Store(folder / "campaign.sqlite", must_exist=False)))
    batch = Batch(jobs, plan.sources)
    made = work.tempfile.mkstemp

    def full(dir: Path) -> tuple[int, str]:
        if len(os.listdir(folder / "worker")) and next(calls) == 2:
            raise OSError(errno.ENOSPC, "No space left on device")
        return made(dir=dir)

    calls = iter(range(1000))
    monkeypatch.setattr(work.tempfile, "mkstemp", full)
    done = run_batch(kit_of(plan), batch, folder / "worker", "alone")
    outcomes = [str(result.outcome) for result in done.results]
    assert outcomes == ["ran"] * 4 + ["disk full"] * 2 + ["ran"] * 18


def test_a_cluster_that_is_there(folder: Path, program: Path) -> None:
    """A scheduler and a worker of their own, which don't know this package and share no file with the plan."""
    bare = {name: value for name, value in os.environ.items() if name != "PYTHONPATH"}
    file = folder / "scheduler.json"
    start = [sys.executable, "-m", "distributed.cli"]
    words = {"cwd": "/", "env": bare, "stdout": subprocess.DEVNULL, "stderr": subprocess.DEVNULL}
    scheduler = subprocess.Popen([*start[:2], "distributed.cli.dask_scheduler", "--port", "0", "--no-dashboard", "--scheduler-file", str(file)], **words)
    worker = subprocess.Popen([*start[:2], "distributed.cli.dask_worker", "--scheduler-file", str(file), "--nthreads", "2", "--no-dashboard", "--local-directory", str(folder / "there")], **words)
    try:
        until = time.monotonic() + 30
        while not file.is_file() and time.monotonic() < until:
            time.sleep(0.1)
        address = re.search(r'"address": "([^"]+)"', file.read_text())
        assert address
        done = subprocess.run([*command(folder), "--scheduler", address[1]], capture_output=True, text=True, timeout=120, check=False)
        assert done.returncode == 1, done.stderr
        assert len(rows(folder)) == 24 and rows(folder, "DISTINCT outcome") == [("ran",)]
    finally:
        for process in (worker, scheduler):
            process.terminate()
            process.wait()
