"""What the tests share: the built program, cases of rehearsals, and a folder with a small plan."""

import os
import shutil
from pathlib import Path

import pytest

TOP = Path(__file__).resolve().parent.parent.parent
EXAMPLES = TOP / "examples"
CASES = TOP / "crates" / "rehearsals" / "data"
FILES = ["events.table", "counters.table", "actions.table", "eeprom.table", "dwell1.table"]


@pytest.fixture(scope="session")
def program() -> Path:
    """The program that the gate proved, or the one of $CAMPAIGN_PROGRAM."""
    path = Path(os.environ.get("CAMPAIGN_PROGRAM", TOP / "crates" / "vigil" / "out" / "vigil"))
    if not path.is_file():
        pytest.fail(f"{path} isn't built; `examples/run` builds it")
    return path.resolve()


def log_of(case: str) -> bytes:
    """The log that a rehearsal wants which ends well: what it wants, without the line of its status."""
    return (CASES / case / "wanted").read_bytes().removesuffix(b"status 0\n")


@pytest.fixture
def folder(tmp_path: Path, program: Path) -> Path:
    """A plan of two sets that differ in one monitor, over two written scenarios and ten drawn ones."""
    source = EXAMPLES / "campaign"
    for name in [*FILES, "apps_flown.table", "apps_next.table"]:
        shutil.copy(source / name, tmp_path)
    shutil.copytree(source / "contingencies", tmp_path / "contingencies")
    (tmp_path / "PLAN.toml").write_text(plan_text(program))
    return tmp_path


def plan_text(program: Path, seeds: str = "0..9", more: str = "") -> str:
    files = ", ".join(f'"{name}"' for name in FILES)
    return f"""
program = "{program}"
scenarios = ["contingencies/*.scenario"]
questions = ["never drop any"]
allow = ["CS any", "HS any"]
batch = 4
{more}
[sets]
flown = ["apps_flown.table", {files}]
next = ["apps_next.table", {files}]

[[drawn]]
name = "stalls"
scenario = "contingencies/upset.scenario"
seeds = "{seeds}"
faults = [{{ kind = "hang", often = 1, name = "LOAD", between = "5..15", frames = "1..8" }}]
"""
