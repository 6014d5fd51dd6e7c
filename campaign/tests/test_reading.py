"""Plans, logs and questions, on the logs of rehearsals, which the rules give."""

import shutil
from pathlib import Path

import pytest
from conftest import CASES, log_of

from campaign import Wrong
from campaign.compare import size_of, split_of
from campaign.faults import Befallen
from campaign.log import Counts
from campaign.plan import Plan
from campaign.questions import Question, Run
from campaign.sequences import done_sequences


def run_of(case: str, befallen: tuple[Befallen, ...] = (), has_first: bool = False) -> Run:
    text = (CASES / case / "scenario.txt").read_bytes()
    return Run(log_of(case), text, text.count(b"\ntick"), befallen, has_first)


def test_counts_are_those_of_the_log() -> None:
    """The rehearsal `held` drops packets of MM's pipe; `reset` has two resets and no drop."""
    counts = Counts.of(log_of("reset"))
    assert counts.requests == {"reset": 2} and counts.drops == {} and counts.lines == 16
    assert counts.events["HS 101 type 3"] == 2 and counts.events["SC 104 type 2"] == 3
    assert counts.packets == {"HS": 4, "MM": 4, "SC": 3, "to MM": 3} and counts.events["MM 18 type 2"] == 1
    log = log_of("held").decode()
    assert sum(Counts.of(log.encode()).drops.values()) == sum(line.split(" ")[1] == "drop" for line in log.splitlines())


@pytest.mark.parametrize(
    "case, line, holds",
    [
        ("health", "never event HS 102", False),
        ("health", "never event HS 104", True),
        ("health", "ever event HS 102 type 3", True),
        ("health", "ever event HS 102 type 2", False),
        ("health", "ever restart LOAD", True),
        ("health", "ever restart any", True),
        ("health", "ever restart LOA", False),
        ("health", "within 1 of event MM 4: packet 0x1888", True),
        ("health", "within 0 of event MM 4: packet 0x1888", False),
        ("checksum", "within 1 of upset: event CS 101", False),
        ("reset", "at most 2 reset", True),
        ("reset", "at least 3 reset", False),
        ("reset", "at least 3 event SC 104", True),
        ("held", "never drop any", False),
        ("held", "never drop MM", False),
        ("held", "never drop HS.EV", True),
        ("sequences", "ends with sequence ATS1 done", True),
        ("sequences", "ends with sequence ATS2 done", False),
        ("sequences", "ends with sequence RTS2 done", True),
        ("limits", "ends with sequence RTS2 done", True),
        ("sequence_mistake", "ends with sequence RTS2 done", False),
        ("sequence_mistake", "ends with sequence ATS1 done", True),
        ("commands", "ends with sequence ATS1 done", False),
    ],
)
def test_a_question_is_answered(case: str, line: str, holds: bool) -> None:
    """As the cases tell what happens in them."""
    assert Question.read(line).holds(run_of(case)) == holds


def test_within_asks_where_its_frames_are_run() -> None:
    """In the rehearsal `checksum` bytes are upset in frames 0 and 4, and found in frames 5 and 8; the run has nine frames."""
    run = run_of("checksum")
    assert [frame for frame in range(9) if Question.read(f"within {frame} of upset: event CS 101").holds(run)] == [5, 6, 7, 8]
    stalled = run_of("health", (Befallen("hang", 2),))
    assert Question.read("within 2 of hang: restart LOAD").holds(stalled)
    assert not Question.read("within 1 of hang: restart LOAD").holds(stalled)
    assert Question.read("within 4 of hang: delete LOAD").holds(stalled)


def test_relative_sequences_that_run_beside_each_other_are_done_together() -> None:
    """Two starts are answered in frame 1; of the first end, in frame 2, nobody can tell whose it was."""

    def event(frame: int, number: int) -> str:
        return f"{frame} pkt 0808C0000025000003E900005343{'00' * 18}{number:04X}00020000004200000001\n"

    text = b"epoch 1000\nregion RAM 0 4\nstart\nsend 18A9C0000003048B0002\nsend 18A9C0000003048A0003\ntick\ntick\ntick\ntick\nend\n"
    log = event(1, 20) + event(1, 20) + event(2, 104)
    assert done_sequences(text, log.encode(), False) == set()
    assert done_sequences(text, (log + event(3, 104)).encode(), False) == {"RTS2", "RTS3"}
    housekeeping = "3 pkt 08AAC0000021000003EB00000000000000000000000000000000000000000004" + "0000000000000000\n"
    asked = text.replace(b"tick\ntick\ntick\n", b"tick\ntick\nsend 18AAC0000001008C\ntick\n", 1)
    assert done_sequences(asked, (log + housekeeping).encode(), False) == {"RTS2"}


@pytest.mark.parametrize("line", ["never", "never evnt HS 1", "ever event HS", "at most event HS 1", "within 3 of nothing: reset", "ends with sequence ATS3 done", "never packet 88A", "ever event HS 70000", "never drop MMM", ""])
def test_no_question(line: str) -> None:
    with pytest.raises(Wrong):
        Question.read(line)


def test_logs_part_where_their_lines_do() -> None:
    first, second = b"0 pkt 0891C000AA\n3 reset\n4 pkt 0891C001AA\n", b"0 pkt 0891C000AA\n4 pkt 0891C002AA\n"
    split = split_of(first, second)
    assert split and (split.line, split.frame, split.first, split.second) == (2, 3, "3 reset", "4 pkt 0891C002AA")
    assert split_of(first, first) is None and size_of(first, second) == 1
    behind = split_of(first, first + b"7 reset\n")
    assert behind and (behind.line, behind.frame, behind.first) == (4, 7, "")


@pytest.mark.parametrize(
    "old, new, told",
    [
        ("[sets]", "[sets", "PLAN.toml: Expected ']'"),
        ("batch = 4", "batches = 4", "PLAN.toml: batches: there is no such key"),
        ("batch = 4", "batch = true", "PLAN.toml: batch: True isn't of the type int"),
        ('"apps_next.table"', '"apps_text.table"', "PLAN.toml: sets.next[0]: "),
        ('"apps_next.table"', "7", "PLAN.toml: sets.next: it is a list of strings"),
        ("contingencies/*.scenario", "contingencies/*.text", "PLAN.toml: scenarios[0]: no file of "),
        ("contingencies/*.scenario", "", "PLAN.toml: scenarios[0]: no file of "),
        ("contingencies/*.scenario", "drill:9..1", "PLAN.toml: scenarios[0]: '9..1' ends before it begins"),
        ("never drop any", "never drop all", "PLAN.toml: questions[0]: a drop is written as"),
        ("CS any", "CS 101 type 3", "PLAN.toml: allow[0]: "),
        ("0..9", "0-9", "PLAN.toml: drawn[0].seeds: '0-9' is no number and no span"),
        ('name = "LOAD"', 'name = "LAOD"', "PLAN.toml: drawn[0].faults[0] (hang): the scenario has no execution counter LAOD"),
        ('name = "LOAD"', 'nam = "LOAD"', "PLAN.toml: drawn[0].faults[0].nam: there is no such key; known are kind, often, seed, between, name, frames"),
        ("often = 1", 'often = "1"', "PLAN.toml: drawn[0].faults[0].often: '1' isn't a number"),
        ('kind = "hang", often = 1, name = "LOAD", between = "5..15", frames = "1..8"', 'kind = "upset", region = 3', "PLAN.toml: drawn[0].faults[0] (upset): the scenario has regions 1 to 2, and no region 3"),
        ('kind = "hang", often = 1, name = "LOAD", between = "5..15", frames = "1..8"', 'kind = "reset", event = "GROUND 2"', "PLAN.toml: drawn[0].faults[0] (reset): no event monitor of set flown answers the event GROUND 2"),
        ("}]", '}, { kind = "hang" }]', "PLAN.toml: drawn[0].faults[1].seed: an earlier fault is hang with seed 0 too"),
        ('program = "', 'program = "/nowhere', "PLAN.toml: program: /nowhere"),
        ("[[drawn]]\n", '[[drawn]]\nseed = 1\n', "PLAN.toml: drawn[0].seed: there is no such key; known are name, scenario, seeds, faults"),
    ],
)
def test_a_plan_s_fault_is_told_with_its_place(folder: Path, old: str, new: str, told: str) -> None:
    path = folder / "PLAN.toml"
    text = path.read_text()
    assert old in text
    path.write_text(text.replace(old, new, 1))
    with pytest.raises(Wrong) as wrong:
        Plan.read(path)
    assert str(wrong.value).removeprefix(f"{folder}/").startswith(told)


def test_faults_over_a_bad_scenario_are_refused_with_its_line(folder: Path) -> None:
    path = folder / "contingencies" / "upset.scenario"
    path.write_text(path.read_text().replace("app LOAD 3", "app LOAD -3"))
    with pytest.raises(Wrong, match=r"drawn\[0\].scenario: .*upset.scenario: line 9: '-3' isn't a number .*reason 2"):
        Plan.read(folder / "PLAN.toml")


def test_a_set_is_its_contents(folder: Path) -> None:
    """Files that lie elsewhere under other names are no other set."""
    before = Plan.read(folder / "PLAN.toml").sets[0].hash
    shutil.move(folder / "apps_flown.table", folder / "renamed.table")
    path = folder / "PLAN.toml"
    path.write_text(path.read_text().replace("apps_flown.table", "renamed.table"))
    assert Plan.read(path).sets[0].hash == before
