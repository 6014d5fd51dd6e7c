"""Texts: what the reader of scenarios accepts, what seeds give, and what drills stand for, beside the program itself."""

import random
import re
import subprocess
from collections import Counter
from pathlib import Path

import pytest
from conftest import CASES, EXAMPLES

from campaign import Wrong, drill
from campaign.crc import crc16
from campaign.draws import Draws, Span
from campaign.faults import KINDS, Hang, Upset, perturbed
from campaign.scenario import Refused, Scenario

REHEARSED = ["checksum", "commands", "dwell", "eeprom", "first", "health", "held", "limits", "loads", "refused_file", "refused_scenario", "reset", "sequence_mistake", "sequences", "standby", "subjects"]
SCENARIOS = [*(CASES / name / "scenario.txt" for name in REHEARSED), *sorted(EXAMPLES.glob("campaign/contingencies/*.scenario"))]
FULL_FRAME = "app LOAD 1\n" * 63 + "activate 2\ntick\n"
HEAD = "epoch 7\nregion RAM 0x1000 16\nstart\n"
EDGES = {
    "no frames": HEAD + "end",
    "one frame, spaces and no LF": "# of itself\n epoch  7 \nregion MEM8 0 4\nstart\nsend 1888C000000100AE \n tick\n\nend",
    "full frames": HEAD + FULL_FRAME * 3 + "end\n# behind\n",
    "numbers": "epoch 4294000000\nregion RAM 0xFFFFFFF0 16\nregion EEPROM 0 4\nstart\nupset 4294967295 0xff\nhold MD\ntick\nend\n",
    "the longest line": HEAD + "send 0808C00000F9" + "00" * 250 + " " * 123 + "\n" + "tick\n" * 4 + "end\n",
}
REFUSED = re.compile(r"vigil: scenario refused at line ([0-9]+), reason ([0-9])\n")


def told_by(program: Path, folder: Path, text: bytes) -> tuple[int, int, int]:
    """The status, and at status 3 the line and the reason, else zeros."""
    path = folder / "text"
    path.write_bytes(text)
    done = subprocess.run([program, path], capture_output=True, check=False)
    found = REFUSED.fullmatch(done.stderr.decode())
    return (done.returncode, int(found[1]), int(found[2])) if found else (done.returncode, 0, 0)


def told_here(text: bytes) -> tuple[int, int, int]:
    try:
        Scenario.read(text)
    except Refused as refused:
        return 3, refused.line, refused.reason
    return 0, 0, 0


def often(scenario: Scenario, times: float) -> tuple:
    """Each fault that can befall the scenario, many times."""
    return tuple(fault for kind in KINDS.values() if (fault := kind(often=times)).fault_in(scenario) is None)


@pytest.mark.parametrize("name", [*map(str, SCENARIOS), *EDGES])
def test_a_seed_gives_an_accepted_text(name: str, program: Path, tmp_path: Path) -> None:
    text = EDGES[name].encode() if name in EDGES else Path(name).read_bytes()
    if told_by(program, tmp_path, text)[0] != 0:
        with pytest.raises(Refused):
            Scenario.read(text)
        return
    scenario = Scenario.read(text)
    for seed, times in enumerate([0, 0.5, 1, 2, 5, 40]):
        drawn, _ = perturbed(scenario, often(scenario, times), seed)
        assert told_by(program, tmp_path, drawn) == (0, 0, 0), f"seed {seed}"
        assert told_here(drawn) == (0, 0, 0)


def test_a_text_of_all_bytes_stays_accepted(program: Path, tmp_path: Path) -> None:
    """A text that has as many bytes as a text may have, less a few, takes the faults that still fit."""
    head, end = b"epoch 7\nregion RAM 0 16\nstart\napp LOAD 1\nsend 1888C000000100AE\ntick\n", b"tick\n" * 4 + b"end\n"
    for left in (100, 1500):
        filled, rest = divmod((1 << 24) - len(head) - len(end) - left, 600)
        text = head + (b"#" * 599 + b"\n") * filled + b" " * (rest - 1) + b"\n" * (rest > 0) + end
        scenario = Scenario.read(text)
        drawn, told = perturbed(scenario, often(scenario, 5), 1)
        assert told_by(program, tmp_path, drawn) == (0, 0, 0)
        assert bool(told) == (left == 1500)


def test_the_reader_refuses_what_the_program_refuses(program: Path, tmp_path: Path) -> None:
    """Changed lines and bytes of rehearsals: both accept them, or refuse them at one line for one reason."""
    chance = random.Random(7)
    texts = [path.read_bytes() for path in SCENARIOS] + [text.encode() for text in EDGES.values()]
    for _ in range(400):
        lines = chance.choice(texts).split(b"\n")
        for _ in range(chance.choice([1, 1, 2])):
            at, other = chance.randrange(len(lines)), chance.choice(chance.choice(texts).split(b"\n"))
            change = chance.randrange(4)
            if change == 0:
                lines[at] = other
            elif change == 1:
                lines.insert(at, other)
            elif change == 2 and len(lines) > 1:
                del lines[at]
            elif lines[at]:
                place = chance.randrange(len(lines[at]))
                lines[at] = lines[at][:place] + chance.choice([b"", b"0", b"x", b" ", b"\t", b"F"]) + lines[at][place + 1 :]
        text = b"\n".join(lines)
        assert told_here(text) == told_by(program, tmp_path, text), text


def test_draws_are_hashes() -> None:
    """`printf 'upset 0 7 0' | sha256sum` begins with 98f0f1b301614ed4, and that of `upset 0 7 1` with b32d5f4c4bbf0dc7."""
    draws = Draws("upset 0 7")
    assert draws.below(1 << 64) == 0x98F0F1B301614ED4
    assert draws.below(1000) == 0xB32D5F4C4BBF0DC7 * 1000 >> 64


def test_faults_are_what_they_say() -> None:
    text = (HEAD + "".join(f"app LOAD {number}\ntick\n" for number in range(1, 7)) + "end\n").encode()
    scenario = Scenario.read(text)
    hung, told = perturbed(scenario, (Hang(between=Span(2, 2), frames=Span(2, 2)),), 0)
    values = re.findall(rb"^app LOAD (\d)$", hung, re.M)
    assert (values, told[0].frame) == ([b"1", b"2", b"2", b"2", b"5", b"6"], 2)
    for seed in range(50):
        drawn, _ = perturbed(scenario, (Upset(between=Span(3, 3)),), seed)
        found = re.search(rb"LOAD 4\n# fault: upset\nupset 0x0000(10..) 0x(..)\ntick", drawn)
        assert found and 0x1000 <= int(found[1], 16) < 0x1010 and 1 <= int(found[2], 16)


@pytest.mark.parametrize("kind", KINDS)
def test_a_fault_changes_what_it_names_alone(kind: str) -> None:
    """How many lines are gone and how many are new; a line that moved is neither. A seed gives one text again and again."""
    source = (HEAD + "app A 1\nsend 1888C000000100AE\ntick\napp A 2\nactivate 1\ntick\napp A 3\ntick\ntick\nend\n").encode()
    scenario = Scenario.read(source)
    changes = {"upset": (0, 1), "hold": (0, 1), "hang": (1, 1), "lost": (1, 0), "doubled": (0, 1), "damaged": (1, 1), "reset": (0, 1)}
    fault = KINDS[kind](**({"frames": Span(1, 1)} if kind in ("hold", "hang") else {}))
    seen = set()
    for seed in range(20):
        drawn, told = perturbed(scenario, (fault,), seed)
        assert (drawn, told) == perturbed(scenario, (fault,), seed)
        before, after = (Counter(line for line in text.split(b"\n") if not line.startswith(b"#")) for text in (source, drawn))
        seen.add(((before - after).total(), (after - before).total()))
    assert changes.get(kind, (0, 0)) in seen and seen <= {changes.get(kind, (0, 0)), (0, 0)}


def test_a_drill_is_the_program_s(program: Path, tmp_path: Path) -> None:
    """docs/SCENARIO.md: drill:7 without FILEs gives lines 2621, bytes 226802 and crc 7FC4."""
    path = tmp_path / "drill"
    path.write_text(drill.text_of(7))
    log = subprocess.run([program, path], capture_output=True, check=True).stdout
    assert (log.count(b"\n"), len(log), crc16(log)) == (2621, 226802, 0x7FC4)
    assert crc16(b"123456789") == 0xBB3D


def test_spans() -> None:
    assert [*Span.read("2..4").numbers()] == [2, 3, 4] and Span.read(7) == Span(7, 7)
    for word in ("4..2", "", "1..", "-1", 1.5, True, None):
        with pytest.raises(Wrong):
            Span.read(word)
