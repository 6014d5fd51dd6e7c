"""The words of the command `campaign`, and what each command prints."""

import argparse
import os
import sqlite3
import sys
from collections import Counter
from pathlib import Path
from typing import TYPE_CHECKING, NoReturn

from campaign import Wrong, __version__, drill
from campaign.cases import Drawn
from campaign.compare import Difference, Verdict, differences, failed_rows, log_of, missing_runs, other_run, split_of, unlike_cases, verdict_of
from campaign.faults import USUAL, perturbed
from campaign.log import glossed
from campaign.needs import check
from campaign.plan import Plan, allowed_of
from campaign.scenario import Scenario
from campaign.store import Row, Store

if TYPE_CHECKING:
    from campaign.engine import Totals

RESULTS = "campaign.sqlite"
REFUSED, CUT = 3, 130
STATUSES = """exit status:
  0  nothing differs and nothing failed
  1  the sets' logs of a scenario differ, and nothing failed
  2  a run failed: it couldn't be run, its status isn't 0, it breaks a question, or has an event of type 3 that isn't allowed
  3  the words, the plan or a file of it are refused; nothing was run"""


class Parser(argparse.ArgumentParser):
    """Refuses words with a status of its own, since 2 says that a run failed."""

    def error(self, message: str) -> NoReturn:
        raise Wrong(f"{message}; `{self.prog} --help` says more")


def parser() -> Parser:
    """The grammar of the words."""
    words = Parser(prog="campaign", description="Runs many rehearsals at once and tells what differs between sets of tables.", epilog=STATUSES, formatter_class=argparse.RawDescriptionHelpFormatter)
    words.add_argument("--version", action="version", version=f"campaign {__version__}")
    commands = words.add_subparsers(dest="command", metavar="COMMAND", required=True)

    def command(name: str, about: str) -> Parser:
        return commands.add_parser(name, help=about, description=about, epilog=STATUSES, formatter_class=argparse.RawDescriptionHelpFormatter)

    run = command("run", "run what a plan asks for and isn't known yet")
    run.add_argument("plan", metavar="PLAN.toml", type=Path)
    run.add_argument("--scheduler", metavar="ADDRESS", help="use the Dask cluster at this address, as tcp://host:8786")
    run.add_argument("--workers", metavar="N", type=int, help="workers of the local cluster (as many as processors)")
    compared = command("compare", "tell which scenarios differ between two sets")
    compared.add_argument("first", metavar="A")
    compared.add_argument("second", metavar="B")
    compared.add_argument("--most", metavar="N", type=int, default=50, help="print at most so many scenarios (50)")
    report = command("report", "write the results as one HTML page")
    report.add_argument("page", metavar="PAGE.html", type=Path, nargs="?", default=Path("campaign.html"))
    show = command("show", "print a run's log around its first difference")
    show.add_argument("number", metavar="N", type=int)
    show.add_argument("--frames", metavar="N", type=int, default=3, help="frames before and behind (3)")
    show.add_argument("--scenario", action="store_true", help="print the text that was run instead")
    for each in (run, compared, report, show):
        each.add_argument("--results", metavar="FILE", type=Path, default=Path(RESULTS), help=f"the results file ({RESULTS})")
    for each in (run, compared, report):
        each.add_argument("--allow", metavar="'APP N'", action="append", default=[], type=allowed_of, help="an event of type 3 that is wanted, as 'CS 101'; may be given again")
    perturb = command("perturb", "print the text that a seed gives")
    perturb.add_argument("scenario", metavar="SCENARIO", help="a scenario's file, or the name of faults drawn in the plan")
    perturb.add_argument("--seed", metavar="N", type=int, required=True)
    perturb.add_argument("--plan", metavar="PLAN.toml", type=Path, help="the plan that says what may befall it (each usual fault)")
    drilled = command("drill", "print the text of drill:K")
    drilled.add_argument("number", metavar="K", type=int)
    return words


def main(words: list[str] | None = None) -> int:
    """Does what the words ask for, and gives the exit status."""
    try:
        asked = parser().parse_args(words)
        status = COMMANDS[asked.command](asked)
        sys.stdout.flush()
        return int(status)
    except Wrong as wrong:
        print(f"campaign: {wrong}", file=sys.stderr)
        return REFUSED
    except KeyboardInterrupt:
        print("campaign: cut; what came back is kept, and the same words go on from there", file=sys.stderr)
        return CUT
    except BrokenPipeError:
        # Whoever read the output has closed it.
        os.dup2(os.open(os.devnull, os.O_WRONLY), sys.stdout.fileno())
        return 0


def run(asked: argparse.Namespace) -> Verdict:
    """Runs a plan, and says how it went."""
    check("distributed", "tqdm")
    from campaign.engine import run_plan

    if asked.workers is not None and not 1 <= asked.workers <= 1000:
        raise Wrong(f"--workers {asked.workers} isn't from 1 to 1000")
    plan = Plan.read(asked.plan.absolute()).allowing(asked.allow)
    store = Store(asked.results, must_exist=False)
    try:
        totals = run_plan(plan, store, asked.scheduler, asked.workers)
    except (sqlite3.OperationalError, OSError) as error:
        place = asked.results if isinstance(error, sqlite3.OperationalError) else asked.scheduler or "the local cluster"
        print(f"campaign: {place}: {error}; what was written before is kept, and the same words go on from there", file=sys.stderr)
        return Verdict.FAILED
    print(f"{totals.before} runs were known, {totals.ran} ran now{cost_of(totals)}")
    for mishap in store.mishaps() if totals.ran else []:
        print(f"{mishap['what']}: {mishap['worker']} with {mishap['runs']} runs from {mishap['first']} on, which began again")
    return print_verdict(store, asked.allow)


def cost_of(totals: "Totals") -> str:
    """How fast it went, and the processor time of a run on its worker and in the engine."""
    if not totals.ran:
        return ""
    worker, engine = (1000 * seconds / totals.ran for seconds in (totals.processor_seconds, totals.engine_seconds))
    told = f" on {totals.workers} workers in {totals.seconds:.1f} s, {totals.ran / totals.seconds:.1f} a second"
    return f"{told}; processor time of a run: {worker:.2f} ms on a worker, {engine:.2f} ms for the engine"


def print_verdict(store: Store, allow: list[str]) -> Verdict:
    """Prints how many scenarios differ and why runs failed."""
    names, allowed = store.sets(), store.allow() | set(allow)
    tables = [store.runs(name) for name in names]
    unlike, failed, missing = unlike_cases(tables), failed_rows(tables, allowed), missing_runs(store, tables)
    print(f"{len(unlike)} of {len(store.cases())} scenarios differ between {', '.join(names)}; {len(failed)} of {sum(map(len, tables))} runs failed")
    if missing:
        print(f"{missing} runs of the plan are missing")
    for why, count in Counter(why for row in failed for why in row.failures(allowed)).most_common():
        print(f"{count:8} {why}")
    return verdict_of(store, tables, allowed)


def compare(asked: argparse.Namespace) -> Verdict:
    """Prints which scenarios differ between two sets."""
    store = Store(asked.results)
    told = differences(store, asked.first, asked.second)
    cases = store.runs(asked.first).keys() & store.runs(asked.second).keys()
    print(f"{len(told)} of {len(cases)} scenarios differ between {asked.first} and {asked.second}")
    for difference in told[: asked.most]:
        print_difference(difference, asked.first, asked.second)
    if len(told) > asked.most:
        print(f"and {len(told) - asked.most} more; --most {len(told)} prints them")
    return verdict_of(store, [store.runs(name) for name in (asked.first, asked.second)], store.allow() | set(asked.allow))


def print_difference(difference: Difference, first: str, second: str) -> None:
    """Prints where two runs part; `first` and `second` are the sets' names."""
    print(f"{difference.case.name}: runs {difference.first.number} and {difference.second.number}")
    for row in (difference.first, difference.second):
        if (difference.first.status, difference.first.error) != (difference.second.status, difference.second.error):
            print(f"    {row.set_name}: {row.outcome}, status {row.status} {row.error}")
    split = difference.split
    if split:
        print(f"    frame {split.frame}, line {split.line}; {difference.size} lines stand in one log alone")
        for name, line in ((first, split.first), (second, split.second)):
            print(f"    {name + ':':12} {glossed(line) or '(the log has ended)'}")
    if difference.deltas:
        print("    " + ", ".join(f"{name} {delta:+}" for name, delta in difference.deltas.items()))


def report(asked: argparse.Namespace) -> Verdict:
    """Writes the page."""
    check("matplotlib")
    from campaign.report import page_of

    store = Store(asked.results)
    allowed = store.allow() | set(asked.allow)
    try:
        asked.page.write_text(page_of(store, allowed), encoding="utf-8")
    except OSError as error:
        raise Wrong(f"{asked.page}: {error.strerror}") from error
    print(f"{asked.page} is written")
    return print_verdict(store, asked.allow)


def show(asked: argparse.Namespace) -> int:
    """Prints a run, or the text that it ran."""
    store = Store(asked.results)
    row = store.run(asked.number)
    if asked.scenario:
        print_bytes(text_of(store, row))
        return 0
    log, other = log_of(store, row), other_run(store, row)
    other_log = store.log(other.log_hash) if other else None
    split = split_of(log, other_log) if other_log is not None else None
    print(f"run {row.number}: {row.case.name} with {row.set_name}: {row.outcome}, status {row.status} {row.error}".rstrip())
    print(f"{row.frames} frames, {row.lines} lines, {row.length} bytes, crc {row.crc}, {row.seconds * 1000:.1f} ms on worker {row.worker}")
    for line, holds in row.answers.items():
        print(f"{'holds' if holds else 'breaks'} {line}")
    if split and other:
        print(f"differs from run {other.number} ({other.set_name}) from line {split.line} in frame {split.frame} on; that has: {split.second or '(its end)'}")
    print_log(log, split.frame if split else None, split.line if split else None, asked.frames)
    return 0


def print_log(log: bytes, frame: int | None, line: int | None, around: int) -> None:
    """The lines of the frames around one, or all where there is none; `>` marks the line."""
    for number, text in enumerate(log.decode("latin-1").splitlines(), 1):
        at = int(text.split(" ")[0])
        if frame is None or abs(at - frame) <= around:
            print(f"{'>' if number == line else ' '} {glossed(text)}")


def text_of(store: Store, row: Row) -> bytes:
    """The text of a run, where the plan's files still are what they were."""
    plan = Plan.read(Path(store.plan()["path"]))
    source = plan.sources.get(row.case.source)
    if source is None:
        raise Wrong(f"{plan.path}: the scenario of run {row.number} isn't what it was when it ran")
    return source.text(row.case.seed or 0)[0]


def print_bytes(text: bytes) -> None:
    """Prints a text as its bytes are."""
    sys.stdout.flush()
    sys.stdout.buffer.write(text)


def perturb(asked: argparse.Namespace) -> int:
    """Prints the text that a seed gives."""
    if asked.seed < 0:
        raise Wrong(f"--seed {asked.seed} is below 0")
    print_bytes(drawn_of(asked).text(asked.seed)[0] if asked.plan else usual_text(asked))
    return 0


def usual_text(asked: argparse.Namespace) -> bytes:
    """The text that the usual faults give; Wrong where the scenario is none."""
    try:
        scenario = Scenario.read(Path(asked.scenario).read_bytes())
    except OSError as error:
        raise Wrong(f"{asked.scenario}: {error.strerror}") from error
    except Wrong as wrong:
        raise Wrong(f"{asked.scenario}: {wrong}") from wrong
    return perturbed(scenario, tuple(fault for fault in USUAL if fault.fault_in(scenario) is None), asked.seed)[0]


def drawn_of(asked: argparse.Namespace) -> Drawn:
    """The faults that the plan draws over a scenario, which is named by its file or by its name in the plan."""
    plan = Plan.read(asked.plan.absolute())
    drawn = {case.scenario: source for case in plan.cases if isinstance(source := plan.sources[case.source], Drawn)}
    path = Path(asked.scenario)
    content = path.read_bytes() if path.is_file() else None
    found = [source for name, source in drawn.items() if name == asked.scenario or source.content == content]
    if len(found) != 1:
        why = "draws no faults over" if not found else "draws several times over"
        raise Wrong(f"{asked.plan} {why} {asked.scenario}; name one of {', '.join(drawn)}")
    return found[0]


def drilled(asked: argparse.Namespace) -> int:
    """Prints the text of a generated scenario."""
    if not 0 <= asked.number <= 999_999:
        raise Wrong(f"{asked.number} isn't from 0 to 999999")
    print_bytes(drill.text_of(asked.number).encode())
    return 0


COMMANDS = {"run": run, "compare": compare, "report": report, "show": show, "perturb": perturb, "drill": drilled}
