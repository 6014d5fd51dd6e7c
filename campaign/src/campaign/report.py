"""The results of a campaign as one HTML page that needs nothing else: totals, a matrix, the largest differences, plots."""

import time
from collections import Counter
from collections.abc import Iterable
from dataclasses import dataclass
from html import escape

from campaign.cases import Case
from campaign.compare import Difference, difference_of, failed_rows, missing_runs, unlike_cases
from campaign.log import glossed
from campaign.plots import bars
from campaign.store import Row, Store

MOST_ROWS, MOST_DIFFERENCES, MOST_BARS, LINES_AROUND = 200, 10, 24, 3
STYLE = """
body { font: 15px/1.45 system-ui, sans-serif; color: #1c2126; background: #fff; max-width: 68rem; margin: 0 auto; padding: 0 .8rem 3rem; }
h1 { font-size: 1.5rem; } h2 { font-size: 1.15rem; margin-top: 2.2rem; border-bottom: 1px solid #ccd3da; } h3 { font-size: 1rem; }
.scroll { overflow-x: auto; } table { border-collapse: collapse; font-size: .9rem; margin: .6rem 0; }
th, td { border: 1px solid #ccd3da; padding: .2rem .55rem; text-align: left; vertical-align: top; min-width: 4.5rem; } th { background: #eef2f5; }
td.number { text-align: right; font-variant-numeric: tabular-nums; } td.run { min-width: 11rem; } td.differs { background: #fff1cf; } td.failed { background: #fbdcd8; }
pre { overflow-x: auto; background: #f5f7f9; padding: .5rem; font-size: .78rem; } pre .one { background: #dbe8f7; } pre .other { background: #fbe3d0; }
.big { display: flex; flex-wrap: wrap; gap: .6rem; padding: 0; list-style: none; } .big li { border: 1px solid #ccd3da; border-radius: .3rem; padding: .4rem .8rem; }
.big b { display: block; font-size: 1.3rem; } svg { width: 100%; max-width: 46rem; height: auto; } .hash { font-family: monospace; color: #55606b; overflow-wrap: anywhere; }
"""


@dataclass(frozen=True)
class Results:
    """What the page speaks of: the sets' names, their runs by case, and what differs and what failed."""

    store: Store
    allow: frozenset[str]
    sets: list[str]
    tables: list[dict[Case, Row]]
    unlike: list[Case]
    failed: list[Row]


def page_of(store: Store, allow: frozenset[str]) -> str:
    """The page of the last plan's results."""
    sets = store.sets()
    tables = [store.runs(name) for name in sets]
    results = Results(store, allow, sets, tables, unlike_cases(tables), failed_rows(tables, allow))
    parts = [head(results), totals(results), questions(results), reasons(results), matrix(results), largest(results), plots(results), mishaps(results)]
    title = escape(f"Campaign of {store.plan()['path'].rsplit('/', 1)[-1]}")
    return (
        f'<!DOCTYPE html>\n<html lang="en">\n<head>\n<meta charset="utf-8">\n<meta name="viewport" content="width=device-width, initial-scale=1">\n'
        f"<title>{title}</title>\n<style>{STYLE}</style>\n</head>\n<body>\n<h1>{title}</h1>\n{''.join(parts)}</body>\n</html>\n"
    )


def table(names: Iterable[str], rows: Iterable[Iterable[str]], caption: str = "") -> str:
    """A table that scrolls by itself where the screen is narrow; `rows` are cells, already as HTML."""
    told = f"<p>{escape(caption)}</p>\n" if caption else ""
    header = "".join(f"<th>{escape(name)}</th>" for name in names)
    body = "".join(f"<tr>{''.join(cells)}</tr>\n" for cells in rows)
    return f'{told}<div class="scroll"><table><thead><tr>{header}</tr></thead>\n<tbody>{body}</tbody></table></div>\n'


def cell(text: object, kind: str = "") -> str:
    """A cell of a table; `kind` are its classes, and numbers stand to the right."""
    shown = f"{text:,}" if isinstance(text, int) else escape(str(text))
    kind = kind or ("number" if isinstance(text, int) else "")
    return f'<td class="{kind}">{shown}</td>' if kind else f"<td>{shown}</td>"


def head(results: Results) -> str:
    """When it was begun, with which program, and what is allowed."""
    plan = results.store.plan()
    begun = time.strftime("%Y-%m-%d %H:%M UTC", time.gmtime(plan["begun"]))
    allowed = ", ".join(sorted(results.allow)) or "none"
    return f'<p>Begun {begun}. Program <span class="hash">{plan["program_hash"][:16]}</span>. Events of type 3 that are wanted: {escape(allowed)}.</p>\n'


def totals(results: Results) -> str:
    """How many scenarios, sets and runs there are, and each set's sums."""
    runs = sum(map(len, results.tables))
    missing = missing_runs(results.store, results.tables)
    told = [(len(results.store.cases()), "scenarios"), (len(results.sets), "sets"), (runs, "runs"), (len(results.unlike), "scenarios differ"), (len(results.failed), "runs failed")]
    told += [(missing, "runs are missing")] if missing else []
    big = '<ul class="big">' + "".join(f"<li><b>{count:,}</b>{escape(name)}</li>" for count, name in told) + "</ul>\n"
    rows = [
        [cell(name), cell(len(rows)), *(cell(sum(getattr(row, key) for row in rows.values())) for key in ("frames", "lines", "length")), cell(sum(row.number in failed for row in rows.values()))]
        for failed in [{row.number for row in results.failed}]
        for name, rows in zip(results.sets, results.tables)
    ]
    return big + table(["set", "runs", "frames", "lines of log", "bytes of log", "failed"], rows)


def questions(results: Results) -> str:
    """How many runs of each set break each question."""
    asked = dict.fromkeys(line for rows in results.tables for row in rows.values() for line in row.answers)
    if not asked:
        return ""
    broken = [Counter(line for row in rows.values() for line, holds in row.answers.items() if not holds) for rows in results.tables]
    rows = [[cell(line), *(cell(count[line], "failed number" if count[line] else "") for count in broken)] for line in asked]
    return "<h2>Questions</h2>\n" + table(["question", *(f"broken with {name}" for name in results.sets)], rows)


def reasons(results: Results) -> str:
    """Why runs failed, the most frequent reason first."""
    failed = {row.number for row in results.failed}
    told = [Counter(why for row in rows.values() if row.number in failed for why in row.failures(results.allow)) for rows in results.tables]
    whole = sum(told, Counter[str]())
    rows = [[cell(why), *(cell(count[why]) for count in told)] for why, _ in whole.most_common()]
    return "<h2>Why runs failed</h2>\n" + (table(["reason", *results.sets], rows) if rows else "<p>No run failed.</p>\n")


def matrix(results: Results) -> str:
    """Scenarios by sets: first as many as have one name, then one by one what differs or failed."""
    failed = {row.number for row in results.failed}
    names = dict.fromkeys(case.scenario for case in results.store.cases())
    unlike = Counter(case.scenario for case in results.unlike)
    counts = [(Counter(case.scenario for case in rows), Counter(case.scenario for case, row in rows.items() if row.number in failed)) for rows in results.tables]
    grouped = [[cell(name), cell(unlike[name]), *(cell(f"{ran[name]:,} ran, {bad[name]:,} failed", "failed" if bad[name] else "") for ran, bad in counts)] for name in names]
    is_unlike = set(results.unlike)
    marked = [case for case in results.store.cases() if case in is_unlike or any(case in rows and rows[case].number in failed for rows in results.tables)]
    singles = [[cell(case.name), *(run_cell(rows.get(case), case in is_unlike, results.allow) for rows in results.tables)] for case in marked[:MOST_ROWS]]
    rest = f" {len(marked) - MOST_ROWS:,} more are in the results file." if len(marked) > MOST_ROWS else ""
    caption = f"What differs or failed, run by run; campaign show N prints run N.{rest}"
    single = table(["scenario", *results.sets], singles, caption) if singles else "<p>No scenario differs and no run failed.</p>\n"
    listed = "".join(seeds_that_differ(name, [case for case in results.unlike if case.scenario == name]) for name in names if unlike[name])
    return "<h2>Scenarios by sets</h2>\n" + table(["scenario", "differ", *results.sets], grouped, "All, by name:") + listed + single


def seeds_that_differ(name: str, cases: list[Case]) -> str:
    """All seeds whose runs differ, as spans, behind a line that opens them; nothing for a written scenario."""
    seeds = sorted(case.seed for case in cases if case.seed is not None)
    starts = [seed for seed, before in zip(seeds, [-2, *seeds]) if seed != before + 1]
    ends = [seed for seed, behind in zip(seeds, [*seeds[1:], -2]) if seed + 1 != behind]
    spans = ", ".join(str(start) if start == end else f"{start}..{end}" for start, end in zip(starts, ends))
    return f"<details><summary>Seeds of {escape(name)} that differ</summary><p>{spans}</p></details>\n" if seeds else ""


def run_cell(row: Row | None, is_unlike: bool, allow: frozenset[str]) -> str:
    """The cell of a run: its number, and why it failed or how long its log is."""
    if row is None:
        return cell("no run", "failed")
    why = row.failures(allow)
    text = f"run {row.number}: {'; '.join(why)}" if why else f"run {row.number}: {row.lines:,} lines"
    return cell(text, "run failed" if why else "run differs" if is_unlike else "run")


def largest(results: Results) -> str:
    """The largest differences from the first set, with the lines around the first that differs."""
    first, *others = results.tables
    pairs = [(first[case], rows[case]) for case in results.unlike for rows in others if case in first and case in rows and rows[case].fingerprint != first[case].fingerprint]
    told = sorted((difference_of(results.store, one, other) for one, other in pairs), key=lambda each: -each.size)[:MOST_DIFFERENCES]
    parts = [shown(results.store, difference) for difference in told]
    return f"<h2>The {len(parts)} largest differences</h2>\n" + "".join(parts) if parts else ""


def shown(store: Store, difference: Difference) -> str:
    """A difference with the lines before it, and those of each log from it on."""
    one, other, split = difference.first, difference.second, difference.split
    about = f"{difference.case.name}: {one.set_name} (run {one.number}) and {other.set_name} (run {other.number})"
    deltas = ", ".join(f"{name} {delta:+}" for name, delta in difference.deltas.items()) or "All counts are equal"
    told = f"<h3>{escape(about)}</h3>\n<p>{difference.size:,} lines stand in one log alone. {escape(deltas)}.</p>\n"
    if split is None:
        return told
    logs = [(store.log(row.log_hash) or b"").decode("latin-1").splitlines() for row in (one, other)]
    at = split.line - 1
    lines = [escape(glossed(line)) for line in logs[0][max(at - LINES_AROUND, 0) : at]]
    for kind, row, log in (("one", one, logs[0]), ("other", other, logs[1])):
        behind = log[at : at + LINES_AROUND + 1] or ["(the log has ended)"]
        lines += [f'<span class="{kind}">{escape(row.set_name)}: {escape(glossed(line))}</span>' for line in behind]
    return f"{told}<p>Frame {split.frame}, line {split.line}:</p>\n<pre>" + "\n".join(lines) + "</pre>\n"


def plots(results: Results) -> str:
    """Events and drops of all runs by set, the most frequent first."""
    parts = []
    for part, title in (("events", "Events by set"), ("drops", "Drops by set")):
        sums = [Counter[str]() for _ in results.sets]
        for total, rows in zip(sums, results.tables):
            for row in rows.values():
                total.update(row.counts[part])
        whole = sum(sums, Counter[str]()).most_common()
        counts = {name: [total[name] for total in sums] for name, _ in whole[:MOST_BARS]}
        rest = f"<p>{len(whole) - MOST_BARS} rarer ones aren't drawn.</p>\n" if len(whole) > MOST_BARS else ""
        parts.append(bars(title, counts, results.sets) + rest if counts else f"<p>There are no {part}.</p>\n")
    return "<h2>Events and drops</h2>\n" + "\n".join(parts)


def mishaps(results: Results) -> str:
    """The workers that died, and what they had under way."""
    told = results.store.mishaps()
    if not told:
        return ""
    rows = [[cell(time.strftime("%H:%M:%S UTC", time.gmtime(row["at"]))), cell(row["what"]), cell(row["worker"]), cell(row["runs"]), cell(row["first"])] for row in told]
    return "<h2>Mishaps</h2>\n<p>The runs that a dead worker had under way began again on others.</p>\n" + table(["at", "what", "worker", "runs", "from"], rows)
