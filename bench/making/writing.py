"""What the script writes of the cases, and what differs from it."""

import pathlib

from making.cases import cases_in
from making.words import SENT, counted, usage

TOP = pathlib.Path(__file__).resolve().parent.parent.parent
COMMANDS, REHEARSALS = TOP / "docs" / "COMMANDS.md", TOP / "docs" / "REHEARSALS.md"
PROGRAM = TOP / "crates" / "rehearsals"


def wanted(cases):
    """Each file that this script writes, and its bytes."""
    rehearsals = [rehearsal for case in cases for rehearsal in case.rehearsals]
    files = {PROGRAM / "data" / path: data for rehearsal in rehearsals for path, data in rehearsal.written().items()}
    files[PROGRAM / "stdin"] = "".join(rehearsal.line() + "\n" for rehearsal in rehearsals).encode()
    files[PROGRAM / "stdout"] = f"{len(rehearsals)} cases, 0 not as wanted\n".encode()
    return files


def unlisted(cases):
    """The commands of the case `commands` that docs/COMMANDS.md lacks, and the functions that docs/REHEARSALS.md lacks."""
    lines = [line for case in cases if case.name == "commands" for line in case.rehearsals[0].files["scenario.txt"].decode().splitlines()]
    sent = [line for line in lines if line.startswith("send ")]
    return missing(COMMANDS, sent) + missing(REHEARSALS, map(usage, SENT))


def missing(document, lines):
    """Tells which of these lines a document doesn't have between backquotes."""
    listed = document.read_text().split("`")
    return [f"{document.relative_to(TOP)} lacks `{line}`" for line in lines if line not in listed]


def is_text(path):
    """Whether a file is the text of a table or a load, which bench/case_texts writes and compares."""
    return path.suffix == ".text"


def differences(cases):
    files = wanted(cases)
    told = [f"{path.relative_to(TOP)} isn't what this script writes" for path, data in files.items() if not path.is_file() or path.read_bytes() != data]
    folder = PROGRAM / "data"
    told += [f"{path.relative_to(TOP)} isn't written by this script" for path in sorted(folder.rglob("*")) if path.is_file() and path not in files and not is_text(path)]
    return told + unlisted(cases)


def check(words):
    """Prints what differs, and gives 1 if anything does."""
    counted(["--check", *words], "--check")
    cases = cases_in(PROGRAM / "cases")
    told = differences(cases)
    for line in told:
        print(line)
    print(f"{len(wanted(cases))} files of {len(cases)} cases: {'as written' if not told else f'{len(told)} differences'}")
    return 1 if told else 0


def write(_):
    """Writes all files, in place of those that stand there. The texts of tables stay."""
    files = wanted(cases_in(PROGRAM / "cases"))
    for path in (PROGRAM / "data").rglob("*"):
        if path.is_file() and not is_text(path):
            path.unlink()
    for path, data in files.items():
        path.parent.mkdir(parents=True, exist_ok=True)
        path.write_bytes(data)
