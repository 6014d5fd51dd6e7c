"""The verbs of groundkit, with inputs that can't be read or are none, outputs that can't be written, and logs of a hundred megabytes."""

import os
import pathlib
import random
import resource
import subprocess
import tempfile
from dataclasses import dataclass

TOP = pathlib.Path(__file__).resolve().parent.parent.parent
BOOK = TOP / "examples" / "first" / "first.book"
OTHER_BOOK = TOP / "examples" / "pass" / "pass.book"
DONE, FILE_REFUSED, SCENARIO_REFUSED, READ_FAILED, WRITE_FAILED, NO_MEMORY, UNWANTED = 0, 2, 3, 4, 5, 6, 10
LONG_LOG = 100_000_000
LONGEST = 20
MOST_MEMORY = 64_000_000


@dataclass(frozen=True)
class Verb:
    """A verb: its words in front of its input, that input, and whether what it makes can be a file."""

    name: str
    words: tuple
    input: str
    has_output: bool = True

    def is_of_log(self):
        return self.name in ("words", "csv", "pcap", "diff")

    def call(self, given=None, output=None):
        """The words with another input, and with an output."""
        made = ("-o", output) if output else ()
        return [self.name, *self.words, *made, given or self.input]


class Folder:
    """A folder with an input for each verb."""

    def __init__(self, program, folder):
        self.program, self.folder = program, pathlib.Path(folder)
        self.run("build", "-o", folder, str(BOOK))
        (self.folder / "dwell.text").write_bytes(self.run("show", self.path("dwell1.table"))[1])
        self.run("run", "--log", self.path("log"), str(BOOK))
        self.run("run", "--log", self.path("other"), str(OTHER_BOOK))
        (self.folder / "noise").write_bytes(random.Random(1).randbytes(4000))
        (self.folder / "kept").write_text("as before\n")

    def path(self, name):
        return str(self.folder / name)

    def run(self, *words, **other):
        """The status of the program with these words, its output and what it told."""
        given = {"cwd": self.folder, "stdin": subprocess.DEVNULL, "stdout": subprocess.PIPE, "stderr": subprocess.PIPE, **other}
        try:
            done = subprocess.run([self.program, *map(str, words)], timeout=LONGEST, check=False, **given)
        except subprocess.TimeoutExpired:
            return None, b"", b"it doesn't end"
        return done.returncode, done.stdout, done.stderr

    def verbs(self):
        log = self.path("log")
        return [
            Verb("table", (), self.path("dwell.text")),
            Verb("show", (), self.path("dwell1.table")),
            Verb("scenario", (), str(BOOK)),
            Verb("build", (), str(BOOK)),
            Verb("check", (), self.path("dwell1.table"), has_output=False),
            Verb("run", (), str(BOOK)),
            Verb("words", (), log),
            Verb("csv", (), log),
            Verb("pcap", ("--epoch", "1000"), log),
            Verb("diff", (self.path("other"),), log),
        ]


def told(answer, statuses, *words):
    """What is wrong with an answer that must have one of these statuses and tell these words."""
    status, _, error = answer
    if status not in statuses:
        return f"status {status}, not {statuses}"
    lacking = [word for word in words if word not in error.decode(errors="replace")]
    if lacking or status != DONE and not error.endswith(b"\n"):
        return f"tells {error[:200]!r}"
    return None


def wrong_inputs(folder, verb):
    """Inputs that can't be read or hold nothing that the verb takes."""
    missing, noise = folder.path("none"), folder.path("noise")
    yield "its input is a folder", told(folder.run(*verb.call(str(folder.folder))), {READ_FAILED}, str(folder.folder))
    yield "its input is missing", told(folder.run(*verb.call(missing)), {READ_FAILED}, missing)
    yield "its input is noise", told(folder.run(*verb.call(noise)), {FILE_REFUSED, SCENARIO_REFUSED}, noise)
    yield "its input is empty", told(folder.run(*verb.call("/dev/null")), {DONE, FILE_REFUSED, SCENARIO_REFUSED, UNWANTED})


def is_kept(folder, answer, statuses, *words):
    """As `told`, where the file that stood at the output must be as before."""
    if (folder.folder / "kept").read_text() != "as before\n":
        return "the file at the output was changed"
    return told(answer, statuses, *words)


def wrong_outputs(folder, verb):
    """Outputs that can't be written, and an input that is none where a file stands at the output."""
    if verb.name == "build":
        yield "its folder is a file", told(folder.run(*verb.call(output=folder.path("kept"))), {WRITE_FAILED}, "kept")
        return
    if not verb.has_output:
        return
    there = folder.path("none/made")
    yield "the folder of its output is missing", told(folder.run(*verb.call(output=there)), {WRITE_FAILED}, there)
    yield "its output is a folder", told(folder.run(*verb.call(output=str(folder.folder))), {WRITE_FAILED}, str(folder.folder))
    yield "its output is full", told(folder.run(*verb.call(output="/dev/full")), {WRITE_FAILED}, "/dev/full")
    yield "its input is missing, and a file stands at its output", is_kept(folder, folder.run(*verb.call(folder.path("none"), folder.path("kept"))), {READ_FAILED})


def wrong_streams(folder, verb):
    """Standard outputs that are closed, full or have no reader."""
    words = verb.call()
    writes = {DONE} if verb.name == "build" else {WRITE_FAILED}
    with open("/dev/full", "wb") as full:
        yield "standard output is full", told(folder.run(*words, stdout=full), writes)
    back, front = os.pipe()
    os.close(back)
    yield "standard output has no reader", told(folder.run(*words, stdout=front, restore_signals=False), writes)
    os.close(front)
    yield "standard output is closed", told(folder.run(*words, preexec_fn=lambda: os.close(1)), writes)
    yield "standard error is closed", None if folder.run(*verb.call(folder.path("none")), preexec_fn=lambda: os.close(2))[0] == READ_FAILED else "another status"


def long_log(folder):
    """A log of a hundred megabytes."""
    one, path = (folder.folder / "log").read_bytes(), folder.folder / "long"
    with open(path, "wb") as file:
        for _ in range(LONG_LOG // (len(one) * 1000)):
            file.write(one * 1000)
    return path


def peak_of(folder, words, source):
    """The status of the program with this file as standard input, and the most memory that it had."""
    with open(source, "rb") as file, open(os.devnull, "wb") as nowhere:
        child = subprocess.Popen([folder.program, *words], stdin=file, stdout=nowhere, stderr=nowhere)
        _, status, used = os.wait4(child.pid, 0)
    return os.waitstatus_to_exitcode(status), used.ru_maxrss * 1024


def long_logs(folder):
    """A log of a hundred megabytes through a pipe, in bounded memory."""
    source = long_log(folder)
    for words in (["words", "-"], ["csv", "-"], ["pcap", "--epoch", "1000", "-"]):
        status, peak = peak_of(folder, words, source)
        fault = None if status == DONE and peak < MOST_MEMORY else f"status {status}, {peak} bytes of memory"
        yield f"{words[0]}: a log of {source.stat().st_size} bytes, {peak // 1000} kB of memory", fault
    source.unlink()


def limited(size):
    """What sets the most address space of a program."""
    return lambda: resource.setrlimit(resource.RLIMIT_AS, (size, size))


def endless(folder):
    """Inputs without an end, in an address space of a gigabyte. What is made of a log as it comes goes on until it is stopped."""
    for verb in folder.verbs():
        statuses = {None} if verb.is_of_log() else {FILE_REFUSED, SCENARIO_REFUSED, READ_FAILED, NO_MEMORY}
        answer = folder.run(*verb.call("/dev/zero"), stdout=subprocess.DEVNULL, preexec_fn=limited(1 << 30))
        yield f"{verb.name}: its input is a device without an end", None if answer[0] in statuses else f"status {answer[0]}, not {statuses}"


def parts_left(folder):
    """What stands beside an output that wasn't moved to its place."""
    left = [path.name for path in folder.folder.iterdir() if path.name.endswith(".part")]
    yield "no part of an output is left", f"{left} are" if left else None


def trials(folder):
    """What is done, and what is wrong with the answer."""
    for verb in folder.verbs():
        for part in wrong_inputs, wrong_outputs, wrong_streams:
            for name, fault in part(folder, verb):
                yield f"{verb.name}: {name}", fault
    yield from endless(folder)
    yield from long_logs(folder)
    yield from parts_left(folder)


def verbs(program, _):
    """Tries all verbs of a built groundkit, and tells whether each answered as it must."""
    tried = wrong = 0
    with tempfile.TemporaryDirectory() as work:
        for name, fault in trials(Folder(program, work)):
            tried += 1
            wrong += fault is not None
            print(f"{name}: {fault or 'as it must be'}", flush=True)
    print(f"{tried} trials, {wrong} not as they must be")
    return not wrong
