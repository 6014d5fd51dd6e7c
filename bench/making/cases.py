"""Cases: texts of rehearsals, in the form of docs/REHEARSALS.md, and the files that they stand for."""

import pathlib
import re
import struct
from dataclasses import dataclass, field, replace

from making import Wrong
from making.log_lines import log_line
from making.sections import SORTS
from making.words import U8, choice, counted, number

REPEAT = re.compile(r" *repeat ([a-z]) (\S+)\.\.(\S+)")
FILLED = re.compile(r"\{([^{}:]*)(:[0-9X]*)?\}")
EXPRESSION = re.compile(r"[0-9a-z+*/%() x-]+")
FILE_NAME = re.compile(r"[0-9A-Za-z_.-]{1,40}")
INDENT = "    "


@dataclass
class Rehearsal:
    """What is rehearsed once: its words, its files by name, what is wanted, and which rehearsal of its case each file stands with."""

    name: str
    words: list = field(default_factory=list)
    files: dict = field(default_factory=dict)
    places: dict = field(default_factory=dict)
    log: str = ""
    error: str = ""
    status: int = 0

    def line(self):
        """The line that names it: its name and its words, where a word that names a file is the file's path."""
        return " ".join([self.name, *(f"{self.places[word]}/{word}" if word in self.places else word for word in self.words)])

    def wanted(self):
        return f"{self.log}{self.error}status {self.status}\n"

    def written(self):
        """The files that stand with it, by their path."""
        own = {name: data for name, data in self.files.items() if self.places[name] == self.name}
        return {f"{self.name}/{name}": data for name, data in {**own, "wanted": self.wanted().encode()}.items()}


@dataclass
class Case:
    """A text: its name, its group, what it shows, and its rehearsals."""

    name: str
    group: str
    about: str
    rehearsals: list


def value_of(expression, counters):
    """The number of an expression of numbers, counters and + - * / %, where / leaves the rest out."""
    if not EXPRESSION.fullmatch(expression):
        raise Wrong(f"{expression!r} isn't an expression")
    try:
        return eval(expression.replace("/", "//"), {"__builtins__": {}}, counters)
    except (SyntaxError, NameError, ZeroDivisionError) as error:
        raise Wrong(f"{expression!r}: {error}") from error


def filled(text, counters):
    """A line in which {EXPRESSION} stands for its value, and {EXPRESSION:02X} for it in that form."""
    if not counters:
        return text
    return FILLED.sub(lambda found: format(value_of(found[1], counters), (found[2] or ":")[1:]), text)


def at_line(line, function, *given):
    """What a function gives; what is wrong is told with the line."""
    try:
        return function(*given)
    except struct.error as error:
        raise Wrong(f"line {line}: a number is too large for its field") from error
    except Wrong as error:
        raise Wrong(f"line {line}: {error}") from error


def expanded(lines, counters):
    """The numbered lines of a text, in which what is indented behind `repeat n FIRST..LAST` is repeated."""
    place = 0
    while place < len(lines):
        line, text = lines[place]
        place += 1
        repeat = REPEAT.fullmatch(text)
        if not repeat:
            yield line, at_line(line, filled, text, counters)
            continue
        end = place
        while end < len(lines) and lines[end][1].startswith(INDENT):
            end += 1
        block = [(at, text.removeprefix(INDENT)) for at, text in lines[place:end]]
        place = end
        first, last = (at_line(line, value_of, word, counters) for word in repeat.groups()[1:])
        for value in range(first, last + 1):
            yield from expanded(block, {**counters, repeat[1]: value})


def sections_of(lines):
    """The heads of the sections, and their lines; blank lines at a section's end aren't part of it."""
    head, body = (1, "about"), []
    for line, text in [*lines, (0, "==")]:
        if not text.startswith("=="):
            body.append(text)
            continue
        while body and not body[-1]:
            body.pop()
        yield head, body
        head, body = (line, text.removeprefix("==")), []


def filled_in(rehearsal, words, body):
    """A rehearsal with one more section."""
    sort, *options = words
    if sort == "words":
        return replace(rehearsal, words=[*options, *" ".join(body).split()])
    if sort == "log":
        return replace(rehearsal, log="".join(log_line(text) + "\n" for text in body))
    if sort == "error":
        return replace(rehearsal, error="".join(text + "\n" for text in body))
    if sort == "status":
        counted(words, "status N")
        return replace(rehearsal, status=number("N", options[0], U8))
    make = choice(sort, SORTS)
    if not options or not FILE_NAME.fullmatch(options[0]) or options[0] == "wanted":
        raise Wrong("a file's name has 1 to 40 letters, digits, _, - and ., and isn't wanted")
    file, *options = options
    files, places = {**rehearsal.files, file: make(options, body)}, {**rehearsal.places, file: rehearsal.name}
    return replace(rehearsal, files=files, places=places)


def rehearsals_of(name, sections):
    """The rehearsals of a text's sections."""
    rehearsals = [Rehearsal(name)]
    for (line, head), body in sections:
        words = head.split()
        if not words:
            raise Wrong(f"line {line}: a section has no sort")
        if words[0] == "again":
            rehearsals.append(replace(rehearsals[0], name=f"{name}_{len(rehearsals) + 1}"))
        else:
            rehearsals[-1] = at_line(line, filled_in, rehearsals[-1], words, body)
    return rehearsals


def case_of(path):
    """The case of a text. What is wrong is told with the file and the line, or that of the section's head."""
    lines = list(enumerate(path.read_text().split("\n"), 1))
    try:
        sections = sections_of(list(expanded(lines, {})))
        _, about = next(sections)
        rehearsals = rehearsals_of(path.stem, sections)
    except Wrong as error:
        raise Wrong(f"{path.parent.name}/{path.name}, {error}") from error
    return Case(path.stem, path.parent.name, " ".join(" ".join(about).split()), rehearsals)


def cases_in(folder):
    """The cases of all texts below a folder, in order of their names."""
    cases = [case_of(path) for path in sorted(pathlib.Path(folder).glob("*/*.case"))]
    names = [rehearsal.name for case in cases for rehearsal in case.rehearsals]
    for name in names:
        if names.count(name) > 1:
            raise Wrong(f"two rehearsals are named {name}")
    return cases
