"""The command line: a scenario, files of tables and loads, and the log."""

import sys

from .frame import Bench
from .memory import AccessFault
from .packets import Malformed
from .scenario import Reader
from .table_files import read_file

FAULTY = 2
USAGE = "usage: model SCENARIO FILE..."


def read_named_file(path):
    with open(path, "rb") as stream:
        try:
            return read_file(stream.read())
        except Malformed as fault:
            raise Malformed(f"{path}: {fault}") from fault


def write_log(scenario, paths, output):
    files = [read_named_file(path) for path in paths]
    with open(scenario, "rb") as stream:
        reader = Reader(stream)
        bench = Bench(reader.header, files)
        for frame in reader.frames():
            for line in bench.run(frame):
                output.write(line + "\n")


def main(words):
    if not words or words[0].startswith("-"):
        print(USAGE, file=sys.stderr)
        return FAULTY
    try:
        write_log(words[0], words[1:], sys.stdout)
    except (Malformed, AccessFault, OSError) as fault:
        print(f"model: {fault}", file=sys.stderr)
        return FAULTY
    return 0
