"""Runs of programs, started cheaply, whose outputs are files."""

import os
import signal
import tempfile

LONGEST = 60
OUTPUTS = os.O_WRONLY | os.O_CREAT | os.O_TRUNC


class Late(Exception):
    """A run takes too long."""


def alarm(_, __):
    raise Late


class Runner:
    """A folder for a rehearsal's files and outputs."""

    def __init__(self):
        self.folder = tempfile.TemporaryDirectory(dir="/dev/shm" if os.path.isdir("/dev/shm") else None)
        self.out, self.err = (os.path.join(self.folder.name, name) for name in ("out", "err"))
        os.mkdir(os.path.join(self.folder.name, "files"))
        self.is_stopped = False
        signal.signal(signal.SIGALRM, alarm)
        for number in (signal.SIGINT, signal.SIGTERM):
            signal.signal(number, self.stop)

    def stop(self, _, __):
        self.is_stopped = True

    def place(self, name):
        return os.path.join(self.folder.name, "files", name)

    def write(self, contents):
        """Writes the files of a rehearsal, in place of those of the one before."""
        for name in os.listdir(self.place("")):
            os.unlink(self.place(name))
        for name, data in contents.items():
            with open(self.place(name), "wb") as file:
                file.write(data)

    def run(self, program, words):
        """The status, the output and the error output of a run; the status of one that takes too long is None. It has a process
        group of its own, so that what stops this script doesn't end it."""
        streams = [(os.POSIX_SPAWN_OPEN, 0, "/dev/null", os.O_RDONLY, 0)]
        streams += [(os.POSIX_SPAWN_OPEN, number, path, OUTPUTS, 0o600) for number, path in ((1, self.out), (2, self.err))]
        child = os.posix_spawn(program, [program, *words], os.environ, file_actions=streams, setpgroup=0)
        signal.alarm(LONGEST)
        try:
            status = os.waitstatus_to_exitcode(os.waitpid(child, 0)[1])
        except Late:
            os.kill(child, signal.SIGKILL)
            os.waitpid(child, 0)
            status = None
        finally:
            signal.alarm(0)
        return status, read(self.out), read(self.err)


def read(path):
    with open(path, "rb") as file:
        return file.read()
