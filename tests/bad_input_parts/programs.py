"""Runs of the program in this process's folder, and the ends that the manual has for them."""

import os
import re
import signal

from bad_input_parts.failed import Failed
from tools.patience import HANG, PATIENCE, wants_processor

# What runs may end as: the line on standard error for each status.
LINES = {
    0: rb"",
    2: rb"skk: script too long\n|skk: line [1-9][0-9]*\n",
    3: rb"skk: (?:rules|dictionary [1-3]) (?:too long|byte [0-9]+)\n|skk: rules line [1-9][0-9]*\n|skk: row too big [0-9]+\n",
    5: rb"skk: learned file (?:2 )?(?:byte|record at) [0-9]+\n",
    7: rb"skk: journal full\n",
}


class Hung(Exception):
    """Five seconds have passed."""


class Programs:
    """Runs of the program, one at a time, whose streams are files in memory."""

    def __init__(self, program):
        self.program = program
        self.files = [os.memfd_create(name) for name in ("in", "out", "err")]
        self.actions = [(os.POSIX_SPAWN_DUP2, file, place) for place, file in enumerate(self.files)]
        signal.signal(signal.SIGALRM, self.hung)

    @staticmethod
    def hung(*_):
        raise Hung

    def status(self, pid):
        """The status of a run that has been started."""
        for _ in range(PATIENCE):
            signal.setitimer(signal.ITIMER_REAL, HANG)
            try:
                return os.waitpid(pid, 0)[1]
            except Hung:
                if not wants_processor(pid):
                    break
            finally:
                signal.setitimer(signal.ITIMER_REAL, 0)
        os.kill(pid, signal.SIGKILL)
        os.waitpid(pid, 0)
        raise Failed(f"it had not ended after {HANG} seconds")

    def run(self, words, given=b""):
        """Runs the program: its status, and what it printed on its two outputs."""
        for file in self.files:
            os.ftruncate(file, 0)
            os.lseek(file, 0, os.SEEK_SET)
        os.pwrite(self.files[0], given, 0)
        pid = os.posix_spawn(self.program, [self.program, *words], {}, file_actions=self.actions)
        status = self.status(pid)
        out, err = (os.pread(file, os.fstat(file).st_size, 0) for file in self.files[1:])
        return os.waitstatus_to_exitcode(status), out, err

    def run_to_end(self, words, given, statuses):
        """The same, where it may end with these statuses, and has the line of that on standard error."""
        ran = self.run(words, given)
        if ran[0] not in statuses or not re.fullmatch(LINES[ran[0]], ran[2]):
            raise Failed(f"{' '.join(words)}: status {ran[0]}, {ran[2][:200]!r}")
        if ran[0] not in (0, 7) and ran[1]:
            raise Failed(f"{' '.join(words)}: status {ran[0]}, and on standard output {ran[1][:200]!r}")
        return ran

    def run_twice(self, words, given, statuses):
        """The same, where a second run leaves the same."""
        first = self.run_to_end(words, given, statuses)
        second = self.run_to_end(words, given, statuses)
        if first != second:
            raise Failed(f"{' '.join(words)}: {first!r} and then {second!r}")
        return first


def write_file(name, content):
    """Writes a file in the folder."""
    with open(name, "wb", buffering=0) as file:
        file.write(content)
