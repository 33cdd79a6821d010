"""A server whose memory, open files and threads are looked at."""

import collections
import os
import pathlib
import re

from tools.server import Server


class WatchedServer(Server):
    """A run of `serve` that knows the files and threads that it had at first."""

    def __init__(self, program, folder, limit):
        super().__init__(program, folder, more=("--limit", str(limit)))
        self.files_at_first, self.threads_at_first = self.files(), self.threads()

    def files(self):
        """What the run has open, by name, and how often."""
        names = collections.Counter()
        for each in pathlib.Path(f"/proc/{self.run.pid}/fd").iterdir():
            try:
                names[re.sub(r"\d+", "", os.readlink(each))] += 1
            except FileNotFoundError:
                pass
        return names

    def threads(self):
        """How many threads the run has."""
        return len(list(pathlib.Path(f"/proc/{self.run.pid}/task").iterdir()))

    def memory(self):
        """The kilobytes of memory that the run has."""
        told = pathlib.Path(f"/proc/{self.run.pid}/smaps_rollup").read_text()
        return int(re.search(r"Rss:\s+(\d+) kB", told).group(1))

    def is_as_at_first(self):
        """Whether the run has the files and threads that it began with, and the second learned file."""
        more = self.files() - self.files_at_first
        is_second = all(name.endswith("/learned.") for name in more) and sum(more.values()) <= 1
        return self.threads() == self.threads_at_first and is_second
