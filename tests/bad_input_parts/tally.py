"""How the cases ended, as it is counted and printed, and the bytes of those that failed."""

import collections
import time


class Tally:
    """How many cases of each kind ended how, how many were run, and how many failed."""

    def __init__(self, given):
        self.given = given
        self.ends = collections.Counter()
        self.done = self.failed = 0
        self.tenth = 1
        self.since = time.monotonic()

    def add(self, count, ends, fault):
        """Adds so many cases with their ends, and one that failed."""
        self.done += count
        self.ends.update(ends)
        if fault:
            self.failed += 1
            keep(self.given.folder, self.given.seed, *fault)

    def print_tenth(self):
        """Prints a line where another tenth of the cases has been run."""
        if self.done * 10 >= self.given.cases * self.tenth:
            print(f"{self.done} cases, {self.failed} failed, {time.monotonic() - self.since:.0f} s", flush=True)
            self.tenth = self.done * 10 // self.given.cases + 1

    def print_ends(self, seconds):
        """Prints the last lines."""
        for (kind, end), count in sorted(self.ends.items()):
            print(f"{kind}, {end}: {count}")
        print(f"{self.done} cases, {self.failed} failed, {seconds:.0f} s")


def keep(folder, seed, number, kind, fault, contents):
    """Keeps what a case was made of, and tells it."""
    folder.mkdir(parents=True, exist_ok=True)
    names = []
    for name, content in contents.items():
        names.append(folder / f"{seed}-{number}.{name}")
        names[-1].write_bytes(content)
    print(f"case {number}, {kind}: {fault[:2000]}\n  kept: {' '.join(map(str, names))}", flush=True)
