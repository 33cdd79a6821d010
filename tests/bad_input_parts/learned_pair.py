"""The two learned files of this process's folder, and the books that `dump` prints of them."""

import os

from bad_input_parts.failed import Failed
from bad_input_parts.programs import write_file
from tools.learned_file import NAMES


def write_pair(pair):
    """Writes both files; the second one is not there where it has no bytes."""
    for name, content in zip(NAMES, pair):
        write_file(name, content)
    if not pair[1]:
        os.unlink(NAMES[1])


def read_pair():
    """What both files have."""
    pair = []
    for name in NAMES:
        try:
            with open(name, "rb", buffering=0) as file:
                pair.append(file.read())
        except FileNotFoundError:
            pair.append(b"")
    return tuple(pair)


def words_of_dump(number):
    """The words of a run that prints a book."""
    return ["dump", "--learned", "learned", "--book", str(number)]


def book_of(programs, number):
    """What `dump` prints of a book."""
    return programs.run_to_end(words_of_dump(number), b"", (0,))[1]


def check_dump(programs, out):
    """Checks that `check` finds a dump good."""
    write_file("dumped", out)
    status, told, _ = programs.run(["check", "dumped"])
    if status or not told.endswith(b" bad 0\n") or told.count(b"\n") != 1:
        raise Failed(f"`check` says of {out!r}: status {status}, {told!r}")
