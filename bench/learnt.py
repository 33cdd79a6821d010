"""Learned files that are made for the benchmarks: a book of words of four kana, each with the candidate 字."""

from made import line
from typed import kana

BOOK = 1

# The first bytes of a file: an open gate, the mark, and the generation 1.
HEAD = b"\1SKKDESK\1" + (1).to_bytes(8, "little")

# The greatest limit, under which there is room here at any time.
FAR = 268_435_456


def entry(reading):
    """The line of a reading as it is typed, as the dictionary and the book have it."""
    return line(kana(reading), ["字"])


def record(reading, count, stamp):
    """The record that puts the row of a reading into the book, which then has a count."""
    numbers = BOOK.to_bytes(2, "little") + count.to_bytes(8, "little") + stamp.to_bytes(8, "little")
    payload = b"\1" + numbers + b"\0" + entry(reading).encode()
    return b"\1" + len(payload).to_bytes(4, "little") + payload


def records(readings):
    """The records of a book whose rows are those of these readings, in the order of their stamps."""
    return [record(reading, len(readings), stamp) for stamp, reading in enumerate(readings, 1)]
