"""Dictionary files that are made for the benchmarks."""

import random

ARI = ";; okuri-ari entries."
NASI = ";; okuri-nasi entries."
KANA = [chr(0x3042 + at) for at in range(80)]
KANJI = [chr(0x4E00 + at) for at in range(16_300)]


def line(reading, items):
    """A line of these items."""
    return f"{reading} /{'/'.join(items)}/"


def readings(draw, count, lengths):
    """So many readings, none twice."""
    drawn = {}
    while len(drawn) < count:
        drawn["".join(draw.choices(KANA, k=draw.choice(lengths)))] = True
    return list(drawn)


def candidates(draw, counts=(1, 1, 1, 2, 2, 2, 3, 4)):
    """The candidates of an everyday line: most have one or two, some a note."""
    for _ in range(draw.choice(counts)):
        word = "".join(draw.choices(KANJI, k=draw.choice((1, 2, 2, 3))))
        yield f"{word};{''.join(draw.choices(KANA, k=4))}" if draw.random() < 0.12 else word


def entries(draw, ari, nasi):
    """The lines of a file with these readings."""
    ari, nasi = sorted(ari, reverse=True), sorted(nasi)
    return [ARI, *(line(reading, candidates(draw)) for reading in ari), NASI, *(line(reading, candidates(draw)) for reading in nasi)]


def drawn(draw, ari, nasi):
    """So many readings with okurigana, and so many without."""
    return [f"{reading}{draw.choice('kgstnbmrw')}" for reading in readings(draw, ari, (2, 3, 4))], readings(draw, nasi, (3, 4, 5, 6))


def everyday():
    """The lines of a file of the size and the shape of a large dictionary."""
    draw = random.Random(1)
    return entries(draw, *drawn(draw, 20_000, 150_000))
