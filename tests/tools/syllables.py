"""Readings as they are typed and in kana, made of syllables that have two letters and stand for one kana."""

import itertools

SYLLABLES = dict(zip("ka ki ku ke ko sa se so ta te to na ni no ha hi".split(), "かきくけこさせそたてとなにのはひ"))


def kana(typed):
    """A reading in kana."""
    return "".join(SYLLABLES[typed[at : at + 2]] for at in range(0, len(typed), 2))


def readings(count):
    """So many readings as they are typed, of four syllables, none twice."""
    return ["".join(letters) for letters in itertools.islice(itertools.product(SYLLABLES, repeat=4), count)]
