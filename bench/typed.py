"""Words as they are typed for the benchmarks."""

# How many words are typed.
WORDS = 20_000

# Syllables as they are typed, and their kana.
SYLLABLES = dict(zip("ka ki ku ke ko sa se so ta te to na ni no ha hi fu mi mo ya yo ra ri ru wa".split(), "かきくけこさせそたてとなにのはひふみもやよらりるわ"))


def kana(word):
    """A word in kana: its syllables have two letters each."""
    return "".join(SYLLABLES[word[at : at + 2]] for at in range(0, len(word), 2))


def words(draw):
    """Words as they are typed, none twice."""
    drawn = {}
    while len(drawn) < WORDS:
        drawn["".join(draw.choices(list(SYLLABLES), k=draw.choice((2, 3, 4))))] = True
    return list(drawn)


def sentence(draw, known):
    """A sentence as it is typed: two words, each converted, and kana behind them that choose what is shown."""
    first, second = draw.choices(known, k=2)
    return f"{first.capitalize()} ha{second.capitalize()} desu."
