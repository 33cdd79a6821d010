"""The dictionary of a soak, and what clients ask for it."""

import itertools

from soak_parts.book import Book, Row, item
from tools.syllables import SYLLABLES, kana

READINGS = 2_000

# What the readings of the shared book begin with.
SHARED = "に"

# The okurigana of a stem by the letter behind it.
OKURI = {"k": "くきけ", "s": "すせそ", "t": "とたて"}

# Requests of clients and their replies, beside those for the rows.
FIXED = [
    ("2", "skk-desk-1.0 "),
    ("3", "localhost:127.0.0.1: "),
    ("1quoted ", '1/(concat "a\\057b\\073c")/plain/\n'),
    ("4quote\n", "1/quoted/\n"),
    ("1nowhere\r", "4nowhere \n"),
    ("\r\n1nowhere\r", "4nowhere \n"),
]


class Words:
    """The dictionary: its rows, and the readings by which clients and typists find them."""

    def __init__(self, draw):
        letters = [chr(0x4E00 + number) for number in range(500)]
        typed = ["".join(each) for each in itertools.product(SYLLABLES, repeat=3)]
        self.typed = draw.sample(typed, READINGS)
        self.missing = [kana(each) for each in draw.sample(sorted(set(typed) - set(self.typed)), 200)]
        self.rows = {}
        for each in self.typed:
            words = draw.sample(letters, draw.randint(1, 6))
            self.rows["nasi", kana(each)] = Row([(word, draw.choice(["", "", "注釈"])) for word in words])
        self.stems = []
        for each in itertools.product(SYLLABLES, "kst"):
            stem, letter = each
            words = draw.sample(letters, 4)
            okuri = draw.choice(OKURI[letter])
            cands = [(word, "") for word in words]
            self.rows["ari", kana(stem) + letter] = Row(cands, [(okuri, tuple(draw.sample(words, 2)))])
            self.stems.append(each)
        self.nasi = sorted(reading for part, reading in self.rows if part == "nasi")

    def file(self):
        """The dictionary as a file."""
        book = Book()
        book.rows = self.rows
        return book.dump() + 'quoted /(concat "a\\057b\\073c")/plain/\n'

    def after(self, prefix):
        """The readings that go on from a prefix, in order."""
        return [reading for reading in self.nasi if reading.startswith(prefix) and reading != prefix]

    def requests(self, draw):
        """Requests of clients and their replies, of which no typist changes any."""
        pairs = [(asked.encode(), told.encode()) for asked, told in FIXED] * 20
        ends = [" ", "\n", "\r", " \r\n"]
        for (_, reading), row in self.rows.items():
            if not reading.startswith(SHARED):
                pairs.append((f"1{reading}{draw.choice(ends)}".encode(), conversion(reading, row.cands)))
        for reading in self.missing:
            pairs.append((f"1{reading} ".encode(), conversion(reading, ())))
        for prefix in map(kana, map("".join, itertools.product(SYLLABLES, repeat=2))):
            if not prefix.startswith(SHARED):
                pairs.append((f"4{prefix}{draw.choice(ends)}".encode(), completion(prefix, self.after(prefix))))
        return pairs


def conversion(reading, cands):
    """The reply to a client's request for the candidates of a reading."""
    items = "".join(f"{item(*cand)}/" for cand in cands)
    return (f"1/{items}\n" if cands else f"4{reading} \n").encode()


def completion(prefix, readings):
    """The reply to a client's request for the readings that go on from a prefix."""
    readings = list(dict.fromkeys(readings))[:256]
    text = f"1/{''.join(f'{reading}/' for reading in readings)}\n" if readings else f"4{prefix} \n"
    return text.encode()
