"""Typists, who choose, register, purge, take back and complete words, and know the line that they are answered."""

from soak_parts.book import Book, candidates_of
from soak_parts.words import OKURI, SHARED
from tools.syllables import SYLLABLES, kana

# How many readings a typist has.
OWN = 14

# The keys of a page's candidates.
PAGE = "asdfjkl"

# Okurigana as they are typed.
TYPED = dict(zip("くきけすせそとたて", "ku ki ke su se so to ta te".split()))


class Typist:
    """A typist's session: what it types, and the line that it is answered for each."""

    def __init__(self, words, draw, number, book_number, counts):
        self.words, self.draw, self.number, self.book_number, self.counts = words, draw, number, book_number, counts
        self.book = Book()
        shared = [typed for typed in words.typed if kana(typed).startswith(SHARED)]
        private = [typed for typed in words.typed if not kana(typed).startswith(SHARED)]
        self.readings = draw.sample(shared if book_number == 0 else private, OWN)
        self.stems = [] if book_number == 0 else draw.sample(words.stems, 5)
        self.text = ""
        self.turns = (
            [self.choose] * 9
            + [self.choose_okuri] * (2 if self.stems else 0)
            + [self.show, self.show, self.undo, self.undo, self.register, self.purge, self.complete, self.complete]
            + [self.type, self.type, self.delete, self.bad]
        )

    def begin(self):
        """The first line, and the answer to it."""
        self.text = ""
        return [(f"T{self.number} {self.book_number}", self.session_line())]

    def session_line(self, behind="", notice=""):
        """The session's line."""
        return f"かな\t{self.text[-64:]}{behind}\t{notice}"

    def candidates(self, key, okuri=None):
        return candidates_of([self.book.rows.get(key), self.words.rows.get(key)], okuri)

    def learn(self, key, okuri, cand, insert):
        self.counts["learnings"] += 1
        self.text += insert
        return self.book.learn(key, okuri, cand)

    def lines(self, count):
        """So many lines or a few more, and their answers."""
        lines = []
        while len(lines) < count:
            lines += self.draw.choice(self.turns)()
        return lines

    def pick_reading(self):
        """A reading as it is typed, its key and its candidates."""
        typed = self.draw.choice(self.readings)
        key = "nasi", kana(typed)
        return typed.capitalize(), key, self.candidates(key)

    def keys_to(self, at):
        """The keys behind the first candidate that choose one."""
        if at < 4:
            return " " * at + "<cj>"
        return " " * (4 + (at - 4) // 7) + PAGE[(at - 4) % 7]

    def choose(self):
        typed, key, cands = self.pick_reading()
        if not cands:
            return self.register()
        at = self.draw.randrange(len(cands))
        self.learn(key, None, cands[at], cands[at][0])
        return [(f"{typed} {self.keys_to(at)}", self.session_line())]

    def choose_okuri(self):
        stem, letter = self.draw.choice(self.stems)
        key, okuri = ("ari", kana(stem) + letter), self.draw.choice(OKURI[letter])
        cands = self.candidates(key, okuri)
        if not cands:
            return []
        at = self.draw.randrange(len(cands))
        self.learn(key, okuri, cands[at], cands[at][0] + okuri)
        return [(f"{stem.capitalize()}{TYPED[okuri].capitalize()}{self.keys_to(at)}", self.session_line())]

    def show(self):
        """Shows a candidate or a page, and closes it."""
        typed, _, cands = self.pick_reading()
        if not cands:
            return []
        at = self.draw.randrange(len(cands))
        if at < 4:
            word, note = cands[at]
            line = f"{typed} {' ' * at}", self.session_line(f"▼{word}", f";{note}" if note else "")
        else:
            first = 4 + (at - 4) // 7 * 7
            page = [f"{letter.upper()}:{word}" for letter, (word, _) in zip(PAGE, cands[first:])]
            left = max(0, len(cands) - first - 7)
            line = f"{typed} {self.keys_to(at)[:-1]}", self.session_line(f"▼[{' '.join(page)} 残り {left}]")
        return [line, ("<cg><cg>", self.session_line())]

    def undo(self):
        """Chooses a candidate, and takes it back."""
        typed, key, cands = self.pick_reading()
        if not cands:
            return []
        at = self.draw.randrange(min(4, len(cands)))
        word = cands[at][0]
        before = self.learn(key, None, cands[at], word)
        chosen = f"{typed} {self.keys_to(at)}", self.session_line()
        self.text = self.text[: -len(word)]
        self.book.unlearn(key, before)
        self.counts["taken back"] += 1
        return [chosen, ("<undo>", self.session_line(f"▼{word}", "undone")), ("<cg><cg>", self.session_line())]

    def register(self):
        """Registers a word behind the last candidate."""
        typed, key, cands = self.pick_reading()
        pages = (len(cands) - 4 + 6) // 7 if len(cands) > 4 else 0
        if len(cands) >= 12:
            return self.purge()
        word = f"w{self.draw.randrange(10)}"
        self.learn(key, None, (word, ""), word)
        self.counts["registered"] += 1
        return [(f"{typed} {' ' * (min(4, len(cands)) + pages)}l{word}<ret>", self.session_line())]

    def purge(self):
        """Purges a candidate."""
        typed, key, cands = self.pick_reading()
        if len(cands) < 2:
            return []
        at = self.draw.randrange(min(4, len(cands)))
        self.book.purge(key, cands[at][0])
        self.counts["purged"] += 1
        return [(f"{typed} {' ' * at}X{self.draw.choice('yY')}", self.session_line("", "purged"))]

    def complete(self):
        """Goes over the readings that go on from what is typed, and closes them."""
        typed = self.draw.choice(self.readings)[: 2 * self.draw.randint(1, 2)]
        readings = list(dict.fromkeys(self.book.newest(kana(typed)) + self.words.after(kana(typed))))[:256]
        if not readings:
            return []
        at = self.draw.randrange(min(6, len(readings) + 1))
        last = min(at, len(readings) - 1)
        shown = self.session_line(f"▽{readings[last]}", "no-more" if at > last else "")
        return [(f"{typed.capitalize()}<tab>{'.' * at}", shown), ("<cg>", self.session_line())]

    def type(self):
        typed = "".join(self.draw.choices(list(SYLLABLES), k=3))
        self.text += kana(typed)
        return [(typed, self.session_line())]

    def delete(self):
        self.text = self.text[:-1]
        return [("<bs>", self.session_line())]

    def bad(self):
        """A line that is no key text."""
        return [("ka<zz>", "?2")]


def exchange(lines):
    """What is sent for lines, and what is answered."""
    return tuple("".join(f"{each}\n" for each in side).encode() for side in zip(*lines))
