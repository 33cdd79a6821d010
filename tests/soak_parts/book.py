"""A plain model of a dictionary and of what is learnt: rows of candidates, and books of rows."""


class Row:
    """A reading's candidates, each a word and a note, its blocks, each an okurigana and words, and its hidden words."""

    def __init__(self, cands=(), blocks=(), hides=(), stamp=0):
        self.cands, self.blocks, self.hides, self.stamp = tuple(cands), tuple(blocks), tuple(hides), stamp

    def ordered(self, okuri):
        """The candidates in the order in which they are shown with an okurigana, or with none."""
        words = dict(self.blocks).get(okuri, ())
        notes = dict(self.cands)
        first = [(word, notes.get(word, "")) for word in words]
        return first + [(word, note) for word, note in self.cands if word not in words]

    def line(self, reading):
        """The row as a dictionary file has it."""
        items = [item(*cand) for cand in self.cands]
        items += [f"[{okuri}/{'/'.join(words)}/]" for okuri, words in self.blocks]
        if self.hides:
            items.append("(skk-ignore-dic-word" + "".join(f' "{word}"' for word in self.hides) + ")")
        return f"{reading} /{'/'.join(items)}/\n"


class Book:
    """What is learnt and purged: a row for each reading, under the part of the dictionary that it is in."""

    def __init__(self):
        self.count = 0
        self.rows = {}

    def learn(self, key, okuri, cand):
        """Puts a candidate in front, and gives the row that there was."""
        before = self.rows.get(key)
        row = before or Row()
        word, note = cand
        note = note or dict(row.cands).get(word, "")
        cands = [(word, note)] + [other for other in row.cands if other[0] != word]
        blocks = dict(row.blocks)
        if okuri:
            blocks[okuri] = (word, *(other for other in blocks.get(okuri, ()) if other != word))
        self.count += 1
        hides = [other for other in row.hides if other != word]
        self.rows[key] = Row(cands, blocks.items(), hides, self.count)
        return before

    def unlearn(self, key, before):
        """Puts back the row that there was."""
        if before:
            self.rows[key] = before
        else:
            del self.rows[key]

    def purge(self, key, word):
        """Hides a word, and takes it from the row."""
        row = self.rows.get(key) or Row()
        blocks = [(okuri, tuple(other for other in words if other != word)) for okuri, words in row.blocks]
        self.count += 1
        self.rows[key] = Row(
            [cand for cand in row.cands if cand[0] != word],
            [block for block in blocks if block[1]],
            row.hides if word in row.hides else (*row.hides, word),
            self.count,
        )

    def newest(self, prefix):
        """The readings that go on from a prefix, those that were changed last in front."""
        rows = [
            (row.stamp, reading)
            for (part, reading), row in self.rows.items()
            if part == "nasi" and row.cands and reading.startswith(prefix) and reading != prefix
        ]
        return [reading for _, reading in sorted(rows, reverse=True)]

    def dump(self):
        """The book as `dump` prints it."""
        lines = {part: [] for part in ("ari", "nasi")}
        for (part, reading), row in sorted(self.rows.items()):
            lines[part].append(row.line(reading))
        return "".join(
            [";; okuri-ari entries.\n", *reversed(lines["ari"]), ";; okuri-nasi entries.\n", *lines["nasi"]]
        )

    def bytes(self):
        """The bytes that the rows take in a learned file which has nothing else."""
        return sum(25 + len(row.line(reading).encode()) - 1 for (_, reading), row in self.rows.items())


def item(word, note):
    """A candidate as it is printed; no word here is one that is quoted."""
    return f"{word};{note}" if note else word


def candidates_of(layers, okuri):
    """The candidates of the rows of one reading, the upper ones in front."""
    hidden, cands = set(), {}
    for row in filter(None, layers):
        for word, note in row.ordered(okuri):
            if word not in hidden:
                cands.setdefault(word, note)
        hidden.update(row.hides)
    return list(cands.items())
