"""The cases of learned files."""

from bad_input_parts.breaking import broken_content, broken_learned_file
from bad_input_parts.failed import Failed
from bad_input_parts.good_input import LEARNING
from bad_input_parts.learned_pair import book_of, check_dump, read_pair, words_of_dump, write_pair
from bad_input_parts.learned_reader import MAGIC, dump_of, state_of
from bad_input_parts.script_reader import check_typed, script_lines
from tools.learned_file import NAMES

# A file that is filled as a new one.
NEW = b"\1" + MAGIC + b"\1" + b"\0" * 8


class LearnedFileCases:
    """Learned files, two each, printed by `dump` and then given to `check`, or learnt into by `type`."""

    name = "learned file"

    def __init__(self, programs):
        self.programs = programs
        self.pairs = list(self.good_pairs())

    def good_pairs(self):
        """Pairs of learned files with a list of books or two, some of them behind compactions."""
        for script in LEARNING:
            for limit in ("150", "250", "5000"):
                for turns in (1, 3):
                    write_pair((b"", b""))
                    learned = ["--learned", "learned", "--limit", limit]
                    for books in ("1,0", "0,3,1")[:turns]:
                        self.programs.run(["share", "--typist", "2", "--books", books, *learned])
                    for _ in range(turns):
                        self.programs.run(["type", "--dict", "words", *learned], script)
                    yield read_pair()

    def run(self, draw, given):
        """Runs a case, whose bytes are put into `given`: what it ended as."""
        pair = self.broken_pair(draw)
        given.update(zip(NAMES, pair))
        if draw.randrange(4) == 0:
            return self.learn_into(draw, given, pair)
        return self.dump(pair, draw.randrange(4))

    def broken_pair(self, draw):
        """Two learned files, at least one of them broken."""
        pair = list(draw.choice(self.pairs))
        if draw.randrange(6) == 0:
            pair[draw.randrange(2)] = draw.choice(self.pairs)[draw.randrange(2)]
        if draw.randrange(8) == 0:
            pair.reverse()
        place = draw.randrange(2) if pair[1] else 0
        if draw.randrange(2) and len(pair[place]) > 17:
            pair[place] = broken_learned_file(draw, pair[place])
        else:
            corpus = [pair[place] or b"\0", *(first for first, _ in self.pairs)]
            pair[place] = broken_content(draw, corpus)
        return tuple(pair)

    def run_over(self, pair, words, given, statuses):
        """Runs the program over a pair: how that ended, and the pair that it leaves."""
        write_pair(pair)
        return self.programs.run_to_end(words, given, statuses), read_pair()

    def run_twice_over(self, pair, words, given, statuses, about=""):
        """The same, where a second run leaves the same."""
        first = self.run_over(pair, words, given, statuses)
        second = self.run_over(pair, words, given, statuses)
        if first != second:
            raise Failed(f"{about}{first!r} and then {second!r}")
        return first

    def dump(self, pair, number):
        """Prints a book of a broken pair, and compares that and what is left with what the reader says."""
        left = self.run_twice_over(pair, words_of_dump(number), b"", (0, 5))
        (status, out, _), after = left
        state = state_of(pair)
        if isinstance(state, bytes):
            wanted = (5, b"", state), pair
        else:
            rows, is_new = state
            wanted = (0, dump_of(rows, number), b""), (NEW, pair[1]) if is_new else pair
        if left != wanted:
            raise Failed(f"{left!r}, and not {wanted!r}")
        if status == 0:
            check_dump(self.programs, out)
        return f"dump, status {status}" + (", made anew" if after != pair else "")

    def learn_into(self, draw, given, pair):
        """Learns into a broken pair, and prints a book of what is left."""
        limit = draw.choice(("64", "110", "200", "300", "1000", "268435456"))
        words = ["type", "--dict", "words", "--learned", "learned", "--limit", limit]
        script = given["script"] = draw.choice(LEARNING)
        about = f"--limit {limit}: "
        (status, out, err), after = self.run_twice_over(pair, words, script, (0, 5, 7), about)
        state = state_of(pair)
        if err != state if isinstance(state, bytes) else status == 5:
            raise Failed(f"{about}status {status}, {err!r}, and not {state!r}")
        if status == 5:
            if after != pair:
                raise Failed(f"{about}it is refused, and not left as it was")
            return "type, status 5"
        check_typed(out, *script_lines(script))
        self.check_left(draw, after, about)
        return f"type, status {status}"

    def check_left(self, draw, pair, about):
        """Checks that a pair which a run has left is good, and that `dump` prints a book as the reader finds it."""
        state = state_of(pair)
        if isinstance(state, bytes):
            raise Failed(f"{about}it leaves {pair!r}, which is {state!r}")
        number = draw.randrange(4)
        book = book_of(self.programs, number)
        if book != dump_of(state[0], number):
            raise Failed(f"{about}book {number} is {book!r}")
