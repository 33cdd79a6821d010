"""The cases of one process: which kind each number has, and what it ended as."""

import random

from bad_input_parts.failed import Failed
from bad_input_parts.good_input import DICTIONARY
from bad_input_parts.learned_cases import LearnedFileCases
from bad_input_parts.programs import Programs, write_file
from bad_input_parts.stream_cases import StreamCases
from bad_input_parts.text_cases import DictionaryCases, ExprCases, RuleFileCases, ScriptCases


class Cases:
    """The cases of one process, in its folder."""

    def __init__(self, program, seed, good):
        self.seed = seed
        self.given = {}
        programs = Programs(program)
        write_file("words", DICTIONARY)
        self.streams = StreamCases(programs, good.streams)
        # Each as often as its share of the cases.
        self.kinds = [ScriptCases(programs, good.scripts)] * 4
        self.kinds += [DictionaryCases(programs, good.dictionaries)] * 4
        self.kinds += [ExprCases(programs, good.dictionaries)] * 3
        self.kinds += [RuleFileCases(programs, good.rule_files)] * 3
        self.kinds += [LearnedFileCases(programs)] * 5
        self.kinds += [self.streams] * 4

    def case(self, number):
        """Runs the case of a number: its kind, what it ended as, and where it failed why."""
        draw = random.Random(self.seed * 1_000_000_007 + number)
        self.given = {}
        kind = draw.choice(self.kinds)
        try:
            return kind.name, kind.run(draw, self.given), None
        except (Failed, OSError) as fault:
            return kind.name, "failed", str(fault)
