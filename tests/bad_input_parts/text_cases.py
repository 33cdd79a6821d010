"""The cases of files of text: scripts, dictionaries and rule files."""

from bad_input_parts.breaking import broken_content
from bad_input_parts.dictionary_reader import end_of_check
from bad_input_parts.dictionary_sums import end_of_expr
from bad_input_parts.failed import Failed
from bad_input_parts.good_input import TYPED
from bad_input_parts.programs import write_file
from bad_input_parts.rule_reader import rules_fault
from bad_input_parts.script_reader import check_typed, script_lines


class ScriptCases:
    """Scripts, typed by `type`."""

    name = "script"

    def __init__(self, programs, scripts):
        self.programs, self.scripts = programs, scripts

    def run(self, draw, given):
        """Runs a case, whose bytes are put into `given`: what it ended as."""
        script = given["script"] = broken_content(draw, self.scripts)
        more = draw.choice(([], [], ["--dict", "words"], ["--dict", "words"], ["--dict", "words", "--threads"]))
        if b"," in script:
            more = more[:2]
        status, out, err = self.programs.run_twice(["type", *more], script, (0, 2))
        lines = script_lines(script)
        if isinstance(lines, int):
            if err != f"skk: line {lines}\n".encode():
                raise Failed(f"{err!r}, and its first bad line is {lines}")
        elif status:
            raise Failed(f"{err!r}, and no line of it is bad")
        else:
            check_typed(out, *lines)
        return f"type, status {status}"


class DictionaryCases:
    """Dictionaries, looked at by `check`, and some given to `type`."""

    name = "dictionary"

    def __init__(self, programs, dictionaries):
        self.programs, self.dictionaries = programs, dictionaries

    def run(self, draw, given):
        """Runs a case, whose bytes are put into `given`: what it ended as."""
        content = given["broken"] = broken_content(draw, self.dictionaries)
        write_file("broken", content)
        wanted = end_of_check(content)
        if draw.randrange(4) == 0:
            return self.type_over(draw, given, wanted)
        got = self.programs.run_twice(["check", "broken"], b"", (0, 3))
        if got != wanted:
            raise Failed(f"{got!r}, and not {wanted!r}")
        return f"check, status {got[0]}{', bad lines' if got[1].startswith(b'line') else ''}"

    def type_over(self, draw, given, wanted):
        """Types a script over the dictionary, of which `check` is to say what is wanted."""
        words = ["type", "--dict", "broken", *(["--threads"] if draw.randrange(4) == 0 else [])]
        script = given["script"] = TYPED.replace(b"2=2,0\n", b"") if "--threads" in words else TYPED
        status, out, err = self.programs.run_twice(words, script, (0, 3))
        if (status, err) != (wanted[0], wanted[2]):
            raise Failed(f"status {status}, {err!r}, and not {wanted[0]}, {wanted[2]!r}")
        if status == 0:
            check_typed(out, *script_lines(script))
        return f"type, status {status}"


class ExprCases:
    """Dictionaries that `expr` puts together, of which what is printed is looked at by `check`."""

    name = "expr"

    def __init__(self, programs, dictionaries):
        self.programs, self.dictionaries = programs, dictionaries

    def run(self, draw, given):
        """Runs a case, whose bytes are put into `given`: what it ended as."""
        words, contents, signs = ["expr"], [], draw.choices("+-", k=draw.randrange(3))
        for name, sign in zip(("one", "two", "three"), ["", *signs]):
            contents.append(self.content(draw, contents))
            given[name] = contents[-1]
            write_file(name, contents[-1])
            words += [sign, name] if sign else [name]
        wanted = end_of_expr(contents, signs)
        got = self.programs.run_twice(words, b"", (0, 3))
        if got != wanted:
            raise Failed(f"{words}: {got!r}, and not {wanted!r}")
        if got[0] == 0:
            write_file("broken", got[1])
            checked = self.programs.run_twice(["check", "broken"], b"", (0,))
            if not checked[1].endswith(b" bad 0\n"):
                raise Failed(f"{words}: check of {got[1]!r} says {checked[1]!r}")
        return f"{' '.join(['F', *(f'{sign} F' for sign in signs)])}, status {got[0]}"

    def content(self, draw, before):
        """A dictionary that was broken, or one of those before it with lines of another."""
        content = broken_content(draw, self.dictionaries)
        if not before or draw.randrange(3) == 0:
            return content
        lines = [*draw.choice(before).split(b"\n"), *content.split(b"\n")]
        return b"\n".join(line for line in lines if draw.randrange(4))


class RuleFileCases:
    """Rule files, by which a script is typed."""

    name = "rule file"

    def __init__(self, programs, rule_files):
        self.programs, self.rule_files = programs, rule_files

    def run(self, draw, given):
        """Runs a case, whose bytes are put into `given`: what it ended as."""
        content = given["broken"] = broken_content(draw, self.rule_files)
        write_file("broken", content)
        status, out, err = self.programs.run_twice(["type", "--rules", "broken", "--dict", "words"], TYPED, (0, 3))
        wanted = rules_fault(content)
        if err != wanted:
            raise Failed(f"status {status}, {err!r}, and not {wanted!r}")
        if status == 0:
            check_typed(out, *script_lines(TYPED))
        return f"type, status {status}"
