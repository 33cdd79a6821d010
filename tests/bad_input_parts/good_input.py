"""The good input that the cases break: small files that stand here, and what the cases of tests/runs have."""

import importlib.machinery
import importlib.util
import sys
import typing

from tools.program import TOP

LONGEST = 5_000

DICTIONARY = """;; okuri-ari entries.
おおk /大/多/[く/多/]/[き/大/]/
うごk /動/[く/動/]/
;; okuri-nasi entries.
#ねん /#1年/#3年/#0年/
125 /東京都葛飾区/
p# /#4/
ao /(concat "and\\057or\\073x")/(skk-ignore-dic-word "b" "c")/
かんじ /漢字/幹事;宴会の/感じ/
こう /甲/乙/丙/丁/戊/己/庚/辛/壬/癸/子/丑/
ちょう> /超/
""".encode()

ROWS = [line for line in DICTIONARY.splitlines() if line[:1] != b";"]
ROWS += ['おおk /[く/(concat "[x")/]/'.encode(), 'か /a;b/(skk-ignore-dic-word "\\057" "b\\073")/'.encode()]

RULES = "ka\t\tか\tカ\nki\t\tき\tキ\nkk\tk\tっ\tッ\nn\t\tん\tン\n# a comment\nna\t\tな\tナ\n;\t\t；\t；\n".encode()

TYPED = b"1:Kanji  <cj>Kou     f\n2=2,0\n2:OoKu<cj>/ao \n1:<ret>nukkaka;Q12nen <cj><undo>\n2:Ka<tab>.Xy\n"

# What learns, to make learned files: words chosen, registered, purged and taken back, in several books.
LEARNING = [
    b"1:Kanji <cj>\n",
    b"1:Kanji <cj>\n1:Kanji  <cj>\n1:Kanji   <cj>\n",
    b"1:OoKu<cj>\n1:OoKi <cj>\n2=2,0\n2:OoKu <cj>\n2:UgoKu<cj>\n",
    b"1:Kanji <cj>\n1:Kanji Xy\n2:Kanji Xy\n2:Kanji Xy\n2:Kanji Xy\n",
    b"1:Kanji <cj><undo><cg><cg>\n1:Kou <cj><undo><cg><cg>\n3:OoKu<cj>\n",
    b"1:/ao lx/;\"y<ret>\n1:/ao  l[z<ret>\n2:Q12nen <cj>\n2:/p7 <cj>\n",
    b"1=9,0\n1:Kou     a\n1:Kou     s\n2:Nuno lfoo<ret>\n3:Nuno lbar<ret>\n3:NuKu lx<ret>\n",
    b"1:Kanji <cj>\n2:Kanji <cj>\n3:Kanji <cj>\n",
    b"1:Kanji ^lmemo<ret><cj>\n1:Kanji ^lx<ret><cg><cg>\n2:OoKu^lmemo<ret><cj>\n2:OoKu^<ret><cg><cg>\n",
]

STREAMS = [
    "1かんじ 1おおk 4か 23".encode(),
    "\r\n1かんじ\n1ぬ\r4こ \r\n20".encode(),
    b"T1 1\nKanji \n <cj>\nKanji \nXy\n",
    b"T2 0\nOoKu<cj>\nKou     f\n<undo>\n<cg><cg>\n/ao ly<ret>\n",
    b"T3 3\nNuno lfoo<ret>\nNu<tab>\n<cg>\n<zz>\nka\n",
    b"1" + b"a" * 255 + b" 4" + b"a" * 256 + b" ",
    b"2329",
]


class Corpora(typing.NamedTuple):
    """Good input of each kind that is no learned file."""

    scripts: list
    dictionaries: list
    rule_files: list
    streams: list


def runs_script():
    """The script of tests/runs, as a module. It leaves no compiled file beside the cases."""
    sys.dont_write_bytecode = True
    loader = importlib.machinery.SourceFileLoader("runs", str(TOP / "tests" / "runs" / "run"))
    module = importlib.util.module_from_spec(importlib.util.spec_from_loader("runs", loader))
    loader.exec_module(module)
    return module


def corpora():
    """All good input: what stands here, what the cases of tests/runs have, and the examples."""
    good = Corpora({TYPED}, {DICTIONARY}, {RULES}, set(STREAMS))
    for case in runs_script().cases():
        add_case(good, case)
    for name, kind in (("romaji.rules", good.rule_files), ("words.skk", good.dictionaries)):
        kind.add((TOP / "examples" / name).read_bytes())
    return Corpora(*(sorted(each for each in kind if 0 < len(each) < LONGEST) for kind in good))


def add_case(good, case):
    """Adds what a case of tests/runs has."""
    good.scripts.add(case.given)
    good.streams.update(case.asked.values())
    for before, name in zip(case.words, case.words[1:]):
        content = b"".join(case.files.get(name.decode(errors="replace"), []))
        if before in (b"--dict", b"check", b"expr", b"+", b"-"):
            good.dictionaries.add(content)
        elif before == b"--rules":
            good.rule_files.add(content)
