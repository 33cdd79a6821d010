"""A plain reader of dictionaries, as the manual has them, and what `check` says of one."""

import re

STRING = r'"((?:[^"\\]|\\[\\"nr]|\\[01][0-7]{2})*)"'
CONCAT = re.compile(rf"\(concat {STRING}\)")
MARK = re.compile(rf"\(skk-ignore-dic-word((?: {STRING})+)\)")
ESCAPE = re.compile(r'\\([0-7]{3}|.)')
OKURI = re.compile("[ぁ-ゖゝゞー]+")


def size(text):
    """The bytes of a text."""
    return len(text.encode())


def word_of_string(text):
    """What the inside of a string stands for."""

    def character(match):
        escape = match[1]
        return chr(int(escape, 8)) if len(escape) == 3 else {"n": "\n", "r": "\r"}.get(escape, escape)

    return ESCAPE.sub(character, text)


def candidate(text):
    """The word and the note of an item that is no mark."""
    word, _, note = text.partition(";")
    form = CONCAT.fullmatch(word)
    return word_of_string(form[1]) if form else word, note.replace("\r", "").replace("\n", "")


def entry(part, line):
    """The candidates, blocks and hidden words of a line with its reading, or the reason why it is bad."""
    if size(line) > 65_535:
        return "LongLine"
    if " " not in line:
        return "NoSpace"
    reading, _, rest = line.partition(" ")
    if reading == "" or re.search(r"[\0-\x1f\x7f]", reading) or reading.startswith(";"):
        return "BadReading"
    if size(reading) > (255 if part == "ari" else 254):
        return "LongReading"
    if part == "ari" and not (len(reading) >= 2 and "a" <= reading[-1] <= "z"):
        return "OkuriKey"
    rest = rest.lstrip(" ")
    if len(rest) < 2 or rest[0] != "/" or rest[-1] != "/":
        return "NoSlash"
    return row_of(part, reading, rest[1:-1].split("/"))


def strings_of(text):
    """The words of the strings in a text."""
    return [word_of_string(string[1]) for string in re.finditer(STRING, text)]


def row_of(part, reading, items):
    """The row of these items, or the reason why it is bad."""
    cands, blocks, hides, block, long = {}, {}, {}, None, False
    for text in items:
        if block is not None and text == "]":
            block = None
        elif block is not None:
            word, _ = candidate(text)
            long |= size(word) > 4_095
            if word and OKURI.fullmatch(block) and size(block) <= 60:
                blocks.setdefault(block, {}).setdefault(word)
        elif part == "ari" and text.startswith("["):
            block = text[1:]
        elif mark := MARK.fullmatch(text):
            words = strings_of(mark[1])
            long |= any(size(word) > 4_095 for word in words)
            hides |= dict.fromkeys(filter(None, words))
        else:
            word, note = candidate(text)
            long |= size(word) + size(note) > 4_095
            if word:
                cands.setdefault(word, note)
    if block is not None:
        return "Block"
    if long:
        return "LongCandidate"
    if not (cands or blocks or hides):
        return "Empty"
    return reading, cands, blocks, hides


def string_of(word):
    """A word as a string."""
    for plain, escaped in (("\\", "\\\\"), ('"', '\\"'), ("/", "\\057"), (";", "\\073"), ("\r", "\\r"), ("\n", "\\n")):
        word = word.replace(plain, escaped)
    return f'"{word}"'


def item_of(word):
    """A word as an item has it."""
    if re.search(r'[/;"\\\r\n]', word) or word.startswith(("[", "]", "(concat ", "(skk-ignore-dic-word ")):
        return f"(concat {string_of(word)})"
    return word


def line_of(row):
    """The one line of a row."""
    reading, cands, blocks, hides = row
    texts = [item_of(word) + (f";{note}" if note else "") for word, note in cands.items()]
    texts += [f"[{okuri}/{''.join(item_of(word) + '/' for word in words)}]" for okuri, words in blocks.items()]
    if hides:
        texts.append(f"(skk-ignore-dic-word{''.join(' ' + string_of(word) for word in hides)})")
    return f"{reading} /{''.join(text + '/' for text in texts)}"


def not_text(content, number):
    """What is told of the dictionary with this number where it is no text."""
    try:
        content.decode()
    except UnicodeDecodeError as fault:
        return f"skk: dictionary {number} byte {fault.start}\n".encode()
    return b""


def rows_in(content):
    """What a dictionary lists: the rows of each part by their readings, in order, and what `check` tells of bad lines."""
    part, told, rows = "nasi", [], {"ari": {}, "nasi": {}}
    lines = content.decode().removeprefix("\ufeff").split("\n")
    for number, line in enumerate(lines, 1):
        line = line.removesuffix("\r").rstrip(" \t")
        if line in (";; okuri-ari entries.", ";; okuri-nasi entries."):
            part = "ari" if "ari" in line else "nasi"
        elif line and not line.startswith(";"):
            row = entry(part, line)
            if not isinstance(row, str) and row[0] in rows[part]:
                row = "Twice"
            if isinstance(row, str):
                told.append(f"line {number} {row}\n")
            else:
                rows[part][row[0]] = row
    return rows, told


def end_of_check(content):
    """What `check` leaves: its status, standard output and standard error."""
    if fault := not_text(content, 1):
        return 3, b"", fault
    rows, told = rows_in(content)
    counts = f"okuri-ari {len(rows['ari'])} okuri-nasi {len(rows['nasi'])} bad {len(told)}\n"
    return 0, "".join([*told, counts]).encode(), b""
