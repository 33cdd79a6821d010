"""A plain reader of learned files, as the manual has them, and what `dump` prints of one."""

from bad_input_parts.dictionary_reader import entry, line_of

NAME = b"SKKDESK"
NEWEST = 3
MAGIC = NAME + bytes([NEWEST])
END = 2**64


def number_at(content, at, length):
    """A number of a learned file."""
    return int.from_bytes(content[at : at + length], "little")


def apply_payload(version, payload, counts, rows):
    """Applies a payload to the counts and rows of books, and says whether it is one of a learned file of a version."""
    if payload[0] == 5:
        return version >= 3 and is_list(payload)
    kind, book, count = payload[0], number_at(payload, 1, 2), number_at(payload, 3, 8)
    place = {1: 19, 2: 11, 4: 12}.get(kind)
    if kind not in (1, 2, 3, 4) or len(payload) < (place + 1 if place else 11) or kind == 3 and len(payload) != 11:
        return False
    if kind == 4 and version < 2 or count < counts.get(book, 0):
        return False
    if kind == 4 and not apply_note(payload, book, count, rows):
        return False
    if kind in (1, 2) and not apply_row(payload, place, book, count, rows):
        return False
    counts[book] = count
    return True


def is_list(payload):
    """Whether a payload says a list of books, which no book that `dump` prints shows."""
    books = [payload[at : at + 2] for at in range(4, len(payload), 2)]
    is_whole = len(payload) > 3 and 1 <= payload[3] <= 8 and len(payload) == 4 + 2 * payload[3]
    return is_whole and len(set(books)) == len(books)


def apply_note(payload, book, count, rows):
    """The same of what a payload says of a note: its row is there, and has the candidate with the note then."""
    size = payload[12]
    if payload[11] > 1 or count == 0 or len(payload) < 13 + size:
        return False
    part = "ari" if payload[11] else "nasi"
    try:
        reading, item = payload[13 : 13 + size].decode(), payload[13 + size :].decode()
    except UnicodeDecodeError:
        return False
    line = f"{reading} /{item}/"
    one = entry(part, line)
    if isinstance(one, str) or one[0] != reading or len(one[1]) != 1 or one[2] or one[3] or line_of(one) != line:
        return False
    if (book, part, reading) not in rows:
        return False
    _, cands, blocks, hides = entry(part, rows[book, part, reading])
    (word, note), = one[1].items()
    cands[word] = note
    hides.pop(word, None)
    line = line_of((reading, cands, blocks, hides))
    rows[book, part, reading] = line
    return len(line.encode()) <= 65_535


def apply_row(payload, place, book, count, rows):
    """The same of what a payload says of one row, which begins at a place: that it is so, or that it is gone."""
    if payload[place] > 1:
        return False
    part, is_there = "ari" if payload[place] else "nasi", payload[0] == 1
    try:
        text = payload[place + 1 :].decode()
    except UnicodeDecodeError:
        return False
    row = entry(part, text if is_there else f"{text} /a/")
    if isinstance(row, str) or not is_there and row[0] != text:
        return False
    if is_there and (line_of(row) != text or not 1 <= number_at(payload, 11, 8) <= count):
        return False
    rows.pop((book, part, row[0]), None)
    if is_there:
        rows[book, part, row[0]] = text
    return True


def rows_of(content):
    """The rows of a live file's records, or the place of the first bad one."""
    at, counts, rows, version = 17, {}, {}, content[8]
    while True:
        if at >= len(content):
            return at
        if content[at] != 1:
            return rows
        length = number_at(content, at + 1, 4)
        payload = content[at + 5 : at + 5 + length]
        if at + 5 > len(content) or not 1 <= length <= 131_072 or len(payload) < length:
            return at
        if not apply_payload(version, payload, counts, rows):
            return at
        at += 5 + length


def is_marked(content):
    """Whether a file has the mark of a version that is known."""
    return content[1:8] == NAME and 1 <= number_at(content, 8, 1) <= NEWEST


def is_fresh(content):
    """Whether a file counts for nothing."""
    return len(content) < 2 or content[0] == 0 or content[0] != 1 and is_marked(content)


def state_of(pair):
    """The rows of a learned file and whether it is filled as a new one, or the line on standard error."""
    names = "", "2 "
    for name, content in zip(names, pair):
        if not is_fresh(content) and not is_marked(content):
            return f"skk: learned file {name}byte {content[0]}\n".encode()
    for name, content in zip(names, pair):
        if not is_fresh(content) and len(content) < 17:
            return f"skk: learned file {name}record at 9\n".encode()
    headed = [(name, content) for name, content in zip(names, pair) if not is_fresh(content)]
    if not headed:
        return {}, True
    if len(headed) == 2:
        first, second = (number_at(content, 9, 8) for _, content in headed)
        is_second = second == (first + 1) % END or first != (second + 1) % END and second > first
        headed = headed[1:] if is_second else headed
    name, content = headed[0]
    rows = rows_of(content)
    return (rows, False) if isinstance(rows, dict) else f"skk: learned file {name}record at {rows}\n".encode()


def dump_of(rows, number):
    """A book as `dump` prints it."""
    lines = {"ari": [], "nasi": []}
    for (book, part, reading), line in rows.items():
        if book == number:
            lines[part].append((reading.encode(), line))
    ari = [line for _, line in sorted(lines["ari"], reverse=True)]
    nasi = [line for _, line in sorted(lines["nasi"])]
    return "".join(f"{line}\n" for line in (";; okuri-ari entries.", *ari, ";; okuri-nasi entries.", *nasi)).encode()
