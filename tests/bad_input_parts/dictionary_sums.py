"""Sums and differences of dictionaries as the manual has them, and what `expr` leaves of some."""

from bad_input_parts.dictionary_reader import line_of, not_text, rows_in, size

NONE = ({}, {}, {})


def row_with(row, other):
    """A row with the other of its reading."""
    reading, cands, blocks, hides = row
    _, more, wider, hidden = other
    joined = {okuri: behind(words, wider.get(okuri, {})) for okuri, words in blocks.items()}
    joined |= {okuri: words for okuri, words in wider.items() if okuri not in blocks}
    return reading, behind(cands, more), joined, behind(hides, hidden)


def behind(items, others):
    """Items, and behind them the others that are not there yet."""
    return items | {item: what for item, what in others.items() if item not in items}


def without(items, others):
    """Items without the others."""
    return {item: what for item, what in items.items() if item not in others}


def row_without(row, other):
    """A row without what the other of its reading has, or None where nothing is left."""
    reading, cands, blocks, hides = row
    _, fewer, lesser, shown = other
    left = {okuri: without(words, lesser.get(okuri, {})) for okuri, words in blocks.items()}
    rest = without(cands, fewer), {okuri: words for okuri, words in left.items() if words}, without(hides, shown)
    return (reading, *rest) if rest != NONE else None


def part_by(sign, rows, others):
    """The rows of a part with those of another dictionary, or without them."""
    join = row_with if sign == "+" else row_without
    left = {reading: join(row, others[reading]) if reading in others else row for reading, row in rows.items()}
    more = others if sign == "+" else {}
    return {**more, **{reading: row for reading, row in left.items() if row}}


def end_of_expr(contents, signs):
    """What `expr` leaves of dictionaries, each behind the first with its sign: status, standard output and error."""
    rows = {"ari": {}, "nasi": {}}
    for number, (content, sign) in enumerate(zip(contents, ["+", *signs]), 1):
        if fault := not_text(content, number):
            return 3, b"", fault
        others, _ = rows_in(content)
        rows = {part: part_by(sign, rows[part], others[part]) for part in rows}
    lines = []
    for part in ("ari", "nasi"):
        lines.append(f";; okuri-{part} entries.")
        lines += [line_of(rows[part][reading]) for reading in sorted(rows[part], key=str.encode, reverse=part == "ari")]
    if long := next((size(line) for line in lines if size(line) > 65_535), 0):
        return 3, b"", f"skk: row too big {long}\n".encode()
    return 0, "".join(f"{line}\n" for line in lines).encode(), b""
