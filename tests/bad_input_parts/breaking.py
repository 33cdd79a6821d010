"""How input is broken at random: bytes are turned, cut out, joined and repeated, and hostile pieces put in."""

import struct

from bad_input_parts.good_input import ROWS
from bad_input_parts.learned_reader import END, MAGIC, number_at

# Pieces that a reader may stumble over, and some beyond its limits.
HOSTILE = [
    *(bytes([byte]) for byte in b"\n\r\0\f\t\x7f\x01\x02\x03\x1b ;/\\\"[]()#<>*:=,T0123456789"),
    *(b"\r\n", b"\n\n", b"\xff", b"\x80", b"\xc0\xaf", b"\xe0\x80\xaf", b"\xf0\x80\x80\xaf", b"\xed\xa0\x80"),
    *(b"\xf4\x90\x80\x80", b"\xf8\x88\x80\x80\x80", b"\xe3\x81", b"\xef\xbb\xbf", b"\xc2\x85", b"\xe2\x80\xa8"),
    *(b"\xe3\x80\x80", b"\xff\xff\xff\xff", b"\0\0\0\0", b"\x01\0\0\0", b"\xff" * 8, b"\0" * 8, b"\x01" + MAGIC),
    *(b"(concat \"", b"(concat \"\\057\")", b"(concat \"\\400\")", b"(concat \"\\0\")", b"(concat \"\\n\\r\")"),
    *(b"(concat \"\")", b"(skk-ignore-dic-word \"", b"(skk-ignore-dic-word \"a\" \"b\")", b"\")", b"\\057", b"\\\\"),
    *("[く/".encode(), "]/".encode(), "/[".encode(), "[ー/a/]/".encode(), "ゝ".encode(), "ゖ".encode(), b"//", b"/;/"),
    *(b"#3", b"#4#5#8#9", b"9" * 20, b"00", b"18446744073709551615", b"-1", b"+1", b"65535", b"65536", b"64", b"65"),
    *(b"<cj>", b"<cg>", b"<bs>", b"<ret>", b"<tab>", b"<undo>", b"<lt>", b"<zz>", b"<cj", b"<CJ>", b"1:", b"1=1,0"),
    *(b"\n64:Ka \n", b"\n2=7,0\n", b"\n3=3,3\n", b"T1 1\n", b"T65535 0\n", b"T01 1\n", b"T2 1\n", b"1a ", b"4 ", b"2"),
    *(b";; okuri-ari entries.\n", b";; okuri-nasi entries.\n", b"\n;; okuri-ari entries. \r\n", b"Xy", b"XY", b"3"),
    *(b"Kanji ", b"OoKu", b"/abc ", b"Q12 ", b"\t\t", b"kk\tk\t\t\n", b"a\t\ta\ta\n", b"a" * 255, b"a" * 300),
    *(b"/a" * 300, b"      x"),
    *("あ".encode() * 90, b"A" * 9, b"Mu " * 9, b"x" * 4097, b"x" * 8200),
]
LONG = [b"a" * 66_000, b"/" * 66_000, "あ".encode() * 22_000, b"1" * 70_000, b"Ka " * 3_000, b"\n" * 70_000]
LONG.append(b"\0" * 70_000)


def broken_content(draw, corpus):
    """Something of a corpus, broken."""
    content = bytearray(draw.choice(corpus))
    for _ in range(draw.choice((1, 1, 1, 2, 2, 3, 5))):
        break_once(draw, content, corpus)
    return bytes(content) if draw.randrange(2) else content.decode(errors="ignore").encode()


def break_once(draw, content, corpus):
    """Breaks content at one place."""
    at = draw.randrange(len(content) + 1)
    kind = draw.randrange(20)
    if kind < 5 and at < len(content):
        content[at] ^= 1 << draw.randrange(8)
    elif kind < 7 and at < len(content):
        content[at] = draw.randrange(256)
    elif kind < 9:
        del content[at : at + draw.choice((1, 1, 2, 3, draw.randrange(200)))]
    elif kind < 10:
        del content[at:]
    elif kind < 12:
        other = draw.choice(corpus)
        content[at:] = other[draw.randrange(len(other) + 1) :]
    elif kind < 13:
        content += draw.choice(corpus)
    elif kind < 14:
        piece = content[at : at + draw.randrange(1, 40)]
        content[at:at] = piece * draw.choice((1, 2, 3, 10, 100))
    elif kind < 19 or draw.randrange(40):
        content[at:at] = draw.choice(HOSTILE)
    else:
        content[at:at] = draw.choice(LONG)


def broken_learned_file(draw, content):
    """A learned file with a wrong number in it, or a record that comes again or is of a broken row."""
    content = bytearray(content)
    places = places_of_records(content)
    at = draw.choice([*places, len(content) - 1])
    kind = draw.randrange(15)
    if kind < 5 or kind == 5 and at + 24 < len(content):
        put_number(draw, content, at, kind)
    elif kind == 6:
        content[at:at] = content[draw.choice([*places, at]) : at]
    else:
        content[at:at] = new_record(draw, kind)
    return bytes(content)


def places_of_records(content):
    """Where the records of a learned file begin."""
    places, at = [], 17
    while at < len(content) and content[at] == 1:
        places.append(at)
        at += 5 + number_at(content, at + 1, 4)
    return places


def put_number(draw, content, at, kind):
    """Puts a wrong number into the head of a learned file, or into the record at a place."""
    if kind == 0:
        content[9:17] = draw.choice((0, 1, 2, 3, END - 1, draw.randrange(END))).to_bytes(8, "little")
    elif kind == 1:
        content[draw.choice((0, at))] = draw.choice((0, 1, 2, 255))
    elif kind == 2:
        content[at + 1 : at + 5] = draw.choice((0, 1, 10, 39, 131_073, 2**32 - 1)).to_bytes(4, "little")
    elif kind == 3:
        content[at + 8 : at + 16] = draw.choice((0, 1, 2, 9, END - 1)).to_bytes(8, "little")
    elif kind == 4:
        content[at + 16 : at + 24] = draw.choice((0, 1, 2, 9, END - 1)).to_bytes(8, "little")
    else:
        content[at + 24] = draw.randrange(3)


def new_record(draw, kind):
    """A record of a count, of a list, of a note, of a broken row, or of a reading whose row is gone."""
    if kind == 7:
        book, count = draw.choice((0, 1, 2, 3)), draw.choice((0, 1, 9, END - 1))
        return record(b"\3" + struct.pack("<HQ", book, count))
    if kind > 12:
        books = draw.choice(((7, 0), (0,), (1, 2, 3), (), (7, 7), tuple(range(8)), tuple(range(9)), (65535, 3)))
        size, rest = draw.choice((len(books), len(books), len(books), 0, 9)), draw.choice((b"", b"", b"", b"\0"))
        return record(b"\5" + struct.pack(f"<HB{len(books)}H", draw.randrange(4), size, *books) + rest)
    if kind > 10:
        reading = draw.choice(("かんじ", "おおk", "こう", "a b", "")).encode()
        fields = draw.randrange(3), draw.choice((0, 2, 3, 9)), draw.randrange(3), draw.choice((len(reading), 0, 200))
        item = draw.choice(("漢字;x", "大;*y", "新", "(concat \"a\\057\");z", "a/b", ";z", "", "[く")).encode()
        return record(b"\4" + struct.pack("<HQBB", *fields) + reading + item)
    if kind > 8:
        fields = draw.randrange(3), draw.choice((3, 3, 9)), draw.choice((1, 2, 3, 3)), draw.randrange(2)
        return record(b"\1" + struct.pack("<HQQB", *fields) + broken_content(draw, ROWS))
    part, reading = draw.choice(((0, "かんじ"), (1, "おおk"), (0, ""), (0, "a b"), (1, "おお")))
    fields = draw.randrange(3), draw.choice((1, 2, 9)), part
    return record(b"\2" + struct.pack("<HQB", *fields) + reading.encode())


def record(payload):
    """A record of a learned file."""
    return b"\1" + struct.pack("<I", len(payload)) + payload
