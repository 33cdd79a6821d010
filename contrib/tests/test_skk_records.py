#!/usr/bin/env python3
"""Tests of skk-records, over learned files that the program makes.

    contrib/tests/test_skk_records.py [PROGRAM]       without PROGRAM it is the released one
"""

import fcntl
import pathlib
import subprocess
import sys
import tempfile
import unittest

TOP = pathlib.Path(__file__).resolve().parent.parent.parent
READER = TOP / "contrib" / "skk-records"
PROGRAM = TOP / "release" / "skk-x86_64-linux"

# The record of 漢字 for かんじ has 43 bytes, so that two of them end at 103, where the third has no room below 110.
THREE = "1:Kanji <cj>\n" * 3
FIRST = "F: version 3, generation 1, 104 bytes"
OLDER = """17 put book 1 count 1 stamp 1 okuri-nasi かんじ /漢字/
60 put book 1 count 2 stamp 2 okuri-nasi かんじ /漢字/
103 closed gate, bytes behind it: 0
"""
NEWER = """17 put book 1 count 2 stamp 2 okuri-nasi かんじ /漢字/
60 put book 1 count 3 stamp 3 okuri-nasi かんじ /漢字/
103 closed gate, bytes behind it: 0
"""

# What is written at a place over a file of one record, and what the reader tells: the program refuses it there too.
# The record's gate stands at 17, its payload from 22 on: book 23, count 25, stamp 33, part 41, line 42, and its end 60.
DAMAGES = [
    (1, b"KKS", "byte 1: no learned file begins so"),
    (18, b"\0\0\0\0", "record at 17: its payload has 0 bytes, and not 1 to 131072"),
    (18, b"\x01\0\x02\0", "record at 17: its payload has 131073 bytes, and not 1 to 131072"),
    (18, b"\x28\0\0\0", "record at 17: its payload has 40 bytes, and the file ends before"),
    (22, b"\x06", "record at 17: the payload begins with 6, which no record of version 3 does"),
    (22, b"\x05", "record at 17: the payload has 38 bytes, and not the 6 of a list of 1"),
    (22, b"\x05\x01\0\0", "record at 17: the list has 0 books, and not 1 to 8"),
    (22, b"\x05\0\0\x09", "record at 17: the list has 9 books, and not 1 to 8"),
    (22, b"\x05\0\0\x02", "record at 17: the payload has 38 bytes, and not the 8 of a list of 2"),
    (22, b"\x04", "record at 17: the reading is empty, begins with ; or has a control character"),
    (33, b"\x02", "record at 17: the stamp 2 is not from 1 to the count 1"),
    (33, b"\0", "record at 17: the stamp 0 is not from 1 to the count 1"),
    (41, b"\x02", "record at 17: the part is 2, and neither 0 nor 1"),
    (42, b"\xff", "record at 17: the line is not UTF-8 from its byte 0 on"),
    (42, b";", "record at 17: the line is not UTF-8 from its byte 1 on"),
    (42, b";ab", "record at 17: the reading is empty, begins with ; or has a control character"),
    (41, b"\x01", "record at 17: the reading is okuri-ari and does not end in a letter behind something else"),
    (59, b"a", "record at 17: the line has not the form of a reading, a space and items between slashes"),
    (60, b"\x01", "record at 60: the file ends within its length"),
]


def ran(*words, keys=""):
    run = subprocess.run([str(word) for word in words], input=keys, capture_output=True, encoding="utf-8", timeout=60)
    return run.returncode, run.stdout, run.stderr


class Tests(unittest.TestCase):
    def setUp(self):
        folder = tempfile.TemporaryDirectory()
        self.addCleanup(folder.cleanup)
        self.file = pathlib.Path(folder.name) / "F"
        self.second = pathlib.Path(f"{self.file}.2")

    def type(self, keys, *words):
        dictionary = ("--dict", TOP / "examples" / "words.skk")
        status, _, told = ran(PROGRAM, "type", *dictionary, "--learned", self.file, *words, keys=keys)
        self.assertEqual((status, told), (0, ""))

    def files(self):
        return [(path.name, path.read_bytes(), path.stat().st_mtime_ns) for path in sorted(self.file.parent.iterdir())]

    def looked(self, *words):
        status, printed, told = ran(READER, *words, self.file)
        folder = f"{self.file.parent}/"
        return status, printed.replace(folder, ""), told.replace(folder, "")

    def test_the_live_file_is_printed(self):
        self.type(THREE, "--limit", "110")
        heads = f"{FIRST}\nF.2: version 3, generation 2, 104 bytes, live\n"
        self.assertEqual(self.looked(), (0, heads + NEWER, ""))
        self.assertEqual(self.looked("--file", "1"), (0, heads + OLDER, ""))

    def test_each_record_has_its_form(self):
        self.type("1:Kanji <cj><undo><cg><cg>\n1:HiraKu<cj>\n9=9,0\n9:Kanji   <cj>\n")
        status, printed, told = self.looked()
        rows = """17 put book 1 count 1 stamp 1 okuri-nasi かんじ /漢字/
60 drop book 1 count 1 okuri-nasi かんじ
86 put book 1 count 2 stamp 2 okuri-ari ひらk /開/[く/開/]/
135 put book 0 count 1 stamp 1 okuri-nasi かんじ /幹事;宴会の/
188 closed gate, bytes behind it: 0
"""
        self.assertEqual((status, told), (0, ""))
        self.assertEqual(printed, f"F: version 3, generation 1, 189 bytes, live\nF.2: not there\n{rows}")

    def test_the_count_of_a_book_is_printed(self):
        count = b"\x03\x05\x00" + (7).to_bytes(8, "little")
        head = b"\x01SKKDESK\x01" + (2**64 - 1).to_bytes(8, "little")
        self.file.write_bytes(head + b"\x01" + len(count).to_bytes(4, "little") + count + b"\0\x01x")
        self.second.write_bytes(b"\x01SKKDESK\x02" + bytes(8) + b"\0")
        heads = "F: version 1, generation 18446744073709551615, 36 bytes\nF.2: version 2, generation 0, 18 bytes, live\n"
        self.assertEqual(self.looked(), (0, f"{heads}17 closed gate, bytes behind it: 0\n", ""))
        rows = "17 count book 5 count 7\n33 closed gate, bytes behind it: 2\n"
        self.assertEqual(self.looked("--file", "1"), (0, heads + rows, ""))

    def test_a_note_is_printed_in_a_file_of_version_2_or_3(self):
        put = b"\x01\x01\0" + (1).to_bytes(8, "little") * 2 + "\0かんじ /漢字/".encode()
        note = b"\x04\x01\0" + (2).to_bytes(8, "little") + b"\0\x09" + "かんじ漢字;書く文字".encode()
        records = b"".join(b"\x01" + len(one).to_bytes(4, "little") + one for one in (put, note))
        rows = "17 put book 1 count 1 stamp 1 okuri-nasi かんじ /漢字/\n"
        for version in (1, 2, 3):
            with self.subTest(version):
                self.file.write_bytes(b"\x01SKKDESK" + bytes([version]) + (1).to_bytes(8, "little") + records + b"\0")
                status, printed, told = self.looked()
                words = ran(PROGRAM, "dump", "--learned", self.file, "--book", "1")
                if version == 1:
                    self.assertEqual((status, words[::2]), (1, (5, "skk: learned file record at 60\n")))
                    self.assertEqual(told, "F: record at 60: the payload begins with 4, which no record of version 1 does\n")
                else:
                    self.assertEqual((status, told, words[0]), (0, "", 0))
                    self.assertIn("かんじ /漢字;書く文字/\n", words[1])
                    self.assertIn(f"{rows}60 note book 1 count 2 okuri-nasi かんじ /漢字;書く文字/\n", printed)

    def test_a_list_is_printed_in_a_file_of_version_3_alone(self):
        lists = b"\x05\x01\0\x02\x07\0\0\0", b"\x05\xff\xff\x01\x01\x01"
        records = b"".join(b"\x01" + len(one).to_bytes(4, "little") + one for one in lists)
        heads = "F: version 3, generation 1, 42 bytes, live\nF.2: not there\n"
        rows = "17 list typist 1 books 7,0\n30 list typist 65535 books 257\n41 closed gate, bytes behind it: 0\n"
        for version in (1, 2, 3):
            with self.subTest(version):
                self.file.write_bytes(b"\x01SKKDESK" + bytes([version]) + (1).to_bytes(8, "little") + records + b"\0")
                status, printed, told = self.looked()
                words = ran(PROGRAM, "dump", "--learned", self.file)
                if version < 3:
                    self.assertEqual((status, words[::2]), (1, (5, "skk: learned file record at 17\n")))
                    says = f"the payload begins with 5, which no record of version {version} does"
                    self.assertEqual(told, f"F: record at 17: {says}\nF: record at 30: {says}\n")
                else:
                    self.assertEqual((status, told, words[0]), (0, "", 0))
                    self.assertEqual(printed, heads + rows)

    def test_the_list_that_share_sets_is_printed(self):
        words = ("share", "--learned", self.file, "--typist", "1", "--books")
        self.assertEqual(ran(PROGRAM, *words, "7,0"), (0, "typist 1 books 7,0\n", ""))
        self.assertEqual(ran(PROGRAM, *words, "0"), (0, "typist 1 books 0\n", ""))
        rows = "17 list typist 1 books 7,0\n30 list typist 1 books 0\n41 closed gate, bytes behind it: 0\n"
        self.assertEqual(self.looked()[:2], (0, f"F: version 3, generation 1, 42 bytes, live\nF.2: not there\n{rows}"))

    def test_a_book_that_stands_twice_in_a_list_is_told(self):
        twice = b"\x05\x01\0\x03\x07\0\0\0\x07\0"
        record = b"\x01" + len(twice).to_bytes(4, "little") + twice
        self.file.write_bytes(b"\x01SKKDESK\x03" + (1).to_bytes(8, "little") + record + b"\0")
        self.assertEqual(self.looked()[::2], (1, "F: record at 17: the book 7 stands twice in the list\n"))
        self.assertEqual(ran(PROGRAM, "dump", "--learned", self.file), (5, "", "skk: learned file record at 17\n"))

    def test_what_is_bad_is_told_where_the_program_refuses_it(self):
        self.type("1:Kanji <cj>\n")
        good = self.file.read_bytes()
        for at, damage, told in DAMAGES:
            with self.subTest(told):
                self.file.write_bytes(good[:at] + damage + good[at + len(damage) :])
                status, _, said = self.looked()
                self.assertEqual((status, said), (1, f"F: {told}\n"))
                words = ran(PROGRAM, "dump", "--learned", self.file, "--book", "1")
                self.assertEqual(words, (5, "", f"skk: learned file {told.partition(':')[0]}\n"))

    def test_a_head_that_is_not_whole_is_told(self):
        self.type(THREE, "--limit", "110")
        self.second.write_bytes(b"\x01SKKDESK\x01\x02")
        status, printed, told = self.looked()
        self.assertEqual((status, printed), (1, f"{FIRST}\nF.2: no whole generation, 10 bytes\n"))
        self.assertEqual(told, "F.2: record at 9: the generation is not whole\n")
        self.assertEqual(self.looked("--file", "1")[1], printed + OLDER)

    def test_files_that_count_for_nothing_have_no_records(self):
        self.file.write_bytes(b"\0SKKDESK\x01")
        self.second.write_bytes(b"\x07SKKDESK\x01")
        said = "counts for nothing, its first byte is"
        self.assertEqual(self.looked(), (0, f"F: {said} 0, 9 bytes\nF.2: {said} 7, 9 bytes\n", ""))

    def test_a_name_without_files_is_told(self):
        self.assertEqual(self.looked(), (1, "", "F: neither this file nor F.2 is there\n"))

    def test_nothing_is_written_or_locked(self):
        self.type(THREE, "--limit", "110")
        before = self.files()
        with self.file.open("rb+") as held:
            fcntl.flock(held, fcntl.LOCK_EX | fcntl.LOCK_NB)
            self.assertEqual(self.looked()[0], 0)
        self.assertEqual(self.files(), before)

    def test_help_is_printed(self):
        status, printed, _ = ran(READER, "--help")
        self.assertEqual(status, 0)
        self.assertIn("131072", printed)


if __name__ == "__main__":
    if len(sys.argv) > 1 and not sys.argv[1].startswith("-"):
        PROGRAM = pathlib.Path(sys.argv.pop(1)).resolve()
    unittest.main()
