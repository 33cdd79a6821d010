#!/usr/bin/env python3
"""Tests of skk-type: it runs in a terminal of its own, by a small server that stands in for `skk serve`."""

import os
import pathlib
import pty
import re
import socket
import threading
import unittest

CLIENT = pathlib.Path(__file__).parent.parent / "skk-type"
KANA = dict(zip("aiueo", "あいうえお"))


class Desk:
    """Types vowels as kana: `k` waits, `l` goes to ASCII and `<cj>` back, and the last 64 characters are shown."""

    def __init__(self):
        self.text, self.waits, self.mode = "", "", "かな"

    def press(self, key):
        if key == "<bs>":
            if self.waits:
                self.waits = ""
            else:
                self.text = self.text[:-1]
        elif key == "<ret>":
            self.text, self.waits = self.text + "\n", ""
        elif key == "<cj>":
            self.mode, self.waits = "かな", ""
        elif self.mode == "SKK":
            self.text += "<" if key == "<lt>" else key
        elif key == "l":
            self.mode = "SKK"
        elif key == "k":
            self.waits = "k"
        else:
            self.text, self.waits = self.text + KANA.get(key, "<" if key == "<lt>" else key), ""

    def line(self):
        shown = self.text[-64:].replace("\\", "\\\\").replace("\n", "\\n") + self.waits
        return f"{self.mode}\t{shown}\t\n"


class Stand:
    """Serves one connection by a desk, and closes it before the answer to a line of a number, if that is given."""

    def __init__(self, closes_at=None, refuses=False):
        self.closes_at, self.refuses, self.lines = closes_at, refuses, []
        self.door = socket.create_server(("127.0.0.1", 0))
        self.port = self.door.getsockname()[1]
        threading.Thread(target=self.serve, daemon=True).start()

    def serve(self):
        link, _ = self.door.accept()
        desk, lines = Desk(), link.makefile("r", encoding="utf-8")
        for number, line in enumerate(lines):
            self.lines.append(line[:-1])
            if number == self.closes_at:
                break
            for key in re.findall("<[a-z]+>|.", line[:-1]) if number else ():
                desk.press(key)
            link.sendall(("0\n" if self.refuses else desk.line()).encode())
        lines.close()
        link.close()
        self.door.close()


def typed(port, keys, *words):
    """Runs the client in a terminal, types these bytes, and gives its status, its output, and what the terminal got."""
    out, into = os.pipe()
    child, terminal = pty.fork()
    if child == 0:
        os.dup2(into, 1)
        os.execv(CLIENT, [str(CLIENT), "--port", str(port), *words])
    os.close(into)
    seen = [os.read(terminal, 1024)]
    os.write(terminal, keys)
    # What is drawn is read all the while, so that the client never waits for room.
    watch = threading.Thread(target=lambda: seen.extend(iter(lambda: read(terminal), b"")))
    watch.start()
    told = b"".join(iter(lambda: read(out), b""))
    status = os.waitstatus_to_exitcode(os.waitpid(child, 0)[1])
    watch.join()
    os.close(out)
    os.close(terminal)
    return status, told.decode(), b"".join(seen).decode()


def read(descriptor):
    try:
        return os.read(descriptor, 4096)
    except OSError:
        return b""


class Tests(unittest.TestCase):
    def test_text_is_printed_at_the_end(self):
        stand = Stand()
        status, told, seen = typed(stand.port, b"aki<\x04", "--typist", "7", "--book", "0")
        self.assertEqual((status, told), (0, "あい<\n"))
        self.assertEqual(stand.lines[:5], ["T7 0", "a", "k", "i", "<lt>"])
        self.assertIn("[かな] ", seen)

    def test_each_key_has_its_name(self):
        stand = Stand()
        typed(stand.port, b"a\n\x07\x08\x7f\t\r\x1f<~ \x04")
        names = ["a", "<cj>", "<cg>", "<bs>", "<bs>", "<tab>", "<ret>"]
        self.assertEqual(stand.lines[1:8], names)
        self.assertLess({"<undo>", "<lt>", "~", " "}, set(stand.lines))

    def test_arrows_and_other_bytes_are_no_keys(self):
        stand = Stand()
        status, told, _ = typed(stand.port, b"a\x1b[Ai\x1bOB\x01\xe3u\x04")
        self.assertEqual((status, told), (0, "あいう\n"))

    def test_long_text_is_whole(self):
        keys = b"aiueo" * 40 + b"l" + b"abc " * 40 + b"\ra\x04"
        status, told, _ = typed(Stand().port, keys)
        self.assertEqual((status, told), (0, "あいうえお" * 40 + "abc " * 40 + "\na\n"))

    def test_a_text_of_one_character_is_whole(self):
        status, told, _ = typed(Stand().port, b"a" * 300 + b"\x04")
        self.assertEqual((status, told), (0, "あ" * 300 + "\n"))

    def test_backspace_reaches_what_was_taken_over(self):
        status, told, _ = typed(Stand().port, b"ai\r\x7f\x7fu\x04")
        self.assertEqual((status, told), (0, "あう\n"))

    def test_a_lost_server_loses_no_text(self):
        for lines in (3, 60, 100):
            status, told, seen = typed(Stand(closes_at=lines).port, b"a" * 150)
            self.assertEqual(status, 1)
            self.assertIn("the server has closed the connection", seen)
            self.assertEqual(set(told), {"あ", "\n"})
            self.assertGreaterEqual(len(told), min(lines, 150) - 3)

    def test_a_refused_typist_is_told(self):
        status, told, seen = typed(Stand(refuses=True).port, b"", "--typist", "3", "--book", "4")
        self.assertEqual((status, told), (1, ""))
        self.assertIn("refuses typist 3 with book 4", seen)

    def test_no_server_is_told(self):
        door = socket.create_server(("127.0.0.1", 0))
        port = door.getsockname()[1]
        door.close()
        status, told, seen = typed(port, b"")
        self.assertEqual((status, told), (1, ""))
        self.assertIn(f"no server answers on port {port}", seen)

    def test_cancelled_text_is_not_printed(self):
        status, told, _ = typed(Stand().port, b"aiu\x03")
        self.assertEqual((status, told), (130, ""))


if __name__ == "__main__":
    unittest.main()
