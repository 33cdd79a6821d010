"""A plain reader of streams and of the replies that belong to them, as the manual has both."""

import re

from bad_input_parts.script_reader import KEYS, SHOWN


def check_replies(stream, told):
    """Whether replies are in the form that belongs to a stream, whole or up to a place."""
    if stream[:1] == b"T":
        return check_lines(stream, told)
    at = come = 0
    while match := re.compile(rb"[\r\n]*(?:([14])([^ \r\n]{0,255})[ \r\n]|([23]))").match(stream, at):
        if match[3]:
            form = {b"2": rb"skk-desk-1\.0 ", b"3": rb"localhost:127\.0\.0\.1: "}[match[3]]
        else:
            form = rb"1/(?:[^\r\n]+/)+\n|4" + re.escape(match[2]) + rb" \n"
        reply = re.compile(form).match(told, come)
        if not reply:
            return False
        come, at = reply.end(), match.end()
    rest = stream[at:].lstrip(b"\r\n")
    is_bad = rest[:1] not in (b"", b"0", b"1", b"4") or rest[:1] in (b"1", b"4") and len(rest) > 256
    return told[come:] == (b"0\n" if is_bad else b"")


def check_lines(stream, told):
    """The same of a typist's stream."""
    come = 0
    *lines, rest = stream.split(b"\n")
    for number, line in enumerate(lines):
        if len(line) > 4_096:
            return told[come:] == b"0\n"
        if number == 0:
            first = re.fullmatch(rb"T(0|[1-9][0-9]{0,4}) (0|[1-9][0-9]{0,4})", line)
            if not first or int(first[1]) > 65_535 or first[2] not in (b"0", first[1]):
                return told[come:] == b"0\n"
        end = re.match(KEYS, line).end()
        form = SHOWN if number == 0 or end == len(line) else re.compile(rb"\?%d\n" % end)
        reply = form.match(told, come)
        if not reply:
            return False
        come = reply.end()
    return told[come:] == (b"0\n" if len(rest) > 4_096 else b"")
