"""A plain reader of scripts and of what `type` prints for them, as the manual has both."""

import re

from bad_input_parts.failed import Failed

SESSION = rb"[1-9]|[1-5][0-9]|6[0-4]"
KEYS = rb"(?:[ -;=-~]|<(?:lt|cj|cg|bs|ret|tab|undo)>)*"
KEY_LINE = re.compile(rb"(" + SESSION + rb"):" + KEYS)
OPENING = re.compile(rb"(" + SESSION + rb")=(0|[1-9][0-9]{0,4}),(0|[1-9][0-9]{0,4})")

# The line that is printed for a line of keys, behind the session's number.
SHOWN = re.compile("(?:かな|カナ|SKK|全英)\t[^\t\r\n]*\t[^\t\r\n]*\n".encode())


def script_lines(script):
    """The sessions of the lines of keys and all that are named, or the number of the first bad line."""
    keys, named = [], set()
    lines = script.split(b"\n")
    for number, line in enumerate(lines[:-1] if lines[-1] == b"" else lines, 1):
        if line == b"" or line[:1] == b"#" and b"\r" not in line:
            continue
        if match := KEY_LINE.fullmatch(line):
            keys.append(match[1])
            named.add(match[1])
            continue
        match = OPENING.fullmatch(line)
        if not match or match[1] in named or int(match[2]) > 65535 or match[3] not in (b"0", match[2]):
            return number
        named.add(match[1])
    return keys, named


def check_typed(out, keys, named):
    """Checks that output is in the form of a script's, of whose lines these are the sessions."""
    at = 0
    for session in keys:
        match = re.compile(session + b"\t" + SHOWN.pattern).match(out, at)
        if not match:
            raise Failed(f"{out[at : at + 200]!r} where a line of session {session!r} was to come")
        at = match.end()
    texts = b"".join(rb"%s=[^\t\r\n]*\n" % session for session in sorted(named, key=int))
    if not re.compile(texts).fullmatch(out, at):
        raise Failed(f"{out[at : at + 200]!r} where the texts of {named} were to come")
