"""The learned file of a folder: what `dump` prints of it, its generation, and how it is taken away."""

import subprocess

NAMES = "learned", "learned.2"


def dump(program, folder, book, learned="learned", **how):
    """A run of `dump` for a book, which has ended."""
    words = [program, "dump", "--learned", learned, "--book", str(book)]
    return subprocess.run(words, capture_output=True, cwd=folder, **how)


def rows_of(program, folder, book):
    """The rows of a book, or None where the learned file is refused."""
    ran = dump(program, folder, book, check=False)
    if ran.returncode:
        return None
    return [line for line in ran.stdout.decode().splitlines() if not line.startswith(";;")]


def forget(folder):
    """Takes both files away."""
    for name in NAMES:
        (folder / name).unlink(missing_ok=True)


def generation(folder):
    """The greatest generation of a file that is live or was, or 0."""
    return max(generation_of(folder / name) for name in NAMES)


def generation_of(path):
    """The generation of one of the files."""
    head = path.read_bytes()[:17] if path.exists() else b""
    return int.from_bytes(head[9:17], "little") if head[:1] == b"\1" else 0
