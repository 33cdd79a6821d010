"""How long runs and connections are waited for: some seconds, and longer while the program waits for a processor."""

import pathlib

# After so many seconds something counts as hanging; while the program waits for a processor so many times as many pass.
HANG = 5
PATIENCE = 12


def wants_processor(pid):
    """Whether a run waits for nothing but a processor."""
    try:
        tasks = pathlib.Path(f"/proc/{pid}/task").iterdir()
        return any((task / "stat").read_text().rpartition(") ")[2][0] == "R" for task in tasks)
    except OSError:
        return True


def part_for(peer, pid, count):
    """At most so many bytes that a run sends to a peer; none at the end. The peer's timeout is HANG seconds."""
    for _ in range(PATIENCE):
        try:
            return peer.recv(count)
        except TimeoutError:
            if not wants_processor(pid):
                break
    raise TimeoutError(f"nothing came for {HANG} seconds")
