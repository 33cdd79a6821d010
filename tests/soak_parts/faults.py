"""What may be wrong at the end of a soak: with the server, and with the books that it leaves."""

import signal
import time

from tools.learned_file import dump
from tools.patience import HANG

# So many kilobytes of memory may come to the server behind the first tenth.
MORE_MEMORY = 4096


def faults_of_end(server, memory, counts):
    """What is wrong with a server whose peers have all gone."""
    if server.run.poll() is not None:
        return [f"the server ended with {server.run.returncode}: {server.run.stderr.read()!r}"]
    until = time.monotonic() + HANG
    while not server.is_as_at_first() and time.monotonic() < until:
        time.sleep(0.05)
    memory.append(server.memory())
    print(
        f"10 tenths: {counts['requests']} requests, {counts['learnings']} learnings, {memory[-1]} kB, at most"
        f" {server.most_memory()} kB, {sum(server.files().values())} files, {server.threads()} threads"
    )
    faults = []
    if not server.is_as_at_first():
        faults.append(f"files {server.files()} and not {server.files_at_first}, threads {server.threads()}")
    if max(memory) - memory[0] > MORE_MEMORY:
        faults.append(f"{max(memory) - memory[0]} kB more than after the first tenth")
    return faults


def faults_of_stop(server):
    """What is wrong with a server that SIGTERM is to end."""
    server.run.send_signal(signal.SIGTERM)
    server.run.communicate(timeout=HANG)
    if server.run.returncode != -signal.SIGTERM:
        return [f"the server ended with {server.run.returncode} by SIGTERM"]
    return []


def faults_of_books(program, folder, dumps):
    """What is wrong with the books that are left."""
    faults = []
    for number, allowed in dumps.items():
        ran = dump(program, folder, number, check=False, timeout=HANG)
        if ran.returncode or ran.stdout.decode() not in allowed:
            faults.append(f"book {number} is {ran.stdout.decode()!r}, and not {allowed[0]!r} or so")
    return faults
