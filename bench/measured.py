"""Runs of the built program that are timed."""

import os
import pathlib
import subprocess
import sys
import tempfile
import time

TOP = pathlib.Path(__file__).resolve().parent.parent
PROGRAM = TOP / "out" / "skk"


def build():
    """Has the launcher build the program where it has to."""
    subprocess.run([TOP / "skk", "type"], stdin=subprocess.DEVNULL, check=True)


def held(pid):
    """The most memory in KiB that a process has held so far, or 0 where it has ended."""
    try:
        with open(f"/proc/{pid}/status", encoding="ascii") as status:
            return next((int(line.split()[1]) for line in status if line.startswith("VmHWM")), 0)
    except OSError:
        return 0


def run(words, content=b"", program=PROGRAM):
    """Runs a program with these words and this input, and throws away what it prints. Answers the seconds by the clock
    and of the processor, user and system, and the most memory in KiB."""
    with tempfile.TemporaryFile() as source:
        source.write(content)
        source.seek(0)
        start = time.perf_counter()
        process = subprocess.Popen([program, *words], stdin=source, stdout=subprocess.DEVNULL)
        peak = pid = 0
        while not pid:
            peak = max(peak, held(process.pid))
            time.sleep(0.001)
            pid, status, used = os.wait4(process.pid, os.WNOHANG)
        seconds = time.perf_counter() - start
    process.returncode = os.waitstatus_to_exitcode(status)
    if process.returncode != 0:
        sys.exit(f"{program.name} ended with status {process.returncode}")
    return seconds, used.ru_utime + used.ru_stime, peak
