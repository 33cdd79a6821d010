"""The processes that run the cases side by side, and what they tell."""

import collections
import multiprocessing
import multiprocessing.connection
import os
import signal
import subprocess
import time

from bad_input_parts.cases import Cases
from bad_input_parts.failed import Failed
from bad_input_parts.tally import Tally

PROCESSES = 4

# As many cases may fail before no more are begun.
ENOUGH = 20


def run_processes(given, program, good, folder):
    """Runs all cases, and gives the tally of them."""
    pipes, workers, over = [], [], multiprocessing.Value("b", 0, lock=False)
    for number in range(PROCESSES):
        mine, its = multiprocessing.Pipe(duplex=False)
        words = given, program, good, folder / str(number), number, over, its
        workers.append(multiprocessing.Process(target=work, args=words))
        workers[-1].start()
        its.close()
        pipes.append(mine)
    tally = gather(given, pipes, over)
    for worker in workers:
        worker.join()
    return tally


def work(given, program, good, folder, number, over, pipe):
    """One process, with a folder and servers of its own."""
    signal.signal(signal.SIGINT, signal.SIG_IGN)
    folder.mkdir()
    os.chdir(folder)
    cases = Cases(str(program), given.seed, good)
    try:
        run_cases(given, cases, number, over, pipe)
        if fault := cases.streams.end():
            pipe.send((0, {}, (number, "the end of servers", fault, {})))
    except (Failed, OSError, subprocess.SubprocessError) as seen:
        pipe.send((0, {}, (number, "the end of servers", repr(seen), {})))
    finally:
        cases.streams.kill()
    pipe.send(None)


def run_cases(given, cases, number, over, pipe):
    """Runs the cases of one process, and tells how each ended."""
    ends, done = collections.Counter(), 0
    for at in range(number, given.cases, PROCESSES) if given.only is None else [given.only][number:]:
        if over.value:
            break
        kind, end, fault = cases.case(at)
        ends[kind, end] += 1
        done += 1
        if fault:
            pipe.send((0, {}, (at, kind, fault, cases.given)))
        if done % 500 == 0:
            pipe.send((500, ends, None))
            ends = collections.Counter()
    pipe.send((done % 500, ends, None))


def gather(given, pipes, over):
    """The tally of what all processes tell, up to their ends."""
    tally = Tally(given)

    def end(*_):
        over.value = 1

    signal.signal(signal.SIGINT, end)
    while pipes:
        if tally.failed >= ENOUGH or time.monotonic() > tally.since + 60 * given.minutes:
            end()
        for pipe in multiprocessing.connection.wait(pipes, 1):
            if is_last(pipe, tally):
                pipes.remove(pipe)
        tally.print_tenth()
    return tally


def is_last(pipe, tally):
    """Whether a process has told all; what it tells is added to the tally."""
    try:
        told = pipe.recv()
    except EOFError:
        tally.failed += 1
        print("a process ended before its cases", flush=True)
        return True
    if told is not None:
        tally.add(*told)
    return told is None
