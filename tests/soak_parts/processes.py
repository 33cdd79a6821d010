"""The processes of a soak: each has eight peers, and hands back what they counted and the books that they left."""

import multiprocessing
import time
import typing

from soak_parts.eight import Eight
from soak_parts.peer import Wrong

PROCESSES = 4


class Result(typing.NamedTuple):
    """What a process hands back: what was wrong, its counts, what each book may be, and the bytes of the rows."""

    fault: str | None
    counts: dict
    dumps: dict
    size: int


def run_processes(given, server, since):
    """What all processes hand back when enough is answered, and the memory of the server meanwhile."""
    told = multiprocessing.Array("q", 2 * PROCESSES, lock=False)
    shares = given.requests // PROCESSES, given.learnings // PROCESSES
    pipes, workers = [], []
    for number in range(PROCESSES):
        mine, its = multiprocessing.Pipe(duplex=False)
        worker = multiprocessing.Process(target=work, args=(number, given.seed, server, *shares, told, its))
        worker.start()
        its.close()
        pipes.append(mine)
        workers.append(worker)
    memory = watch(server, told, workers, given.requests, since)
    results = [result_of(pipe) for pipe in pipes]
    for worker in workers:
        worker.join()
    return results, memory


def work(number, seed, server, requests, learnings, told, pipe):
    """One process: its peers ask, and it hands back what it counted and the books that it left."""
    eight = Eight(number, seed, server, requests, learnings, told)
    fault = None
    try:
        eight.run()
    except (Wrong, OSError) as seen:
        fault = f"process {number}, behind {eight.counts['requests']} requests: {seen!r}"
    books = {typist.book_number: typist.book for typist in eight.typists}
    dumps = {book_number: [book.dump()] for book_number, book in books.items()} | eight.comers.resets
    pipe.send(Result(fault, eight.counts, dumps, sum(book.bytes() for book in books.values())))


def watch(server, told, workers, requests, since):
    """Prints a line at each tenth of the requests, and gives the memory at each."""
    memory = []
    while any(worker.is_alive() for worker in workers):
        if server.run.poll() is not None:
            break
        done = sum(told[::2])
        while len(memory) < 9 and done * 10 >= requests * (len(memory) + 1):
            memory.append(server.memory())
            print(
                f"{len(memory)} tenths: {done} requests, {sum(told[1::2])} learnings, {memory[-1]} kB,"
                f" {sum(server.files().values())} files, {server.threads()} threads, {time.monotonic() - since:.0f} s",
                flush=True,
            )
        time.sleep(0.05)
    return memory


def result_of(pipe):
    """What a process hands back at its end."""
    try:
        return pipe.recv()
    except EOFError:
        return Result("a process handed nothing back", {}, {}, 0)
