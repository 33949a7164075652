"""Work in several processes. They are forked, and take pieces of the work from one pipe, each piece by its number. The
standard pools do more, and take longer to import than all PO files of a project to compile."""
from __future__ import annotations

import marshal
import os
import select
import signal
from collections.abc import Callable, Iterator

TYPE_CHECKING = False
if TYPE_CHECKING:
    from typing import Any, NoReturn

    Work = Callable[[int], list[Any]]  # the results of a piece, which marshal can write

NUMBER = 4  # bytes of a number, and of a length, in a pipe
MOST_PIECES = 4096  # whose numbers a pipe takes at once


class Ended(Exception):
    """A process was ended by something else than this module."""


class Worker:
    """A process that works, and the end of the pipe where its results come."""

    def __init__(self, work: Work, numbers: int, others: list[int]) -> None:
        """`others` are the files of the first process that this one closes."""
        self.results, results = os.pipe()
        try:
            self.process = os.fork()
        except OSError:
            os.close(self.results)
            os.close(results)
            raise
        if not self.process:
            serve(work, numbers, results, [*others, self.results])
        os.close(results)

    def received(self) -> tuple[int, list[Any]]:
        """Return the number of a piece and its results. Ended if the process ends instead."""
        length = int.from_bytes(self.read(NUMBER), "little")
        found: tuple[int, list[Any]] = marshal.loads(self.read(length))
        return found

    def read(self, count: int) -> bytes:
        data = b""
        while len(data) < count:
            more = os.read(self.results, count - len(data))
            if not more:
                raise Ended
            data += more
        return data

    def wait(self) -> None:
        os.close(self.results)
        os.waitpid(self.process, 0)


def serve(work: Work, numbers: int, results: int, others: list[int]) -> NoReturn:
    """Close the files of the first process, do the pieces that come, until there are no more, and end this process."""
    status = 1
    try:
        for file in others:
            os.close(file)
        signal.signal(signal.SIGINT, signal.SIG_IGN)  # (the first process decides)
        while taken := os.read(numbers, NUMBER):
            number = int.from_bytes(taken, "little")
            data = marshal.dumps((number, work(number)))
            rest = memoryview(len(data).to_bytes(NUMBER, "little") + data)
            while rest:
                rest = rest[os.write(results, rest):]
        status = 0
    finally:
        os._exit(status)


def done_by(processes: int, pieces: int, work: Work) -> Iterator[tuple[int, list[Any]]]:
    """Do `work` for the numbers of up to MOST_PIECES pieces in this many processes, and yield each number with its
    results as they come.

    Ended if a process is ended: the others are then ended as well. If the caller stops before the end, they end with
    the piece that they are at. Where the system allows fewer processes, these do it, and where none, this one.
    """
    numbers, to_numbers = os.pipe()
    workers: list[Worker] = []
    try:
        start_workers(workers, processes, work, numbers, to_numbers)
        if workers:
            os.write(to_numbers, b"".join(number.to_bytes(NUMBER, "little") for number in range(pieces)))
            yield from received_from(workers, pieces)
        else:
            yield from ((number, work(number)) for number in range(pieces))
    except Ended:
        for worker in workers:
            os.kill(worker.process, signal.SIGTERM)
        raise
    finally:
        os.close(to_numbers)
        while os.read(numbers, NUMBER * MOST_PIECES):  # (what nobody is to take any more)
            pass
        os.close(numbers)
        for worker in workers:
            worker.wait()


def start_workers(workers: list[Worker], count: int, work: Work, numbers: int, to_numbers: int) -> None:
    """Add up to this many workers, as far as there are processes and descriptors."""
    for _ in range(count):
        try:
            workers.append(Worker(work, numbers, [to_numbers, *(it.results for it in workers)]))
        except OSError:
            return


def received_from(workers: list[Worker], pieces: int) -> Iterator[tuple[int, list[Any]]]:
    by_file = {worker.results: worker for worker in workers}
    poll = select.poll()
    for file in by_file:
        poll.register(file, select.POLLIN)
    while pieces:
        for file, _ in poll.poll():
            yield by_file[file].received()
            pieces -= 1
