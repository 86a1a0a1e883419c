"""Workers of this machine: processes of Python, of which each does one task at a time.

They stand by in a fraction of a second, where dask takes some three, and listen at no address. A worker that is lost
takes one task with it, and another one begins in its place.
"""

import itertools
import multiprocessing
import queue
import subprocess
import sys
import threading
from collections.abc import Callable, Sequence
from multiprocessing.connection import Connection
from pathlib import Path
from types import TracebackType
from typing import Any

from h2audit.fleet import programs
from h2audit.fleet.carrier import Client, Future

# Where this package is. What lies in the folder that a worker begins in is no module of it: so says -P.
PACKAGES = Path(__file__).resolve().parents[2]
BEGIN = (
    "import sys; sys.dont_write_bytecode = True; sys.path.insert(0, sys.argv[1]); "
    "from h2audit.fleet.worker import serve; serve(int(sys.argv[2]))"
)
WAITS, DONE, CANCELLED = "pending", "finished", "cancelled"
NAME = "this machine"


class WorkerLost(Exception):
    """The process that had a task is gone."""


class Task(Future):
    """A task on its way to a worker, or done."""

    def __init__(self, work: Callable[..., object], words: tuple[object, ...]) -> None:
        self.module, self.work, self.words = work.__module__, work.__name__, words
        self.status = WAITS
        self.answer: Any = None
        self.error: Exception | None = None
        self.follow: list[Callable[[Future], object]] = []
        self.lock = threading.Lock()

    def result(self, timeout: float) -> Any:
        """What it answers. The dispatcher asks once it is done."""
        if self.status == WAITS:
            raise TimeoutError
        if self.error:
            raise self.error
        return self.answer

    def add_done_callback(self, follow: Callable[[Future], object]) -> None:
        with self.lock:
            if self.status == WAITS:
                self.follow.append(follow)
                return
        follow(self)

    def end(self, answer: Any, error: Exception | None) -> None:
        with self.lock:
            if self.status == CANCELLED:
                return
            self.answer, self.error, self.status = answer, error, DONE
        for follow in self.follow:
            follow(self)


class Worker:
    """A process that does tasks.

    It has a session of its own, so keys of the terminal do not reach it, and ends with the thread that began it.
    """

    def __init__(self) -> None:
        here, there = multiprocessing.Pipe()
        self.connection: Connection = here
        with there:
            self.process = subprocess.Popen(
                [*programs.tied(), sys.executable, "-P", "-c", BEGIN, str(PACKAGES), str(there.fileno())],
                pass_fds=[there.fileno()],
                stdin=subprocess.DEVNULL,
                stdout=subprocess.DEVNULL,
                stderr=subprocess.DEVNULL,
                start_new_session=True,
            )

    def do(self, task: Task) -> None:
        """Does a task, which ends with what the worker says or, where that is lost, as such."""
        try:
            self.connection.send((task.module, task.work, task.words))
            answer, error = self.connection.recv()
        except (EOFError, OSError) as why:
            raise WorkerLost(str(why)) from None
        task.end(answer, error)

    def end(self) -> None:
        self.process.kill()
        self.process.wait()
        self.connection.close()


class Pool(Client):
    """So many workers, each begun when there is a task for it."""

    dashboard_link = ""
    lost = WorkerLost

    def __init__(self, jobs: int) -> None:
        self.jobs = jobs
        self.numbers = itertools.count()
        # The most urgent first, then in order.
        self.tasks: queue.PriorityQueue[tuple[int, int, Task | None]] = queue.PriorityQueue()
        self.workers: set[Worker] = set()
        self.lock = threading.Lock()
        self.is_ending = False
        self.keepers = [threading.Thread(target=self.keep, daemon=True) for _ in range(jobs)]

    def __enter__(self) -> "Pool":
        for keeper in self.keepers:
            keeper.start()
        return self

    def __exit__(
        self, kind: type[BaseException] | None, error: BaseException | None, trace: TracebackType | None
    ) -> None:
        with self.lock:
            self.is_ending = True
            for worker in self.workers:
                worker.process.kill()
        for keeper in self.keepers:
            self.put(None, priority=0)
        for keeper in self.keepers:
            keeper.join()

    def submit(self, work: Callable[..., object], *words: object, priority: int) -> Task:
        task = Task(work, words)
        self.put(task, priority)
        return task

    def put(self, task: Task | None, priority: int) -> None:
        self.tasks.put((-priority, next(self.numbers), task))

    def cancel(self, futures: Sequence[Future]) -> None:
        """What runs already goes on, and nobody hears of its end."""
        for future in futures:
            future.status = CANCELLED

    def threads(self) -> int:
        return self.jobs

    def run(self, work: Callable[[], str]) -> dict[str, str]:
        return {NAME: work()}

    def keep(self) -> None:
        """Keeps one worker busy, and begins another where it is lost."""
        worker: Worker | None = None
        while task := self.tasks.get()[2]:
            if task.status == CANCELLED:
                continue
            try:
                worker = worker or self.begun()
                worker.do(task)
            except Exception as why:  # whatever it is, the dispatcher has to hear of it
                if worker:
                    self.end(worker)
                worker = None
                if self.is_ending:
                    return
                task.end(None, why)
        if worker:
            self.end(worker)

    def end(self, worker: Worker) -> None:
        worker.end()
        with self.lock:
            self.workers.discard(worker)

    def begun(self) -> Worker:
        with self.lock:
            if self.is_ending:
                raise WorkerLost("the run ends")
            worker = Worker()
            self.workers.add(worker)
            return worker
