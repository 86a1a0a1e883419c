"""The dispatch of captures to workers: which task comes next, what is tried again, and when a capture is entered.

Futures say over a queue that they are done. So the one thread that enters captures waits for nothing else, and sees
within half a second that it is to stop.
"""

import os
import queue
import shutil
import tempfile
import time
from collections import deque
from collections.abc import Callable, Iterable, Iterator
from contextlib import contextmanager, suppress
from dataclasses import dataclass, field
from functools import partial
from typing import Any

from h2audit.fleet import large, tasks
from h2audit.fleet.carrier import Client, Future
from h2audit.fleet.tasks import Order, TaskAnswer
from h2audit.fleet.walk import CaptureFile

TICK_SECONDS = 0.5
RESULT_SECONDS = 10.0
LOOK_SECONDS = 2.0
# How often a folder is removed that a worker still puts files into, and the seconds between.
REMOVALS, REMOVAL_SECONDS = 20, 0.1
NO_WORKER_SECONDS = 60.0
# Tasks that wait at the workers, for each that runs; and large captures whose parts take room at once.
AHEAD = 3
MOST_LARGE = 2
# Small captures go together, so many and of so many bytes at most.
MOST_TOGETHER, BYTES_TOGETHER = 32, 4000000
FIRST, USUAL, LAST = 10, 0, -10
WORKER_LOST = "worker-lost"


class Lost(Exception):
    """The scheduler, or all workers, went away."""


@dataclass
class Capture:
    """A capture on its way: how often it was tried; a large one is imported first, and takes room beside itself."""

    file: CaptureFile
    is_large: bool = False
    tries: int = 0
    seconds: float = 0.0
    folder: str | None = None
    divided: TaskAnswer = field(default_factory=lambda: TaskAnswer())
    waiting: set[int] = field(default_factory=set)
    part_tries: dict[int, int] = field(default_factory=dict)
    futures: set[Future] = field(default_factory=set)

    @property
    def size(self) -> int:
        """Its bytes; 0 where it is not there."""
        return self.file.size or 0


@dataclass(frozen=True)
class Limits:
    """How often each task is tried, and in which folder, of this run alone, imports and parts stand."""

    tries: int
    scratch: str | None


Enter = Callable[[Capture, TaskAnswer], None]
Follow = Callable[[Any], None]


class Dispatcher:
    """Captures on their way over the workers of a client, each entered once."""

    def __init__(self, client: Client, order: Order, limits: Limits, enter: Enter) -> None:
        self.client, self.order, self.limits, self.enter = client, order.copy(), limits, enter
        if limits.scratch is not None:
            self.order["scratch"] = limits.scratch
        self.done: queue.SimpleQueue[Future] = queue.SimpleQueue()
        self.flying: dict[Future, Follow] = {}
        self.waiting: deque[Capture] = deque()
        self.held: deque[Capture] = deque()
        self.suspects: deque[Capture] = deque()
        self.on_way = self.large = 0
        self.threads, self.last_seen, self.next_look = 0, time.monotonic(), 0.0

    def run(self, captures: Iterable[CaptureFile], tick: Callable[[], bool]) -> bool:
        """Audits all captures. Ends early, with False, where a tick says so."""
        self.waiting.extend(Capture(found, bool(tasks.parts_of(found.size, self.order))) for found in captures)
        while tick():
            self.fill()
            if not self.on_way:
                return True
            self.take()
        return False

    def fill(self) -> None:
        """Begins as many captures as keep all workers busy; of large ones a few, since their parts take room."""
        room = AHEAD * max(self.seen_threads(), 1)
        while len(self.flying) < room and (captures := self.next_captures(room)):
            self.on_way += len(captures)
            self.begin_all(captures)
        if not self.on_way and self.suspects:
            self.on_way += 1
            self.begin(self.suspects.popleft())

    def next_captures(self, room: int) -> list[Capture]:
        """The next capture; where it is small, with others, but never with so many that a worker would have none."""
        first = self.next_capture()
        if first is None or first.is_large:
            return [first] if first else []
        captures, left = [first], BYTES_TOGETHER - first.size
        most = min(MOST_TOGETHER, 1 + len(self.waiting) // room)
        while len(captures) < most and self.waiting and not self.waiting[0].is_large and self.waiting[0].size <= left:
            captures.append(self.waiting.popleft())
            left -= captures[-1].size
        return captures

    def next_capture(self) -> Capture | None:
        if self.held and self.large < MOST_LARGE:
            return self.held.popleft()
        while self.waiting:
            capture = self.waiting.popleft()
            if not capture.is_large or self.large < MOST_LARGE:
                return capture
            self.held.append(capture)
        return None

    def seen_threads(self) -> int:
        """The threads of all workers, asked for now and then; Lost where there were none for a while."""
        now = time.monotonic()
        if now < self.next_look:
            return self.threads
        self.threads, self.next_look = 0, now + LOOK_SECONDS
        with suppress(OSError):
            self.threads = self.client.threads()
        if self.threads:
            self.last_seen = now
        elif now - self.last_seen > NO_WORKER_SECONDS:
            raise Lost("no worker is left")
        return self.threads

    def begin_all(self, captures: list[Capture]) -> None:
        if len(captures) == 1:
            self.begin(captures[0])
            return
        for capture in captures:
            capture.tries += 1
        paths = [capture.file.path for capture in captures]
        future = self.client.submit(tasks.audit_all, paths, self.order, priority=USUAL)
        self.fly(future, partial(self.after_all, captures))

    def begin(self, capture: Capture) -> None:
        capture.tries += 1
        path = capture.file.path
        if not capture.is_large:
            self.submit(capture, self.after_whole, tasks.audit, path, self.order)
            return
        self.large += 1
        if self.limits.scratch is None:
            self.submit(capture, self.after_whole, large.in_parts, path, self.order)
            return
        try:
            capture.folder = tempfile.mkdtemp(dir=self.limits.scratch)
        except OSError as why:
            self.after_whole(capture, {"outcome": "failed", "status": None, "reason": tasks.named(why)})
            return
        self.submit(capture, self.after_import, large.import_first, path, capture.folder, self.order)

    def submit(
        self,
        capture: Capture,
        after: Callable[[Capture, TaskAnswer], None],
        work: Callable[..., TaskAnswer],
        *words: Any,
        tries: int = 1,
    ) -> None:
        priority = LAST if max(capture.tries, tries) > 1 else FIRST if capture.is_large else USUAL
        future = self.client.submit(work, *words, priority=priority)
        capture.futures.add(future)
        self.fly(future, partial(after, capture))

    def fly(self, future: Future, follow: Follow) -> None:
        self.flying[future] = follow
        future.add_done_callback(self.done.put)

    def take(self) -> None:
        """Goes on with what is done by now, and waits a tick for the first of it."""
        wait: float = TICK_SECONDS
        while True:
            try:
                future = self.done.get(timeout=wait) if wait else self.done.get_nowait()
            except queue.Empty:
                return
            wait = 0
            if future in self.flying:
                self.go_on(future)

    def go_on(self, future: Future) -> None:
        if future.status == "cancelled":
            raise Lost("the scheduler went away")
        try:
            answer = future.result(timeout=RESULT_SECONDS)
        except TimeoutError:
            # The worker that held the result is gone, and another makes it anew.
            future.add_done_callback(self.done.put)
            return
        except Exception as why:  # whatever a worker raised, also where its Python is another
            is_lost = isinstance(why, self.client.lost)
            reason = WORKER_LOST if is_lost else f"worker-failed {type(why).__name__}"
            answer = {"outcome": "failed", "reason": reason}
        self.flying.pop(future)(answer)

    # What follows a task

    def after_all(self, captures: list[Capture], answers: list[TaskAnswer] | TaskAnswer) -> None:
        """Where several were lost together, each has lost its worker."""
        for place, capture in enumerate(captures):
            self.after_whole(capture, answers if isinstance(answers, dict) else answers[place])

    def after_whole(self, capture: Capture, answer: TaskAnswer) -> None:
        capture.seconds += answer.get("seconds") or 0.0
        if answer["outcome"] == "import":
            self.hold_for_import(capture)
        elif capture.tries < self.limits.tries and is_worth_a_try(answer):
            self.again(capture, answer)
        else:
            self.finish(capture, answer)

    def hold_for_import(self, capture: Capture) -> None:
        """What may grow large as it is imported waits for its turn among the large ones; that was no try yet."""
        self.on_way -= 1
        capture.tries -= 1
        capture.is_large = True
        capture.futures = set()
        self.held.append(capture)

    def again(self, capture: Capture, answer: TaskAnswer) -> None:
        """Tries a capture once more.

        One of a lost worker's tasks is to blame, so each is tried alone, after all others.
        """
        self.release(capture)
        capture.waiting, capture.part_tries = set(), {}
        if answer["reason"] == WORKER_LOST:
            self.suspects.append(capture)
        else:
            self.on_way += 1
            self.begin(capture)

    def after_import(self, capture: Capture, answer: TaskAnswer) -> None:
        """Splits what was made where that is large; else it is audited whole."""
        if answer["outcome"] != "imported":
            self.after_whole(capture, answer)
            return
        capture.seconds += answer["seconds"]
        capture.divided = answer
        if parts := tasks.parts_of(answer["made_size"], self.order):
            folder = folder_of_parts(capture)
            self.submit(capture, self.after_split, large.split, answer, folder, parts, self.order)
        else:
            self.merge_when_ready(capture)

    def after_split(self, capture: Capture, answer: TaskAnswer) -> None:
        if answer["outcome"] != "split":
            self.after_whole(capture, answer)
            return
        capture.seconds += answer["seconds"]
        # Its parts take its room.
        with suppress(OSError):
            os.unlink(capture.divided["made"])
        capture.divided, capture.waiting = answer, set(answer["standing"])
        for number in answer["standing"]:
            self.submit_part(capture, number)
        self.merge_when_ready(capture)

    def submit_part(self, capture: Capture, number: int) -> None:
        capture.part_tries[number] = tries = capture.part_tries.get(number, 0) + 1
        follow = partial(self.after_part, number=number)
        self.submit(capture, follow, large.part, capture.divided["folder"], number, self.order, tries=tries)

    def after_part(self, capture: Capture, answer: TaskAnswer, number: int) -> None:
        capture.seconds += answer.get("seconds") or 0.0
        if number not in capture.waiting:
            return
        if answer["outcome"] == "audited":
            capture.waiting.discard(number)
            self.merge_when_ready(capture)
        elif capture.part_tries[number] < self.limits.tries and is_worth_a_try(answer):
            self.submit_part(capture, number)
        else:
            capture.waiting.clear()
            capture.tries = capture.part_tries[number]
            self.finish(capture, capture.divided | large.of_part(number, answer))

    def merge_when_ready(self, capture: Capture) -> None:
        if not capture.waiting:
            self.submit(capture, self.after_whole, large.merge, capture.file.path, capture.divided, self.order)

    def finish(self, capture: Capture, answer: TaskAnswer) -> None:
        self.release(capture)
        answer = TaskAnswer(size=capture.file.size, modified=capture.file.modified) | answer
        self.enter(capture, answer | TaskAnswer(tries=capture.tries, seconds=capture.seconds))

    def release(self, capture: Capture) -> None:
        """Gives up what a try took: its place, the tasks that are left of it, and the room of its parts."""
        self.on_way -= 1
        self.large -= capture.is_large
        left = [future for future in capture.futures if self.flying.pop(future, None)]
        if left:
            self.client.cancel(left)
        if capture.folder:
            shutil.rmtree(capture.folder, ignore_errors=True)
        capture.futures, capture.folder, capture.divided = set(), None, TaskAnswer()


@contextmanager
def scratch_in(shared: str | None) -> Iterator[str | None]:
    """A folder of this run alone in a shared one. Workers have to end before it does: they would put more into it."""
    if shared is None:
        yield None
        return
    folder = tempfile.mkdtemp(prefix="h2audit-fleet-", dir=shared)
    try:
        yield folder
    finally:
        remove(folder)


def remove(folder: str) -> None:
    """Removes a folder, again where a program of a worker that was ended still made a file in it meanwhile."""
    for _ in range(REMOVALS):
        shutil.rmtree(folder, ignore_errors=True)
        if not os.path.lexists(folder):
            return
        time.sleep(REMOVAL_SECONDS)


def folder_of_parts(capture: Capture) -> str:
    assert capture.folder
    return os.path.join(capture.folder, "parts")


def is_worth_a_try(answer: TaskAnswer) -> bool:
    """Whether something failed that may go well another time: not where a file or a program is missing."""
    has_failed = answer["outcome"] == "failed" or answer.get("is_worth_a_try", False)
    return bool(has_failed) and not str(answer["reason"]).startswith(("no-program", "not-"))
