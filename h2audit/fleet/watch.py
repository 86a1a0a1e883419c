"""h2audit-fleet --watch: takes captures as a ring closes them, for as long as it runs.

    rings     which files of the folder are closed, and in which order
    stretch   what a worker does with files that follow each other
    carrying  what goes on from one stretch to the next
    watched   the database of a watch
    metrics   the counters that it writes

Files of a ring that follow each other are a stretch: they are audited together, as one capture, and anew with each file
that comes, until they have so many bytes. So a connection that goes on from file to file is one.
"""

import time
from collections import deque
from collections.abc import Callable
from dataclasses import dataclass, field

from h2audit.fleet import metrics, names, stretch, tasks
from h2audit.fleet.carrier import Client, Future
from h2audit.fleet.dispatch import WORKER_LOST, is_worth_a_try
from h2audit.fleet.rings import Folder, Seen
from h2audit.fleet.tasks import Order, TaskAnswer
from h2audit.fleet.watched import OPEN, SEALED, Part, Watched
from h2audit.report.command import REFUSED, failed
from h2audit.report.progress import Line
from h2audit.report.words import count

NAME = "h2audit-fleet"
LOOK_SECONDS, TICK_SECONDS = 1.0, 0.2
# So often the metrics are written where nothing comes, so that their file's time says that somebody looks.
BEAT_SECONDS = 15.0
RESULT_SECONDS = 10.0
LOST: TaskAnswer = {"outcome": "failed", "status": None, "reason": stretch.OVERWRITTEN}


@dataclass(frozen=True)
class Limits:
    """How many bytes a stretch has, how often a file is tried, and where the metrics are written."""

    stretch: int
    tries: int
    metrics: str | None


@dataclass
class Ring:
    """A ring: the files of its open stretch, those that wait, and the audit that runs."""

    name: str
    open: list[Seen] = field(default_factory=list)
    waiting: deque[Seen] = field(default_factory=deque)
    # Before which of those that wait a file is missing, and whether one is missing before what comes next.
    behind_gap: set[Seen] = field(default_factory=set)
    is_behind_gap: bool = False
    # The audit that runs: all files of the stretch, and so many of those that wait.
    future: Future | None = None
    asked: list[Seen] = field(default_factory=list)
    new: int = 0
    # How often the next audit was tried, and how many that wait it takes at most.
    tries: int = 0
    most: int | None = None

    def add(self, seen: Seen) -> None:
        if self.is_behind_gap:
            self.behind_gap.add(seen)
        self.is_behind_gap = False
        self.waiting.append(seen)

    def tell_gap(self) -> None:
        """What comes next does not follow what came before."""
        if self.waiting:
            self.behind_gap.add(self.waiting[0])
        else:
            self.is_behind_gap = True

    def pop(self, number: int) -> None:
        for _ in range(number):
            self.behind_gap.discard(self.waiting.popleft())


@dataclass
class Watch:
    client: Client
    database: Watched
    folder: Folder
    order: Order
    limits: Limits
    # What stands with each row.
    more: TaskAnswer
    line: Line
    rings: dict[str, Ring] = field(default_factory=dict)
    known: dict[bytes, Seen] = field(default_factory=dict)
    next_look: float = 0.0
    next_beat: float = 0.0
    # How many files were, and were not, in this run.
    audited: int = 0
    not_audited: int = 0

    def run(self, is_ended: Callable[[], bool]) -> None:
        """Takes what comes, until it is to end."""
        self.known = self.database.known()
        for name, files in self.database.open_stretches().items():
            self.rings[name] = Ring(name, files)
        while not is_ended():
            self.tick()
            self.line.tell(f"{self.summary()}, {self.waiting():,} waiting")
            time.sleep(TICK_SECONDS)

    def summary(self) -> str:
        return f"{count(self.audited + self.not_audited, 'file')}: {self.not_audited:,} not audited"

    def waiting(self) -> int:
        return sum(len(ring.waiting) for ring in self.rings.values())

    def tick(self) -> None:
        now = time.monotonic()
        if now >= self.next_look:
            self.next_look = now + LOOK_SECONDS
            self.look()
        for ring in list(self.rings.values()):
            if ring.future is not None and ring.future.status != "pending":
                self.take(ring, self.answer_of(ring.future))
                self.next_beat = 0.0
            if ring.future is None and ring.waiting:
                self.begin(ring)
        if now >= self.next_beat:
            self.next_beat = now + BEAT_SECONDS
            self.write_metrics()

    # What is there

    def look(self) -> None:
        """Looks for files that were closed, and for those that are others by now, or compressed."""
        rings = {names.word_of(name): files for name, files in self.folder.look(self.is_known).items()}
        for name in rings.keys() | self.rings.keys():
            ring = self.rings.setdefault(name, Ring(name))
            ring.open = [self.found(seen) for seen in ring.open]
            self.look_for_lost(ring)
            for seen in rings.get(name, ()):
                if not self.is_known(seen):
                    self.known[seen.plain] = seen
                    ring.add(seen)
        there = {seen.plain for seen, _ in self.folder.looks.values()}
        self.known = {plain: seen for plain, seen in self.known.items() if plain in there}

    def is_known(self, seen: Seen) -> bool:
        known = self.known.get(seen.plain)
        return known is not None and seen.is_of(known)

    def found(self, seen: Seen) -> Seen:
        """A file as it stands now: under its name, or compressed since."""
        if seen.path in self.folder.looks:
            return seen
        packed = (other for other, _ in self.folder.looks.values() if other.is_packed and other.is_of(seen))
        return next(packed, seen)

    def is_there(self, seen: Seen) -> bool:
        return self.folder.looks.get(seen.path, (None,))[0] == seen

    def look_for_lost(self, ring: Ring) -> None:
        """What waits and was overwritten, or is gone, is lost. The worker says whether what is being read is."""
        waiting, behind_gap, is_behind_gap = ring.waiting, ring.behind_gap, ring.is_behind_gap
        ring.waiting, ring.behind_gap, ring.is_behind_gap = deque(), set(), False
        for place, seen in enumerate(waiting):
            is_read = ring.future is not None and place < ring.new
            now = seen if is_read else self.found(seen)
            ring.is_behind_gap |= seen in behind_gap
            if is_read or self.is_there(now):
                ring.add(now)
            else:
                self.enter_alone(ring, seen, LOST | TaskAnswer(size=seen.size, modified=seen.modified))
                ring.is_behind_gap = True
        ring.is_behind_gap |= is_behind_gap

    # Audits

    def begin(self, ring: Ring) -> None:
        """Has the open stretch audited with files that wait, or ends it where it gets none."""
        if ring.open and not self.fitting(ring):
            self.seal(ring)
        taken = self.fitting(ring)
        ring.asked, ring.new = [*ring.open, *taken], len(taken)
        ring.tries += 1
        files = [(seen.path, seen.size, seen.modified) for seen in ring.asked]
        ring.future = self.client.submit(stretch.audit, files, self.order, priority=0)

    def fitting(self, ring: Ring) -> list[Seen]:
        """The files that wait and have room in the stretch; in one that has none yet the first always does."""
        left = self.limits.stretch - sum(map(self.bytes_of, ring.open))
        found: list[Seen] = []
        for seen in list(ring.waiting)[: ring.most]:
            left -= self.bytes_of(seen)
            if (ring.open or found) and (left < 0 or seen in ring.behind_gap):
                break
            found.append(seen)
        return found

    def bytes_of(self, seen: Seen) -> int:
        """What a file has once it is unpacked, by what captures usually grow to."""
        return seen.size * (tasks.USUAL_GROWTH if seen.is_packed else 1)

    def answer_of(self, future: Future) -> TaskAnswer:
        try:
            answer: TaskAnswer = future.result(timeout=RESULT_SECONDS)
            return answer
        except Exception:  # whatever a worker raised
            return {"outcome": "failed", "status": None, "reason": WORKER_LOST}

    def take(self, ring: Ring, answer: TaskAnswer) -> None:
        """Enters what was answered, or says what comes of it that there is no answer."""
        ring.future = None
        if answer["outcome"] == "audited":
            self.enter(ring, answer)
        elif "lost" in answer:
            self.take_lost(ring)
        elif ring.tries < self.limits.tries and is_worth_a_try(answer):
            return
        elif ring.new > 1:
            ring.most = 1
        elif ring.open:
            # The first of another stretch may do without what came before.
            self.seal(ring)
        else:
            ring.pop(1)
            self.enter_alone(ring, ring.asked[0], answer)
            ring.tell_gap()
        ring.tries = 0

    def take_lost(self, ring: Ring) -> None:
        """Where a file of the stretch is another by now, that stands as it was entered."""
        self.look()
        if not all(map(self.is_there, ring.open)):
            self.seal(ring)

    # What is entered

    def enter(self, ring: Ring, answer: TaskAnswer) -> None:
        part = Part(ring.name, ring.asked, ring.new, OPEN)
        self.database.enter_part(part, answer | self.more | TaskAnswer(tries=ring.tries))
        self.audited += ring.new
        ring.pop(ring.new)
        ring.open, ring.most = ring.asked, None
        size = sum(map(self.bytes_of, ring.open))
        is_full = size >= self.limits.stretch
        if is_full or 2 * size >= self.limits.stretch and not self.database.has_open_ends(ring.name):
            self.seal(ring)
        self.bound()

    def enter_alone(self, ring: Ring, seen: Seen, answer: TaskAnswer) -> None:
        """Enters a file that could not be audited; no stretch goes on over it."""
        part = Part(ring.name, [seen], 1, SEALED)
        self.database.enter_part(part, answer | self.more | TaskAnswer(tries=ring.tries))
        self.not_audited += 1
        path = seen.path.decode(errors="backslashreplace")
        self.line.clear()
        failed(NAME, REFUSED, f"{path}: {answer['outcome']}: {answer['reason']}")
        self.bound()

    def seal(self, ring: Ring) -> None:
        self.database.seal(ring.name)
        ring.open = []

    def bound(self) -> None:
        """Keeps the database below its bound. Where an open stretch had to go another one begins."""
        left = self.database.stay_below({ring.name for ring in self.rings.values() if ring.future is not None})
        for ring in self.rings.values():
            if ring.future is None and ring.name not in left:
                ring.open = []
        self.next_beat = 0.0

    def write_metrics(self) -> None:
        self.database.forget_files(seen.plain for seen, _ in self.folder.looks.values())
        if self.limits.metrics is not None:
            metrics.write(self.limits.metrics, self.database.metrics(self.waiting()))
