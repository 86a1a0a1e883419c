"""The database of a watch: beside the captures it knows which files of rings were entered, and stays below a bound.

A stretch is entered with its files, with what goes on in it, and with what its files count, in one transaction.
"""

import os
from collections.abc import Iterable
from contextlib import suppress
from dataclasses import dataclass
from pathlib import Path

from h2audit.fleet import carrying, metrics, names
from h2audit.fleet.database import TABLES, CaptureRow, Database, Entered
from h2audit.fleet.rings import NANOS, Seen
from h2audit.fleet.rows import Row
from h2audit.fleet.tasks import TaskAnswer

SCHEMA = Path(__file__).with_name("watch.sql")
# What is over the bound goes, and so much more that it does not go anew at each capture.
ROOM = 0.75
INCREMENTAL = 2
BUSY_MILLISECONDS, CHECKPOINT_MILLISECONDS = 60000, 500
OPEN, SEALED, COUNTED = "open", "sealed", "counted"
OLDEST = "SELECT id, ring, state FROM captures LEFT JOIN stretches ON capture = id ORDER BY entered, id"
# Not those behind which a file of the ring was lost.
OPEN_FILES = """
    SELECT watched.ring, path, size, modified FROM watched JOIN stretches USING (capture)
    WHERE state = 'open' AND (SELECT MAX(id) FROM watched AS one WHERE one.capture = watched.capture)
                             = (SELECT MAX(id) FROM watched AS one WHERE one.ring = watched.ring)
    ORDER BY watched.id"""


@dataclass(frozen=True)
class Part:
    """What is entered of a ring: the files of a capture, of which some are new."""

    ring: str
    files: list[Seen]
    new: int
    state: str


class Watched(Database):
    # What is being entered, and the row of its capture.
    part: Part | None = None
    row: CaptureRow

    def __init__(self, path: str, is_resumed: bool, is_private: bool, keep: int | None) -> None:
        super().__init__(path, is_resumed, None, is_private)
        self.path, self.keep = os.path.abspath(path), keep
        if self.pragma("auto_vacuum") != INCREMENTAL:
            self.base.execute(f"PRAGMA auto_vacuum = {INCREMENTAL}")
            self.base.execute("PRAGMA journal_mode = DELETE")
            self.base.execute("VACUUM")
            self.base.execute("PRAGMA journal_mode = WAL")
        self.base.executescript("BEGIN;" + SCHEMA.read_text() + "COMMIT;")

    # What was entered

    def known(self) -> dict[bytes, Seen]:
        """The files that were entered last under each name, as it was before it was compressed."""
        rows = self.base.execute("SELECT path, size, modified FROM watched ORDER BY id")
        found = (Seen(names.path_of(path), size, modified) for path, size, modified in rows)
        return {seen.plain: seen for seen in found}

    def open_stretches(self) -> dict[str, list[Seen]]:
        """The files of the stretch of each ring that gets more."""
        rows = self.base.execute(OPEN_FILES)
        found: dict[str, list[Seen]] = {}
        for ring, path, size, modified in rows:
            found.setdefault(ring, []).append(Seen(names.path_of(path), size, modified))
        return found

    def has_open_ends(self, ring: str) -> bool:
        """Whether a request or a stall stands open at the end of a ring's last stretch."""
        of_ring = "JOIN stretches USING (capture) WHERE ring = ? AND state = 'open'"
        asked = (
            f"SELECT 1 FROM requests {of_ring} AND ended = 'capture'",
            f"SELECT 1 FROM stalls {of_ring} AND last IS NULL",
        )
        return any(self.base.execute(f"{one} LIMIT 1", (ring,)).fetchone() for one in asked)

    # Entering

    def enter_part(self, part: Part, answer: TaskAnswer) -> Entered:
        """Enters a capture that is some files of a ring; what was entered of these files before goes."""
        self.part = part
        try:
            return self.enter(path_of_stretch(part.files), answer)
        finally:
            self.part = None

    def put(self, row: CaptureRow) -> int:
        self.row = row
        return super().put(row)

    def put_rows(self, capture: int, rows: Iterable[Row]) -> None:
        """With what else has to stand or fall with the rows."""
        carrying.give_back(self.base, capture)
        super().put_rows(capture, rows)
        if self.part is None:
            return
        part = self.part
        self.base.execute("INSERT OR REPLACE INTO stretches VALUES (?, ?, ?)", (capture, part.ring, part.state))
        carrying.carry(self.base, capture, part.ring)
        self.base.execute("DELETE FROM watched WHERE capture = ?", (capture,))
        lines = [(part.ring, names.word_of(seen.path), seen.size, seen.modified, capture) for seen in part.files]
        self.base.executemany("INSERT INTO watched VALUES (NULL, ?, ?, ?, ?, ?)", lines)
        self.count_files(part)

    def count_files(self, part: Part) -> None:
        if self.row["outcome"] == "audited":
            metrics.add(self.base, metrics.CAPTURES, {}, part.new)
            metrics.add(self.base, metrics.BYTES, {}, sum(seen.size for seen in part.files[-part.new :]))
        else:
            reason = str(self.row["reason"]).partition(":")[0]
            metrics.add(self.base, metrics.NOT_AUDITED, {"reason": reason}, part.new)

    def seal(self, ring: str) -> None:
        """Ends a ring's stretch. The one before it is counted, since what went on from it is known."""
        with self.transaction():
            sealed = self.base.execute(
                "SELECT capture FROM stretches WHERE ring = ? AND state = 'sealed'", (ring,)
            ).fetchall()
            for (capture,) in sealed:
                self.count(capture)
            self.base.execute("UPDATE stretches SET state = 'sealed' WHERE ring = ? AND state = 'open'", (ring,))

    def count(self, capture: int) -> None:
        """Adds what a stretch counts to what earlier ones did."""
        metrics.count(self.base, capture)
        self.base.execute("UPDATE stretches SET state = 'counted' WHERE capture = ?", (capture,))

    # The bound

    def stay_below(self, busy: set[str]) -> set[str]:
        """Takes away the captures that were entered first where the file has grown above the bound, and gives their
        room back; not stretches of rings that are being read. Answers the rings that still have an open one.
        """
        self.checkpoint()
        if self.keep is not None and self.size() > self.keep:
            for capture, ring, state in self.base.execute(OLDEST).fetchall():
                if self.size() <= ROOM * self.keep:
                    break
                if state != OPEN or ring not in busy:
                    self.drop(capture)
                    # A script alone steps through all pages; else one would go.
                    self.base.executescript("PRAGMA incremental_vacuum")
                    self.checkpoint()
        return {ring for ring, in self.base.execute("SELECT ring FROM stretches WHERE state = 'open'")}

    def drop(self, capture: int) -> None:
        with self.transaction():
            state = self.base.execute("SELECT state FROM stretches WHERE capture = ?", (capture,)).fetchone()
            if state and state[0] != COUNTED:
                self.count(capture)
            for table in TABLES:
                self.base.execute(f"DELETE FROM {table} WHERE capture = ?", (capture,))
            for table in carrying.CARRIED:
                self.base.execute(f"DELETE FROM carried_{table} WHERE ? IN (capture, into_capture)", (capture,))
            self.base.execute("DELETE FROM continued WHERE capture = ?", (capture,))
            gone = "UPDATE continued SET of_capture = NULL, of_connection = NULL WHERE of_capture = ?"
            self.base.execute(gone, (capture,))
            self.base.execute("DELETE FROM stretches WHERE capture = ?", (capture,))
            self.base.execute("UPDATE watched SET capture = NULL WHERE capture = ?", (capture,))
            self.base.execute("DELETE FROM captures WHERE id = ?", (capture,))
            metrics.add(self.base, metrics.DROPPED, {}, 1)

    def forget_files(self, there: Iterable[bytes]) -> None:
        """Forgets files of captures that are dropped, once they are gone from the folder, by their plain names."""
        plain = set(there)
        rows = self.base.execute("SELECT id, path, size, modified FROM watched WHERE capture IS NULL").fetchall()
        gone = [(number,) for number, path, *more in rows if Seen(names.path_of(path), *more).plain not in plain]
        with self.transaction():
            self.base.executemany("DELETE FROM watched WHERE id = ?", gone)

    def metrics(self, waiting: int) -> str:
        """The text of the metrics, with so many files that wait."""
        with self.transaction():
            values = metrics.counters(self.base)
        [newest] = self.base.execute("SELECT MAX(modified) FROM watched").fetchone()
        if newest is not None:
            values[metrics.LAST, ""] = newest / NANOS
        return metrics.text_of(values | {(metrics.WAITING, ""): waiting, (metrics.SIZE, ""): self.size()})

    def checkpoint(self) -> None:
        """Folds the log into the file; where others read for long, another time does."""
        self.base.execute(f"PRAGMA busy_timeout = {CHECKPOINT_MILLISECONDS}").fetchall()
        self.base.execute("PRAGMA wal_checkpoint(TRUNCATE)").fetchall()
        self.base.execute(f"PRAGMA busy_timeout = {BUSY_MILLISECONDS}").fetchall()

    def size(self) -> int:
        """The bytes of the file and of its log."""
        total = 0
        for name in (self.path, f"{self.path}-wal"):
            with suppress(FileNotFoundError):
                total += os.stat(name).st_size
        return total


def path_of_stretch(files: list[Seen]) -> bytes:
    """The name of a capture that is a stretch: its first file, which others overwrite, and when that was closed."""
    return files[0].plain + b"@%d" % files[0].modified
