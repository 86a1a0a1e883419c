"""The database, and the one that writes it.

A capture and all its rows come in one transaction, so either all stand or none does.

While it runs others may read the database: it keeps a write-ahead log, which is folded in at the end.
"""

import datetime
import fcntl
import os
import sqlite3
import stat
import tempfile
from collections.abc import Iterable, Iterator
from contextlib import contextmanager, suppress
from pathlib import Path
from typing import NamedTuple

from h2audit.fleet import names
from h2audit.fleet.rows import CAPTURES, HTTP2, REQUESTS, BadRows, Row, Rows, unpacked
from h2audit.fleet.tasks import NAMED, TOLD, UNNAMED, TaskAnswer
from h2audit.fleet.verdicts import Verdicts

SCHEMA = Path(__file__).with_name("schema.sql")
# A kind of finding and who broke the rule, in the first two columns.
KINDS = Path(__file__).parents[1] / "report" / "kinds.txt"
SCHEMA_VERSION = 5
APPLICATION = 1748123206
TABLES = (*TOLD, "passed_over", "unopened", "findings", "stalls", "windows", "connections")
# What of a request is entered where names are asked for alone.
OF_NAMES = ("name", "method", "request_path", "authority", "status", "grpc_status")
HEADS = ("records", "segments", "snapped", "not_ipv4", "fragments", "not_tcp", "refused")
COLUMNS = (
    "path",
    "size",
    "modified",
    "sha256",
    "outcome",
    "status",
    "reason",
    "program",
    "version",
    "options",
    "tries",
    "seconds",
    "worker",
    "entered",
    "report_sha256",
    "report_bytes",
    *HEADS,
    REQUESTS,
)
ROWS_AT_ONCE = 10000
VERDICTS = f"""
    SELECT outcome, status, EXISTS (SELECT 1 FROM connections WHERE capture = id AND holds = '{HTTP2}') AS has_http2,
           COUNT(*)
    FROM named CROSS JOIN captures USING (path)
    GROUP BY outcome, status, has_http2"""


# A row of captures by the names of its columns.
CaptureRow = dict[str, object]


class Entered(NamedTuple):
    """What was entered of a capture."""

    outcome: str
    status: int | None
    has_http2: bool


class Standing(NamedTuple):
    """What stands for a capture: what became of it, and what a change of it would change."""

    outcome: str
    reason: object  # others may have written bytes to the database
    state: tuple[object, ...]


class Unusable(Exception):
    """Why a file cannot be the database."""


class Database:
    """The database of captures, opened to be written."""

    def __init__(self, path: str, is_resumed: bool, reports: str | None = None, is_private: bool = False) -> None:
        """Makes it where it is not there; a private one is its owner's alone."""
        self.reports = reports
        path = os.path.abspath(path)
        self.held = held(path, 0o600 if is_private else 0o666)
        is_there = os.fstat(self.held).st_size > 0
        try:
            self.base = sqlite3.connect(path, isolation_level=None, timeout=60)
            self.check() if is_there else self.make()
            self.columns = {
                table: len(self.base.execute(f"PRAGMA table_info({table})").fetchall()) - 1 for table in TABLES
            }
            self.columns[CAPTURES] = len(HEADS)
            if not is_resumed and self.base.execute("SELECT 1 FROM captures LIMIT 1").fetchone():
                raise Unusable("it has captures already: --resume goes on with it")
            # What is taken away may be names of requests.
            self.base.execute("PRAGMA secure_delete = ON")
            self.base.execute("PRAGMA journal_mode = WAL")
            self.base.execute("PRAGMA synchronous = NORMAL")
        except (sqlite3.Error, Unusable) as error:
            os.close(self.held)
            raise Unusable(str(error)) from None
        if reports:
            os.makedirs(reports, mode=0o700, exist_ok=True)

    def check(self) -> None:
        if self.pragma("application_id") != APPLICATION:
            raise Unusable("it is no database of h2audit-fleet")
        if (version := self.pragma("user_version")) != SCHEMA_VERSION:
            whose = "an older" if version < SCHEMA_VERSION else "a newer"
            raise Unusable(
                f"its schema is {version}, of {whose} h2audit-fleet, and this one writes {SCHEMA_VERSION}: "
                "name a new file"
            )

    def pragma(self, name: str) -> int:
        return int(self.base.execute(f"PRAGMA {name}").fetchone()[0])

    def make(self) -> None:
        self.base.executescript("BEGIN;" + SCHEMA.read_text() + "COMMIT;")
        self.base.executemany("INSERT INTO kinds VALUES (?, ?)", kinds())

    def close(self) -> None:
        """Leaves one file, without a log beside it; the log goes later where others read, or where there is no room."""
        with suppress(sqlite3.Error):
            self.base.execute("PRAGMA journal_mode = DELETE")
        self.base.close()
        os.close(self.held)

    def entered(self) -> Iterator[tuple[str, Standing]]:
        """What stands for each capture, by its path."""
        wanted = "path, outcome, reason, size, modified, version, options"
        for path, outcome, reason, *more in self.base.execute(f"SELECT {wanted} FROM captures"):
            yield path, Standing(outcome, reason, tuple(more))

    def verdicts(self, paths: Iterable[bytes]) -> Verdicts:
        """The verdicts on all of these captures that stand."""
        found = Verdicts()
        with self.transaction():
            self.base.execute("CREATE TEMP TABLE named (path TEXT PRIMARY KEY) WITHOUT ROWID")
            self.base.executemany("INSERT OR IGNORE INTO named VALUES (?)", ((names.word_of(path),) for path in paths))
            for outcome, status, has_http2, number in self.base.execute(VERDICTS):
                found.add(outcome, status, bool(has_http2), number)
            self.base.execute("DROP TABLE named")
        return found

    def forget(self, paths: Iterable[bytes]) -> None:
        """Takes captures away: folders that could not be read once, and now were."""
        with self.transaction():
            words = [(names.word_of(path),) for path in paths]
            self.base.executemany("DELETE FROM captures WHERE path = ? AND outcome = 'failed'", words)

    def forget_names(self, requests: str | None) -> None:
        """Takes the names of all requests away, or where none are wanted the requests themselves."""
        with self.transaction():
            if requests is None:
                for table in TOLD:
                    self.base.execute(f"DELETE FROM {table}")
                self.base.execute(f"UPDATE captures SET {REQUESTS} = NULL WHERE {REQUESTS} IS NOT NULL")
            elif self.has_names():
                self.blank_names()
            # A later run that wants more audits them anew.
            for asked in (NAMED, UNNAMED) if requests is None else (NAMED,):
                before, after = f" {REQUESTS} {asked}", f" {REQUESTS} {requests or 'taken away'}"
                change = "UPDATE captures SET options = replace(options, ?, ?) WHERE options LIKE '%' || ?"
                self.base.execute(change, (before, after, before))

    def has_names(self) -> bool:
        some = " OR ".join(f"{column} IS NOT NULL" for column in OF_NAMES)
        return self.base.execute(f"SELECT 1 FROM {REQUESTS} WHERE {some} LIMIT 1").fetchone() is not None

    def blank_names(self) -> None:
        """Writes all requests anew without names: an update leaves bytes of them in pages from which it moves rows."""
        columns = [row[1] for row in self.base.execute(f"PRAGMA table_info({REQUESTS})")]
        blank = ", ".join("NULL" if column in OF_NAMES else column for column in columns)
        self.base.execute(f"CREATE TEMP TABLE unnamed AS SELECT {blank} FROM {REQUESTS}")
        self.base.execute(f"DELETE FROM {REQUESTS}")
        self.base.execute(f"INSERT INTO {REQUESTS} SELECT * FROM unnamed")
        self.base.execute("DROP TABLE unnamed")

    def enter(self, path: bytes, answer: TaskAnswer) -> Entered:
        """Enters a capture with all that its report says; what was there of it goes."""
        row: CaptureRow = {column: answer.get(column) for column in COLUMNS}
        row |= {"path": names.word_of(path), "entered": now()}
        rows, packed, outcome = Rows(self.columns), answer.get("rows"), answer["outcome"]
        try:
            report = answer.get("report")
            if report is not None and self.reports:
                keep(self.reports, answer["report_sha256"], report)
            with self.transaction():
                self.put_rows(self.put(row), rows.of(unpacked(packed)) if packed is not None else ())
                row |= dict(zip(HEADS, rows.heads))
                if answer.get("has_requests"):
                    row[REQUESTS] = rows.requests
                self.put(row)
        except (BadRows, sqlite3.IntegrityError, OverflowError) as why:
            # SQLite holds numbers below 2^63.
            why = BadRows("a number is too large") if isinstance(why, OverflowError) else why
            outcome = "failed"
            row |= {"outcome": outcome, "reason": f"bad-report: {why}"} | dict.fromkeys((*HEADS, REQUESTS))
            with self.transaction():
                self.put_rows(self.put(row), ())
            rows.http2 = 0
        return Entered(outcome, answer.get("status"), rows.http2 > 0)

    @contextmanager
    def transaction(self) -> Iterator[None]:
        self.base.execute("BEGIN IMMEDIATE")
        try:
            yield
            self.base.execute("COMMIT")
        except BaseException:
            # A full disk rolls back by itself.
            if self.base.in_transaction:
                self.base.execute("ROLLBACK")
            raise

    def put(self, row: CaptureRow) -> int:
        """The number of the capture, whose row this is now, and which has no other rows yet."""
        marks = ", ".join("?" * len(COLUMNS))
        changes = ", ".join(f"{column} = excluded.{column}" for column in COLUMNS)
        found = self.base.execute(
            f"INSERT INTO captures ({', '.join(COLUMNS)}) VALUES ({marks}) "
            f"ON CONFLICT (path) DO UPDATE SET {changes} RETURNING id",
            [row[column] for column in COLUMNS],
        ).fetchone()
        return int(found[0])

    def put_rows(self, capture: int, rows: Iterable[Row]) -> None:
        """These rows, and no others, for a capture."""
        for table in TABLES:
            self.base.execute(f"DELETE FROM {table} WHERE capture = ?", (capture,))
        held: dict[str, list[tuple[object, ...]]] = {table: [] for table in TABLES}
        for table, values in rows:
            held[table].append((capture, *values))
            if len(held[table]) == ROWS_AT_ONCE:
                self.flush(table, held[table])
        for table, lines in held.items():
            self.flush(table, lines)

    def flush(self, table: str, lines: list[tuple[object, ...]]) -> None:
        if lines:
            marks = ", ".join("?" * len(lines[0]))
            self.base.executemany(f"INSERT INTO {table} VALUES ({marks})", lines)
            lines.clear()


def kinds() -> list[tuple[str, str]]:
    """The kinds of findings, and who broke the rule."""
    lines = [line for line in KINDS.read_text(encoding="ascii").splitlines() if not line.startswith("#")]
    rows = [[cell.strip() for cell in line.split("|")] for line in lines]
    return [(kind, broke) for kind, broke, *_ in rows if kind]


def held(path: str, mode: int) -> int:
    """The open file of a database, which no other h2audit-fleet writes until it is closed.

    This lock is not one of SQLite's, which would shut out those that read. It has to be closed after the database: to
    close any open file of it gives up SQLite's locks.
    """
    file = os.open(path, os.O_RDWR | os.O_CREAT | os.O_NONBLOCK, mode)
    try:
        if not stat.S_ISREG(os.fstat(file).st_mode):
            raise Unusable("it is no file")
        if is_held(file):
            raise Unusable("another h2audit-fleet writes it")
    except Unusable:
        os.close(file)
        raise
    return file


def is_held(file: int) -> bool:
    """Whether another process has the lock, which is taken here else.

    Where a file system has no such locks nobody has one.
    """
    try:
        fcntl.flock(file, fcntl.LOCK_EX | fcntl.LOCK_NB)
    except BlockingIOError:
        return True
    except OSError:
        pass
    return False


def keep(folder: str, digest: str, packed: bytes) -> None:
    """Keeps a report under the name of its digest. It comes there whole, or not at all."""
    with tempfile.NamedTemporaryFile(dir=folder, delete=False, buffering=0) as file:
        try:
            report = unpacked(packed)
            while piece := report.read(1 << 20):
                write_all(file.fileno(), piece, folder)
            os.replace(file.name, os.path.join(folder, f"{digest}.report"))
        except BaseException:
            os.unlink(file.name)
            raise


def write_all(file: int, piece: bytes, folder: str) -> None:
    rest = memoryview(piece)
    try:
        while rest:
            rest = rest[os.write(file, rest) :]
    except OSError as why:
        raise OSError(why.errno, why.strerror, folder) from None


def now() -> str:
    return datetime.datetime.now(datetime.UTC).isoformat(timespec="milliseconds").replace("+00:00", "Z")
