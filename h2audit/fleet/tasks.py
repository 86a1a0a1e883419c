"""What a worker does with a capture: one program imports and audits it, and gives its report and its rows.

That is h2audit-any, or h2audit-why where requests are wanted, and where a connection began before the capture: it joins
that. `large` has the tasks of large captures.

A worker needs this module, which is sent to it: it imports the standard library, and what is sent beside it.
"""

import errno
import os
import re
import stat
import subprocess
import tempfile
import time
from collections.abc import Callable, Sequence
from typing import IO, NotRequired, TypedDict

from h2audit.fleet import programs, sniff

AUDIT, IMPORT, SPLIT, MERGE = "h2audit", "h2audit-any", "h2audit-split", "h2audit-merge"
# An import that stands for a while; and what tells of requests.
IMPORT_ALONE, WHY = "h2audit-import", "h2audit-why"
NO_FAULT, FAULTS, REFUSED, IO_FAILED, NO_MEMORY, NOTHING_READ = 0, 1, 3, 4, 5, 6
MOST_PARTS = 500
# How large a compressed capture is shows as it is read. One that would be large, grown so much, is imported first.
USUAL_GROWTH = 10
TOO_LARGE = "too-large"
WRITE_FAILED, CHANGED = "write-failed", "changed"
NOTHING_COULD_BE_READ = "no connection could be read"
# The least and the most nanoseconds since 1970 that a column of the database holds: from 1677 to 2262.
FIRST_TIME, LAST_TIME = -(1 << 63), (1 << 63) - 1
VERSION_SECONDS = 60
# How requests are entered, and what a reason begins with where they could not be told.
NAMED, UNNAMED = "named", "unnamed"
NO_REQUESTS = "no requests: "
# What a reason begins with where connections that began before the capture could not be joined.
NOT_JOINED = "not joined: "
# What h2audit-any says of a connection: what it holds, and the gaps of both sides.
CONNECTION = re.compile(
    rb'\["connections",\d+,"[^"]*","[^"]*",\d+,"([^"]*)",[^,]*,[^,]*,(\d+|null),[^,]*,[^,]*,[^,]*,(\d+|null),'
)
# The tables that h2audit-why tells beside those of reports, and how a row of them begins.
TOLD = ("requests", "directions", "certainty", "reasons", "leg_times", "brakes", "legs", "hops")
OF_REQUESTS = tuple(f'["{table}",'.encode() for table in TOLD)


class Order(TypedDict):
    """How captures are to be audited: files of keys, seconds for each run of a program, above how many bytes a capture
    is split, 0 for none, in which folder files may stand that the end of the run takes away, how requests are entered,
    whether both legs of a proxy are with them, whether connections that began before the capture are joined, and
    whether reports are kept.
    """

    keys: list[str]
    timeout: float
    split_above: int
    scratch: NotRequired[str | None]
    requests: NotRequired[str | None]
    legs: NotRequired[bool]
    joined: NotRequired[bool]
    reports: NotRequired[bool]


class TaskAnswer(TypedDict, total=False):
    """What a task answers, also where it fails: plain values, of which it has those that it knows."""

    # The last answer of a capture is audited, partial (a part of a large capture was refused, or its requests could not
    # be told, or a connection of it that may be joined was not), refused (the capture cannot be audited, and never will
    # be) or failed (it might be another time); others are import (it has to be imported first), imported, split.
    outcome: str
    reason: str | None
    # Whether a partial one may be whole another time.
    is_worth_a_try: bool
    # The program that gave the report, its status, and where and for how long it ran.
    program: str | None
    status: int | None
    worker: str
    seconds: float
    # The capture's bytes, the time of its last change, and their digest.
    size: int | None
    modified: int | None
    sha256: str
    # A report, compressed and only if it is kept, its digest and length; its rows, likewise compressed.
    report: bytes | None
    report_sha256: str
    report_bytes: int
    rows: bytes
    has_requests: bool
    may_be_joined: bool
    # What an import made, its bytes and its map; the folder of a split, and its parts that stand.
    made: str
    made_size: int
    map: str
    folder: str
    standing: list[int]
    # The place in a stretch of the file that is another by now.
    lost: int
    # What is known of all captures of a run, and how often this one was tried.
    version: str
    options: str
    tries: int


class Unread(Exception):
    """Why the bytes of a capture cannot be had."""


def opened(path: bytes) -> int:
    """An open file. A pipe, a device or a folder is refused, and is not waited for."""
    try:
        file = os.open(path, os.O_RDONLY | os.O_NONBLOCK | os.O_CLOEXEC)
    except OSError as error:
        reasons = {errno.ENOENT: "not-there", errno.EACCES: "not-allowed"}
        raise Unread(reasons.get(error.errno or 0, "not-opened")) from None
    if not stat.S_ISREG(os.fstat(file).st_mode):
        os.close(file)
        raise Unread("not-a-file")
    return file


def on_capture(path: bytes, work: Callable[[int], TaskAnswer]) -> TaskAnswer:
    """What some work answers of an open capture, beside its size and the time of its last change."""
    begin = time.monotonic()
    answer = TaskAnswer(outcome="failed", reason=None, status=None, program=None, worker=worker_name())
    try:
        file = opened(path)
        try:
            size, modified = state_of(file)
            answer |= TaskAnswer(size=size, modified=modified)
            answer |= work(file)
        finally:
            os.close(file)
    except (Unread, programs.NoProgram, OSError) as why:
        answer["reason"] = named(why)
    return answer | TaskAnswer(seconds=time.monotonic() - begin)


def named(why: Exception) -> str:
    """The name of what went wrong."""
    if isinstance(why, programs.NoProgram):
        return f"no-program {why}"
    if isinstance(why, OSError) and why.errno in (errno.ENOSPC, errno.EDQUOT):
        return no_room()
    return f"io-failed {errno.errorcode.get(why.errno or 0, 'EIO')}" if isinstance(why, OSError) else str(why)


def worker_name() -> str:
    return f"{os.uname().nodename}:{os.getpid()}"


def audit(path: bytes, order: Order) -> TaskAnswer:
    """The audit of one capture; or says that it is, or may be, a large one that has to be imported first."""
    return on_capture(path, lambda file: audit_file(file, order))


def audit_all(paths: list[bytes], order: Order) -> list[TaskAnswer]:
    """The audits of several small captures, since a task costs more than each of them."""
    return [audit(path, order) for path in paths]


def audit_file(file: int, order: Order) -> TaskAnswer:
    if may_be_large(file, order):
        return {"outcome": "import"}
    answer = while_unchanged(file, lambda _: told(words_of(order), order, [file]))
    if answer["reason"] == TOO_LARGE and order["split_above"]:
        # What an import made may be too large for h2audit.
        return {"outcome": "import"}
    if are_requests_wanted(order) and answer["outcome"] == "failed" and answer["reason"] != CHANGED:
        report = while_unchanged(file, lambda _: told(words_of_report(order), order, [file]))
        return report | without_requests(answer) if report["outcome"] == "audited" else report
    return with_joined(file, answer, order)


def with_joined(file: int, answer: TaskAnswer, order: Order) -> TaskAnswer:
    """An answer with the connections that began before the capture, where it has some that may be joined: h2audit-why
    tells of the whole capture.
    """
    if not answer.pop("may_be_joined", False) or answer["outcome"] != "audited":
        return answer
    try:
        joined = while_unchanged(file, lambda _: told(words_of_requests(order), order, [file]))
    except programs.NoProgram as why:
        joined = {"outcome": "refused", "reason": named(why)}
    if joined["outcome"] == "audited" or joined["reason"] == CHANGED:
        return joined
    is_worth_a_try = joined["outcome"] == "failed"
    reason = f"{NOT_JOINED}{joined['reason']}"
    return answer | TaskAnswer(outcome="partial", reason=reason, is_worth_a_try=is_worth_a_try)


def are_requests_wanted(order: Order) -> bool:
    return bool(order.get("requests"))


def may_be_large(file: int, order: Order) -> bool:
    """Whether a compressed capture may hold more than what is split, by what captures usually grow to."""
    is_packed = sniff.is_packed(os.pread(file, sniff.FRONT, 0))
    return is_packed and bool(parts_of(USUAL_GROWTH * os.fstat(file).st_size, order))


def parts_of(size: int | None, order: Order) -> int:
    """How many parts a capture goes into: none, or as many as make each half as large as may be whole."""
    if size is None or not 0 < order["split_above"] < size:
        return 0
    return min(-(-2 * size // order["split_above"]), MOST_PARTS)


def words_of(order: Order) -> list[str]:
    """What imports and audits a capture, and tells of its requests where they are wanted."""
    return words_of_requests(order) if are_requests_wanted(order) else words_of_report(order)


def words_of_report(order: Order) -> list[str]:
    return [IMPORT, *words_of_keys(order), "--workers", "1"]


def words_of_requests(order: Order) -> list[str]:
    unnamed = ["--no-requests"] * (order.get("requests") != NAMED)
    unjoined = ["--no-joined"] * (not order.get("joined"))
    no_legs = ["--no-legs"] * (not (are_requests_wanted(order) and order.get("legs")))
    return [WHY, *words_of_keys(order), *unnamed, *unjoined, *no_legs, "--workers", "1", "--report", "-"]


def words_of_keys(order: Order) -> list[str]:
    return [word for key in order["keys"] for word in ("-k", key)]


def while_unchanged(file: int, work: Callable[[str], TaskAnswer]) -> TaskAnswer:
    """What an import answers. It may read the capture twice, for keys in it, so it has the open file by a name.

    Where the capture is written to meanwhile nobody can say what was audited.
    """
    name, before = name_of(file), state_of(file)
    answer = work(name)
    if state_of(file) != before:
        return {"outcome": "failed", "status": None, "program": IMPORT, "reason": CHANGED}
    reason = answer["reason"]
    return answer | TaskAnswer(reason=reason.removesuffix(f": {name}") if reason else None)


def name_of(file: int) -> str:
    """What a program that is handed an open file knows it by."""
    return f"/dev/fd/{file}"


def state_of(file: int) -> tuple[int, int]:
    """Size, and the time of the last change."""
    found = os.fstat(file)
    return found.st_size, nearest_time(found.st_mtime_ns)


def nearest_time(nanos: int) -> int:
    """A time, or where no column holds it the nearest that one does."""
    return max(FIRST_TIME, min(nanos, LAST_TIME))


def told(words: list[str], order: Order, captures: Sequence[int] = (), source: IO[bytes] | None = None) -> TaskAnswer:
    """What a program answers that prints a report, of captures or of what it reads, and writes its rows."""
    names = [name_of(capture) for capture in captures]
    with tempfile.TemporaryDirectory(prefix="h2audit-fleet-", dir=order.get("scratch")) as folder:
        rows = os.path.join(folder, "rows")
        with tempfile.TemporaryFile() as report:
            answer = run_on([*words, "--rows", rows, *names], report, order, captures, source)
            if answer["outcome"] == "audited" and not os.path.exists(rows):
                answer |= TaskAnswer(outcome="failed", status=None, reason="bad-report: no rows were written")
            elif answer["outcome"] == "audited":
                with open(rows, "rb") as lines:
                    answer |= rows_answer(words, report, lines, order)
            elif answer["reason"] == WRITE_FAILED:
                answer["reason"] = no_room()
            return answer


def rows_answer(words: list[str], report: IO[bytes], rows: IO[bytes], order: Order) -> TaskAnswer:
    """A report and its rows on their way to the writer. Those about requests stay here where they are not wanted."""
    has_joined = words[0] == WHY and "--no-joined" not in words
    may_be_joined = bool(order.get("joined")) and not has_joined and has_unjoined(rows)
    wanted = rows
    if words[0] == WHY and not are_requests_wanted(order):
        wanted = tempfile.TemporaryFile()
        wanted.writelines(line for line in rows if not line.startswith(OF_REQUESTS))
    answer = kept(report, wanted, is_kept=bool(order.get("reports")))
    has_requests = words[0] == WHY and are_requests_wanted(order)
    return answer | TaskAnswer(has_requests=has_requests, may_be_joined=may_be_joined)


def has_unjoined(rows: IO[bytes]) -> bool:
    """Whether rows of h2audit-any tell of connections that may be joined. The file is at its beginning, also then."""
    found = any(map(is_unjoined, rows))
    rows.seek(0)
    return found


def is_unjoined(row: bytes) -> bool:
    """A pair of endpoints that opened none, one whose answer was lost, or one of which bytes are missing."""
    opened = CONNECTION.match(row)
    if opened is None:
        return row.startswith(b'["unopened",')
    return opened[1] == b"no-handshake" or opened[2] != b"null" or opened[3] != b"null"


def run_on(
    words: list[str], output: IO[bytes], order: Order, captures: Sequence[int] = (), source: IO[bytes] | None = None
) -> TaskAnswer:
    """What a program's end says of open captures, or of what it reads."""
    run = programs.run(words, output, order["timeout"], captures, source)
    return verdict(run) | TaskAnswer(program=IMPORT) | bytes_of(run.size, run.digest)


def bytes_of(size: int, digest: str) -> TaskAnswer:
    """What a program was given, where it was given all of a capture."""
    return TaskAnswer(size=size, sha256=digest) if digest else TaskAnswer()


def without_requests(untold: TaskAnswer) -> TaskAnswer:
    """What a report is without the requests, which another try may tell."""
    return {"outcome": "partial", "reason": f"{NO_REQUESTS}{untold['reason']}", "is_worth_a_try": True}


def verdict(run: programs.Run) -> TaskAnswer:
    """What a run's end says of its capture. Statuses are those of h2audit."""
    if run.is_late:
        return {"outcome": "failed", "status": None, "reason": "timeout"}
    if run.status in (NO_FAULT, FAULTS):
        return {"outcome": "audited", "status": run.status, "reason": None}
    if run.status == NOTHING_READ:
        return {"outcome": "audited", "status": run.status, "reason": nothing_read(run.said)}
    if run.status < 0:
        return {"outcome": "failed", "status": None, "reason": f"signal {-run.status}"}
    if run.status == REFUSED:
        return {"outcome": "refused", "status": run.status, "reason": refusal(run.said)}
    reasons = {IO_FAILED: io_failed(run.said), NO_MEMORY: "out-of-memory"}
    reason = reasons.get(run.status, f"status {run.status}: {run.said}")
    return {"outcome": "failed", "status": run.status, "reason": reason}


def refusal(said: str) -> str:
    """Why a capture or a part is refused. Behind the name of a capture's refusal stand the file, and what helps."""
    what, _, why = said.partition(" refused: ")
    return why.partition(": ")[0] if what.endswith("capture") else why or said


def nothing_read(said: str) -> str | None:
    """What an import says of a capture without a connection that it could read, where it says more than that."""
    more = said.partition(NOTHING_COULD_BE_READ)[2].lstrip(":,; ")
    return more or None


def io_failed(said: str) -> str:
    """What failed, by the last words of a program, or by those before a file's name."""
    unwritten = re.search(r": write failed$|: cannot (?:write|create|make folder): ", said)
    return WRITE_FAILED if unwritten or os.strerror(errno.ENOSPC) in said else "read-failed"


def no_room() -> str:
    """The reason where the folder for temporary files is full, in which reports stand until they are entered."""
    return f"no-room {tempfile.gettempdir()}"


def kept(report: IO[bytes], rows: IO[bytes], is_kept: bool) -> TaskAnswer:
    """A report and its rows on their way to the writer; the text of the report goes there if it is kept."""
    text = programs.text_of(report)
    return {
        "report": text.packed if is_kept else None,
        "report_sha256": text.digest,
        "report_bytes": text.size,
        "rows": programs.text_of(rows).packed,
    }


def version() -> str:
    """What h2audit says of itself on this worker."""
    if not programs.is_there(AUDIT):
        return ""
    words = [AUDIT, "--version"]
    try:
        said = subprocess.run(words, capture_output=True, text=True, errors="replace", timeout=VERSION_SECONDS)
    except subprocess.TimeoutExpired:
        raise TimeoutError(f"{' '.join(words)} did not end within {VERSION_SECONDS} seconds") from None
    return (said.stdout.splitlines() or ["unknown"])[0]
