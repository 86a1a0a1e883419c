"""Reports that h2audit-any made without this program, by GNU parallel or a Slurm array. docs/FLEET.md has the commands.

A folder has for each capture, under one name of any kind:

    NAME.path     the capture's path, its bytes as they are
    NAME.file     its size, and the time of its last change in seconds, before the audit; may be missing
    NAME.sha256   the digest of its bytes; may be missing
    NAME.report   the report
    NAME.error    what was said on standard error
    NAME.rows     the rows that --rows wrote
    NAME.status   the status and the seconds that it took; written last, so what has none did not come to its end
"""

import os
import re
from collections.abc import Iterator
from contextlib import suppress
from pathlib import Path
from typing import IO

from h2audit.fleet import programs, tasks
from h2audit.fleet.tasks import TaskAnswer

# timeout(1) ends with this status; a shell has those of signals above 128.
TIME_IS_UP, SIGNALS = 124, 128
MOST_OF_A_WORD = 4096


def jobs_in(folder: str) -> list[Path]:
    """The jobs of a folder, ended or not, by the names of their paths."""
    return sorted(Path(folder).glob("*.path"))


def read_job(named: Path, version: str) -> tuple[bytes, TaskAnswer] | None:
    """A capture's path with its answer; nothing where the job did not come to its end."""
    status = re.fullmatch(r"(\d{1,3}) (\d{1,12}(?:\.\d{1,9})?)\s*", text_of(named.with_suffix(".status")))
    path = head_of(named)
    if not status or not path:
        return None
    answer = TaskAnswer(program=tasks.IMPORT, version=version, options="collected", tries=1, seconds=float(status[2]))
    answer |= file_of(named) | tasks.verdict(run_of(int(status[1]), named))
    if answer["outcome"] == "audited":
        answer |= report_of(named)
    return os.path.abspath(path), answer


def report_of(named: Path) -> TaskAnswer:
    """The report of a job and its rows, which it may have lost since."""
    try:
        with part_of(named, ".report") as report, part_of(named, ".rows") as rows:
            return tasks.kept(report, rows, is_kept=True)
    except (tasks.Unread, OSError) as why:
        return {"outcome": "failed", "status": None, "reason": f"bad-report: {tasks.named(why)}"}


def part_of(named: Path, suffix: str) -> IO[bytes]:
    return os.fdopen(tasks.opened(os.fsencode(named.with_suffix(suffix))), "rb")


def run_of(status: int, named: Path) -> programs.Run:
    said = ""
    with suppress(OSError), open(named.with_suffix(".error"), "rb") as error:
        said = programs.last_line(error)
    return programs.Run(SIGNALS - status if status > SIGNALS else status, said, 0, status == TIME_IS_UP)


def file_of(named: Path) -> TaskAnswer:
    answer = TaskAnswer()
    if found := re.fullmatch(r"(\d{1,18}) (\d{1,10})\.(\d{9})\s*", text_of(named.with_suffix(".file"))):
        answer |= TaskAnswer(size=int(found[1]), modified=tasks.nearest_time(int(found[2] + found[3])))
    if found := re.match(r"([0-9a-f]{64})\b", text_of(named.with_suffix(".sha256"))):
        answer["sha256"] = found[1]
    return answer


def head_of(name: Path) -> bytes:
    try:
        with open(name, "rb") as file:
            return file.read(MOST_OF_A_WORD)
    except OSError:
        return b""


def text_of(name: Path) -> str:
    return head_of(name).decode(errors="replace")


def answers_in(folder: str, version: str) -> Iterator[tuple[bytes, TaskAnswer] | None]:
    for named in jobs_in(folder):
        yield read_job(named, version)
