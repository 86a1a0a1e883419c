"""What h2audit-fleet does, from its words to its status."""

import hashlib
import os
import signal
import sqlite3
import sys
import tempfile
from collections.abc import Iterator
from contextlib import contextmanager
from dataclasses import replace
from types import FrameType

from h2audit.fleet import collect, names
from h2audit.fleet import watch as watching
from h2audit.fleet.carrier import Client
from h2audit.fleet.database import Database, Unusable
from h2audit.fleet.dispatch import Capture, Dispatcher, Limits, Lost, scratch_in
from h2audit.fleet.pool import Pool
from h2audit.fleet.progress import Progress
from h2audit.fleet.rings import Folder
from h2audit.fleet.rows import REQUESTS
from h2audit.fleet.tasks import NAMED, NO_REQUESTS, NOT_JOINED, UNNAMED, Order, TaskAnswer
from h2audit.fleet.verdicts import FAULTS, Verdicts
from h2audit.fleet.walk import CaptureFile, NotThere, Walk, found_in
from h2audit.fleet.watched import Watched
from h2audit.fleet.words import MEGABYTE, STRETCH, Asked, read_words
from h2audit.fleet.workers import NoWorkers, has_worker, version_of, workers_of
from h2audit.report.command import IO_FAILED, MISSING, OK, REFUSED, failed, io_reason
from h2audit.report.interrupts import SIGNALS
from h2audit.report.progress import progress
from h2audit.report.words import count, were

NAME = "h2audit-fleet"
SIGNALLED = 128
GOES_ON = "--resume goes on with the database"


class Ended(Exception):
    """A signal ends the program, before there was anything to end in order."""


class Interruption:
    """Ctrl-C, SIGTERM and a terminal that goes: from some time on something to ask for.

    A second one ends the program at once.
    """

    def __init__(self) -> None:
        self.signal = 0
        self.is_asked_for = False

    def note(self, number: int, _: FrameType | None) -> None:
        self.signal = number
        signal.signal(number, signal.SIG_DFL)
        if not self.is_asked_for:
            raise Ended

    @contextmanager
    def watched(self) -> Iterator["Interruption"]:
        heard = [number for number in SIGNALS if signal.getsignal(number) is not signal.SIG_IGN]
        before = {number: signal.signal(number, self.note) for number in heard}
        try:
            yield self
        finally:
            for number, handler in before.items():
                signal.signal(number, handler)

    def ended(self, what_helps: str) -> int:
        """The status of a program that was ended, which is said."""
        return failed(NAME, SIGNALLED + self.signal, f"ended early: {what_helps}")


def main(words: list[str]) -> int:
    asked = read_words(words)
    with Interruption().watched() as interruption:
        try:
            if asked.watch is not None:
                return watched(asked, asked.watch, interruption)
            return collected(asked, interruption) if asked.collect is not None else audited(asked, interruption)
        except Ended:
            return interruption.ended("nothing was begun")
        except (Unusable, sqlite3.Error) as why:
            return failed(NAME, IO_FAILED, f"{asked.db}: {why}")
        except NotThere as why:
            return failed(NAME, IO_FAILED, str(why))
        except OSError as why:
            return failed(NAME, IO_FAILED, io_reason(why))


# By workers


def audited(asked: Asked, interruption: Interruption) -> int:
    walk = found_in([os.fsencode(path) for path in asked.paths], asked.lists)
    options = options_of(asked)
    for line in walk.empty:
        failed(NAME, REFUSED, line)
    if not walk.captures:
        print(Verdicts().summary() + passed_over(walk), flush=True)
        return REFUSED
    try:
        workers = workers_of(asked, len(os.sched_getaffinity(0)))
    except ImportError as missing:
        return failed(NAME, MISSING, f"{missing.name} is not installed (Debian: apt-get install python3-distributed)")
    database = Database(asked.db, asked.resume, asked.reports, asked.requests == NAMED)
    try:
        interruption.is_asked_for = True
        database.forget(walk.folders.values())
        if asked.requests != NAMED:
            database.forget_names(asked.requests)
        with scratch_in(shared_of(asked)) as scratch, workers as client:
            if not has_worker(client, lambda: bool(interruption.signal)):
                return interruption.ended(GOES_ON)
            version = version_of(client)
            captures = missing_in(database, walk, version, options)
            limits = Limits(asked.retries + 1, scratch)
            more = TaskAnswer(version=version, options=options)
            return run(asked, client, limits, database, walk, captures, more, interruption)
    except (NoWorkers, Lost) as why:
        return interruption.ended(GOES_ON) if interruption.signal else failed(NAME, MISSING, str(why))
    finally:
        database.close()


def run(
    asked: Asked,
    client: Client,
    limits: Limits,
    database: Database,
    walk: Walk,
    captures: list[CaptureFile],
    more: TaskAnswer,
    interruption: Interruption,
) -> int:
    def enter(capture: Capture, answer: TaskAnswer) -> None:
        done.count(database.enter(capture.file.path, answer | more), capture.file.size or 0)

    def tick() -> bool:
        done.show()
        return not interruption.signal

    if asked.dashboard is not None or (asked.scheduler is not None and sys.stderr.isatty()):
        print(f"{NAME}: dashboard at {client.dashboard_link}", file=sys.stderr)
    dispatcher = Dispatcher(client, order_of(asked), limits, enter)
    with progress() as line:
        done = Progress(line, len(captures), sum(found.size or 0 for found in captures))
        is_whole = dispatcher.run(captures, tick)
    verdicts = database.verdicts(walk.captures)
    standing = len(walk.captures) - len(captures)
    print(
        verdicts.summary() + f"; {standing:,} {were(standing)} there" * bool(standing) + passed_over(walk), flush=True
    )
    return status_of(verdicts, walk, asked) if is_whole else interruption.ended(GOES_ON)


def order_of(asked: Asked) -> Order:
    return {
        "keys": [os.path.abspath(key) for key in asked.keys],
        "timeout": asked.timeout,
        "split_above": asked.split_above * MEGABYTE,
        "requests": asked.requests,
        "legs": not asked.no_legs,
        "joined": not asked.no_joined,
        "reports": asked.reports is not None,
    }


def shared_of(asked: Asked) -> str | None:
    """The folder that all workers share, if there is one."""
    shared = asked.scratch or (tempfile.gettempdir() if asked.scheduler is None else None)
    return os.path.abspath(shared) if shared else None


def passed_over(walk: Walk) -> str:
    return f"; {count(walk.others, 'other file')} passed over" * bool(walk.others)


def options_of(asked: Asked) -> str:
    """What a report depends on beside its capture and h2audit: where it changes, a capture is audited anew."""
    digest = hashlib.sha256()
    for key in asked.keys:
        with open(key, "rb") as file:
            digest.update(hashlib.sha256(file.read()).digest())
    requests = f" {REQUESTS} {asked.requests}" * bool(asked.requests)
    legs = " no legs" * (asked.no_legs and bool(asked.requests))
    keys = f"keys {digest.hexdigest()}" if asked.keys else "no keys"
    return keys + " not joined" * asked.no_joined + legs + requests


def missing_in(database: Database, walk: Walk, version: str, options: str) -> list[CaptureFile]:
    """The captures that do not stand in the database, failed there, also without requests that are wanted or without
    connections that were to be joined, or have changed since by their size or time.
    """
    standing = {path: row for path, row in database.entered()}

    def stands(found: CaptureFile) -> bool:
        row = standing.get(names.word_of(found.path))
        if row is None or row.outcome == "failed" or any(why in str(row.reason) for why in (NO_REQUESTS, NOT_JOINED)):
            return False
        return row.state == (found.size, found.modified, version, options)

    return [found for found in walk.in_order() if not stands(found)]


def status_of(verdicts: Verdicts, walk: Walk, asked: Asked) -> int:
    """The status by the verdicts on all captures that were named, those that stood already too."""
    if walk.empty or not verdicts.is_whole or (asked.require_http2 and verdicts.nothing):
        return REFUSED
    return FAULTS if verdicts.faults else OK


# Without workers


def collected(asked: Asked, interruption: Interruption) -> int:
    assert asked.collect is not None
    if not os.path.isdir(asked.collect):
        raise NotThere(f"{asked.collect}: not a folder")
    database = Database(asked.db, asked.resume, asked.reports)
    jobs = collect.jobs_in(asked.collect)
    unfinished, walk = 0, Walk()
    if not jobs:
        walk.empty.append(f"{asked.collect}: no job is in this folder")
        failed(NAME, REFUSED, walk.empty[0])
    try:
        interruption.is_asked_for = True
        with progress() as line:
            done = Progress(line, len(jobs), 0)
            for job in collect.answers_in(asked.collect, "unknown"):
                if interruption.signal:
                    break
                if job is None:
                    unfinished += 1
                    continue
                walk.add(job[0])
                done.count(database.enter(*job), 0)
                done.show()
        if interruption.signal:
            return interruption.ended("--collect --resume goes on")
        verdicts = database.verdicts(walk.captures)
        print(verdicts.summary() + f"; {unfinished} did not come to their end" * bool(unfinished), flush=True)
        return REFUSED if unfinished else status_of(verdicts, walk, asked)
    finally:
        database.close()


# For as long as it runs


def watched(asked: Asked, folder: str, interruption: Interruption) -> int:
    if not os.path.isdir(folder):
        raise NotThere(f"{folder}: not a folder")
    requests = asked.requests or UNNAMED
    asked = replace(asked, requests=requests)
    options, pool = options_of(asked), Pool(asked.jobs or len(os.sched_getaffinity(0)))
    keep = asked.keep * MEGABYTE if asked.keep is not None else None
    database = Watched(asked.db, asked.resume, requests == NAMED, keep)
    try:
        interruption.is_asked_for = True
        if requests != NAMED:
            database.forget_names(requests)
        with scratch_in(shared_of(asked)) as scratch, pool as client:
            order = order_of(asked)
            order["scratch"] = scratch
            more = TaskAnswer(version=version_of(client), options=options)
            stretch = (asked.stretch or STRETCH) * MEGABYTE
            looked_at = Folder(os.path.abspath(os.fsencode(folder)))
            with progress() as line:
                limits = watching.Limits(stretch, asked.retries + 1, asked.metrics)
                watch = watching.Watch(client, database, looked_at, order, limits, more, line)
                watch.run(lambda: bool(interruption.signal))
        print(watch.summary(), flush=True)
        return OK
    except NoWorkers as why:
        return failed(NAME, MISSING, str(why))
    finally:
        database.close()
