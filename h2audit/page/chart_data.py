"""Packs the points of all charts for the page: columns of numbers, as differences, deflated, in base64.

The whole stays below a size that leaves room for the rest of a page of 5 MB. What would be larger is thinned: first
the points, but never the first, last, least and greatest of a window, nor those of marks; then stalls and faults share
marks; and at last windows have no chart, those without trouble first.
"""

import base64
import json
import zlib
from collections.abc import Iterable, Iterator
from dataclasses import dataclass
from math import gcd
from typing import NamedTuple

from h2audit.page.model import Audit, ChartedConnection, ChartedWindow, Others
from h2audit.page.series import Kind, Series, series_of, thinned
from h2audit.report.charts import Note

MOST_BYTES = 2_900_000
# Points of a window at most, from what a screen can show to its four extremes.
POINTS = (4000, 1000, 250, 60, 16, 6, 2)
# Shades and crosses of a window at most, where its extremes and marks are still too many.
MARKS = (2000, 200, 20, 1)
UNBOUNDED = 2**62
LEVELS = [*((points, UNBOUNDED) for points in POINTS), *((POINTS[-1], marks) for marks in MARKS)]
# So many windows say how large all of them would be; what is larger by half is not packed to see it.
SAMPLE, DOUBT, FEW_NUMBERS = 200, 1.5, 250_000
# A chart shows so many faults of its connection.
LINES = 500
# What is left of too large a size is aimed at a little less.
MARGIN = 0.95
# How hard deflate tries.
LEVEL = 6


@dataclass
class Packed:
    """What stands in the page, and what a reader has to know of it."""

    text: str
    points: int
    # How often the credits of these windows changed.
    changes: int
    # How many stalls and faults are marked, and how many of these share a mark.
    marked: int
    merged: int
    marks_in_report: int
    windows: int
    left_out: list[ChartedWindow]
    # Those that were left out before.
    others: Others


def packed(audit: Audit, taken: int = 0) -> Packed:
    """All charts, below a size of which some may be taken."""
    windows = [window for window in audit.windows if window.frames]
    whole = [series_of(window) for window in windows]
    series, elsewhere, compressed = fitting(audit, windows, whole, MOST_BYTES - taken)
    return Packed(
        base64.b64encode(compressed).decode(),
        sum(len(one.frames) for one in series),
        sum(one.whole for one in whole),
        sum(one.marked for one in series) + elsewhere,
        sum(one.merged for one in series),
        sum(len(window.stalls) + len(window.faults) for window in audit.windows),
        len(windows) + audit.others.number,
        windows[len(series) :],
        audit.others,
    )


class Fitting(NamedTuple):
    """What each window has, how many faults stand in the charts of other windows, and all of it as it is packed."""

    series: list[Series]
    elsewhere: int
    packed: bytes


def fitting(audit: Audit, windows: list[ChartedWindow], whole: list[Series], most: int) -> Fitting:
    """The first that is small enough: all points, fewer points, fewer marks, and at last fewer windows."""
    size = 0
    for level in LEVELS:
        series = [thinned(one, *level) for one in whole]
        size = estimated(audit, windows, series)
        if size <= most * DOUBT:
            found = cut(audit, windows, series)
            size = len(found.packed)
            if size <= most:
                return found
    number = len(windows)
    while size > most:
        number = min(number - 1, int(number * MARGIN * most / size))
        found = cut(audit, windows[:number], series[:number])
        size = len(found.packed)
    return found


def estimated(audit: Audit, windows: list[ChartedWindow], series: list[Series]) -> int:
    """About the packed size, by that of some windows; 0 where all are so little that they can be packed to see it."""
    every, whole = len(windows) // SAMPLE, sum(map(numbers, series))
    if every < 2 or whole < FEW_NUMBERS:
        return 0
    sample = series[::every]
    size = len(cut(audit, windows[::every], sample).packed)
    return size * whole // sum(map(numbers, sample))


def numbers(series: Series) -> int:
    """How many numbers a window takes: some of its own, and those of its points, stalls and faults."""
    return 7 + 3 * len(series.frames) + 3 * len(series.stalls) + 4 * len(series.faults)


def cut(audit: Audit, windows: list[ChartedWindow], series: list[Series]) -> Fitting:
    elsewhere = faults_without_chart(windows)
    return Fitting(series, len(elsewhere), zlib.compress(json_of(audit, windows, series, elsewhere), LEVEL))


def faults_without_chart(windows: list[ChartedWindow]) -> list[tuple[ChartedConnection, Note]]:
    """The faults of windows that have no chart, of connections that have one; of each the first that it can show."""
    shown = set(map(id, windows))
    connections = {id(window.connection): window.connection for window in windows}.values()
    found: list[tuple[ChartedConnection, Note]] = []
    for one in connections:
        others = [window for window in one.windows.values() if id(window) not in shown]
        found += [(one, note) for window in others for note in window.faults][:LINES]
    return found


def json_of(
    audit: Audit, windows: list[ChartedWindow], series: list[Series], elsewhere: list[tuple[ChartedConnection, Note]]
) -> bytes:
    places = {id(one): place for place, one in enumerate(audit.connections)}
    used = sorted({places[id(window.connection)] for window in windows})
    new = {place: number for number, place in enumerate(used)}
    kinds = sorted({fault[1] for one in series for fault in one.faults})
    times = [list(onward(time - window.connection.start for time in one.times)) for window, one in zip(windows, series)]
    faults = [note.finding for window in windows for note in window.faults]
    by_other = {fault.kind for fault in faults if fault.broke != fault.side}
    waits = [max(window.waits, default=0) for window in windows]
    others = [
        (new[places[id(one)]], note.finding.frame, one.since_start(note.finding), one.is_doubtful(note))
        for one, note in elsewhere
    ]
    unit = gcd(*waits, *(other[2] for other in others), *(time for column in times for time in column)) or 1
    openings = [audit.connections[place].opening for place in used]
    said = {
        "connections": list(steps(one.number for one in openings)),
        "clients": [one.client for one in openings],
        "servers": [one.server for one in openings],
        "kinds": [[kind, int(kind in by_other), int(is_doubtful)] for kind, is_doubtful in kinds],
        # For each window its connection, side, stream, how many points, stalls and faults follow, its longest stall.
        "places": list(steps(new[places[id(window.connection)]] for window in windows)),
        "sides": [int(window.side == "server") for window in windows],
        "streams": list(steps(window.stream for window in windows)),
        "points": [len(one.frames) for one in series],
        "stalled": [len(one.stalls) for one in series],
        "faulty": [len(one.faults) for one in series],
        "waits": [wait // unit for wait in waits],
        "unit": unit,
        "from": "SYN" if audit.answer else "first finding",
        "frames": list(columns(one.frames for one in series)),
        "times": [time // unit for time in columns(times)],
        "credits": [step for one in series for step in steps(one.credits)],
        # Faults whose own window has no chart: connection, frame, time, and whether they can be doubted.
        "elsewhere": [
            number for place, frame, time, doubt in others for number in (place, frame, time // unit, int(doubt))
        ],
        "stalls": [number for one in series for number in stall_steps(one)],
        "faults": [number for one in series for number in fault_numbers(one, kinds)],
    }
    return json.dumps(said, separators=(",", ":")).encode()


def steps(numbers: Iterable[int]) -> Iterator[int]:
    """The first number, and then each one's difference to the one before."""
    last = 0
    for number in numbers:
        yield number - last
        last = number


def columns(parts: Iterable[Iterable[int]]) -> Iterator[int]:
    """The steps of each window's numbers, one after the other; its first is that from the first of the one before."""
    first = 0
    for part in parts:
        inner = steps(part)
        begin = next(inner)
        yield begin - first
        yield from inner
        first = begin


def onward(times: Iterable[int]) -> Iterator[int]:
    """Times for a chart, which cannot go back: where the capture's clock did, they stand still."""
    latest: int | None = None
    for time in times:
        latest = time if latest is None else max(latest, time)
        yield latest


def fault_numbers(series: Series, kinds: list[Kind]) -> Iterator[int]:
    """For each cross its point, the place of its kind, the value of its first fault, and how many it stands for."""
    for at, kind, value, number in series.faults:
        yield from (at, kinds.index(kind), value, number)


def stall_steps(series: Series) -> Iterator[int]:
    """For each shade how far it begins after the one before, how many points it takes, 0 for one without an end, and
    how many stalls it stands for."""
    last = 0
    for begin, end, number in series.stalls:
        yield begin - last
        yield 0 if end is None else end - begin
        yield number
        last = begin
