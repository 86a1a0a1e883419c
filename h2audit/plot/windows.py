"""The windows of a report, and which of them are drawn."""

import argparse
from collections.abc import Iterator
from dataclasses import dataclass, field
from functools import cached_property
from typing import BinaryIO, NamedTuple

from h2audit.report.answer_types import Window, WindowsConnections
from h2audit.report.charts import Finding, document_of_report, notes_of
from h2audit.report.command import Refused

Stall = tuple[Finding, Finding | None]  # its begin, and its end if it has one


class Point(NamedTuple):
    """A credit that a window has from a frame on."""

    frame: int
    time: int
    value: int


Place = Point | Finding


@dataclass
class PlottedConnection:
    number: int
    client: str
    server: str
    findings: list[Finding]
    windows: "list[PlottedWindow]" = field(default_factory=list)
    # Those of no window whose credit is told.
    other_faults: list[Finding] = field(default_factory=list)

    @property
    def faults(self) -> list[Finding]:
        return [finding for finding in self.findings if finding.is_fault]

    @property
    def places(self) -> list[Place]:
        """All that is told of it."""
        return [*self.findings, *(point for window in self.windows for point in window.credits)]

    @cached_property
    def first(self) -> Place:
        return min(self.places, key=lambda place: place.frame)

    @cached_property
    def last(self) -> Place:
        return max(self.places, key=lambda place: place.frame)


@dataclass
class PlottedWindow:
    """What is told of one window: credits and stalls, each at its frame."""

    connection: PlottedConnection
    side: str
    stream: int
    credits: list[Point]
    # What the connection's window begins with.
    before: int | None
    stalls: list[Stall] = field(default_factory=list)
    faults: list[Finding] = field(default_factory=list)

    @property
    def name(self) -> str:
        place = f"stream {self.stream}" if self.stream else "connection"
        return f"{self.side}, {place}"


def connections_of(report: BinaryIO) -> list[PlottedConnection]:
    """The connections of a report, each with its findings and its windows."""
    return [connection_of(one) for one in document_of_report(report)["connections"]]


def connection_of(one: WindowsConnections) -> PlottedConnection:
    notes = notes_of(one["charts"], ())
    found = PlottedConnection(one["number"], one["client"], one["server"], [note.finding for note in notes])
    windows = {(said["side"], said["stream"]): window_of(found, said) for said in one["charts"]["windows"]}
    for note in notes:
        window = windows.get(note.finding.window)
        if note.finding.is_fault:
            (window.faults if window else found.other_faults).append(note.finding)
        elif window and note.finding.is_stall_begin:
            window.stalls.append((note.finding, note.other.finding if note.other else None))
    found.windows = [windows[key] for key in sorted(windows)]
    return found


def window_of(connection: PlottedConnection, said: Window) -> PlottedWindow:
    points = [Point(*point) for point in zip(said["frames"], said["times"], said["credits"])]
    before = points[0].value if points and not points[0].frame else None
    return PlottedWindow(connection, said["side"], said["stream"], list(changes(points)), before)


def changes(points: list[Point]) -> Iterator[Point]:
    """The points at which the credit is another one: there are some more, of findings and where a window begins."""
    last: int | None = None
    for point in points:
        if point.frame and point.value != last:
            yield point
        last = point.value


def chosen(connections: list[PlottedConnection], asked: argparse.Namespace) -> tuple[list[PlottedWindow], int]:
    """The windows to draw, and how many others there are."""
    if asked.connection is not None:
        connections = [one for one in connections if one.number == asked.connection]
        if not connections:
            raise Refused(f"the report has no connection {asked.connection}")
    windows = [window for one in connections for window in one.windows]
    if not windows:
        raise Refused("the report has no credit lines: make it with h2audit --frames")
    if asked.stream is not None:
        windows = [window for window in windows if window.stream == asked.stream]
        if not windows:
            raise Refused(f"the report tells no credit of stream {asked.stream}")
    best = sorted(range(len(windows)), key=lambda at: rank(windows[at]))[: asked.panels]
    return [windows[at] for at in sorted(best)], len(windows) - len(best)


def rank(window: PlottedWindow) -> tuple[bool, int]:
    """What decides where there are more windows than panels: faults, then the longest stall."""
    return not window.faults, -max((stall_nanos(window, stall) for stall in window.stalls), default=-1)


def stall_nanos(window: PlottedWindow, stall: Stall) -> int:
    begin, end = stall
    return (end or window.connection.last).time - begin.time
