"""What the page shows of a capture or a report, gathered by connections and by their windows."""

from collections.abc import Sequence
from dataclasses import dataclass, field
from functools import cached_property
from typing import BinaryIO, NamedTuple

from h2audit.page.answer import WhyDocument
from h2audit.report import answer_types
from h2audit.report.answer_types import Answer, Asked, Charts, Fault, NotAudited, Windows
from h2audit.report.charts import Finding, Note, document_of_report, notes_of

# Frame, side, kind, stream and value of a fault.
FaultKey = tuple[int, str, str, int, int | None]


class Opening(NamedTuple):
    """A connection's number, its endpoints, the packet that opened it, what became of it, and its frames."""

    number: int
    client: str
    server: str
    record: int
    form: str
    frames: int


class Flow(NamedTuple):
    side: str
    bytes: int
    gap: int | None
    tail: int


@dataclass(slots=True)
class Others:
    """Windows that are not shown: how many, and the least and the greatest credit of them."""

    number: int = 0
    least: int | None = None
    greatest: int | None = None

    @property
    def credits(self) -> list[int]:
        return [credit for credit in (self.least, self.greatest) if credit is not None]


@dataclass(slots=True)
class ChartedWindow:
    """One side's window: points of its credit where it is shown, and the notes of its stalls and faults."""

    connection: "ChartedConnection"
    side: str
    stream: int
    frames: list[int] = field(default_factory=list)
    times: list[int] = field(default_factory=list)
    credits: list[int] = field(default_factory=list)
    # How often the credit changed, and its extremes.
    changes: int = 0
    least: int = 0
    greatest: int = 0
    last: int = 0
    stalls: list[Note] = field(default_factory=list)
    faults: list[Note] = field(default_factory=list)

    @property
    def waits(self) -> list[int]:
        return [self.connection.wait(stall) for stall in self.stalls]

    @property
    def trouble(self) -> tuple[int, int, int]:
        """What puts a window before others: faults, then the time that it stood still, then its stalls."""
        return -len(self.faults), -sum(self.waits), -len(self.stalls)

    @property
    def name(self) -> str:
        return f"{self.side}, " + (f"stream {self.stream}" if self.stream else "connection window")


@dataclass(slots=True)
class ChartedConnection:
    opening: Opening
    flows: list[Flow] = field(default_factory=list)
    notes: list[Note] = field(default_factory=list)
    windows: dict[tuple[str, int], ChartedWindow] = field(default_factory=dict)
    others: Others = field(default_factory=Others)
    # From when to when it lasted: its SYN and its last packet, or by a report its first and its last finding.
    start: int = 0
    end: int = 0
    stopped_at: int | None = None
    # Where the capture is known: what h2audit-why says, each fault of that by what a finding tells, and up to when each
    # open stall lasted by its side, stream and first frame.
    said: answer_types.Connection | None = None
    told: dict[FaultKey, Fault] = field(default_factory=dict)
    open_until: dict[tuple[str, int, int], int] = field(default_factory=dict)

    @property
    def is_captured(self) -> bool:
        return self.said is not None

    @property
    def has_findings(self) -> bool:
        return bool(self.notes or self.windows)

    @property
    def faults(self) -> list[Note]:
        return [note for note in self.notes if note.finding.is_fault]

    @property
    def doubtful(self) -> int:
        """How many of its faults can be doubted."""
        return sum(map(self.is_doubtful, self.faults))

    @property
    def stalls(self) -> list[Note]:
        return [note for note in self.notes if note.finding.is_stall_begin]

    @property
    def unaudited(self) -> str:
        """The word for why it was not audited, as `not_audited` of the document has it; empty if it was."""
        form = self.opening.form
        return "" if form == "http2" else form.removeprefix("refused ")

    def fault(self, note: Note) -> Fault | None:
        """What h2audit-why says of a fault: how certain it is, and what set its window."""
        return self.told.get(told_of(note.finding))

    def is_doubtful(self, note: Note) -> bool:
        fault = self.fault(note)
        return fault is not None and fault["certainty"] != "certain"

    def window(self, side: str, stream: int) -> ChartedWindow:
        if (side, stream) not in self.windows:
            self.windows[side, stream] = ChartedWindow(self, side, stream)
        return self.windows[side, stream]

    def since_start(self, finding: Finding) -> int:
        return finding.time - self.start

    def open_end(self, finding: Finding) -> int:
        """Up to when a stall without an end lasted: by the capture, or at least up to the last finding."""
        return self.open_until.get((*finding.window, finding.frame), self.end)

    def wait(self, stall: Note) -> int:
        """The nanoseconds of a stall, as far as they are known."""
        return self.open_end(stall.finding) - stall.finding.time if stall.waited is None else stall.waited

    @property
    def waiting(self) -> list[Note]:
        """The stalls in which a side had to wait: not those that ended in the instant in which they began."""
        return [stall for stall in self.stalls if stall.waited != 0]


class Capture(NamedTuple):
    records: int
    segments: int
    snapped: int
    not_ipv4: int
    fragments: int
    not_tcp: int
    refused: int


@dataclass
class Audit:
    """All of a capture or a report that the page may show."""

    capture: Capture
    # What was not audited: why, how much, and that in words.
    not_audited: list[NotAudited] = field(default_factory=list)
    cut: int | None = None
    unopened: int = 0
    unopened_segments: int = 0
    connections: list[ChartedConnection] = field(default_factory=list)
    asked: list[Asked] = field(default_factory=list)
    # What h2audit-why says of a capture.
    answer: WhyDocument | None = None

    @cached_property
    def windows(self) -> list[ChartedWindow]:
        """All windows that are told, those with trouble first."""
        windows = [window for one in self.connections for window in one.windows.values()]
        return sorted(windows, key=lambda window: window.trouble)

    @cached_property
    def why_not(self) -> dict[str, str]:
        """What was not audited, in words by the word for it."""
        return {one["reason"]: one["text"] for one in self.not_audited}

    @property
    def has_credit(self) -> bool:
        return any(window.frames for one in self.connections for window in one.windows.values())

    @property
    def others(self) -> Others:
        return together([one.others for one in self.connections])


def together(found: list[Others]) -> Others:
    credits = [credit for one in found for credit in one.credits]
    number = sum(one.number for one in found)
    return Others(number, min(credits, default=None), max(credits, default=None))


def read_audit(report: BinaryIO) -> Audit:
    """What a report says."""
    return audit_of_report(document_of_report(report))


def audit_of_report(document: Windows) -> Audit:
    """What h2audit-why shows of a report."""
    report = document["report"]
    connections = [
        connection_of(one["number"], one["client"], one["server"], one["charts"], ()) for one in document["connections"]
    ]
    return Audit(
        Capture(**document["capture"]), document["not_audited"], report["cut"], report["unopened"],
        report["unopened_segments"], connections, document["asked"],
    )  # fmt: skip


def audit_of_answer(document: Answer) -> Audit:
    """What h2audit-why shows of a capture."""
    connections = [answered_connection(one, document["files"]) for one in document["connections"]]
    return Audit(
        Capture(**document["capture"]), document["not_audited"], connections=connections, asked=document["asked"],
        answer=WhyDocument(document),
    )  # fmt: skip


def told_of(finding: Finding) -> FaultKey:
    return finding.frame, finding.side, finding.kind, finding.stream, finding.value


def answered_connection(one: answer_types.Connection, files: Sequence[str]) -> ChartedConnection:
    found = connection_of(one["number"], one["client"], one["server"], one["charts"], files)
    found.said = one
    for fault in one["faults"]:
        frame = fault["at"]["frame"] or 0
        found.told[frame, fault["side"], fault["kind"], fault["stream"], fault["value"]] = fault
    for stall in one["stalls"]:
        if stall["end"] is None:
            key = stall["side"], stall["stream"], stall["begin"]["frame"] or 0
            found.open_until[key] = stall["begin"]["time"] + stall["nanos"]
    return found


def connection_of(number: int, client: str, server: str, charts: Charts, files: Sequence[str]) -> ChartedConnection:
    opening = Opening(number, client, server, charts["record"], charts["form"], charts["frames"])
    found = ChartedConnection(
        opening, [Flow(**flow) for flow in charts["flows"]], notes_of(charts, files),
        start=charts["begin"], end=charts["until"], stopped_at=charts["stopped_at"],
        others=Others(**charts["other_windows"]),
    )  # fmt: skip
    for window in charts["windows"]:
        found.windows[window["side"], window["stream"]] = ChartedWindow(found, **window)
    for note in found.notes:
        if note.finding.is_stall_begin:
            found.window(*note.finding.window).stalls.append(note)
        elif note.finding.is_fault:
            found.window(*note.finding.window).faults.append(note)
    return found
