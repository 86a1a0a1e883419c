"""What h2audit-why shows of the windows of a capture, or of a report: one document of both (docs/JSON.md)."""

import json
import os
import tempfile
from collections.abc import Sequence
from dataclasses import dataclass
from typing import IO, Any, BinaryIO, NamedTuple

from h2audit.report import answer_types
from h2audit.report.answer_types import Charts, Windows
from h2audit.report.command import BUFFER, IO_FAILED, Failed
from h2audit.report.interrupts import Interrupted, end_by, signals_raise, while_waiting
from h2audit.report.programs import program_named, running, without_name
from h2audit.report.progress import Line, progress

WHY = "h2audit-why"


class Finding(NamedTuple):
    """A stall's begin or end, or a fault, which somebody broke a rule by."""

    frame: int
    time: int
    side: str
    kind: str
    stream: int
    value: int | None
    broke: str | None
    section: str
    # What happened, and who is to blame.
    text: str
    blame: str

    @property
    def window(self) -> tuple[str, int]:
        return self.side, self.stream

    @property
    def is_fault(self) -> bool:
        return self.broke is not None

    @property
    def is_stall_begin(self) -> bool:
        return self.kind.endswith("-stall-begin")

    @property
    def is_stall_end(self) -> bool:
        return self.kind.endswith("-stall-end")


@dataclass(slots=True)
class Note:
    """A finding, the packet that it is about, and for a stall its other end."""

    packet: int
    finding: Finding
    other: "Note | None" = None
    # The name of the file that has the packet, where there are several.
    file: str = ""

    @property
    def place(self) -> str:
        return f"packet {self.packet}" + f" of {self.file}" * bool(self.file)

    @property
    def waited(self) -> int | None:
        """The nanoseconds of a stall, at both of its ends."""
        if self.other is None:
            return None
        nanos = self.other.finding.time - self.finding.time
        return nanos if self.finding.is_stall_begin else -nanos


def notes_of(charts: Charts, files: Sequence[str]) -> list[Note]:
    """The findings of a connection, in the order of a report."""
    notes = [note_of(one, files) for one in charts["findings"]]
    for note, one in zip(notes, charts["findings"]):
        if one["other"] is not None:
            note.other = notes[one["other"]]
    return notes


def note_of(one: answer_types.Finding, files: Sequence[str]) -> Note:
    finding = Finding(one["frame"], one["time"], one["side"], one["kind"], one["stream"], one["value"], one["broke"],
                      one["section"] or "", one["text"], one["blame"])  # fmt: skip
    return Note(one["packet"], finding, None, files[one["file"] - 1] if one["file"] and len(files) > 1 else "")


def document_of_report(report: BinaryIO) -> Windows:
    """What a report says. It is read by h2audit-why."""
    found: Windows = document_of(["--windows", "-"], report, (0,))
    return found


def document_of(words: Sequence[str], source: BinaryIO | None, statuses: Sequence[int]) -> Any:
    """The document that h2audit-why prints by these words, ending with one of these statuses. A signal ends it."""
    try:
        with signals_raise(), progress() as line, tempfile.TemporaryFile() as read, tempfile.TemporaryFile() as out:
            if source:
                copy(source, read, line)
            return run([program_named(WHY), *words], read, out, statuses, line)
    except Interrupted as why:
        end_by(why.args[0])
        raise


def copy(source: BinaryIO, to: IO[bytes], line: Line) -> None:
    size = 0

    def tell() -> None:
        line.tell("reading" + f": {size / 10**6:.1f} MB" * bool(size))

    with while_waiting(tell):
        while octets := source.read1(BUFFER):  # type: ignore[attr-defined]
            size += to.write(octets)
            tell()
    to.seek(0)


def run(words: Sequence[str], source: IO[bytes], out: IO[bytes], statuses: Sequence[int], line: Line) -> Any:
    with running(words, source, out, line) as program:
        status, said = program.end()
    if status not in statuses:
        why = without_name(said) if status >= 0 else f"{os.path.basename(words[0])}: ended by signal {-status}"
        raise Failed(status if status in (2, 3, 4, 5) else IO_FAILED, why)
    out.seek(0)
    return json.load(out)
