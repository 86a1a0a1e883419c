"""What the definitions say of a capture, and of a list of frames."""

import pathlib
import sys
import threading
from concurrent.futures import ThreadPoolExecutor
from typing import Callable, NamedTuple, TypeVar

from tools.definitions.evaluating import Definitions
from tools.definitions.search import Search, dealt
from tools.definitions.values import Hole, Made, NotYet, Value, apply

TOP = pathlib.Path(__file__).resolve().parents[2]
CRATES = TOP / "crates"
Result = TypeVar("Result")

# What is asked of the definitions, by CRATE.MODULE.NAME.
ENTRIES = {
    "refusal": "pcap_records.Refusal.refusal",
    "IsReport": "h2audit.Report.IsReport",
    "packets_of": "h2audit.Report.packets_of",
    "ending_of": "h2audit.Ending.ending_of",
    "header_of": "h2_frames.Header.header_of",
    "body_of": "h2_frames.Body.body_of",
    "captured": "h2_frames.CaptureOrder.captured",
    "full": "audit_terms.Pass.full",
    "pass": "audit_terms.Pass.pass",
    "pass_start": "audit_terms.Pass.pass_start",
    "next": "audit_terms.Pass.next",
    "streams_of": "audit_terms.Pass.streams_of",
    "streams_said": "audit_terms.Pass.streams_said",
    "item_of": "audit_terms.Pass.item_of",
    "connection_said": "audit_terms.Connection.connection_said",
    "shown_line": "audit_report.FindingLine.shown_line",
    "format_of": "pcap_records.FileHeader.format_of",
    "number_of": "pcap_records.FileHeader.number_of",
    "link_of": "pcap_records.FileHeader.link_of",
    "AreRecords": "capture_parts.Dealt.AreRecords",
    "part_bytes": "capture_parts.Dealt.part_bytes",
    "part_numbers": "capture_parts.Dealt.part_numbers",
    "part_full": "capture_parts.Dealt.part_full",
}


class NotShown(Exception):
    """A relation of the definitions that the witnesses at hand do not bear out."""


class DefinedAnswer(NamedTuple):
    status: int
    line: bytes  # for standard error
    text: bytes  # the report


class Part(NamedTuple):
    """One of the parts of a capture: its two files, and whether it is full."""

    packets: bytes
    numbers: bytes
    is_full: bool


class Reader:
    """Asks the definitions in a folder."""

    def __init__(self, folder: pathlib.Path = CRATES) -> None:
        self.definitions = Definitions(folder)

    def ask(self, entry: str, *arguments: Value) -> Value:
        return apply(self.definitions.named(ENTRIES[entry]), *arguments)

    def show(self, entry: str, *arguments: Value) -> None:
        """Checks a relation."""
        self.definitions.failed.clear()
        try:
            shown = self.ask(entry, *arguments)
        except NotYet:
            shown = None
        if shown is not True:
            raise NotShown(", of ".join(self.definitions.failed) or f"{entry}: no equation gives some value")

    def audit(self, capture: bytes, frames_shown: bool) -> DefinedAnswer:
        """The report that the definitions give for a capture, or their refusal of it."""
        octets, text, verdict = tuple(capture), Hole(0), Hole(0)
        self.definitions.kept.clear()
        refusal = self.ask("refusal", octets)
        if refusal.name == "Some":
            return self.answer(Made("Err", Made("Pcap", *refusal.parts)), b"")
        self.definitions.propose = Search(lambda *arguments: self.ask("packets_of", *arguments)).propose
        self.show("IsReport", octets, frames_shown, text, verdict)
        return self.answer(Made("Ok", verdict.value), bytes(text.value))

    def answer(self, ended: Value, text: bytes) -> DefinedAnswer:
        """What the program ends with: its status, its line on standard error, and the report."""
        ending = self.ask("ending_of", ended)
        status, line = ending["0"], ending["1"]
        return DefinedAnswer(status, bytes((*line, *b"\n")) if line else b"", text)

    def split(self, capture: bytes, count: int) -> list[Part]:
        """The parts that the definitions make of a capture which is not refused."""
        octets = tuple(capture)
        if self.ask("refusal", octets).name == "Some":
            raise ValueError("the capture is refused")
        self.definitions.kept.clear()
        order = self.definitions.named(ENTRIES["number_of"])
        endian = self.ask("format_of", octets).parts[0]["endian"]
        number, link = apply(order, endian), self.ask("link_of", apply(order, endian), octets)
        found, rest = dealt(capture, "little" if endian.name == "Little" else "big")
        self.show("AreRecords", number, octets[24:], found, rest)
        parts = []
        for part in range(count):
            given = [self.ask(entry, link, count, part, found, rest) for entry in ("part_bytes", "part_numbers")]
            full = self.ask("part_full", link, count, part, 24, found, rest)
            parts.append(Part(capture[:24] + bytes(given[0]), bytes(given[1]), full.name == "Some"))
        return parts

    def frame(self, number: int, side: str, octets: bytes) -> Value:
        """The frame that these bytes spell. It is captured in the record of its number, at as many microseconds."""
        header, payload = self.ask("header_of", tuple(octets[:9])), tuple(octets[9:])
        if len(octets) < 9 or header["length"] != len(payload):
            raise ValueError(f"line {number}: no whole frame")
        spelled = {"header": header, "body": self.ask("body_of", header["code"], header["flags"], payload)}
        arrival = {"upto": 0, "rec": number, "nanos": number * 1000}
        return self.ask("captured", Made(side), number, arrival, spelled)["frame"]

    def listing(self, sent: list[tuple[str, bytes]]) -> bytes:
        """What the definitions find in frames, each given by its side and its bytes: all that they find, the part of it
        up to the first connection error, and what the connection and each stream show."""
        frames = tuple(self.frame(number, *frame) for number, frame in enumerate(sent, 1))
        streams, state = self.ask("streams_of", frames), self.ask("pass_start")
        shown: dict[str, list[Value]] = {"connection": [], **{f"stream {stream}": [] for stream in streams}}
        for frame in frames:
            shown["connection"] += self.ask("connection_said", state["connection"], self.ask("item_of", state, frame))
            for stream in streams:
                shown[f"stream {stream}"] += self.ask("streams_said", (stream,), state, frame)
            state = self.ask("next", state, frame)
        parts = {"full": self.ask("full", frames), "pass": self.ask("pass", frames), **shown}
        text = b""
        for name, found in parts.items():
            text += f"{name}\n".encode() + b"".join(bytes(self.ask("shown_line", True, frames, one)) for one in found)
        return text


def deeply(run: Callable[[], Result]) -> Result:
    """Runs with room for the recursion of definitions over long lists."""
    sys.setrecursionlimit(1_000_000)
    threading.stack_size(512 * 1024 * 1024)
    with ThreadPoolExecutor(1) as thread:
        return thread.submit(run).result()
