"""A connection captured at both ends, generated with known times, for tests of h2audit-why --ends."""

import json
import pathlib
import struct
from collections.abc import Callable

from tests.captures import PREFACE, SYN, SYN_ACK, Capture, frame, number
from tools.tests.why_tools import TOP, Json, OnCaptures, ran

SCHEMA = json.loads((TOP / "companions" / "why" / "schema.json").read_text())
MS = 1_000_000
PARTS = ("request", "way_out", "server", "way_back", "transfer")
DELAY, AHEAD = 50 * MS, 7_200_000 * MS
GET = b"\x82\x86\x84"
Event = tuple[int, str, bytes]  # when it is sent in milliseconds, by whom, and the bytes
# A client that asks, and a server that sends 65,535 bytes, which is all that it may.
ASKED: list[Event] = [
    (200, "C", PREFACE + frame(4, 0, 0)), (300, "S", frame(4, 0, 0) + frame(4, 1, 0)), (400, "C", frame(4, 1, 0)),
    (500, "C", frame(1, 5, 1, GET)), (600, "S", frame(1, 4, 1, b"\x88")),
    *[(700 + turn, "S", frame(0, 0, 1, bytes(16_384))) for turn in range(3)],
    (703, "S", frame(0, 0, 1, bytes(16_383))),
]  # fmt: skip


class Timed(Capture):
    """A capture whose records have times in nanoseconds since a beginning, in microseconds of the file."""

    now = 0

    def record(self, original: int, captured: bytes) -> None:
        super().record(original, captured)
        micros = 1_000_000_000 + self.now // 1000
        struct.pack_into("<II", self.bytes, self.last - 16, micros // 1_000_000, micros % 1_000_000)


def granted(when: int, *streams: int) -> Event:
    return when, "C", b"".join(frame(8, 0, stream, number(1 << 20)) for stream in streams)


def ends(*words: str | pathlib.Path) -> Json:
    """What --json says of two ends, which the schema holds."""
    import jsonschema  # type: ignore[import]

    run = ran("--json", "--ends", *words)
    if run.returncode not in (0, 1):
        raise AssertionError(f"status {run.returncode}: {run.stderr.decode()}")
    found: Json = json.loads(run.stdout)
    jsonschema.Draft202012Validator({**SCHEMA["$defs"]["ends"], "$defs": SCHEMA["$defs"]}).validate(found)
    for connection in found["connections"]:
        for request in connection["requests"]:
            if request["server"] is not None and sum(request[part] for part in PARTS) != request["nanos"]:
                raise AssertionError(f"the parts do not sum to the life: {request}")
        for stall in connection["stalls"]:
            if stall["answer"] is not None:
                sums = stall["way_out"] + stall["answer"] + stall["way_back"]
                if sums != stall["nanos"]:
                    raise AssertionError(f"the parts do not sum to the stall: {stall}")
    return found


class BothEnds(OnCaptures):
    def captures(self, events: list[Event], late: Callable[[int, str], int] = lambda _, __: 0, initial: int = 5000,
                 drift: int = 0, again: int | None = None, lost: int | None = None) -> list[pathlib.Path]:  # fmt: skip
        """Both ends' captures of events, each of which arrives after the delay and what `late` adds, in milliseconds,
        by its number among all. The server's clock is two hours ahead, and faster by so many parts of a million. One
        event may be that before it sent again, and one may be lost on its way.
        """
        made = []
        for end in "CS":
            capture = Timed()
            opened, answered = (0, 100 * MS + DELAY) if end == "C" else (DELAY, 100 * MS)
            arrivals = [(opened, -2, "C", b""), (answered, -1, "S", b"")]
            for order, (when, side, octets) in enumerate(events):
                delay = 0 if side == end else DELAY + late(order, side) * MS
                arrivals.append((when * MS + delay, order, side, octets))
            for when, order, side, octets in sorted(arrivals):  # those of the handshake have numbers below 0
                capture.now = when + (when * drift // 10**6 + AHEAD if end == "S" else 0)
                if order == lost and side != end:
                    continue
                if order == again and (lost is None or side == end):
                    capture.next[side] -= len(octets)
                if order < 0:
                    capture.syn(side, 1000 if side == "C" else initial, SYN if side == "C" else SYN_ACK)
                else:
                    capture.send(side, octets)
            path = self.folder / f"{len(list(self.folder.iterdir()))}-{end}.pcap"
            path.write_bytes(capture.bytes)
            made.append(path)
        return made

    def stall(self, *captures: pathlib.Path, stream: int = 1) -> Json:
        (connection,) = ends(*captures)["connections"]
        self.clock(connection)
        (stall,) = [one for one in connection["stalls"] if one["stream"] == stream]
        found: Json = stall
        return found

    def clock(self, connection: Json) -> None:
        """The clocks are set to within half of a round trip, and here exactly, since both ways are equal."""
        self.assertEqual((connection["round_trip"], connection["within"]), (2 * DELAY, DELAY))
        self.assertEqual((connection["server_ahead"], connection["drifts"]), (AHEAD, False))
