"""Audits large captures, with one worker and with four: python3 -m tools.tests.core.sizes_test PROGRAM

One has more connections, and so more jobs of each round, than any other capture of the tests; another has more
bytes, and more frames than the rounds take at once; in a third one connection has more streams than any other. Their
reports are those that a rule gives, and a limit of the address space holds meanwhile. So do those of the memory that
one worker and several allocate at once.
"""

import pathlib
import struct
import tempfile
import unittest
from collections.abc import Iterator

from tests.captures import ACK, END_HEADERS, FILE_HEADER, PREFACE, SYN, SYN_ACK, frame, frame_of, packet
from tests.programs import needed
from tools.tests.core.counting import Counter

RUNS = ("$H2AUDIT",)
TOP = pathlib.Path(__file__).resolve().parents[3]

MIB = 1 << 20
ADDRESS, SERVER = 0x0B000000, (0x0A000002, 80)
SETTINGS, HEADERS = frame_of(["SETTINGS"]), frame_of(["HEADERS", "1"])
# An acknowledgement that answers nothing: it is told, so several workers take the frames of long connections in rounds.
UNMATCHED = frame_of(["ACK"])

CONNECTIONS = 210_000
# How many long connections, records of requests in each, and requests in a record: two such connections have more
# frames than the rounds take at once.
LONG, RECORDS, REQUESTS = 4, 320, 7000
# How many streams one connection has.
STREAMS = 700_000
# What one connection brings, in DATA frames of 16,384 bytes and in records of three.
BULK = 1200


def record(data: bytes) -> bytes:
    """A record whose time is 0."""
    return struct.pack("<IIII", 0, 0, len(data), len(data)) + data


class Sides:
    """Records of a connection. Its client's address is the one that is given."""

    def __init__(self, number: int) -> None:
        self.client, self.next = (ADDRESS + number, 40000), {"C": 1000, "S": 5000}

    def sent(self, side: str, payload: bytes, flags: int = ACK) -> bytes:
        ends = (self.client, SERVER) if side == "C" else (SERVER, self.client)
        at = self.next[side]
        self.next[side] += len(payload) + (flags != ACK)
        return record(packet(*ends, at, flags, payload))

    def opened(self, client: bytes, server: bytes) -> bytes:
        """Four records: the handshake, and what the client and the server send first."""
        return b"".join(
            (
                self.sent("C", b"", SYN),
                self.sent("S", b"", SYN_ACK),
                self.sent("C", PREFACE + SETTINGS + client),
                self.sent("S", SETTINGS + server),
            )
        )


def many() -> Iterator[bytes]:
    """Connections of four records each."""
    yield FILE_HEADER
    one, place = Sides(0).opened(UNMATCHED, b""), ADDRESS.to_bytes(4, "big")
    assert one.count(place) == 4
    for number in range(CONNECTIONS):
        yield one.replace(place, (ADDRESS + number).to_bytes(4, "big"))


def lines_of(number: int, first: int, frames: int, client: int, server: int, finding: str) -> str:
    """The section of a connection, whose records begin with this one."""
    address = ".".join(str(byte) for byte in (ADDRESS + number - 1).to_bytes(4, "big"))
    return f"""\
connection {number} client {address}:40000 server 10.0.0.2:80 record {first} http2 frames {frames}
flow client bytes {client} gap none tail 0
flow server bytes {server} gap none tail 0
{finding}audit of all frames
"""


def unmatched(frame: int, record: int) -> str:
    return f"frame {frame} record {record} time 0 client unmatched-ack stream 0 value 0\n"


def heading(records: int) -> str:
    return f"capture records {records} segments {records} snapped 0 not-ipv4 0 fragments 0 not-tcp 0 refused 0\n"


def report_of_many() -> Iterator[str]:
    yield heading(4 * CONNECTIONS)
    for number in range(CONNECTIONS):
        first = 4 * number + 1
        yield lines_of(number + 1, first, 3, 42, 9, unmatched(2, first + 2))


def requests_of(record: int) -> bytes:
    """The requests of a record, each of which opens the next stream."""
    first = 2 * REQUESTS * record + 1
    return b"".join(frame(1, END_HEADERS, stream) for stream in range(first, first + 2 * REQUESTS, 2))


def long() -> Iterator[bytes]:
    """Connections of 2,240,000 requests each, and one of 59 MB, which may send them all at once."""
    yield FILE_HEADER
    requests = [requests_of(record) for record in range(RECORDS)]
    for number in range(LONG):
        sides = Sides(number)
        yield sides.opened(UNMATCHED, b"")
        for frames in requests:
            yield sides.sent("C", frames)
    sides, three = Sides(LONG), 3 * frame_of(["DATA", "1", "16384"])
    granted = frame_of(["WINDOW_UPDATE", "0", "2000000000"]) + frame_of(["WINDOW_UPDATE", "1", "2000000000"])
    yield sides.opened(HEADERS, granted)
    for _ in range(BULK):
        yield sides.sent("C", three)


def report_of_long() -> Iterator[str]:
    each = 4 + RECORDS
    yield heading(LONG * each + 4 + BULK)
    for number in range(LONG):
        first, frames = number * each + 1, RECORDS * REQUESTS
        yield lines_of(number + 1, first, frames + 3, 42 + 9 * frames, 9, unmatched(2, first + 2))
    yield lines_of(LONG + 1, LONG * each + 1, 3 * BULK + 5, 42 + 3 * BULK * (9 + 16384), 35, "")


def streams() -> Iterator[bytes]:
    """A connection of 700,000 streams, and acknowledgements that each of them meets."""
    yield FILE_HEADER
    sides = Sides(0)
    yield sides.opened(b"", b"")
    for number in range(STREAMS // REQUESTS):
        yield sides.sent("C", requests_of(number))
    yield sides.sent("C", frame_of(["ACK"]))
    yield sides.sent("S", frame_of(["ACK"]))
    yield sides.sent("C", UNMATCHED)


def report_of_streams() -> Iterator[str]:
    records = STREAMS // REQUESTS + 7
    yield heading(records)
    credits = "".join(
        f"frame {3 + number} record {5 + number // REQUESTS} time 0 {side} stream-credit"
        f" stream {2 * number + 1} value 65535\n"
        for number in range(STREAMS)
        for side in ("client", "server")
    )
    yield lines_of(1, 1, STREAMS + 5, 51 + 9 * STREAMS, 18, credits + unmatched(STREAMS + 5, records))


class Sizes(unittest.TestCase):
    def audit(
        self, capture: Iterator[bytes], report: Iterator[str], least: int, most_of_each: tuple[int, int], *words: str
    ) -> None:
        """A capture of so many bytes at least, of which one worker and four allocate so many at most at once."""
        with tempfile.TemporaryDirectory() as folder:
            path, wanted = pathlib.Path(folder, "capture"), "".join(report).encode()
            with path.open("wb") as file:
                file.writelines(capture)
            self.assertLess(least, path.stat().st_size)
            counter = Counter(PROGRAM, folder, most_seconds=60)
            for workers, most in zip((1, 4), most_of_each):
                with self.subTest(workers=workers):
                    ran = counter.run([*words, f"--workers={workers}", str(path)], MOST_MEMORY=1536 * MIB, SETTLE=1)
                    self.assertEqual((1, b""), (ran.status, ran.said))
                    self.assertTrue(ran.text == wanted, "another report")
                    self.assertLess(ran.counts.peak, most)

    def test_many_connections(self) -> None:
        # 271,393,400 bytes were counted, and with several workers 157,084,136.
        self.audit(many(), report_of_many(), 60 * MIB, (276_000_000, 170_000_000))

    def test_many_bytes(self) -> None:
        # 268,787,736 bytes were counted, and with several workers, who list frames, 788,564,552.
        self.audit(long(), report_of_long(), 128 * MIB, (273_000_000, 810_000_000))

    def test_many_streams(self) -> None:
        """A call for each stream that meets an acknowledgement would not have room on the stack."""
        # 152,585,064 bytes were counted, and with several workers 149,361,272.
        self.audit(streams(), report_of_streams(), 6 * MIB, (156_000_000, 164_000_000), "--frames")


if __name__ == "__main__":
    (PROGRAM,) = needed()
    unittest.main()
