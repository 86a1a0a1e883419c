"""Counts the threads that a program starts: python3 -m tools.tests.core.threads_test PROGRAM

No contract says that threads run, since it could not say that they take turns. So each way in which
docs/ARCHITECTURE.md divides the work has a capture here that takes it, and the number of threads that it adds,
computed by hand. A way that is idle, or a thread that is started in vain, changes a sum. One worker starts no thread;
of several, the thread at hand mostly starts the others and waits.
"""

import pathlib
import tempfile
import unittest

from tests.captures import BEGINNINGS, FILE_HEADER, PREFACE, SERVER, SYN, SYN_ACK, Capture, capture_of, frame_of
from tests.programs import needed
from tools.tests.core.counting import Counter

RUNS = ("$H2AUDIT",)
TOP = pathlib.Path(__file__).resolve().parents[3]

SETTINGS, SETTINGS_ACK = frame_of(["SETTINGS"]), frame_of(["ACK"])


def pings(frames: int, first: str = "C PING") -> bytes:
    """One connection of so many frames: the four with which it is opened, a fifth, and PINGs, 87 bytes a record."""
    return capture_of(f"opened\n{first}\n" + "C PING\n" * (frames - 5))


def connections(count: int, last: bytes = b"", settings: bytes = SETTINGS, answer: bytes = SETTINGS_ACK) -> bytes:
    """So many connections of six records and four frames each, in 480 bytes: what the client answers to the server's
    settings, and what the server sends last.
    """
    capture = Capture()
    for port in range(1000, 1000 + count):
        client = (0x0A000001, port)
        capture.ends = {"C": (client, SERVER), "S": (SERVER, client)}
        capture.syn("C", 1000, SYN)
        capture.syn("S", 5000, SYN_ACK)
        for side, payload in (("C", PREFACE + SETTINGS), ("S", settings), ("C", answer), ("S", SETTINGS_ACK + last)):
            capture.send(side, payload)
    return bytes(capture.bytes)


def credits(frames: int) -> bytes:
    """One connection whose client sends so many frames of a byte in one record. Each has two credits; of the stream's
    opening there are two as well, and the section has a beginning and an end: four entries more.
    """
    capture = Capture()
    for line in BEGINNINGS["opened"].splitlines():
        capture.step(line)
    capture.send("C", frame_of(["HEADERS", "1"]) + frames * frame_of(["DATA", "1", "1"]))
    return bytes(capture.bytes)


def openings(count: int) -> bytes:
    """The records of so many more connections, which have no frame."""
    capture = Capture()
    for port in range(2000, 2000 + count):
        capture.ends = {"C": ((0x0A000001, port), SERVER), "S": (SERVER, (0x0A000001, port))}
        capture.syn("C", 1000, SYN)
    return bytes(capture.bytes).removeprefix(FILE_HEADER)


TWO_STREAMS = capture_of("opened\nC HEADERS 1\nC HEADERS 3\n")
TWO_LOUD_STREAMS = capture_of("opened\nC HEADERS 1\nC HEADERS 3\nS WINDOW_UPDATE 1 0\nS WINDOW_UPDATE 3 0\n")
# An acknowledgement that answers nothing, which is told and ends nothing: so the frames of a connection that is longer
# than a block go through the rounds.
UNMATCHED, AT_ONCE = SETTINGS_ACK, "C ACK"
# A grant of nothing, which is a connection error, and is told as its frame is met.
NOTHING_GRANTED = frame_of(["WINDOW_UPDATE", "0", "0"])
# What is shown by the last frame alone is told at once; not what stands before this one.
PING = frame_of(["PING"])
# SETTINGS by which streams have no credit, and the opening of one. Its stall begins there, or at the acknowledgement.
NO_WINDOW, OPENING = frame_of(["SETTINGS", "4", "0"]), frame_of(["HEADERS", "1"])
SHORT, LONG, LONGER = pings(3904, AT_ONCE), pings(4096, AT_ONCE), pings(20004, AT_ONCE)

Ways = dict[str, int]
# The words, the capture, and how many threads each way adds beside the one at hand.
ROWS: list[tuple[str, bytes, Ways]] = [
    ("--workers 2", TWO_STREAMS, {"one connection": 0, "nothing is shown, so there is no round behind it": 0}),
    ("--workers 2 --frames", TWO_STREAMS, {"one connection": 0, "one block, so there is no round over it": 0}),
    (
        "--workers 2 --frames --block 4",
        TWO_STREAMS,
        {"one connection": 0, "two groups": 2, "two blocks are summed, and are gone through": 4},
    ),
    ("--workers 2", TWO_LOUD_STREAMS, {"one connection": 0, "one block, told at once": 0}),
    ("--workers 2", SHORT, {"one connection": 0, "one block, told at once": 0}),
    ("--workers 4 --block 64", SHORT, {"one connection": 0, "61 blocks are summed": 4}),
    ("--workers 4", LONG, {"one connection": 0, "one block, told at once": 0}),
    (
        "--workers 4 --block 64",
        LONG,
        {"one connection": 0, "faults, and the split, from 4,096 frames on": 2, "64 blocks are summed": 4},
    ),
    (
        "--workers 4 --block 64",
        pings(4096, "S WINDOW_UPDATE 9 1"),
        {"one connection": 0, "nothing behind an error in the front": 0},
    ),
    (
        "--workers 4",
        LONGER,
        {"one connection": 0, "faults, and the split": 2, "faults in three pieces": 2, "five blocks are summed": 4},
    ),
    ("--workers 4", pings(70_000), {"one connection": 0, "nothing is shown of six MiB": 0}),
    (
        "--workers 4 --block 100000",
        pings(70_000, AT_ONCE),
        {"one connection": 0, "one block, told at once, however long": 0},
    ),
    ("--workers 2", connections(2), {"two connections": 2, "nothing is shown, so there is no round behind it": 0}),
    ("--workers 2", connections(2, UNMATCHED), {"two connections": 2, "told at once": 0}),
    (
        "--workers 2 --block 4",
        connections(2, UNMATCHED + PING),
        {"two connections": 2, "one is made ready beside the other": 1, "two blocks of each are summed": 2},
    ),
    ("--workers 2", connections(2, NOTHING_GRANTED), {"two connections": 2, "told at once": 0}),
    (
        "--workers 2",
        connections(2, settings=NO_WINDOW, answer=SETTINGS_ACK + OPENING),
        {"two connections": 2, "stalls of openings are told at once": 0},
    ),
    (
        "--workers 2",
        connections(2, settings=NO_WINDOW, answer=OPENING + SETTINGS_ACK),
        {"two connections": 2, "stalls of acknowledgements are told at once": 0},
    ),
    (
        "--workers 2 --block 4",
        connections(2, NOTHING_GRANTED + PING),
        {
            "two connections": 2,
            "one is made ready, having more frames than a block": 1,
            "two blocks are summed, and two are gone through": 4,
        },
    ),
    ("--workers 4", connections(3), {"three connections": 3}),
    ("--workers 4", connections(63), {"connections": 4}),
    ("--workers 4", connections(63) + openings(63), {"connections": 4}),
    ("--workers 4", connections(63) + openings(64), {"one worker's, with less than two frames each on average": 0}),
    (
        "--workers 4 --block 4",
        connections(63, UNMATCHED + PING),
        {"connections": 4, "three are made ready beside one": 3, "sums": 4},
    ),
    (
        "--workers 4 --block 4",
        connections(64, UNMATCHED + PING),
        {
            "connections": 4,
            "a share of 16, from 64 connections on": 1,
            "of the others two shares are made ready beside one": 2,
            "blocks of these are summed by three": 3,
        },
    ),
    (
        "--workers 4 --block 4",
        connections(5000, UNMATCHED + PING),
        {"connections": 4, "three shares of one batch beside one": 3, "four pages, each filled once": 4},
    ),
    ("--workers 4", connections(1023), {"connections": 4, "2,046 entries are one worker's": 0}),
    ("--workers 4", connections(1024), {"connections": 4, "two pages, from 2,048 entries on": 2}),
    ("--workers 4", connections(8192), {"connections": 4, "four pages, each filled once": 4}),
    ("--workers 4 --frames --block 100000", credits(1021), {"one connection": 0, "2,046 entries": 0}),
    ("--workers 4 --frames --block 100000", credits(1022), {"one connection": 0, "two pages of 1,025 entries": 2}),
    ("--workers 4 --frames --block 100000", credits(8190), {"one connection": 0, "four pages of 4,096 entries": 4}),
    ("--workers 4 --frames --block 100000", credits(8191), {"one connection": 0, "four pages, filled twice": 8}),
]


class Threads(unittest.TestCase):
    counter: Counter
    capture: pathlib.Path

    @classmethod
    def setUpClass(cls) -> None:
        folder = tempfile.TemporaryDirectory()
        cls.addClassCleanup(folder.cleanup)
        cls.counter, cls.capture = Counter(PROGRAM, folder.name), pathlib.Path(folder.name, "capture")

    def started(self, words: str, capture: bytes) -> int:
        """How many threads a run starts. The capture is a file, which a read gives as much of as it asks for."""
        self.capture.write_bytes(capture)
        return self.counter.run([*words.split(), str(self.capture)], SETTLE=1).counts.started

    def test_each_way(self) -> None:
        for words, capture, ways in ROWS:
            with self.subTest(words, ways=ways):
                self.assertEqual(sum(ways.values()), self.started(words, capture))

    def test_one_worker(self) -> None:
        for _, capture, _ in ROWS:
            self.assertEqual(0, self.started("--workers 1 --block 64", capture))


if __name__ == "__main__":
    (PROGRAM,) = needed()
    unittest.main()
