"""Counts what h2audit-split costs, which no contract says: python3 -m tools.tests.core.split_costs_test SPLIT

The most memory that is allocated at once, the calls of read and of write, the instructions, and the threads, of which
there are none. Nothing is measured by a clock (counting.py), so all is the same on each machine. The captures are those
of cost_captures.py that have the most packets, or the most pairs of endpoints, for their size.
"""

import pathlib
import tempfile
import unittest

from tests.programs import needed
from tools.tests import cost_captures
from tools.tests.core.counting import Counter, Counts

RUNS = ("$PROVED_SPLIT",)
# What the program keeps to read, and for each part to write; and no more than this beside it, of each part its paths.
KEPT, KEPT_OF_PART, BESIDE, BESIDE_PART = 256 << 10, 36 << 10, 8 << 10, 320
# SECURITY.md: the most, whatever the size.
MOST_MEMORY, MOST_PARTS = 20_000_000, 500
# How many bytes of a part's capture, and of its record numbers, a write has at least, if it is not the last one: what
# is gathered, less one record.
GATHERED, GATHERED_NUMBERS, LONGEST = 32 << 10, 4 << 10, 16 + 1514
NAMES = ("chatty", "connections", "strays", "colliding", "hollow", "openings", "crumbs")


class Costs(unittest.TestCase):
    counter: Counter
    folder: pathlib.Path

    @classmethod
    def setUpClass(cls) -> None:
        made = tempfile.TemporaryDirectory()
        cls.addClassCleanup(made.cleanup)
        cls.folder = pathlib.Path(made.name)
        cls.counter = Counter(SPLIT, made.name)

    def capture(self, name: str, quarters: int) -> pathlib.Path:
        path = self.folder / f"{name}-{quarters}"
        if not path.exists():
            cost_captures.write(name, path, quarters)
        return path

    def words(self, parts: int, capture: pathlib.Path, folder: pathlib.Path) -> list[str]:
        return ["--parts", str(parts), "-o", str(folder), str(capture)]

    def split(self, parts: int, capture: pathlib.Path) -> tuple[Counts, list[int]]:
        """The counts of a split, and the most writes that each file should take."""
        with tempfile.TemporaryDirectory() as made:
            folder = pathlib.Path(made, "parts")
            ran = self.counter.run(self.words(parts, capture, folder))
            self.assertEqual((ran.status, ran.text, ran.said), (0, b"", b""))
            writes = []
            for path in folder.iterdir():
                gathered = GATHERED - LONGEST if path.suffix == ".pcap" else GATHERED_NUMBERS - 8
                writes.append(path.stat().st_size // gathered + 1)
        return ran.counts, writes

    def test_memory_and_calls(self) -> None:
        for name in NAMES:
            for parts in (1, 16, MOST_PARTS):
                with self.subTest(name, parts=parts):
                    capture = self.capture(name, 4)
                    counts, writes = self.split(parts, capture)
                    most = KEPT + BESIDE + parts * (KEPT_OF_PART + BESIDE_PART)
                    self.assertLessEqual(counts.peak, most)
                    self.assertLessEqual(counts.peak, MOST_MEMORY)
                    self.assertLessEqual(parts, counts.writes)
                    self.assertLessEqual(counts.writes, sum(writes))
                    self.assertLessEqual(counts.reads, 2 * capture.stat().st_size // KEPT + 4)
                    self.assertEqual(counts.started, 0)

    def test_any_size(self) -> None:
        """Four times the size takes not a byte more, and up to 4.6 times the instructions."""
        for name in NAMES:
            with self.subTest(name):
                small, large = (self.capture(name, quarters) for quarters in (4, 16))
                self.assertEqual(self.split(16, small)[0].peak, self.split(16, large)[0].peak)
                least, most = (self.instructions(16, capture) for capture in (small, large))
                self.assertLessEqual(most, 4.6 * least)

    def instructions(self, parts: int, capture: pathlib.Path) -> int:
        with tempfile.TemporaryDirectory() as made:
            return self.counter.instructions(self.words(parts, capture, pathlib.Path(made, "parts")))


if __name__ == "__main__":
    (SPLIT,) = needed()
    unittest.main()
