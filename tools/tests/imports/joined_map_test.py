"""Tests of h2audit-any --map and --parts with connections that are joined: a report of the made capture, or of its
parts, is taken back as h2audit-any --joined shows it by itself.

    python3 -m tools.tests.imports.joined_map_test H2AUDIT [TEST..]
"""

import os
import subprocess
import unittest

from tests.programs import needed
from tools.tests.import_tools import ANY, TOP, Packet, Word, capture_named, key_log_of, read_pcap
from tools.tests.imports.gaps_test import NGHTTPD, InFolder, lossy
from tools.tests.joined_cuts import RAW, packets_of, segment_of

RUNS = ("$H2AUDIT",)
PROGRAM = ""
SPLIT = TOP / "crates" / "h2audit_split" / "out" / "h2audit_split"
STAND_IN = TOP / "tools" / "tests" / "fleet" / "split_stand_in"
TLS = ("h2load-node-many", "key-updates", "stream-overrun-go")


class Maps(InFolder):
    def setUp(self) -> None:
        super().setUp()
        (self.folder / "h2audit-split").symlink_to(SPLIT if SPLIT.exists() else STAND_IN)

    def any(self, *words: Word, report: bytes = b"") -> tuple[bytes, int, bytes]:
        place = os.environ | {"PATH": f"{self.folder}:{os.environ['PATH']}"}
        run = subprocess.run([ANY, *words], input=report, capture_output=True, env=place)
        return run.stdout, run.returncode, run.stderr

    def compare(self, packets: list[Packet], link: int = RAW, keys: list[Word] | None = None) -> str:
        """The report of h2audit-any --joined, which the others are."""
        path, keys = self.write(packets, link), keys or []
        self.map_of(path, *keys)
        report = subprocess.run([PROGRAM, self.folder / "out.pcap"], capture_output=True).stdout
        words: list[Word] = ["--joined", "--h2audit", PROGRAM, *keys, path]
        whole = self.any(*words)
        self.assertEqual(self.any("--map", self.folder / "map", report=report), whole)
        self.assertEqual(self.any("--parts", "3", *words), whole)
        rows = [self.folder / name for name in ("rows", "rows of parts")]
        self.any("--rows", rows[0], *words)
        self.any("--rows", rows[1], "--map", self.folder / "map", report=report)
        self.assertEqual(rows[0].read_bytes(), rows[1].read_bytes())
        # The line is made by the pair's first packet alone.
        plain = self.any("--h2audit", PROGRAM, *keys, path)[0]
        unopened = [[line for line in one.splitlines() if line.startswith(b"unopened")] for one in (plain, whole[0])]
        self.assertEqual(unopened[0], unopened[1])
        return whole[0].decode()

    def test_in_the_clear(self) -> None:
        packets = packets_of(NGHTTPD)
        for some in (packets[12:], lossy(packets, {15}), lossy(packets, {15, 16, 23}), lossy(packets, {23})[12:]):
            self.assertIn("\njoined inferred ", self.compare(some))

    def test_exact(self) -> None:
        for lost in ({0}, {1}, {0, 1}):
            packets = [one for at, one in enumerate(packets_of(NGHTTPD)) if at not in lost]
            self.assertIn("\njoined exact ", self.compare(packets))

    def test_one_direction(self) -> None:
        packets = packets_of(NGHTTPD)[12:]
        ends = segment_of(packets[0].data).ends
        self.assertNotIn("joined", self.compare([one for one in packets if segment_of(one.data).ends == ends]))

    def test_several_connections(self) -> None:
        for path in sorted(TOP.glob("tests/causes/*.pcap.gz"))[::12]:
            packets = packets_of(path)
            if 30 < len(packets) < 5000:
                self.assertIn("\njoined ", self.compare(packets[len(packets) // 3 :]), path)

    def test_tls(self) -> None:
        for name in TLS:
            packets, link = read_pcap(capture_named(name).read_bytes())
            half = len(packets) // 2
            for some in (packets[half:], packets[:half] + packets[half + 3 :]):
                self.assertIn("\njoined inferred ", self.compare(some, link, key_log_of(name)), name)

    def test_only_what_is_shown_makes_the_status(self) -> None:
        """h2audit finds an overrun in what was made, which rests on a window that is inferred."""
        name = "stream-overrun-go"
        packets, link = read_pcap(capture_named(name).read_bytes())
        path = self.write(packets[len(packets) // 2 :], link)
        keys = key_log_of(name)
        report, status, _ = self.any("--joined", "--h2audit", PROGRAM, *keys, path)
        self.assertEqual((status, b"overrun" in report), (0, False))
        self.map_of(path, *keys)
        self.assertEqual(subprocess.run([PROGRAM, self.folder / "out.pcap"], capture_output=True).returncode, 1)


if __name__ == "__main__":
    PROGRAM = needed()[0]
    unittest.main()
