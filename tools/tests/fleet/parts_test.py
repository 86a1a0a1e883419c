"""Tests of imports, and of large captures in parts, in h2audit-fleet and h2audit-any: fleet_parts_test.py PROGRAM

What is wanted is the report of PROGRAM for the whole, and what was written by hand. h2audit-split is the one that is
built; where none is, a program stands in for it.
"""

import gzip
import hashlib
import os
import pathlib
import struct
import subprocess
import unittest
from unittest import mock

from bench import generate, wire
from h2audit.fleet import large as tasks_of_large
from h2audit.fleet import tasks
from tests import captures as scripts
from tools.tests.fleet.captures import PATIENCE, PROGRAM, TOP, Machine, Ran, beside, by_hand

RUNS = ("$H2AUDIT",)
SPLIT = TOP / "crates" / "h2audit_split" / "out" / "h2audit_split"
STAND_IN = TOP / "tools" / "tests" / "fleet" / "split_stand_in"


def over_ipv6(capture: bytes) -> bytes:
    """A capture with its segments in IPv6, from 2001:db8::1 and 2001:db8::2. What is no IPv4, or is cut, stays."""
    found, at = bytearray(capture[:24]), 24
    while at + 16 <= len(capture):
        seconds, moment, length, _ = struct.unpack_from("<IIII", capture, at)
        packet = capture[at + 16 : at + 16 + length]
        if packet[12:14] == b"\x08\x00" and len(packet) == length:
            ends = [bytes.fromhex("20010db8") + bytes(11) + address[3:] for address in (packet[26:30], packet[30:34])]
            head = struct.pack(">IHBB", 6 << 28, length - 34, 6, 64)
            packet = bytes(12) + b"\x86\xdd" + head + ends[0] + ends[1] + packet[34:]
        found += struct.pack("<IIII", seconds, moment, len(packet), len(packet)) + packet
        at += 16 + length
    return bytes(found) + capture[at:]


@unittest.skipUnless(PROGRAM, "imports and parts: h2audit is not built")
class Beside(unittest.TestCase):
    """A machine with all programs, and a capture of many connections that is large enough to be split."""

    def setUp(self) -> None:
        self.machine = Machine([], None)
        self.machine.__enter__()
        self.addCleanup(self.machine.__exit__)
        programs: dict[str, str | pathlib.Path] = {
            "h2audit": str(PROGRAM),
            "h2audit-any": beside("h2audit-any"),
            "h2audit-import": beside("h2audit-import"),
            "h2audit-merge": beside("h2audit-merge"),
            "h2audit-split": SPLIT if SPLIT.exists() else STAND_IN,
        }
        for name, program in programs.items():
            self.machine.link(name, program)

    def large(self) -> pathlib.Path:
        path = self.machine.captures / "large.pcap"
        with open(path, "wb") as file:
            capture = wire.Capture(file)
            generate.connections(capture, 1200000)
            generate.strays(capture, 1300000)
            capture.record(b"no segment at all")
            generate.early(capture, 1500000)
            file.write(b"cut")
        return path

    def report_of(self, *words: object) -> Ran:
        return subprocess.run([str(PROGRAM), *map(str, words)], capture_output=True)

    def any(self, *words: object, **more: str) -> Ran:
        line = [beside("h2audit-any"), "--h2audit", PROGRAM, *words]
        return subprocess.run(
            list(map(str, line)), capture_output=True, timeout=PATIENCE, env={**self.machine.surroundings, **more}
        )


class Imports(Beside):
    def test_each_form(self) -> None:
        """pcapng, gzip, and IPv6 that h2audit passes over: each has the rows of the report that was written by hand."""
        wanted = {sample.name: sample for sample in by_hand()}
        plain = wanted["stream_overrun_go"]
        stem = TOP / "examples" / "stream_overrun_go.pcap"
        subprocess.run(["editcap", "-F", "pcapng", stem, self.machine.captures / "a.pcapng"], check=True)
        (self.machine.captures / "a.pcap.gz").write_bytes(gzip.compress(plain.capture))
        script = (TOP / "examples" / "use_after_reset.script").read_text()
        (self.machine.captures / "six.pcap").write_bytes(over_ipv6(scripts.capture_of(script)))
        status, said, error = self.machine.run("--jobs", "2", "--reports", "reports", "captures")
        self.assertEqual((status, said, error), (1, "3 captures: 3 with faults, 0 in which nothing was audited\n", ""))
        six = wanted["use_after_reset"].report
        for side in "12":
            six = six.replace(f"10.0.0.{side}:", f"[2001:db8::{side}]:")
        rows = self.machine.ask("SELECT path, program, outcome, report_sha256 FROM captures")
        for path, program, outcome, digest in rows:
            report = six if path.endswith("six.pcap") else plain.report
            self.assertEqual((program, outcome), ("h2audit-any", "audited"))
            self.assertEqual((self.machine.folder / "reports" / f"{digest}.report").read_text(), report, path)
        peers = self.machine.ask("SELECT DISTINCT endpoint FROM faults WHERE path LIKE '%six.pcap' ORDER BY 1")
        self.assertEqual(peers, [("[2001:db8::1]:40000",), ("[2001:db8::2]:80",)])
        self.assertEqual(
            self.machine.ask("SELECT peer FROM faults_by_peer WHERE peer LIKE '[%' ORDER BY 1"),
            [("[2001:db8::1]",), ("[2001:db8::2]:80",)],
        )

    def test_no_import(self) -> None:
        """A program that the path does not have is found beside this one; where it is nowhere, the row says so."""
        capture = self.machine.captures / "a.pcapng"
        capture.write_bytes(bytes.fromhex("0a0d0d0a") + bytes(40))
        (self.machine.bin / "h2audit-any").unlink()
        self.assertEqual(self.machine.run("--jobs", "1", "captures")[0], 3)
        self.assertEqual(self.machine.ask("SELECT outcome, reason FROM captures"), [("refused", "bad-block")])
        order: tasks.Order = {"keys": [], "timeout": 60.0, "split_above": 0}
        with mock.patch.dict(os.environ, self.machine.surroundings):
            answer = tasks.audit(os.fsencode(capture), order)
        self.assertEqual((answer["outcome"], answer["reason"]), ("failed", "no-program h2audit-any"))


class Parts(Beside):
    def test_any(self) -> None:
        """h2audit-any --parts prints the report of the whole, byte for byte, with credit lines too."""
        large = self.large()
        examples = sorted((TOP / "examples").glob("*.pcap"))[:4]
        for capture, words in ((large, ()), *((path, ("--frames",)) for path in examples)):
            wanted = self.report_of(*words, capture)
            found = self.any("--parts", "3", *words, capture)
            self.assertEqual((found.returncode, found.stderr), (wanted.returncode, b""))
            self.assertEqual(found.stdout, wanted.stdout, capture)
        self.assertEqual(list((self.machine.folder / "temporary").iterdir()), [])

    def test_fleet(self) -> None:
        """A large capture is split, its parts are audited by several workers, and its row is that of the whole."""
        large = self.large()
        wanted = self.report_of(large)
        status, said, error = self.machine.run("--jobs", "2", "--split-above", "1", "captures")
        self.assertEqual((status, error), (wanted.returncode, ""), said)
        row = self.machine.ask(
            "SELECT program, outcome, reason, status, sha256, report_sha256, report_bytes FROM captures"
        )
        digests = [hashlib.sha256(text).hexdigest() for text in (large.read_bytes(), wanted.stdout)]
        self.assertEqual(row, [("h2audit-any", "audited", None, wanted.returncode, *digests, len(wanted.stdout))])
        self.assertEqual(list((self.machine.folder / "temporary").iterdir()), [])

    def test_one_worker(self) -> None:
        """Where workers share no folder, one of them splits, audits and merges."""
        large = self.large()
        path = os.environ["PATH"]
        self.addCleanup(os.environ.__setitem__, "PATH", path)
        os.environ["PATH"] = f"{self.machine.bin}:/usr/bin:/bin"
        order: tasks.Order = {"keys": [], "timeout": 60.0, "split_above": 1000000}
        answer = tasks_of_large.in_parts(os.fsencode(large), order)
        self.assertEqual(
            (answer["outcome"], answer["report_sha256"]),
            ("audited", hashlib.sha256(self.report_of(large).stdout).hexdigest()),
        )

    def test_too_large(self) -> None:
        """A part that would be too large is named, and the other parts stand."""
        self.machine.link("h2audit-split", STAND_IN)
        large = self.large()
        os.environ["FLEET_MOST"] = "450000"
        self.addCleanup(os.environ.pop, "FLEET_MOST")
        self.assertEqual(self.machine.run("--jobs", "2", "--split-above", "1", "captures")[0], 3)
        outcome, reason, status = self.machine.ask("SELECT outcome, reason, status FROM captures")[0]
        self.assertEqual(outcome, "partial")
        self.assertRegex(reason, r"^connection-too-large \S+:\d+ \S+:\d+")
        self.assertGreater(self.machine.ask("SELECT COUNT(*) FROM connections")[0][0], 0)
        found = self.any("--parts", "3", large, FLEET_MOST="450000")
        self.assertEqual(found.returncode, 3)
        self.assertRegex(found.stderr.decode(), r"^h2audit-any: part \d refused: connection-too-large \S+ \S+\n")
        self.assertTrue(found.stdout.startswith(b"capture records "))

    def test_misfortunes(self) -> None:
        """A part that runs out of memory, a splitter that fails: the capture is entered as failed, nothing is left."""
        self.large()
        self.machine.script("h2audit", f'case $* in *part-002*) exit 5 ;; esac\nexec {PROGRAM} "$@"\n')
        self.assertEqual(self.machine.run("--jobs", "2", "--retries", "1", "--split-above", "1", "captures")[0], 3)
        asked = "SELECT outcome, reason, tries FROM captures"
        self.assertEqual(self.machine.ask(asked), [("failed", "part 2: out-of-memory", 2)])
        self.machine.script("h2audit-split", 'echo "h2audit-split: cannot write: $4/part-001.pcap" >&2; exit 4\n')
        words = ("--jobs", "2", "--retries", "0", "--resume", "--split-above", "1", "captures")
        self.assertEqual(self.machine.run(*words)[0], 3)
        self.assertEqual(self.machine.ask(asked), [("failed", "write-failed", 1)])
        self.assertEqual(list((self.machine.folder / "temporary").iterdir()), [])


if __name__ == "__main__":
    unittest.main()
