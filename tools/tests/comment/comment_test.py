"""Tests of h2audit-comment: what tshark says of captures before and after, and by which name bad input is refused.

    python3 -m tools.tests.comment.comment_test [CLASS..]            runs the tests
    python3 -m tools.tests.comment.comment_test PROGRAM [CLASS..]    with h2audit, which audits what an import made of
                                                                     TLS
"""

import gzip
import os
import pathlib
import random
import re
import struct
import subprocess
import tempfile
import unittest

import zstandard

from tests.programs import named
from tools.tests.companions import UNREAD, companion, without_help
from tools.tests.pcapng_blocks import (
    block,
    classic,
    interface,
    micros,
    old_packet,
    option,
    packet,
    records_of,
    section,
    simple_packet,
)
from tools.tests.signals import SIGNALS, hidden_in, signalled

RUNS = ("Examples", "Forms", "Maps BadInput", "$H2AUDIT Imports Answers")
QUICK = True
TIMED = True
TOP = pathlib.Path(__file__).resolve().parents[3]
PROGRAM = companion("h2audit-comment")
IMPORT = companion("h2audit-import")
TLS = TOP / "tests" / "tls"
AUDIT = next(iter(named()), None)
EXAMPLES = TOP / "examples"
# What a packet is: all that tshark shows of its place, time, interface and bytes.
FIELDS = [
    "frame.number",
    "frame.time_epoch",
    "frame.interface_id",
    "frame.interface_name",
    "frame.encap_type",
    "frame.len",
    "frame.cap_len",
    "frame.md5_hash",
    "frame.protocols",
    "tcp.stream",
    "tcp.seq_raw",
    "tcp.flags",
    "tcp.len",
]
# Written by hand, from the example's README and its packets.
SAID_OF_GO = {
    12: "h2audit: HTTP/2 frame 6: client used up its credit on stream 1, and waited 764 µs, up to packet 14 "
    "(stream-stall-begin); nobody broke a rule: ask the server why it granted nothing,"
    "h2audit: HTTP/2 frame 7: client sent 5,000 bytes past its credit on stream 1 (stream-overrun); "
    "the client broke RFC 9113, 6.9.1",
    14: "h2audit: HTTP/2 frame 8: client's stall on stream 1 ended, 764 µs after packet 12 (stream-stall-end); "
    "nobody broke a rule",
}
FINDING = re.compile(r"^frame \d+ record (\d+) .* (client|server) ([a-z-]+) stream", re.M)


def shown(capture: pathlib.Path, fields: list[str] = FIELDS, *more: str) -> list[list[str]]:
    wanted = [word for field in fields for word in ("-e", field)]
    words = ["tshark", "-n", "-o", "frame.generate_md5_hash:TRUE", "-r", str(capture), "-T", "fields", *more, *wanted]
    run = subprocess.run(words, capture_output=True, text=True, timeout=60)
    assert run.returncode == 0, run.stderr
    return [line.split("\t") for line in run.stdout.splitlines()]


def comments(capture: pathlib.Path) -> dict[int, str]:
    """The comments of each packet that has some, one string for each packet."""
    return {
        int(number): said for number, said in shown(capture, ["frame.number", "frame.comment"], "-Y", "frame.comment")
    }


def run(*words: object, input: bytes | None = None) -> subprocess.CompletedProcess[bytes]:
    return subprocess.run([PROGRAM, *map(str, words)], capture_output=True, timeout=120, input=input)


class InFolder(unittest.TestCase):
    def setUp(self) -> None:
        self.work = tempfile.TemporaryDirectory()
        self.addCleanup(self.work.cleanup)
        self.folder = pathlib.Path(self.work.name)
        self.out = self.folder / "out.pcapng"

    def write(self, name: str, data: bytes) -> pathlib.Path:
        path = self.folder / name
        path.write_bytes(data)
        return path

    def comment(self, capture: pathlib.Path, report: pathlib.Path, *more: object) -> pathlib.Path:
        done = run(capture, report, "-o", self.out, *more)
        self.assertEqual((done.returncode, done.stderr, done.stdout), (0, b"", b""))
        return self.out


class Examples(InFolder):
    """Each finding but credit is in a comment of its packet, and the packets are as they were."""

    def test_each(self) -> None:
        for capture in sorted(EXAMPLES.glob("*.pcap")):
            with self.subTest(capture.name):
                report = capture.with_suffix(".report")
                self.comment(capture, report)
                # A classic capture tells no interface, and a pcapng capture has one.
                fields = [field for field in FIELDS if not field.startswith("frame.interface")]
                found = shown(self.out, [*fields, "frame.comment"])
                self.assertEqual([row[:-1] for row in found], shown(capture, fields))
                said = {int(row[0]): row[-1] for row in found if row[-1]}
                self.assertEqual(kinds_said(said), kinds_in(report.read_text()))

    def test_by_hand(self) -> None:
        self.comment(EXAMPLES / "stream_overrun_go.pcap", EXAMPLES / "stream_overrun_go.report")
        self.assertEqual(comments(self.out), SAID_OF_GO)

    def test_an_overflow_is_the_other_sides(self) -> None:
        self.comment(EXAMPLES / "connection_overflow_nginx.pcap", EXAMPLES / "connection_overflow_nginx.report")
        self.assertIn(
            "server's credit of the connection rose to 2,147,547,182, above 2^31 - 1 (connection-overflow); "
            "the client broke RFC 9113, 6.9.1",
            comments(self.out)[15],
        )

    def test_filter_of_wireshark(self) -> None:
        self.comment(EXAMPLES / "use_after_reset.pcap", EXAMPLES / "use_after_reset.report")
        found = shown(self.out, ["frame.number"], "-Y", 'frame.comment contains "h2audit"')
        self.assertEqual([int(number) for number, in found], [9, 10])
        expert = subprocess.run(["tshark", "-r", self.out, "-q", "-z", "expert"], capture_output=True, text=True).stdout
        self.assertRegex(expert, r"Comments \(2\)")
        self.assertIn("h2audit: HTTP/2 frame 8: server sent WINDOW_UPDATE on stream 7", expert)

    def test_filter_of_breaches(self) -> None:
        """It finds the packets with a breach of the standard, and no stall."""
        for name in ("stream_overrun_go", "negative_window", "use_after_reset"):
            report = EXAMPLES / f"{name}.report"
            self.comment(EXAMPLES / f"{name}.pcap", report)
            found = shown(self.out, ["frame.number"], "-Y", 'frame.comment contains "broke RFC"')
            wanted = {
                int(record)
                for record, _, kind in FINDING.findall(report.read_text())
                if not kind.endswith(("-stall-begin", "-stall-end"))
            }
            self.assertEqual({int(number) for (number,) in found}, wanted, name)

    def test_packets_that_set_a_window(self) -> None:
        """For an overrun, where the report has credit lines: the packet of the opening, and those of grants."""
        report = EXAMPLES / "stream_overrun_go.frames.report"
        said = comments(self.comment(EXAMPLES / "stream_overrun_go.pcap", report))[12]
        self.assertIn("5,000 bytes past its credit on stream 1, a window that packet 12 set (stream-overrun)", said)
        line = "frame 6 record 12 time 1795331726079320000 client stream-stall-begin"
        grants = "".join(
            f"frame 5 record {record} time 1795331726079320000 client stream-credit stream 1 value {value}\n"
            for record, value in ((13, 10001), (15, 10002), (16, 10003), (17, 10004), (18, 10000))
        )
        text = report.read_text().replace(line, grants + line)
        said = comments(self.comment(EXAMPLES / "stream_overrun_go.pcap", self.write("report", text.encode())))[12]
        self.assertIn("a window that 6 packets set, last 16, 17 and 18 (stream-overrun)", said)

    def test_credit(self) -> None:
        """Credit lines are passed over, unless they are asked for."""
        capture, report = EXAMPLES / "stream_overrun_go.pcap", EXAMPLES / "stream_overrun_go.frames.report"
        self.assertEqual(sorted(comments(self.comment(capture, report))), [12, 14])
        self.comment(capture, report, "--credit")
        self.assertEqual(
            sum(text.count("h2audit: ") for text in comments(self.out).values()),
            len(FINDING.findall(report.read_text())),
        )


class Forms(InFolder):
    """One capture in many forms: the same packets at the same times, in nanoseconds."""

    NAME = "stream_overrun_go"
    REPORT = EXAMPLES / f"{NAME}.report"

    def setUp(self) -> None:
        super().setUp()
        self.records, self.link = records_of(EXAMPLES / f"{self.NAME}.pcap")
        self.wanted = SAID_OF_GO

    def same(self, data: bytes, name: str = "in.pcap", fields: list[str] = FIELDS) -> None:
        capture = self.write(name, data)
        self.comment(capture, self.REPORT)
        found = shown(self.out, [*fields, "frame.comment"])
        self.assertEqual({int(row[0]): row[-1] for row in found if row[-1]}, self.wanted)
        self.assertEqual([row[:-1] for row in found], shown(capture, fields))

    def test_classic(self) -> None:
        fields = [field for field in FIELDS if not field.startswith("frame.interface")]
        for order in "<>":
            for is_nano in (False, True):
                self.same(classic(self.records, self.link, order, is_nano), fields=fields)

    def test_nanoseconds_are_kept(self) -> None:
        report = re.sub(r" time (\d+)", lambda time: f" time {int(time[1]) + 123}", self.REPORT.read_text())
        parts = classic([], self.link, is_nano=True) + b"".join(
            struct.pack("<IIII", seconds, fraction * 1000 + 123, len(data), length) + data
            for seconds, fraction, length, data in self.records
        )
        capture = self.write("nano.pcap", parts)
        self.comment(capture, self.write("report", report.encode()))
        self.assertEqual(shown(self.out, ["frame.time_epoch"]), shown(capture, ["frame.time_epoch"]))
        self.assertTrue(shown(self.out, ["frame.time_epoch"])[0][0].endswith("123"))

    def test_two_interfaces_and_resolutions(self) -> None:
        """Microseconds on one interface, and nanoseconds with an offset on the other."""
        for order in "<>":
            parts = [
                section(order),
                interface(order, self.link, name=b"lan"),
                interface(order, self.link, 9, 100, b"wan"),
            ]
            for number, one in enumerate(self.records):
                time = (micros(one) - 100 * 10**6) * 1000 if number % 2 else micros(one)
                parts.append(packet(order, number % 2, time, one))
            self.same(b"".join(parts), "in.pcapng")

    def test_comments_that_stand_there(self) -> None:
        there = option("<", 1, b"seen before") + option("<", 2, bytes(4)) + option("<", 0, b"")
        parts = [section(), interface("<", self.link)] + [
            packet("<", 0, micros(one), one, there) for one in self.records
        ]
        self.comment(self.write("in.pcapng", b"".join(parts)), self.REPORT)
        found = comments(self.out)
        self.assertEqual(found[1], "seen before")
        self.assertEqual(found[12], "seen before," + self.wanted[12])

    def test_sections(self) -> None:
        """Two sections; the second has its own order of bytes, tells its length, and has packet blocks of old."""
        first = (
            section()
            + interface("<", self.link)
            + b"".join(packet("<", 0, micros(one), one) for one in self.records[:11])
        )
        inner = interface(">", self.link) + b"".join(old_packet(">", 0, micros(one), one) for one in self.records[11:])
        self.same(first + section(">", len(inner)) + inner, "in.pcapng")

    def test_other_blocks_stay(self) -> None:
        """Names, statistics, secrets and blocks that nobody knows are copied byte for byte."""
        others = (
            block("<", 5, struct.pack("<III", 0, 0, 0))
            + block("<", 0x77777, b"abc")
            + block("<", 10, struct.pack("<II", 0x544C534B, 0))
        )
        parts = (
            [section(), interface("<", self.link), others]
            + [packet("<", 0, micros(one), one) for one in self.records]
            + [others]
        )
        data = b"".join(parts)
        self.same(data, "in.pcapng")
        self.assertEqual(self.out.read_bytes().count(others), 2)
        no_findings = self.write("none", self.REPORT.read_bytes().split(b"\n")[0] + b"\n")
        self.comment(self.folder / "in.pcapng", no_findings)
        self.assertEqual(self.out.read_bytes(), data)

    def test_numbered_as_wireshark_does(self) -> None:
        """Custom blocks and journal entries have a number in Wireshark, so the packets after them move on."""
        custom = block("<", 0xBAD, struct.pack("<I", 32473) + b"abcd")
        parts = [section(), interface("<", self.link), custom] + [
            packet("<", 0, micros(one), one) for one in self.records
        ]
        report = re.sub(r" record (\d+) time", lambda at: f" record {int(at[1]) + 1} time", self.REPORT.read_text())
        self.comment(self.write("in.pcapng", b"".join(parts)), self.write("report", report.encode()))
        self.assertEqual(sorted(comments(self.out)), [13, 15])

    def test_gzip(self) -> None:
        fields = [field for field in FIELDS if not field.startswith("frame.interface")]
        self.same(gzip.compress(classic(self.records, self.link)), "in.pcap.gz", fields)
        whole = b"".join(
            [section(), interface("<", self.link)] + [packet("<", 0, micros(one), one) for one in self.records]
        )
        self.same(gzip.compress(whole), "in.pcapng.gz")

    def test_zstd(self) -> None:
        fields = [field for field in FIELDS if not field.startswith("frame.interface")]
        self.same(zstandard.compress(classic(self.records, self.link)), "in.pcap.zst", fields)
        data = (EXAMPLES / f"{self.NAME}.pcap").read_bytes()
        frames = zstandard.compress(data[:1000]) + zstandard.compress(data[1000:])
        self.same(frames, "in.pcap.zst", fields)

    def test_standard_input_and_output(self) -> None:
        data = (EXAMPLES / f"{self.NAME}.pcap").read_bytes()
        done = run("-", self.REPORT, "-o", "-", input=data)
        self.assertEqual((done.returncode, done.stderr), (0, b""))
        self.assertEqual(comments(self.write("again.pcapng", done.stdout)), self.wanted)
        done = run(EXAMPLES / f"{self.NAME}.pcap", "-", "-o", self.out, input=self.REPORT.read_bytes())
        self.assertEqual((done.returncode, done.stderr), (0, b""))

    def test_many_comments_of_one_packet(self) -> None:
        """More than a block can hold: the last comment says how many are left out, and Wireshark reads the file."""
        head, finding = self.REPORT.read_text().split("\n")[0:2], self.REPORT.read_text().split("\n")[5]
        report = self.write("report", "\n".join(head + [finding] * 50000).encode() + b"\n")
        done = run(EXAMPLES / f"{self.NAME}.pcap", report, "-o", self.out)
        self.assertEqual((done.returncode, done.stderr), (0, b""))
        said = comments(self.out)[12]
        written = said.count("(stream-overrun)")
        self.assertGreater(written, 20000)
        self.assertTrue(
            said.endswith(f"h2audit: and {50000 - written:,} other findings, which the report has"), said[-200:]
        )


class Maps(InFolder):
    """A report of a made capture, whose records are taken to packets of the original by the map of the import."""

    CAPTURE = EXAMPLES / "stream_overrun_go.pcap"

    def setUp(self) -> None:
        super().setUp()
        text = CAPTURE_REPORT.read_text()
        # The made capture has records 2 and 3 where the original has packets 12 and 14.
        moved = text.replace(" record 12 time", " record 2 time").replace(" record 14 time", " record 3 time")
        self.report = self.write("report", moved.encode())

    def map(self, *lines: str) -> pathlib.Path:
        return self.write("map", "\n".join(["h2audit-map 1", *lines, ""]).encode())

    def test_map(self) -> None:
        path = self.map(
            "file 1 somewhere/a%20b.pcap",
            "address 240.0.0.1 2001:db8::1",
            "record 1 file 1 packet 1",
            "record 2 file 1 packet 12",
            "record 3 file 1 packet 14",
            "connection whatever",
            "later words",
        )
        self.comment(self.CAPTURE, self.report, "-m", path)
        self.assertEqual(sorted(comments(self.out)), [12, 14])
        self.assertIn("up to packet 14 (", comments(self.out)[12])

    def test_several_files(self) -> None:
        """The capture is found by its name; what is about another file is told, and a stall may end there."""
        path = self.map(
            "file 1 old/first.pcap",
            "file 2 old/stream_overrun_go.pcap",
            "record 1 file 1 packet 1",
            "record 2 file 2 packet 12",
            "record 3 file 1 packet 3",
        )
        done = run(self.CAPTURE, self.report, "-o", self.out, "-m", path)
        self.assertEqual(
            (done.returncode, done.stderr), (0, b"h2audit-comment: 1 finding is about other files of the map\n")
        )
        self.assertEqual(sorted(comments(self.out)), [12])
        self.assertIn("up to packet 3 of first.pcap", comments(self.out)[12])

    def refuses(self, why: str, path: pathlib.Path) -> None:
        done = run(self.CAPTURE, self.report, "-o", self.out, "-m", path)
        self.assertEqual((done.returncode, done.stderr.decode()), (3, f"h2audit-comment: map refused: {why}\n"))
        self.assertFalse(self.out.exists())

    def test_refused(self) -> None:
        self.refuses("not a map of h2audit-import", self.write("map", b"\0" * 100))
        self.refuses("not a map of h2audit-import", self.write("map", b""))
        self.refuses("version 3 of the map is unknown: this is for version 1", self.write("map", b"h2audit-map 3\n"))
        joined = "a map of connections that were joined (--joined) is not read here"
        self.refuses(joined, self.write("map", b"h2audit-map 2\n"))
        self.refuses("line 3 is no line of a map", self.map("file 1 a.pcap", "record 1 packet 2"))
        self.refuses("it has no record 3, which the report names", self.map("file 1 a", "record 2 file 1 packet 12"))
        self.refuses(f"{self.CAPTURE} is not one of its files by name: it has none", self.map())
        self.refuses(f"{self.CAPTURE} is not one of its files by name: a, b", self.map("file 1 a", "file 2 b"))


class Answers(InFolder):
    """What h2audit-why says of the capture, in comments."""

    def why(self, *words: str | pathlib.Path) -> subprocess.CompletedProcess[str]:
        program = ["--h2audit", AUDIT] if AUDIT else []
        command: list[str | pathlib.Path] = [PROGRAM, "--why", *program, "-o", self.out, *words]
        return subprocess.run(command, capture_output=True, text=True, timeout=120)

    def said(self, capture: pathlib.Path, *words: str | pathlib.Path) -> dict[int, str]:
        self.assertEqual(self.why(*words, capture).returncode, 0)
        fields = [field for field in FIELDS if not field.startswith("frame.interface")]
        found = shown(self.out, [*fields, "frame.comment"])
        self.assertEqual([row[:-1] for row in found], shown(capture, fields))
        return {int(row[0]): row[-1] for row in found if row[-1]}

    @unittest.skipUnless(AUDIT, "h2audit is not named")
    def test_examples(self) -> None:
        """Faults with what set their windows, and requests that were held back, with their causes."""
        said = self.said(TOP / "examples" / "stream_overrun_go.pcap")
        self.assertIn("; initial window 10,000 by SETTINGS in packet 6, acknowledged in packet 10", said[12])
        self.assertIn("client sent 5,000 bytes past its credit on stream 1", said[12])
        said = self.said(TOP / "examples" / "paused_stream_node.pcap")
        self.assertEqual({packet for packet, text in said.items() if "GET /f80k.bin" in text}, {6, 21})
        self.assertTrue(
            said[6].startswith("h2audit: GET /f80k.bin (stream 1) opens: stalled 2.301 s (100 %): the client")
        )
        self.assertTrue(said[21].startswith("h2audit: GET /f80k.bin (stream 1) ends, 2.301 s after packet 6: stalled"))
        self.assertNotIn("/f20k.bin", "".join(said.values()))

    @unittest.skipUnless(AUDIT, "h2audit is not named")
    def test_tls(self) -> None:
        """In TLS the comments stand at the original's packets, and say what a report of the import does."""
        (capture,) = [path for path in TLS.glob("stream-overrun-go.*") if ".pcap" in path.name]
        said = self.said(capture, "-k", TLS / "stream-overrun-go.keys")
        kinds = {packet: found for packet, found in kinds_said(said).items() if found}
        self.assertEqual(kinds, kinds_in((TLS / "stream-overrun-go.report").read_text()))

    @unittest.skipUnless(AUDIT, "h2audit is not named")
    def test_nothing(self) -> None:
        """Where nothing was audited, the capture is written without comments."""
        (capture,) = [path for path in TLS.glob("stream-overrun-go.*") if ".pcap" in path.name]
        done = self.why(capture)
        self.assertEqual((done.returncode, done.stderr), (6, "h2audit-comment: nothing was audited\n"))
        self.assertFalse([row for row in shown(self.out, ["frame.comment"]) if row[0]])

    def test_words(self) -> None:
        one = str(self.folder / "one")
        for words, why in (
            (("--why", "-"), "--why reads the capture twice: a file, and not standard input"),
            (("--why", one, one), "--why audits the capture itself: without REPORT, -m and --credit"),
            (("--why", "--credit", one), "--why audits the capture itself: without REPORT, -m and --credit"),
            (("-k", "keys", one, one), "-k and --h2audit go with --why"),
            (("--why",), "the following arguments are required: CAPTURE"),
        ):
            done = subprocess.run([PROGRAM, *words, "-o", self.out], capture_output=True, text=True)
            self.assertEqual((done.returncode, done.stderr), (2, f"h2audit-comment: {why}\n"))
        self.assertFalse(self.out.exists())


class Imports(InFolder):
    """Findings in TLS: import, audit of what it made, and comments of the encrypted packets of the original by the map.

    Without the program the report of the made capture is the stored one, with the records that the map has.
    """

    NAMES = {
        "curl-apache-upload": 2,
        "secrets-inside": 16,
        "stream-overrun-go": 6,
        "loss-and-reordering": 20,
        "key-updates": 24,
        "zstd": 16,
    }

    def test_each(self) -> None:
        for name, number in self.NAMES.items():
            with self.subTest(name):
                (capture,) = [path for path in TLS.glob(f"{name}.*") if ".pcap" in path.name]
                report = (TLS / f"{name}.report").read_text()
                self.comment(capture, self.report_of_made(capture, name, report), "-m", self.folder / "map")
                fields = [field for field in FIELDS if not field.startswith("frame.interface")]
                found = shown(self.out, [*fields, "frame.comment"])
                self.assertEqual([row[:-1] for row in found], shown(capture, fields))
                said = {int(row[0]): row[-1] for row in found if row[-1]}
                self.assertEqual(kinds_said(said), kinds_in(report))
                self.assertEqual(sum(map(len, kinds_said(said).values())), number)

    def report_of_made(self, capture: pathlib.Path, name: str, report: str) -> pathlib.Path:
        keys, made = TLS / f"{name}.keys", self.folder / "made.pcap"
        words: list[str | pathlib.Path] = ["-k", keys] if keys.exists() else []
        words += ["-m", self.folder / "map", "-o", made, capture]
        done = subprocess.run([IMPORT, *words], capture_output=True, text=True, timeout=120)
        self.assertEqual((done.returncode, done.stderr), (0, ""))
        if AUDIT:
            audited = subprocess.run([AUDIT, made], capture_output=True, timeout=120)
            self.assertIn(audited.returncode, (0, 1))
            return self.write("report", audited.stdout)
        records: dict[str, str] = {}
        for record, packet_number in re.findall(r"(?m)^record (\d+) file 1 packet (\d+)$", self.map_text()):
            records.setdefault(packet_number, record)
        moved = re.sub(r"(?<= record )(\d+)(?= time)", lambda at: records[at[1]], report)
        return self.write("report", moved.encode())

    def map_text(self) -> str:
        return (self.folder / "map").read_text()


def kinds_in(report: str) -> dict[int, list[str]]:
    """The kinds of the findings of each packet, by a report."""
    wanted: dict[int, list[str]] = {}
    for record, _, kind in FINDING.findall(report):
        wanted.setdefault(int(record), []).append(kind)
    return wanted


def kinds_said(said: dict[int, str]) -> dict[int, list[str]]:
    """The kinds of the findings of each packet, by its comments."""
    return {record: re.findall(r"\(([a-z-]+)\);", text) for record, text in said.items()}


CAPTURE_REPORT = EXAMPLES / "stream_overrun_go.report"


class BadInput(InFolder):
    """Each gives one line on standard error and its status, and leaves no file."""

    CAPTURE = EXAMPLES / "stream_overrun_go.pcap"

    def refuses(self, why: str, capture: pathlib.Path = CAPTURE, report: pathlib.Path = CAPTURE_REPORT) -> None:
        done = run(capture, report, "-o", self.out)
        named = f": {capture}" if why.startswith("capture refused") else ""
        self.assertEqual((done.returncode, without_help(done.stderr.decode())), (3, f"h2audit-comment: {why}{named}\n"))
        self.assertFalse(list(self.folder.glob("*.pcapng")) + hidden_in(self.folder))

    def data(self, data: bytes) -> pathlib.Path:
        return self.write("in", data)

    def test_captures(self) -> None:
        good = self.CAPTURE.read_bytes()
        records, link = records_of(self.CAPTURE)
        self.refuses("capture refused: short-header", self.data(b""))
        self.refuses("capture refused: short-header", self.data(good[:23]))
        self.refuses("capture refused: bad-magic", self.data(b"no capture at all"))
        self.refuses("capture refused: bad-version", self.data(good[:4] + b"\3\0" + good[6:]))
        self.refuses("capture refused: bad-gzip", self.data(b"\x1f\x8b\x08\0" + b"\xff" * 40))
        self.refuses("capture refused: bad-zstd", self.data(b"\x28\xb5\x2f\xfd" + b"\xff" * 40))
        self.refuses("capture refused: short-header", self.data(zstandard.compress(good)[:20]))
        head = section() + interface("<", link)
        self.refuses("capture refused: bad-block", self.data(head + struct.pack("<II", 6, 13) + bytes(100)))
        long = struct.pack("<II", 6, 2**32 - 4) + bytes(100)
        self.refuses("capture refused: too-long-block", self.data(head + long))
        self.refuses("capture refused: bad-block", self.data(head + struct.pack("<II", 6, 32) + bytes(20) + b"abcd"))
        self.refuses("capture refused: bad-block", self.data(b"\n\r\r\n" + bytes(40)))
        self.refuses("capture refused: no-interface", self.data(section() + packet("<", 0, 1, records[0])))
        simple = head + b"".join(simple_packet("<", one) for one in records)
        self.refuses("capture refused: simple-packet-block", self.data(simple))
        bad = b"".join(packet("<", 0, micros(one), one, b"\1\0\xff\0") for one in records)
        self.refuses("capture refused: bad-options", self.data(head + bad))

    def test_reports(self) -> None:
        good = CAPTURE_REPORT.read_text()
        self.refuses("report refused: not a report of h2audit", report=self.CAPTURE)
        self.refuses(
            "report refused: packet 12 has another time than the report says: is it of this capture?",
            report=self.data(good.replace("079320000", "079321000").encode()),
        )
        self.refuses(
            "report refused: it names packet 99, and the capture has 22 whole packets",
            report=self.data(good.replace("record 14 time", "record 99 time").encode()),
        )
        self.refuses(
            "report refused: it names a packet 0",
            report=self.data(good.replace("record 14 time", "record 0 time").encode()),
        )

    def test_a_cut_capture(self) -> None:
        """What is whole is written, and a line says what is left out."""
        good = self.CAPTURE.read_bytes()
        packed = zstandard.ZstdCompressor(level=0).compress(good[:-1])
        for data in (good[:-1], gzip.compress(good)[:-20], packed):
            done = run(self.data(data), CAPTURE_REPORT, "-o", self.out)
            self.assertEqual(
                (done.returncode, done.stderr),
                (0, b"h2audit-comment: the capture ends within packet 22, which is left out\n"),
            )
            self.assertEqual(len(shown(self.out, ["frame.number"])), 21)

    def test_bytes_that_are_no_packet(self) -> None:
        """As h2audit reads them: they begin a record that the capture's end cuts."""
        good = self.CAPTURE.read_bytes()
        for behind in (struct.pack("<IIII", 0, 0, 2**32 - 1, 0), b"\xff" * 500, b"x"):
            done = run(self.data(good + behind), CAPTURE_REPORT, "-o", self.out)
            said = b"h2audit-comment: the capture ends within packet 23, which is left out\n"
            self.assertEqual((done.returncode, done.stderr), (0, said))
            self.assertEqual(len(shown(self.out, ["frame.number"])), 22)
            self.assertEqual(comments(self.out), SAID_OF_GO)

    def test_files(self) -> None:
        missing = "/nowhere/at all"
        for words, name in (
            ((missing, CAPTURE_REPORT, "-o", self.out), missing),
            ((self.CAPTURE, missing, "-o", self.out), missing),
            ((self.CAPTURE, CAPTURE_REPORT, "-o", missing), missing),
            ((self.CAPTURE, CAPTURE_REPORT, "-o", self.out, "-m", missing), missing),
        ):
            done = run(*words)
            self.assertEqual(
                (done.returncode, done.stderr.decode()), (4, f"h2audit-comment: {name}: No such file or directory\n")
            )

    def test_words(self) -> None:
        for words in (
            (),
            ("a",),
            ("a", "b"),
            ("-", "-", "-o", "c"),
            ("a", "b", "c", "-o", "d"),
            ("--no", "a", "b", "-o", "c"),
        ):
            done = run(*words)
            self.assertEqual((done.returncode, done.stderr.count(b"\n"), done.stdout), (2, 1, b""), words)

    def test_the_capture_may_be_the_output(self) -> None:
        """A file takes the capture's place only once it is whole."""
        capture = self.write("in.pcap", self.CAPTURE.read_bytes())
        os.chmod(capture, 0o640)
        self.assertEqual(run(capture, CAPTURE_REPORT, "-o", capture).returncode, 0)
        self.assertEqual(sorted(comments(capture)), [12, 14])
        self.assertEqual(capture.stat().st_mode & 0o777, 0o640)
        again = run(capture, self.data(b"no report"), "-o", capture)
        self.assertEqual((again.returncode, sorted(comments(capture))), (3, [12, 14]))

    def test_damaged_files(self) -> None:
        """Whatever bytes are changed, there is a capture or a reason, and never a traceback."""
        records, link = records_of(self.CAPTURE)
        blocks = b"".join([section(), interface("<", link)] + [packet("<", 0, micros(one), one) for one in records])
        chance = random.Random(1)
        plain, packed = self.CAPTURE.read_bytes(), [gzip.compress(blocks), zstandard.compress(blocks)]
        for good in (plain, blocks, *packed, CAPTURE_REPORT.read_bytes()):
            for _ in range(50):
                data = bytearray(good)
                for _ in range(chance.randrange(1, 4)):
                    data[chance.randrange(min(len(data), 2000))] = chance.choice(
                        (0, 1, 255, 10, 48, chance.randrange(256))
                    )
                is_report = good[:7] == b"capture"
                words = (self.CAPTURE, self.data(data)) if is_report else (self.data(data), CAPTURE_REPORT)
                done = run(*words, "-o", self.out)
                self.assertIn(done.returncode, (0, 3))
                self.assertLessEqual(done.stderr.count(b"\n"), 1)

    def test_signals(self) -> None:
        """One in the middle of the work leaves no file and says nothing, also where others follow."""
        words = [PROGRAM, "-", CAPTURE_REPORT, "-o", self.out]
        for numbers in (*([one] for one in SIGNALS), sorted(SIGNALS)):
            with self.subTest(numbers):
                begin = self.CAPTURE.read_bytes()[:1000]
                status, said = signalled(words, begin, numbers, lambda: hidden_in(self.folder))
                self.assertIn(-status, numbers)
                self.assertEqual((said, os.listdir(self.folder)), (b"", []))

    def test_closed_files(self) -> None:
        """Standard files that are closed are empty, and take everything."""
        rows = ((("-", CAPTURE_REPORT, "-o", self.out), 3), ((self.CAPTURE, CAPTURE_REPORT, "-o", "-"), 0))
        for words, status in rows:
            closed = ["bash", "-c", '"$0" "$@" <&- >&-', str(PROGRAM), *map(str, words)]
            done = subprocess.run(closed, capture_output=True)
            said = "h2audit-comment: capture refused: short-header: -\n" if status else ""
            self.assertEqual((done.returncode, without_help(done.stderr.decode())), (status, said))
        self.assertEqual(os.listdir(self.folder), [])

    def test_output_that_takes_nothing(self) -> None:
        """A full disk is named, and so for the help text and the version; where nobody reads nothing is said."""
        comment = f"{self.CAPTURE} {CAPTURE_REPORT} -o -"
        for words in (comment, "--help", "--version", "-V"):
            full = ("4\n", "h2audit-comment: standard output: No space left on device\n")
            for output, wanted in (("> /dev/full", full), ("| true", (f"{UNREAD}\n", ""))):
                shell = f'( sleep 0.2; exec "$0" {words} ) {output}; echo "${{PIPESTATUS[0]}}"'
                done = subprocess.run(["bash", "-c", shell, PROGRAM], capture_output=True, text=True)
                self.assertEqual((done.stdout, done.stderr), wanted, words)

    def test_names_are_escaped(self) -> None:
        """What a terminal would act on does not reach it."""
        done = run("/nowhere/re\x1b[31md\n", CAPTURE_REPORT, "-o", self.out)
        said = "h2audit-comment: /nowhere/re\\x1b[31md\\n: No such file or directory\n"
        self.assertEqual((done.returncode, done.stderr.decode()), (4, said))


if __name__ == "__main__":
    unittest.main()
