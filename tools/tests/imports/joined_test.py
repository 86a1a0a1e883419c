"""Tests of connections that began before the capture (h2audit-import --joined): captures of the repository are cut at
several places each, and what is said of the rest is compared with the report of the whole.

    python3 -m tools.tests.imports.joined_test H2AUDIT [TEST..]

It prints how many borders, sides and stalls are right. Thresholds were set on captures of examples/, tests/answer/,
tests/causes/ and tests/tls/ (Cuts); on those of tests/joined/ (joined_peers.py) and tests/corpus/ none was (HeldOut).
With -v what is wrong or missed is named.
"""

import gzip
import pathlib
import random
import resource
import struct
import subprocess
import sys
import tempfile
import unittest

from tests.captures import frame, number
from tests.programs import needed
from tools.tests.import_tools import ANY, IMPORT, TOP, Packet, Word, key_log_of, pcap_of, read_pcap
from tools.tests.imports.joined_tally import Tally, share
from tools.tests.joined_cuts import (
    GET,
    RAW,
    SYN,
    Joined,
    Known,
    Whole,
    cuts_of,
    hexed,
    joined,
    packets_of,
    packets_of_script,
    segment_of,
)
from tools.tests.pcapng_blocks import interface, packet, section

RUNS = ("$H2AUDIT",)
PROGRAM = ""
FOLDERS = ("examples/*.pcap", "tests/answer/*.pcap", "tests/causes/*.pcap.gz", "tests/tls/*.pcap*")
HELD_OUT = ("tests/joined/*.pcap.gz", "tests/corpus/*.pcap")
MOST_CONNECTIONS = 3
FLOW_CONTROL_ERROR = 3


def tallied(folders: tuple[str, ...]) -> Tally:
    """What came of all cuts of some captures."""
    tally = Tally()
    for path in sorted(path for folder in folders for path in TOP.glob(folder)):
        keys = path.with_name(f"{path.name.split('.')[0]}.keys")
        words: list[Word] = ["-k", keys] if keys.exists() else []
        whole = Whole(PROGRAM, packets_of(path, *words))
        for one in list(whole.connections.values())[:MOST_CONNECTIONS]:
            for at in cuts_of(whole, one):
                tally.cut(path.name, whole, at, PROGRAM)
    print("\n".join(tally.lines()))
    if "-v" in sys.argv:
        print("\n".join(tally.notes))
    return tally


class Cuts(unittest.TestCase):
    """Bounds on what is inferred, on captures of many peers."""

    def test_cuts(self) -> None:
        self.judge(tallied(FOLDERS), 800, 10)

    def test_held_out(self) -> None:
        """These bounds hold where no threshold was set."""
        self.judge(tallied(HELD_OUT), 200, 3)

    def judge(self, tally: Tally, connections: int, unjoined: int) -> None:
        counts, grades = tally.counts, tally.by_grade
        self.assertGreater(counts["connections"], connections)
        self.assertGreaterEqual(
            share(counts["borders right"], counts["borders right"] + counts["borders wrong"]), 0.998
        )
        self.assertGreaterEqual(share(counts["sides right"], counts["sides right"] + counts["sides wrong"]), 0.995)
        for grade, least in {"strong": 0.98, "likely": 0.93, "either, of two windows": 0.93}.items():
            true, false = grades[grade]
            self.assertGreater(true, 100, grade)
            self.assertGreaterEqual(share(true, true + false), least, grade)
        self.assertGreaterEqual(share(counts["stalls of 1 ms found"], counts["stalls of 1 ms"]), 0.75)
        self.assertLess(share(counts["false faults"], counts["connections"]), 0.001)
        self.assertLessEqual(counts["not joined"], unjoined)


class Exact(unittest.TestCase):
    """Where a part of the handshake alone is lost, nothing is inferred."""

    PATHS = (TOP / "examples" / "stream_stalls_nghttpd.pcap", TOP / "tests" / "tls" / "nghttp-nghttpd-13.pcap")

    def without(self, path: pathlib.Path, lost: int) -> tuple[str, list[str]]:
        """The report of a capture without its first packets that have such flags; and the lines on what is joined."""
        data = path.read_bytes()
        packets, link = read_pcap(data)
        flags_at = self.flags_at(packets, link)
        left = [one for one, flags in zip(packets, flags_at) if flags & 0x3F not in ((2, 18), (2,), (18,))[lost]]
        with tempfile.TemporaryDirectory(prefix="h2audit-test-") as folder:
            source, out, made = (pathlib.Path(folder, name) for name in ("in.pcap", "out.pcap", "map"))
            source.write_bytes(pcap_of(left, link))
            words: list[Word] = [
                IMPORT,
                "--joined",
                "-o",
                out,
                "-m",
                made,
                *key_log_of(path.name.split(".")[0]),
                source,
            ]
            subprocess.run(words, check=True)
            report = subprocess.run([PROGRAM, out], capture_output=True, text=True).stdout
            lines = [line for line in made.read_text().splitlines() if line.startswith(("joined", "made"))]
        return "\n".join(line for line in report.splitlines() if line.startswith(("stall", "flow", "audit"))), lines

    def flags_at(self, packets: list[Packet], link: int) -> list[int]:
        skip = {1: 14, 101: 0, 113: 16}[link]
        found = []
        for one in packets:
            begin = skip + (one.data[skip] & 15) * 4 if one.data[skip] >> 4 == 4 else skip + 40
            found.append(one.data[begin + 13])
        return found

    def test_lost_parts_of_the_handshake(self) -> None:
        words = {0: ("handshake", 2), 1: ("syn", 1), 2: ("syn-ack", 1)}
        for path in self.PATHS:
            key_log = key_log_of(path.name.split(".")[0])
            whole = subprocess.run([ANY, "--h2audit", PROGRAM, *key_log, path], capture_output=True, text=True).stdout
            wanted = "\n".join(line for line in whole.splitlines() if line.startswith(("stall", "flow", "audit")))
            for lost, (word, count) in words.items():
                with self.subTest(path=path.name, lost=word):
                    report, lines = self.without(path, lost)
                    self.assertEqual(report, wanted)
                    self.assertIn(f"joined exact {word} records {count}", lines)
                    self.assertEqual(sum(line.startswith("made ") for line in lines), count)


class Made(unittest.TestCase):
    """What is written, in which order, and when."""

    def setUp(self) -> None:
        self.folder = pathlib.Path(self.enterContext(tempfile.TemporaryDirectory(prefix="h2audit-test-")))
        self.packets = packets_of(TOP / "examples" / "stream_stalls_nghttpd.pcap")

    def made(self, name: str, *words: str) -> tuple[bytes, list[str]]:
        out, made = self.folder / "out.pcap", self.folder / "map"
        subprocess.run([IMPORT, *words, "-o", out, "-m", made, self.folder / name], stderr=subprocess.PIPE)
        return out.read_bytes(), made.read_text().splitlines()

    def source(self, name: str, packets: list[Packet]) -> None:
        (self.folder / name).write_bytes(pcap_of(packets, RAW))

    def test_all_else_stays(self) -> None:
        """What is made without --joined comes first, byte for byte, but of a pair that opened no connection the first
        packet alone; and so do the numbers of other connections.
        """
        host = bytes([10, 0, 0, 9]) * 2
        other = [Packet(one.nanos, one.data[:12] + host + one.data[20:], one.original) for one in self.packets]
        self.source("in.pcap", self.packets[12:] + other)
        plain, plain_map = self.made("in.pcap")
        both, both_map = self.made("in.pcap", "--joined")
        records, strays = read_pcap(plain)[0], len(self.packets) - 12
        first, rest = (24 + sum(16 + len(one.data) for one in records[:count]) for count in (1, strays))
        self.assertTrue(both.startswith(plain[:first] + plain[rest:]))
        self.assertEqual((plain_map[0], both_map[0]), ("h2audit-map 1", "h2audit-map 2"))
        kept = [line for line in plain_map[1:] if not line.startswith(("record", "unopened"))]
        left = iter(both_map)
        self.assertTrue(all(line in left for line in kept), "in this order")
        self.assertIn(next(line for line in plain_map if line.startswith("unopened")), both_map)
        places, both_places = (
            [line.split()[2:] for line in one if line.startswith("record")] for one in (plain_map, both_map)
        )
        places[1:strays] = []
        self.assertEqual(both_places[: len(places)], places)
        behind = read_pcap(both)[0][len(places) :]
        made = sum(line.startswith("made ") for line in both_map)
        self.assertEqual(
            [one.data for one in behind[made:]], [one.data for one in self.packets[12:]], "no packet is altered"
        )
        self.assertEqual({one.nanos for one in behind[:made]}, {self.packets[12].nanos})
        numbers = [int(line.split()[1]) for line in both_map if line.startswith(("record ", "made "))]
        self.assertEqual(numbers, list(range(1, len(read_pcap(both)[0]) + 1)))

    def test_nothing_to_join(self) -> None:
        self.source("in.pcap", self.packets)
        plain, plain_map = self.made("in.pcap")
        both, both_map = self.made("in.pcap", "--joined")
        self.assertEqual((both, both_map[1:]), (plain, plain_map[1:]))

    def test_a_time_that_cannot_be_written(self) -> None:
        """It is refused, also of a packet of which nothing is."""
        packets = packets_of_script([f"C {hexed(b'no frames of HTTP/2. ' * 99)}"] * 9)
        times = [one.nanos for one in packets[:-1]] + [2**63 - 1]
        blocks = [packet("<", 0, time, (0, 0, one.original, one.data)) for time, one in zip(times, packets)]
        (self.folder / "in.pcapng").write_bytes(b"".join([section(), interface("<", RAW, 9), *blocks]))
        for is_joined in (False, True):
            words = ["--joined"] * is_joined
            run = subprocess.run([IMPORT, *words, "-o", "-", self.folder / "in.pcapng"], capture_output=True)
            self.assertEqual((run.returncode, b"refused: bad-time" in run.stderr), (3, True), run.stderr)

    def test_where_packets_wait(self) -> None:
        """In a capture that can be read twice, or else beside it: what is made is the same, also behind gaps."""
        for packets in (self.packets[12:], self.packets[12:40] + self.packets[41:]):
            self.source("in.pcap", packets)
            made, lines = self.made("in.pcap", "--joined")
            source = (self.folder / "in.pcap").read_bytes()
            (self.folder / "in.pcap.gz").write_bytes(gzip.compress(source))
            for name, *words in (("in.pcap.gz", "--joined"), ("in.pcap", "--joined", "--reorder")):
                self.assertEqual(self.made(name, *words)[0], made)
            piped = subprocess.run([IMPORT, "--joined", "-o", "-"], input=source, capture_output=True)
            self.assertEqual(piped.stdout, made)
            self.assertTrue(any(line.startswith("joined ") for line in lines))

    def test_a_later_connection_of_the_pair(self) -> None:
        """A pair may open a connection later: it keeps its number, and both are audited."""
        self.source("in.pcap", self.packets[12:] + self.packets)
        made, lines = self.made("in.pcap", "--joined")
        (self.folder / "made.pcap").write_bytes(made)
        report = subprocess.run([PROGRAM, self.folder / "made.pcap"], capture_output=True, text=True).stdout
        found = [line for line in report.splitlines() if line.startswith("connection ")]
        self.assertEqual(len(found), 2)
        self.assertTrue(all("http2" in line for line in found))
        self.assertIn("joined-as 2", lines)

    def test_what_is_not_joined(self) -> None:
        self.source("text.pcap", [one for one in packets_of_script([f"C {hexed(b'no frames of HTTP/2. ' * 99)}"] * 9)])
        _, lines = self.made("text.pcap", "--joined")
        self.assertIn("unjoined no-frames", lines)
        for version, why in ((1, "tls"), (3, "no-key")):
            records = (bytes([23, 3, version, 4, 0]) + bytes(range(256)) * 4) * 6
            self.source("tls.pcap", packets_of_script([f"S {hexed(records)}"] * 4))
            _, lines = self.made("tls.pcap", "--joined")
            self.assertIn(f"unjoined {why}", lines)


class Credits(unittest.TestCase):
    """What is inferred of captures whose answer is known, as scripts."""

    def joined(self, lines: list[str], change: bool = False) -> tuple[Joined, Known]:
        packets = packets_of_script(lines)
        if change:
            packets[-1], packets[-2] = packets[-2], packets[-1]
        found = joined(PROGRAM, packets)
        self.assertEqual(len(found.said), 1, found)
        return found, next(iter(found.known.values()))

    def rounds(self, stream: int, length: int, count: int) -> list[str]:
        """Content, a pause, a grant, and content at once."""
        step = [f"S DATA {stream} {length}", *["C"] * 20, f"C WINDOW_UPDATE {stream} {length}"]
        return step * count + [f"S DATA {stream} {length}"]

    def test_a_stream_that_was_open(self) -> None:
        found, audit = self.joined(self.rounds(5, 700, 6))
        said = found.said[0]
        self.assertEqual(said.credits["server", "stream 5"], (700, 700))
        self.assertEqual(said.grades["server", "stream 5"], "strong")
        self.assertEqual(len([stall for stall, *_ in audit.stalls if stall.stream == 5]), 7)
        self.assertEqual(([border and border[0] for border in said.borders], said.sides), ([0, 0], "ports"))

    def test_a_new_stream_tells_the_initial_window(self) -> None:
        opening = [f"C {hexed(frame(1, 5, 7, GET))}"]
        found, _ = self.joined(opening + self.rounds(7, 1023, 6))
        self.assertEqual(found.said[0].credits["server", "initial"], (1023, 1023))
        self.assertEqual((found.said[0].grades["server", "initial"], found.said[0].sides), ("strong", "fields"))

    def test_two_windows_of_65_535(self) -> None:
        """Both may have been used up: the number, at which the connection's window begins too, speaks for neither."""
        full = [f"S DATA 5 {length}" for length in (16_384, 16_384, 16_384, 16_383)]
        grants = ["C WINDOW_UPDATE 0 65535", "C WINDOW_UPDATE 5 65535"]
        found, _ = self.joined([*full, *["C"] * 700, *grants, *full])
        grades = found.said[0].grades
        self.assertEqual((grades["server", "stream 5"], grades["server", "connection"]), ("either", "either"))

    def test_silence_that_two_grants_end(self) -> None:
        silent = ["C PING", "S PING", *["C"] * 400, "C WINDOW_UPDATE 0 5000", "C WINDOW_UPDATE 5 5000"]
        found, audit = self.joined([*silent, "S DATA 5 700", "S DATA 5 700"])
        self.assertEqual(found.said[0].grades["server", "stream 5"], "either")
        self.assertEqual([stall.stream for stall, *_ in audit.stalls], [5])

    def test_credit_below_zero(self) -> None:
        """Settings from before lowered the window: a stream waits until grants have brought it above 0."""
        silent = ["C WINDOW_UPDATE 5 100", *["C"] * 400, "C WINDOW_UPDATE 5 1000"]
        found, audit = self.joined(["C PING", "S PING", *silent, *self.rounds(5, 700, 8)])
        credit, least = found.said[0].credits["server", "stream 5"]
        self.assertEqual((credit, least), (-400, -400))
        self.assertEqual(audit.stalls[0][0].stream, 5)

    def test_weak_evidence_shows_no_stall(self) -> None:
        found, audit = self.joined(["C PING", "S DATA 5 900", "C WINDOW_UPDATE 5 900", "S DATA 5 800"])
        self.assertEqual(found.said[0].grades["server", "stream 5"], "bound")
        self.assertEqual(audit.stalls, [])

    def test_times_that_go_back(self) -> None:
        found, audit = self.joined(self.rounds(5, 700, 6), change=True)
        self.assertEqual(set(found.said[0].grades.values()), {"bound"})
        self.assertEqual(audit.stalls, [])

    def test_an_overrun_that_was_answered(self) -> None:
        lines = [*self.rounds(5, 700, 6), "S DATA 5 50", f"C {hexed(frame(3, 0, 5, number(FLOW_CONTROL_ERROR)))}"]
        found, audit = self.joined(lines)
        self.assertEqual(found.said[0].grades["server", "stream 5"], "broken")
        self.assertEqual([(fault.kind, fault.stream) for fault in audit.faults], [("stream-overrun", 5)])

    def test_settings_from_before(self) -> None:
        found, audit = self.joined(["C ACK", "S PING", "S DATA 5 10", "S ACK", "C ACK"])
        self.assertEqual(audit.faults, [])
        self.assertEqual(found.said[0].how, "inferred")

    def test_what_was_not_opened(self) -> None:
        """A stream above one that the client opens later was not opened: that is certain."""
        lines = ["S DATA 9 10", "S DATA 5 10", f"C {hexed(frame(1, 5, 7, GET))}"]
        _, audit = self.joined(lines)
        self.assertEqual([(fault.kind, fault.stream) for fault in audit.faults], [("not-opened", 9)])

    def test_pushed_streams_and_long_frames(self) -> None:
        promise = f"S {hexed(frame(5, 4, 1, number(8) + GET))}"
        found, audit = self.joined(["S DATA 6 10", promise, "S DATA 8 30000", "S DATA 8 20000", "C WINDOW_UPDATE 8 9"])
        self.assertEqual((audit.faults, found.said[0].sides), ([], "promise"))

    def test_around_the_end_of_numbers(self) -> None:
        packets = packets_of_script(self.rounds(5, 700, 6))
        moved = []
        for one in packets:
            header = (one.data[0] & 15) * 4
            sequence = (struct.unpack_from(">I", one.data, header + 4)[0] - 6000) % 2**32
            data = one.data[: header + 4] + number(sequence) + one.data[header + 8 :]
            moved.append(Packet(one.nanos, data, one.original))
        self.assertFalse(any(segment_of(one.data).flags & SYN for one in moved))
        found = joined(PROGRAM, moved)
        self.assertEqual(found.said[0].grades["server", "stream 5"], "strong")
        self.assertEqual(next(iter(found.known.values())).faults, [])


class Hostile(unittest.TestCase):
    """Bytes among which borders are looked for in vain, or at each place."""

    UNITS = {
        "zeros": b"\0",
        "headers of no content": bytes.fromhex("000000000000000001"),
        "headers of long content": bytes.fromhex("004000000000000001"),
        "noise": random.Random(7).randbytes(65_521),
    }
    SMALL, TIMES, MOST = 2 << 20, 6, 2.5

    def capture(self, unit: bytes, size: int) -> bytes:
        """So many bytes of the server, beside grants of the client."""
        grant = frame(8, 0, 0, number(256))
        data = (unit * (size // len(unit) + 1))[:size]
        packets: list[Packet] = []
        sent = [1, 1]
        for at in range(0, size, 1400):
            for side, payload in enumerate((grant, data[at : at + 1400])):
                packets.append(Packet(10**9 + 1000 * len(packets), segment(side, sent[side], payload), 0))
                sent[side] += len(payload)
        return pcap_of((one._replace(original=len(one.data)) for one in packets), RAW)

    def seconds(self, capture: bytes) -> float:
        """The seconds of processors, the least of three runs."""
        found = []
        with tempfile.NamedTemporaryFile(prefix="h2audit-test-", suffix=".pcap") as source:
            source.write(capture)
            source.flush()
            for _ in range(3):
                before = resource.getrusage(resource.RUSAGE_CHILDREN)
                subprocess.run([IMPORT, "--joined", "-o", "/dev/null", source.name], stderr=subprocess.PIPE)
                after = resource.getrusage(resource.RUSAGE_CHILDREN)
                found.append(after.ru_utime + after.ru_stime - before.ru_utime - before.ru_stime)
        return min(found)

    def test_the_search_is_linear(self) -> None:
        for name, unit in self.UNITS.items():
            with self.subTest(name):
                small = self.seconds(self.capture(unit, self.SMALL))
                large = self.seconds(self.capture(unit, self.SMALL * self.TIMES))
                print(f"{name}: {small:.3f} s, {self.TIMES} times as many bytes {large:.3f} s")
                self.assertLess(large, max(small, 0.02) * self.TIMES * self.MOST)


def segment(side: int, sequence: int, payload: bytes) -> bytes:
    """A packet of IPv4."""
    addresses = (b"\x0a\0\0\1", b"\x0a\0\0\2")
    ports = (40_000, 80)
    length = 40 + len(payload)
    head = struct.pack(">BBHHHBBH", 0x45, 0, length, 0, 0, 64, 6, 0) + addresses[side] + addresses[1 - side]
    tcp = struct.pack(">HHIIBBHHH", ports[side], ports[1 - side], sequence, 1, 0x50, 16, 65_535, 0, 0)
    return head + tcp + payload


if __name__ == "__main__":
    PROGRAM = needed()[0]
    unittest.main(argv=[argument for argument in sys.argv if argument != "-v"])
