"""Tests of what follows lost packets (h2audit-import --joined, h2audit-any --joined, h2audit-why): packets are taken
out of the middle of captures of the repository, and what is said behind the gaps is compared with the report of the
whole capture.

    python3 -m tools.tests.imports.gaps_test H2AUDIT [TEST..]

It prints how many stalls behind gaps are told, and how many of those are true.
"""

import collections
import io
import json
import pathlib
import re
import subprocess
import sys
import tempfile
import unittest

from tests.captures import frame
from tests.programs import needed
from tools.tests.companions import companion
from tools.tests.import_tools import ANY, IMPORT, TOP, Packet, Word, capture_named, key_log_of, pcap_of, read_pcap
from tools.tests.imports.joined_tally import share
from tools.tests.imports.limits_test import ACK, HEADER, datagram, record
from tools.tests.joined_cuts import RAW, packets_of, segment_of
from tools.tests.report_lines import Finding, Opening, Stall, read_lines

RUNS = ("$H2AUDIT",)
PROGRAM = ""
WHY = companion("h2audit-why")
FOLDERS = ("examples/*.pcap", "tests/answer/*.pcap", "tests/causes/*.pcap.gz")
NGHTTPD = TOP / "examples" / "stream_stalls_nghttpd.pcap"
HEADERS_OF_13 = re.compile(rb"\x01.\0\0\0\x0d", re.S)
# A side, a stream, when a stall began, and how long it lasted.
Stood = tuple[str, int, int, int | None]


class Reported:
    """What a report of h2audit-any has of each connection: stalls by their times, faults, and how it was joined."""

    def __init__(self, path: pathlib.Path, *words: Word) -> None:
        run = subprocess.run([ANY, "--h2audit", PROGRAM, *words, path], capture_output=True)
        self.status, self.text = run.returncode, run.stdout.decode()
        self.stalls: dict[int, list[Stood]] = collections.defaultdict(list)
        self.faults: dict[int, list[tuple[int, str, str, int]]] = collections.defaultdict(list)
        self.frames: dict[int, int] = {}
        self.behind: dict[int, int] = {}
        number, begins = 0, dict[tuple[str, int, int], int]()
        # Lines on how a connection was joined are none that are read below.
        for one in read_lines_of(self.text):
            if isinstance(one, Opening):
                number, begins = one.number, {}
                self.frames[number] = one.frames
            elif isinstance(one, Finding):
                begins[one.side, one.stream, one.frame] = one.time
                if one.is_fault:
                    self.faults[number].append((one.time, one.side, one.kind, one.stream))
            elif isinstance(one, Stall) and one.begin > 0:
                time = begins[one.side, one.stream, one.begin]
                self.stalls[number].append((one.side, one.stream, time, one.nanos))
        number = 0
        for line in self.text.splitlines():
            words_of = line.split()
            if words_of[0] == "connection":
                number = int(words_of[1])
            elif words_of[0] == "after-gap" and words_of[1] != "none":
                self.behind[number] = int(words_of[1])


def read_lines_of(text: str) -> list[Opening | Finding | Stall]:
    return list(read_lines(io.BytesIO(text.encode())))


def lossy(packets: list[Packet], lost: set[int]) -> list[Packet]:
    """Without some packets, and without what brings their bytes again."""
    gone = {(segment_of(packets[at].data).ends, segment_of(packets[at].data).sequence) for at in lost}
    kept = []
    for at, one in enumerate(packets):
        segment = segment_of(one.data)
        if at not in lost and not (segment.payload and (segment.ends, segment.sequence) in gone):
            kept.append(one)
    return kept


def with_payload(packets: list[Packet]) -> dict[tuple[str, str], list[int]]:
    """By sender and receiver the packets with payload in the middle third."""
    found: dict[tuple[str, str], list[int]] = collections.defaultdict(list)
    for at, one in enumerate(packets):
        segment = segment_of(one.data)
        if segment.payload and len(packets) // 3 <= at < 2 * len(packets) // 3:
            found[segment.ends].append(at)
    return found


def losses_of(packets: list[Packet]) -> list[set[int]]:
    """One packet of each side, several of one, and some of both."""
    by_ends = [at for at in with_payload(packets).values() if len(at) > 2]
    found = [{at[len(at) // 2]} for at in by_ends[:2]]
    found += [set(at[:: max(2, len(at) // 3)]) for at in by_ends[:1]]
    return found + [{at[0] for at in by_ends[:2]}] if len(by_ends) > 1 else found


class InFolder(unittest.TestCase):
    def setUp(self) -> None:
        held = tempfile.TemporaryDirectory(prefix="h2audit-test-")
        self.addCleanup(held.cleanup)
        self.folder = pathlib.Path(held.name)

    def write(self, packets: list[Packet], link: int = RAW) -> pathlib.Path:
        path = self.folder / "in.pcap"
        path.write_bytes(pcap_of(packets, link))
        return path

    def map_of(self, path: pathlib.Path, *words: Word) -> list[str]:
        made = self.folder / "map"
        subprocess.run([IMPORT, "--joined", "-o", self.folder / "out.pcap", "-m", made, *words, path], check=True)
        return made.read_text().splitlines()


class Behind(InFolder):
    """Stalls behind gaps are those of the whole capture."""

    def test_captures(self) -> None:
        counts: collections.Counter[str] = collections.Counter()
        notes: list[str] = []
        for path in sorted(path for folder in FOLDERS for path in TOP.glob(folder)):
            packets = packets_of(path)
            if len(packets) < 30 or len(packets) > 5000:
                continue
            whole = Reported(self.write(packets))
            if any("gap none" not in line for line in whole.text.splitlines() if line.startswith("flow")):
                continue
            for lost in losses_of(packets):
                found = Reported(self.write(lossy(packets, lost)), "--joined")
                self.compare(f"{path.name} without {sorted(lost)}", whole, found, counts, notes)
        print("\n".join(f"{name:24} {count:6}" for name, count in sorted(counts.items())))
        if "-v" in sys.argv:
            print("\n".join(notes))
        self.assertGreater(counts["parts"], 150)
        self.assertGreater(counts["stalls told"], 400)
        self.assertGreaterEqual(share(counts["stalls true"], counts["stalls told"]), 0.95)
        self.assertGreaterEqual(share(counts["stalls true"], counts["stalls behind gaps"]), 0.6)
        self.assertLessEqual(counts["faults false"], 2)

    def compare(
        self, name: str, whole: Reported, found: Reported, counts: collections.Counter[str], notes: list[str]
    ) -> None:
        true = {stall for stalls in whole.stalls.values() for stall in stalls}
        faults = {fault for some in whole.faults.values() for fault in some}
        for part in found.behind:
            counts["parts"] += 1
            told = found.stalls[part]
            right = [stall for stall in told if stall in true]
            counts["stalls told"] += len(told)
            counts["stalls true"] += len(right)
            notes += [f"{name}: false stall {stall}" for stall in told if stall not in true]
            false = [fault for fault in found.faults[part] if fault not in faults]
            counts["faults false"] += len(false)
            notes += [f"{name}: false fault {fault}" for fault in false]
            first = min((time for _, _, time, _ in told), default=None)
            if first is not None:
                last = max(time for _, _, time, _ in told)
                counts["stalls behind gaps"] += sum(first <= stall[2] <= last for stall in true)

    def test_up_to_the_gap_nothing_changes(self) -> None:
        packets = packets_of(NGHTTPD)
        path = self.write(lossy(packets, {15}))
        plain, joined = Reported(path).text.splitlines(), Reported(path, "--joined").text.splitlines()
        self.assertEqual(joined[: len(plain)], plain)
        behind = joined[len(plain) :]
        self.assertTrue(behind[0].startswith("connection 2 client 127.0.0.1:49920 server 127.0.0.1:20470 record 17 "))
        self.assertIn("after-gap 1", behind)
        self.assertTrue(any(line.startswith("joined inferred records ") for line in behind))

    def test_gaps_of_both_sides(self) -> None:
        """Each gap begins a connection of its own, in the order of the packets behind them."""
        packets = packets_of(NGHTTPD)
        lines = self.map_of(self.write(lossy(packets, {15, 16, 23})))
        gaps = [line for line in lines if line.startswith("gap ")]
        self.assertEqual(
            gaps,
            [
                "gap server file 1 packet 16 joined-as 2",
                "gap client file 1 packet 17 joined-as 3",
                "gap server file 1 packet 23 joined-as 4",
            ],
        )
        self.assertEqual(lines.count("after-gap 1"), 3)
        self.assertEqual(sum(line.endswith("sides before") for line in lines), 3)

    def test_a_hole_that_is_filled(self) -> None:
        """Packets in wrong order are no gap, and what is made is as without the option."""
        packets = packets_of(NGHTTPD)
        packets[15], packets[19] = packets[19], packets[15]
        path = self.write(packets)
        lines = self.map_of(path)
        self.assertFalse(any(line.startswith(("gap", "joined", "made")) for line in lines))
        made = (self.folder / "out.pcap").read_bytes()
        subprocess.run([IMPORT, "-o", self.folder / "out.pcap", path], stderr=subprocess.PIPE, check=True)
        self.assertEqual((self.folder / "out.pcap").read_bytes(), made)

    def test_a_repeated_handshake(self) -> None:
        """A SYN that comes again behind a gap opens no connection in what is made."""
        packets = packets_of(NGHTTPD)
        wanted = Reported(self.write(lossy(packets, {23})), "--joined").behind
        again = [*packets[:30], Packet(packets[30].nanos, packets[0].data, len(packets[0].data)), *packets[30:]]
        self.assertEqual((Reported(self.write(lossy(again, {23})), "--joined").behind, len(wanted)), (wanted, 1))

    def test_packets_that_are_not_whole(self) -> None:
        packets = packets_of(NGHTTPD)
        snapped = [Packet(one.nanos, one.data[:80], len(one.data)) for one in packets]
        lines = self.map_of(self.write(snapped))
        gaps = [line for line in lines if line.startswith("gap ")]
        self.assertEqual([line.split()[-2:] for line in gaps], [["unjoined", "snapped"]])

    def test_a_pair_that_began_before(self) -> None:
        """What was met in its middle goes on behind a gap too, and what stands before it shows the gap."""
        packets = packets_of(NGHTTPD)
        path = self.write(lossy(packets, {23})[12:])
        found = Reported(path, "--joined")
        self.assertEqual(found.behind, {2: 1})
        flows = [line for line in found.text.splitlines() if line.startswith("flow server")]
        self.assertEqual(["gap none" in line for line in flows], [False, True])
        true = {stall for stalls in Reported(self.write(packets)).stalls.values() for stall in stalls}
        for number in (1, 2):
            self.assertGreater(len(found.stalls[number]), 3)
            self.assertTrue(set(found.stalls[number]) <= true)


class Encrypted(InFolder):
    def test_tls_1_3(self) -> None:
        """Records behind lost ones are opened by the secrets of the connection."""
        for name in ("h2load-node-many", "key-updates", "stream-overrun-go"):
            with self.subTest(name):
                packets, link = read_pcap(capture_named(name).read_bytes())
                large = [at for at, one in enumerate(packets) if len(one.data) > 400]
                lost = large[2 * len(large) // 3]
                path = self.write(packets[:lost] + packets[lost + 1 :], link)
                lines = self.map_of(path, *key_log_of(name))
                (gap,) = [line for line in lines if line.startswith("gap ")]
                self.assertTrue(gap.split()[-2] == "joined-as", gap)
                self.assertTrue(any(line.startswith("after-gap ") for line in lines))
                found = Reported(path, "--joined", *key_log_of(name))
                (part,) = found.behind
                self.assertGreater(found.frames[part], 0)
                whole = Reported(self.write(packets, link), *key_log_of(name))
                true = {stall for stalls in whole.stalls.values() for stall in stalls}
                self.assertTrue(set(found.stalls[part]) <= true)

    def test_several_gaps(self) -> None:
        """What follows each is a connection of its own, though beginnings of one length would have one SYN's number."""
        for name in ("h2load-node-many", "key-updates", "stream-overrun-go"):
            packets, link = read_pcap(capture_named(name).read_bytes())
            large = [at for at, one in enumerate(packets) if len(one.data) > 400]
            for parts in (3, 4, 6):
                lost = {large[len(large) * at // parts] for at in range(1, parts)}
                path = self.write([one for at, one in enumerate(packets) if at not in lost], link)
                lines = self.map_of(path, *key_log_of(name))
                joined = [line.split()[-1] for line in lines if line.startswith("gap ") and "unjoined" not in line]
                self.assertGreaterEqual(len(joined), parts - 2, (name, lost))
                self.assertEqual(len(set(joined)), len(joined), (name, lost))
                report = Reported(path, "--joined", *key_log_of(name))
                self.assertEqual(len(report.behind), len(joined), (name, lost))

    def test_key_updates(self) -> None:
        """Whichever packet is lost: keys may change in the gap, and those of the other side behind it."""
        name = "key-updates"
        packets, link = read_pcap(capture_named(name).read_bytes())
        lost = [at for at in range(len(packets) // 10, len(packets)) if len(packets[at].data) > 80]
        joined = 0
        for at in lost:
            lines = self.map_of(self.write(packets[:at] + packets[at + 1 :], link), *key_log_of(name))
            ends = [line.split()[-1] for line in lines if line.startswith("flow ")]
            self.assertTrue(set(ends) <= {"whole", "lost", "cut"}, (at, lines))
            joined += sum(line.startswith("gap ") and line.split()[-2] == "joined-as" for line in lines)
        self.assertGreaterEqual(joined, len(lost) - 3)

    def test_tls_1_2(self) -> None:
        """The numbers of its records are not known behind a gap."""
        name = "curl-nginx-12-any-cooked"
        plain, path = self.folder / "plain.pcap", self.folder / "in.pcap"
        subprocess.run(["editcap", "-F", "pcap", capture_named(name), plain], check=True)
        packets, link = read_pcap(plain.read_bytes())
        lost = max(range(len(packets)), key=lambda at: len(packets[at].data))
        path = self.write(packets[:lost] + packets[lost + 1 :], link)
        lines = self.map_of(path, *key_log_of(name))
        gaps = [line.split()[-2:] for line in lines if line.startswith("gap ")]
        self.assertEqual(gaps, [["unjoined", "tls"]])


class Memory(InFolder):
    """What waits of all pairs of endpoints together is bounded."""

    PAIRS = 150
    MOST = 128 << 20  # bytes, of which 64 MiB may wait

    def test_pairs_that_wait(self) -> None:
        """One flow of each shows its frames, and the other one has a byte that shows nothing: a mebibyte waits."""
        content = frame(0, 0, 1, bytes(16_000)) * 4
        records = []
        for turn in range(15):
            for pair in range(self.PAIRS):
                records.append(datagram(pair, 1 + turn * len(content), ACK, content))
        for pair in range(self.PAIRS):
            records.insert(0, datagram(pair, 1, ACK, b"x", is_server=True))
        path = self.folder / "in.pcap"
        path.write_bytes(HEADER + b"".join(record(one, 10**9 + at * 1000) for at, one in enumerate(records)))
        made = self.folder / "map"
        words: list[Word] = ["prlimit", f"--data={self.MOST}", IMPORT, "--joined", "-o", "/dev/null", "-m", made, path]
        run = subprocess.run(words, capture_output=True)
        said = run.stderr.decode()
        self.assertEqual(run.returncode, 0, said)
        lines = made.read_text().splitlines()
        given_up = lines.count("unjoined many-waiting")
        self.assertEqual(given_up + sum(line.startswith("joined-as ") for line in lines), self.PAIRS)
        self.assertTrue(10 < given_up < self.PAIRS - 10, given_up)
        self.assertIn(f"{given_up} connections not joined, since more than 64 MiB of all waited", said)


class Answered(InFolder):
    """What h2audit-why says."""

    def answer(self, path: pathlib.Path, *words: Word) -> subprocess.CompletedProcess[bytes]:
        run = subprocess.run([WHY, "--h2audit", PROGRAM, *words, path], capture_output=True)
        self.assertEqual(run.stderr, b"")
        return run

    def test_below_the_first(self) -> None:
        packets = packets_of(NGHTTPD)
        path = self.write(lossy(packets, {15}))
        said = json.loads(self.answer(path, "--json").stdout)
        first, second = said["connections"]
        self.assertIsNone(first["joined"])
        self.assertEqual((second["joined"]["after_gap"], second["joined"]["after_gap_of"]), (True, 1))
        self.assertEqual(second["joined"]["sides"], "before")
        (request,) = second["requests"]
        self.assertEqual((request["stream"], request["opened_before"]), (13, True))
        self.assertEqual((request["name"], request["method"]), ("GET /f20k.bin", "GET"))
        self.assertEqual({stall["grade"] for stall in second["stalls"]}, {"strong"})
        begin = second["opened"]["packet"]
        self.assertTrue(all(stall["begin"]["packet"] < begin for stall in first["stalls"]))
        text = self.answer(path, "--width", "200").stdout.decode()
        self.assertIn("1 connection, ", text)
        self.assertIn("the connection is joined again behind that", text)
        self.assertLess(text.index("connection 1  127"), text.index("connection 1, joined after the gap  127"))
        self.assertIn("GET /f20k.bin  stream 13 (opened before the gap)", text)

    def test_names_across_gaps(self) -> None:
        """A request that is open across gaps keeps the name that was read before them, and without that has none."""
        packets = packets_of(NGHTTPD)
        names = self.names(self.write(lossy(packets, {15, 16, 23})))
        self.assertEqual(
            names, [[("GET /f20k.bin", False), ("GET /style.css", False)]] + [[("GET /f20k.bin", True)]] * 3
        )
        opening = next(at for at, one in enumerate(packets) if HEADERS_OF_13.search(segment_of(one.data).payload))
        lost = self.names(self.write(lossy(packets, {opening, 15})))
        self.assertNotIn("GET /f20k.bin", [name for part in lost for name, _ in part])
        self.assertIn((None, True), lost[-1])

    def names(self, path: pathlib.Path) -> list[list[tuple[str | None, bool]]]:
        said = json.loads(self.answer(path, "--json").stdout)
        return [[(one["name"], one["opened_before"]) for one in part["requests"]] for part in said["connections"]]

    def test_names_of_tls(self) -> None:
        name = "stream-overrun-go"
        packets, link = read_pcap(capture_named(name).read_bytes())
        large = [at for at, one in enumerate(packets) if len(one.data) > 400]
        lost = large[2 * len(large) // 3]
        path = self.write(packets[:lost] + packets[lost + 1 :], link)
        said = json.loads(self.answer(path, "--json", *key_log_of(name)).stdout)
        behind = [one for one in said["connections"] if one["joined"]]
        found = [(one["name"], one["opened_before"]) for part in behind for one in part["requests"]]
        self.assertEqual(found, [("POST /post", True)])

    def test_without(self) -> None:
        packets = packets_of(NGHTTPD)
        path = self.write(lossy(packets, {15}))
        said = json.loads(self.answer(path, "--json", "--no-joined").stdout)
        self.assertEqual(len(said["connections"]), 1)

    def test_what_the_gap_makes_doubtful_is_not_told(self) -> None:
        """Grants of the client were lost: what the server sent on seems to be an overrun, until it is joined again."""
        packets = packets_of(NGHTTPD)
        path = self.write(lossy(packets, {20}))
        before = json.loads(self.answer(path, "--json", "--no-joined").stdout)
        self.assertGreater(len(before["connections"][0]["faults"]), 0)
        said = json.loads(self.answer(path, "--json").stdout)
        self.assertEqual([one["faults"] for one in said["connections"]], [[], []])


if __name__ == "__main__":
    PROGRAM = needed()[0]
    unittest.main(argv=[argument for argument in sys.argv if argument != "-v"])
