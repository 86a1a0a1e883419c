"""Tests of h2audit-fleet --watch: python3 -m tools.tests.fleet.watch_test PROGRAM

A real tcpdump writes a ring of files of what real peers say; what the database should have of them is what h2audit-why
says of all files at once.
"""

import contextlib
import gzip
import io
import json
import os
import pathlib
import re
import shutil
import signal
import sqlite3
import subprocess
import tempfile
import unittest
import zlib
from collections import Counter
from collections.abc import Iterator
from typing import ClassVar
from unittest import mock

from bench import generate, wire
from h2audit.fleet import database, metrics, rings
from h2audit.fleet.rings import Seen, Writer
from h2audit.fleet.rows import FIRST_ROW, Rows
from h2audit.fleet.tasks import TaskAnswer
from h2audit.fleet.watched import OPEN, SCHEMA, Part, Watched, path_of_stretch
from tools.tests.companions import companion
from tools.tests.fleet.captures import PATIENCE, PROGRAM, TOP, Machine, until
from tools.tests.peers import RawClient, can_capture, dumping, folder_to_serve, nghttpd

RUNS = ("$H2AUDIT BesideTcpdump", "$H2AUDIT Files Carrying Rings")
QUICK = ("$H2AUDIT Files Carrying Rings",)
TIMED = True
ROUNDS = 9
EXAMPLE = (TOP / "examples" / "paused_stream_node.pcap").read_bytes()
USED_AFTER_RESET = (TOP / "examples" / "use_after_reset.pcap").read_bytes()
FAULTY = (TOP / "examples" / "stream_overrun_go.pcap").read_bytes()
NAMES = re.compile(r"[a-zA-Z_:][a-zA-Z0-9_:]*")
SAMPLE = re.compile(r"([a-zA-Z_:][a-zA-Z0-9_:]*)(?:\{(.*)\})? (\S+)")
LABEL = re.compile(r'([a-zA-Z_][a-zA-Z0-9_]*)="((?:[^"\\\n]|\\["\\n])*)"(?:,|$)')
Frames = list[tuple[int, int, int, bytes]]
Samples = dict[tuple[str, str], float]


def samples_of(text: str) -> Samples:
    """The samples of a text file of Prometheus, each behind the HELP and the TYPE of its metric."""
    assert text.endswith("\n")
    kinds: dict[str, str] = {}
    found: Samples = {}
    helped, last = set(), ""
    for line in text.splitlines():
        if line.startswith("# HELP "):
            name = line.split(" ", 3)[2]
            assert NAMES.fullmatch(name) and name not in helped, line
            helped.add(name)
        elif line.startswith("# TYPE "):
            _, _, name, kind = line.split(" ")
            assert name in helped and name not in kinds and kind in ("counter", "gauge"), line
            assert (kind == "counter") == name.endswith("_total"), line
            kinds[name] = kind
            last = name
        else:
            sample = SAMPLE.fullmatch(line)
            assert sample and sample[1] == last, line
            rest = LABEL.sub("", sample[2] or "")
            assert not rest, line
            place = sample[1], sample[2] or ""
            assert place not in found, line
            found[place] = float(sample[3])
    return found


class WatchingMachine(Machine):
    """A machine whose ring is in its folder `ring`."""

    def __enter__(self) -> "WatchingMachine":
        super().__enter__()
        self.joins = True
        self.link("h2audit-why", companion("h2audit-why"))
        self.ring.mkdir()
        return self

    @property
    def ring(self) -> pathlib.Path:
        return self.folder / "ring"

    @property
    def text_file(self) -> pathlib.Path:
        return self.folder / "h2audit.prom"

    def put(self, name: str, octets: bytes, seconds: int) -> pathlib.Path:
        """A file that was closed at a time."""
        path = self.ring / name
        path.write_bytes(octets)
        os.utime(path, (seconds, seconds))
        return path

    def watching(self, *words: object) -> subprocess.Popen[str]:
        return self.start("--watch", "ring", "--metrics", self.text_file, "--resume", *words)

    @contextlib.contextmanager
    def watched(self, *words: object) -> Iterator[subprocess.Popen[str]]:
        """A watch that SIGTERM ends, and that says nothing but its last line."""
        child = self.watching(*words)
        try:
            yield child
            child.send_signal(signal.SIGTERM)
            said, error = child.communicate(timeout=PATIENCE)
            assert (child.returncode, error) == (0, ""), (child.returncode, said, error)
        finally:
            child.kill()
            child.communicate()

    def counters(self) -> Samples:
        return samples_of(self.text_file.read_text()) if self.text_file.exists() else {}

    def value(self, name: str, **labels: str) -> float:
        return self.counters().get((name, metrics.written(labels)), 0.0)

    def waits_for(self, files: int) -> None:
        """Until so many files are told, as audited or not."""

        def told() -> float:
            found = self.counters()
            names = (metrics.CAPTURES, metrics.NOT_AUDITED)
            return sum(value for (name, _), value in found.items() if name in names)

        until(lambda: told() >= files, lambda: f"{told()} of {files}: {self.text_file.read_text()}")

    def rows(self, table: str) -> Counter[tuple[object, ...]]:
        """The rows of a table without the number of their capture."""
        return Counter(row[1:] for row in self.ask(f"SELECT * FROM {table}"))


def at_once(files: list[pathlib.Path]) -> dict[str, Counter[tuple[object, ...]]]:
    """The rows of h2audit-why on all files."""
    base = sqlite3.connect(":memory:")
    base.executescript((TOP / "h2audit" / "fleet" / "schema.sql").read_text())
    columns = {table: len(base.execute(f"PRAGMA table_info({table})").fetchall()) - 1 for table in database.TABLES}
    columns["captures"] = len(database.HEADS)
    with tempfile.TemporaryDirectory() as folder:
        words = ["--h2audit", str(PROGRAM), "--no-requests", "--rows", f"{folder}/rows", "--report", "/dev/null"]
        subprocess.run([companion("h2audit-why"), *words, *files], check=False, timeout=PATIENCE)
        octets = pathlib.Path(folder, "rows").read_bytes()
    found: dict[str, Counter[tuple[object, ...]]] = {table: Counter() for table in database.TABLES}
    for table, values in Rows(columns).of(io.BytesIO(octets)):
        found[table][values] += 1
    return found


def ring_of(folder: pathlib.Path, port: int) -> contextlib.AbstractContextManager[None]:
    """tcpdump, which begins another file after each megabyte."""
    return dumping(folder / "cap.pcap", "-i", "lo", "-C", "1", "-W", "90", f"tcp port {port}", wait=1)


def waiting_client(port: int) -> Iterator[None]:
    """One connection, on which each answer waits for a grant while another connection fills a file of the ring."""
    client = RawClient(port)

    def has_ended(frames: Frames, stream: int) -> bool:
        return any(kind == 0 and flags & 1 and of == stream for kind, flags, of, _ in frames)

    for stream in range(1, 2 * ROUNDS, 2):
        client.get(stream, "/large")
        client.read_until(lambda _, of=stream: client.content(of) >= 65535)  # type: ignore[misc]
        other = RawClient(port, (4).to_bytes(2, "big") + (1 << 24).to_bytes(4, "big"))
        other.grant(0, size=1 << 24)
        other.get(1, "/mega")
        other.read_until(lambda frames: has_ended(frames, 1))
        other.close()
        yield
        client.grant(0, stream)
        client.read_until(lambda frames, of=stream: has_ended(frames, of))  # type: ignore[misc]
    client.close()


@unittest.skipUnless(can_capture and PROGRAM, "needs tcpdump, root and a program")
class BesideTcpdump(unittest.TestCase):
    """A watch beside a ring that is written, killed in the midst of it; and another one over the same files."""

    machine: ClassVar[WatchingMachine]
    files: ClassVar[list[pathlib.Path]]
    wanted: ClassVar[dict[str, Counter[tuple[object, ...]]]]
    seen: ClassVar[list[Samples]] = []

    @classmethod
    def setUpClass(cls) -> None:
        cls.machine = cls.enterClassContext(WatchingMachine([], PROGRAM))
        served = cls.enterClassContext(folder_to_serve())
        child = cls.machine.watching()
        cls.addClassCleanup(child.communicate)
        with nghttpd(served) as port:
            with ring_of(cls.machine.ring, port):
                for number, _ in enumerate(waiting_client(port)):
                    cls.machine.waits_for(number // 2)
                    cls.seen.append(cls.machine.counters())
                    if number == ROUNDS // 2:
                        child.kill()
                        child.communicate()
                        child = cls.machine.watching()
                        cls.addClassCleanup(child.communicate)
        cls.files = sorted(cls.machine.ring.iterdir())
        cls.machine.waits_for(len(cls.files))
        cls.seen.append(cls.machine.counters())
        child.send_signal(signal.SIGTERM)
        said = child.communicate(timeout=PATIENCE)
        assert (child.returncode, said[1]) == (0, ""), said
        cls.wanted = at_once(cls.files)

    def test_as_at_once(self) -> None:
        """A stretch with all files has the rows of all files at once, whatever of it was entered before."""
        self.assertGreater(len(self.files), 6)
        self.assertEqual(self.machine.ask("SELECT COUNT(*), MIN(outcome) FROM captures"), [(1, "audited")])
        for table in database.TABLES:
            self.assertEqual(self.machine.rows(table), self.wanted[table], table)
        self.assertEqual(len(self.wanted["requests"]), 2 * ROUNDS)
        self.assertGreaterEqual(len(self.wanted["stalls"]), ROUNDS)

    def test_whole(self) -> None:
        for check, answer in (("foreign_key_check", []), ("integrity_check", [("ok",)])):
            self.assertEqual(self.machine.ask(f"PRAGMA {check}"), answer)
        self.assertEqual([path.name for path in self.machine.folder.glob("audits.sqlite*")], ["audits.sqlite"])
        # What was killed leaves its folder, and nothing else is left.
        self.assertLessEqual(len(list((self.machine.folder / "temporary").iterdir())), 1)

    def test_counters(self) -> None:
        """No counter falls, also where the watch was killed, and in the end they say what the rows say."""
        for before, after in zip(self.seen, self.seen[1:]):
            for place, value in before.items():
                if place[0].endswith("_total"):
                    self.assertGreaterEqual(after[place], value, place)
        last = self.seen[-1]
        self.assertEqual(last[metrics.CAPTURES, ""], len(self.files))
        self.assertEqual(last[metrics.BYTES, ""], sum(path.stat().st_size for path in self.files))
        self.assertEqual(last[metrics.REQUESTS, ""], 2 * ROUNDS)
        self.assertEqual(last[metrics.WAITING, ""], 0)
        self.assertAlmostEqual(last[metrics.LAST, ""], max(path.stat().st_mtime for path in self.files), 3)
        held = self.machine.ask(
            "SELECT cause, side, COUNT(*) FROM requests WHERE cause LIKE '%window' GROUP BY cause, side"
        )
        self.assertTrue(held)
        for cause, side, number in held:
            self.assertEqual(last[metrics.HELD, metrics.written({"cause": cause, "side": side})], number)
        seconds = sum(value for (name, _), value in last.items() if name == metrics.STALL_SECONDS)
        self.assertAlmostEqual(seconds, self.machine.ask("SELECT SUM(nanos) / 1e9 FROM stalls")[0][0], 6)

    def test_short_stretches(self) -> None:
        """Where a connection goes on over several stretches each request, and each stall of it, stands once."""
        with WatchingMachine([], PROGRAM) as machine:
            for path in self.files:
                shutil.copy2(path, machine.ring)
            with machine.watched("--stretch", "3"):
                machine.waits_for(len(self.files))
            self.assertGreater(machine.ask("SELECT COUNT(*) FROM captures")[0][0], 2)
            self.assertGreater(machine.ask("SELECT COUNT(*) FROM continued")[0][0], 2)
            places = "SELECT client, server, stream{} FROM requests JOIN connections USING (capture) " \
                     "WHERE requests.connection = number"  # fmt: skip
            found = Counter(machine.ask(places.format("")))
            self.assertEqual(found, Counter(self.machine.ask(places.format(""))))
            lives, wanted = (sorted(one.ask(places.format(", nanos"))) for one in (machine, self.machine))
            self.assertEqual(lives, wanted)
            stalls = "SELECT COUNT(*), SUM(last IS NULL), SUM(nanos) / 1e9 FROM stalls WHERE side = 'server'"
            [(number, still_open, seconds)] = machine.ask(stalls)
            [(most, _, total)] = self.machine.ask(stalls)
            self.assertLessEqual(number, most)
            self.assertLessEqual(seconds, total + 1e-6)
            # How many stalls the ends of files divide is the machine's doing.
            self.assertGreater(seconds, 0.25 * total)
            self.assertEqual(machine.ask("PRAGMA foreign_key_check"), [])
            self.assertEqual(machine.value(metrics.REQUESTS), 2 * ROUNDS)
            # Where the later stretch does not see that a window had no credit, a stall stays open where it began.
            self.assertLess(still_open, machine.ask("SELECT COUNT(*) FROM captures")[0][0])


@unittest.skipUnless(PROGRAM, "needs a program")
class Files(unittest.TestCase):
    """Files that come one after the other."""

    def setUp(self) -> None:
        self.machine = self.enterContext(WatchingMachine([], PROGRAM))

    def outcomes(self) -> list[tuple[object, ...]]:
        return self.machine.ask("SELECT outcome, reason FROM captures ORDER BY id")

    def test_overwritten(self) -> None:
        """A file that the ring overwrites while it is read is told as lost, and none of its rows is entered."""
        first = self.machine.put("a.pcap1", FAULTY, 1000)
        self.machine.script("h2audit-why", f"""
            if [ ! -e {self.machine.folder}/once ]; then
                touch {self.machine.folder}/once
                cp {self.machine.folder}/other {first}
            fi
            exec {companion('h2audit-why')} "$@"
        """)  # fmt: skip
        (self.machine.folder / "other").write_bytes(EXAMPLE)
        self.machine.put("a.pcap2", EXAMPLE, 1001)
        child = self.machine.watching()
        self.machine.waits_for(3)
        child.send_signal(signal.SIGTERM)
        said, error = child.communicate(timeout=PATIENCE)
        self.assertEqual((child.returncode, said), (0, "3 files: 1 not audited\n"))
        self.assertEqual(error, f"h2audit-fleet: {first}: failed: overwritten\n")
        self.assertEqual(self.outcomes()[0], ("failed", "overwritten"))
        self.assertEqual(self.machine.ask("SELECT COUNT(*) FROM faults"), [(0,)])
        self.assertEqual(self.machine.value(metrics.NOT_AUDITED, reason="overwritten"), 1)
        self.assertEqual(self.machine.ask("SELECT path, reason FROM not_audited WHERE what = 'capture'"),
                         [(f"{first}@1000000000000", "failed: overwritten")])  # fmt: skip

    def test_wrapped(self) -> None:
        """A stretch whose first file was overwritten stands as it was entered, and the file begins another one."""
        first = self.machine.put("a.pcap1", EXAMPLE, 1000)
        with self.machine.watched():
            self.machine.put("a.pcap2", FAULTY, 1001)
            self.machine.waits_for(2)
            self.machine.put("a.pcap1", USED_AFTER_RESET, 1002)
            self.machine.waits_for(3)
        self.assertEqual(self.machine.ask("SELECT path, outcome FROM captures ORDER BY id"),
                         [(f"{first}@{seconds}000000000", "audited") for seconds in (1000, 1002)])  # fmt: skip
        self.assertEqual(self.machine.ask("SELECT capture, kind FROM findings WHERE broke <> 'nobody' ORDER BY 1, 2"),
                         [(1, "stream-overrun"), (2, "after-end"), (2, "not-opened")])  # fmt: skip
        self.assertEqual(self.machine.value(metrics.FAULTS, broke="server", kind="not-opened"), 1)

    def test_refused(self) -> None:
        """A file that is no capture is told alone, and no stretch goes on over it."""
        self.machine.put("a.pcap1", FAULTY, 1000)
        self.machine.put("a.pcap2", b"no capture at all", 1001)
        self.machine.put("a.pcap3", EXAMPLE, 1002)
        child = self.machine.watching()
        self.machine.waits_for(3)
        child.send_signal(signal.SIGINT)
        _, error = child.communicate(timeout=PATIENCE)
        path = self.machine.ring / "a.pcap2"
        self.assertEqual((child.returncode, error), (0, f"h2audit-fleet: {path}: refused: bad-magic\n"))
        self.assertEqual(self.outcomes(), [("audited", None), ("refused", "bad-magic"), ("audited", None)])
        self.assertEqual(self.machine.value(metrics.FAULTS, broke="client", kind="stream-overrun"), 1)

    def test_compressed(self) -> None:
        """What is compressed once it was audited is the same file; what comes compressed is read as any other."""
        path = self.machine.put("a.pcap1", FAULTY, 1000)
        with self.machine.watched():
            self.machine.waits_for(1)
            subprocess.run(["gzip", path], check=True)
            self.machine.put("a.pcap2.gz", gzip.compress(EXAMPLE), 1001)
            self.machine.waits_for(2)
        self.assertEqual(self.machine.ask("SELECT COUNT(*) FROM captures"), [(1,)])
        self.assertEqual(self.machine.rows("requests"), at_once(sorted(self.machine.ring.iterdir()))["requests"])
        with self.machine.watched():
            self.machine.put("a.pcap3", EXAMPLE, 1002)
            self.machine.waits_for(3)
        self.assertEqual(self.machine.value(metrics.CAPTURES), 3)

    def counted(self) -> float:
        """What rows count, all together."""
        names = (metrics.CONNECTIONS, metrics.UNREAD, metrics.REQUESTS, metrics.STALLS, metrics.FAULTS)
        return sum(value for (name, _), value in self.machine.counters().items() if name in names)

    def test_bound(self) -> None:
        """The database stays below its bound: the oldest captures go, and what they counted stays."""
        octets = io.BytesIO()
        generate.SHAPES["openings"](wire.Capture(octets), 60_000)
        sizes, counts, most = [], [0.0], 9
        with self.machine.watched("--keep", "1"):
            for number in range(most):
                self.machine.put(f"r{number}.pcap", octets.getvalue(), 1000 + number)
                self.machine.waits_for(number + 1)
                sizes.append(self.machine.database.stat().st_size)
                counts.append(self.counted())
        self.assertLess(max(sizes), 10**6)
        self.assertGreater(self.machine.value(metrics.DROPPED), 0)
        left = self.machine.ask("SELECT COUNT(*) FROM captures")[0][0]
        self.assertTrue(2 <= left < most, left)
        self.assertGreater(counts[1], 0)
        self.assertEqual(counts, [number * counts[1] for number in range(most + 1)])
        for check, answer in (("foreign_key_check", []), ("integrity_check", [("ok",)])):
            self.assertEqual(self.machine.ask(f"PRAGMA {check}"), answer)


REQUEST = ["GET /a", "GET", "/a", "x", 200, None, None]
CAUSE = ["stream-window", "granted-late", "server", "client"]
ENDS = ("127.0.0.1:1", "127.0.0.1:2")


class Carrying(unittest.TestCase):
    """What goes on from one stretch to the next, by rows."""

    def setUp(self) -> None:
        folder = self.enterContext(tempfile.TemporaryDirectory())
        self.base = Watched(f"{folder}/db", True, False, None)
        self.addCleanup(self.base.close)

    def enter(self, number: int, *rows: list[object]) -> None:
        lines = [["captures", *[0] * 7], *rows]
        text = FIRST_ROW.decode() + "".join(f"{json.dumps(row)}\n" for row in lines)
        packed = zlib.compress(text.encode())
        answer = TaskAnswer(
            outcome="audited", status=0, version="1", options="", tries=1, rows=packed, has_requests=True
        )
        entered = self.base.enter_part(Part("r", [Seen(b"/r%d" % number, 10, number * 10**9)], 1, OPEN), answer)
        self.assertEqual(entered.outcome, "audited")

    def connection(self, joined: str | None) -> list[object]:
        return ["connections", 1, *ENDS, 1, "http2", 9, 9, None, 0, None, 9, None, 0, None, None, joined]

    def request(self, stream: int, time: int, nanos: int, ended: str, is_before: bool, **more: object) -> list[object]:
        """A request whose window held it back for all of its life."""
        said = more.get("said", REQUEST if not is_before else [None] * 7)
        assert isinstance(said, list)
        return ["requests", 1, stream, *said, 1, 1, time, nanos, nanos, 0, ended, None, None, None, None, None, *CAUSE,
                nanos, 1, 2, 1, f"stalled {nanos}", None, None, int(is_before)]  # fmt: skip

    def direction(self, stream: int, nanos: int) -> list[object]:
        return ["directions", 1, stream, "server", nanos, 100, 1, 0, 0, nanos, 0, 0, 0, 0, 0, 1, 2]

    def stall(self, first: int | None, last: int | None, nanos: int) -> list[object]:
        return ["stalls", 1, 1, "server", 5, first, last, nanos, "client", None]

    def first(self) -> None:
        self.enter(1, self.connection(None), self.request(3, 100, 50, "END_STREAM", False),
                   self.request(5, 200, 300, "capture", False), self.direction(5, 300),
                   self.request(7, 200, 300, "capture", False), self.stall(4, None, 300))  # fmt: skip

    def second(self, nanos: int, ended: str) -> None:
        last = 9 if ended == "END_STREAM" else None
        self.enter(2, self.connection("inferred"), self.request(5, 600, nanos, ended, True), self.direction(5, nanos),
                   self.request(3, 600, nanos, "capture", True), self.stall(None, last, nanos))  # fmt: skip

    def ask(self, question: str) -> list[tuple[object, ...]]:
        return self.base.base.execute(question).fetchall()

    def counted(self, name: str, **labels: str) -> float:
        return samples_of(self.base.metrics(0))[name, metrics.written(labels)]

    REQUESTS = "SELECT capture, stream, name, time, nanos, stalled_nanos, ended, text FROM requests ORDER BY stream"

    def test_carried(self) -> None:
        """A request and a stall stand once, at their end, and again where they stood before if that is entered anew."""
        self.first()
        self.assertEqual(self.counted(metrics.REQUESTS), 1)
        self.base.seal("r")
        for nanos, ended in ((10, "capture"), (400, "END_STREAM")):
            self.second(nanos, ended)
            self.assertEqual(self.ask(self.REQUESTS), [
                (1, 3, "GET /a", 100, 50, 50, "END_STREAM", "stalled 50"),
                (2, 5, "GET /a", 200, 400 + nanos, 300 + nanos, ended, f"stalled {max(300, nanos)}"),
                (1, 7, "GET /a", 200, 300, 300, "capture", "stalled 300"),
            ])  # fmt: skip
            self.assertEqual(self.ask("SELECT capture, nanos, stream_stall_nanos, content FROM directions"),
                             [(2, 300 + nanos, 300 + nanos, 200)])  # fmt: skip
            last = 9 if ended == "END_STREAM" else None
            # From 500, where the first part ends, up to 600 nothing of the connection was seen.
            self.assertEqual(self.ask("SELECT capture, first, last, nanos FROM stalls"),
                             [(2, None, last, 400 + nanos)])  # fmt: skip
            self.assertEqual(self.ask("SELECT * FROM continued"), [(2, 1, 1, 1)])
        self.assertEqual(self.counted(metrics.REQUESTS), 2)
        self.assertEqual(self.counted(metrics.CONNECTIONS), 1)

    def test_legs(self) -> None:
        """What is said of a request at a proxy goes away with it, and comes back with it."""
        self.first()
        self.base.base.execute(
            "INSERT INTO legs (capture, connection, stream, hop, tries, openings) VALUES (1, 1, 5, 1, 1, 1)"
        )
        self.base.seal("r")
        for rows, left in (
            ((), 1),
            ((self.connection("inferred"), self.request(5, 600, 9, "capture", True)), 0),
            ((), 1),
        ):
            self.enter(2, *rows)
            self.assertEqual(self.ask("SELECT COUNT(*) FROM legs WHERE stream = 5"), [(left,)])

    def test_counted(self) -> None:
        """What was open for a whole stretch more counts then, and not once more where it goes on after all."""
        held = {"cause": "stream-window", "side": "server"}
        self.first()
        self.base.seal("r")
        self.enter(2)
        self.base.seal("r")
        self.assertEqual(self.counted(metrics.HELD, **held), 3)
        self.enter(3, self.connection("inferred"), self.request(5, 600, 9, "END_STREAM", True), self.stall(None, 9, 9))
        self.assertEqual(self.ask("SELECT capture FROM requests WHERE stream = 5"), [(3,)])
        self.assertEqual(self.counted(metrics.HELD, **held), 3)
        self.assertEqual(self.counted(metrics.STALLS, side="server", window="stream"), 1)

    def test_never_less(self) -> None:
        """A capture whose rows are gone counts, and a sum that another audit would lessen stays."""
        self.first()
        held = {"cause": "stream-window", "side": "server"}
        self.assertEqual(self.counted(metrics.HELD, **held), 1)
        self.base.drop(1)
        self.assertEqual(self.ask("SELECT COUNT(*) FROM captures"), [(0,)])
        self.assertEqual(self.counted(metrics.HELD, **held), 3)
        self.second(9, "END_STREAM")
        self.assertEqual(self.counted(metrics.HELD, **held), 4)
        self.enter(2)
        self.assertEqual(self.counted(metrics.HELD, **held), 4)


class Rings(unittest.TestCase):
    def test_names(self) -> None:
        """Which files are of one ring, and in which order they were closed."""
        for one, other in (
            ("cap.pcap", "cap.pcap1"),
            ("cap.pcap07", "cap.pcap12.gz"),
            ("cap_20261129101010.pcap", "cap_20261129111010.pcap3"),
            ("cap-10-20-30.pcap", "cap-11-00-07.pcap"),
            ("cap-2026-11-29T10:20:30.pcap", "cap-2026-11-29T11:02:03.pcap.zst"),
            ("cap_00001_20261129101010.pcapng", "cap_00002_20261129101110.pcapng"),
        ):
            self.assertEqual(rings.ring_of(one.encode()), rings.ring_of(other.encode()), (one, other))
        for one, other in (("eth0.pcap1", "eth1.pcap1"), ("a.pcap1", "b.pcap1"), ("a.pcap", "a.pcapng")):
            self.assertNotEqual(rings.ring_of(one.encode()), rings.ring_of(other.encode()), (one, other))
        files = [rings.Seen(path, 1, time) for path, time in ((b"c9", 5), (b"c10", 5), (b"c0", 6), (b"c1", 2))]
        self.assertEqual([seen.path for seen in sorted(files, key=rings.order_of)], [b"c1", b"c9", b"c10", b"c0"])
        self.assertEqual(path_of_stretch([rings.Seen(b"/c.pcap1.gz", 1, 7)]), b"/c.pcap1@7")

    def test_open_files(self) -> None:
        """A file that somebody writes is not closed; else it is once a newer one has begun, or nothing comes."""
        with tempfile.TemporaryDirectory() as name:
            folder = rings.Folder(os.fsencode(name))
            first, second = pathlib.Path(name, "a.pcap1"), pathlib.Path(name, "a.pcap2")
            with open(first, "wb"):
                for _ in range(2 * rings.QUIET_LOOKS):
                    self.assertEqual(folder.look(lambda _: False), {b"a.pcap": []})
            looks = [len(folder.look(lambda _: False)[b"a.pcap"]) for _ in range(rings.QUIET_LOOKS)]
            self.assertEqual(looks, [1] * rings.QUIET_LOOKS)
            os.utime(first, (1, 1))
            with open(second, "wb"):
                self.assertEqual([seen.path for seen in folder.look(lambda _: False)[b"a.pcap"]], [os.fsencode(first)])
            pathlib.Path(f"{first}.gz").touch()
            self.assertEqual([seen.path for seen in folder.look(lambda _: False)[b"a.pcap"]], [os.fsencode(first)])

    def test_unknown_writers(self) -> None:
        """Where nothing tells who writes, a file is closed once a newer one has begun, in two looks."""
        with tempfile.TemporaryDirectory() as name, mock.patch.object(rings, "writer_of", lambda _: Writer.UNKNOWN):
            folder = rings.Folder(os.fsencode(name))
            for number in (1, 2):
                path = pathlib.Path(name, f"a.pcap{number}")
                path.touch()
                os.utime(path, (number, number))
            closed = [[seen.path[-1:] for seen in folder.look(lambda _: False)[b"a.pcap"]] for _ in range(6)]
        self.assertEqual(closed, [[], *[[b"1"]] * 5])

    def test_documented(self) -> None:
        """The document names each table and column of a watch, and each metric."""
        base = sqlite3.connect(":memory:")
        base.executescript((TOP / "h2audit" / "fleet" / "schema.sql").read_text())
        asked = "SELECT name FROM sqlite_master WHERE type = 'table'"
        usual = set(base.execute(asked))
        base.executescript(SCHEMA.read_text())
        named = set(re.findall(r"`([a-z0-9_]+)`", (TOP / "docs" / "FLEET.md").read_text())) | {"capture"}
        for (name,) in set(base.execute(asked)) - usual:
            columns = {row[1] for row in base.execute(f"PRAGMA table_info({name})")}
            wanted = (
                {name, "into_capture", "into_connection", "was_counted"}
                if name.startswith("carried_")
                else {name} | columns
            )
            self.assertEqual(wanted - named, set())
        self.assertEqual(set(metrics.WHAT) - named, set())


if __name__ == "__main__":
    unittest.main()
