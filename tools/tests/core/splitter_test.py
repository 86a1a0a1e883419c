"""What h2audit-split does with files, which no contract can say: python3 -m tools.tests.core.splitter_test SPLIT

Parts that are full, disks that are full, names that a terminal would act on, and captures of more records and more
reads than others have. Each run says what it left: all names below its folder, status and standard error.

No file takes the room that it seems to: captures are holes for the most part, and holes.c, which is loaded before the
C library, makes holes of the zeros that the program writes. Where the file system of temporary files has none, or
holds no file of 2 GiB, the test fails and says so.
"""

import os
import pathlib
import resource
import signal
import struct
import subprocess
import tempfile
import unittest

from tests.parts import part_of
from tests.programs import needed
from tests.split_test import datagram_of, header_of, record_of, segment_of

RUNS = ("$SPLIT",)
TOP = pathlib.Path(__file__).resolve().parents[3]

MOST = 2**31 - 1
HEADER = header_of("<", 0xA1B2C3D4, 101)
Answer = tuple[int, str]  # status, standard error


def tcp(port: int) -> bytes:
    """A packet of a connection to port 80."""
    return datagram_of(0x0A000001, 0x0A000100, 6, segment_of((port, 80), 1, 0x10))


def long_record(front: bytes, size: int) -> bytes:
    """The beginning of a record of this size, of which the rest is zeros."""
    return struct.pack("<IIII", 0, 0, size - 16, size - 16) + front


def port_in(part: int, count: int, after: int = 40000) -> int:
    """The least port of a client behind this one whose connection goes to this part, counted from 0."""
    return next(port for port in range(after + 1, 65536) if part_of(101, count, 1, bytes(16) + tcp(port)) == part)


class Splits(unittest.TestCase):
    shim: pathlib.Path

    @classmethod
    def setUpClass(cls) -> None:
        made = tempfile.TemporaryDirectory()
        cls.addClassCleanup(made.cleanup)
        cls.shim = pathlib.Path(made.name) / "holes.so"
        source = pathlib.Path(__file__).with_name("holes.c")
        subprocess.run(["cc", "-O2", "-shared", "-fPIC", "-o", cls.shim, source], check=True)

    def setUp(self) -> None:
        made = tempfile.TemporaryDirectory()
        self.addCleanup(made.cleanup)
        self.folder = pathlib.Path(made.name)

    def write(self, name: str, *pieces: tuple[int, bytes], size: int = 0) -> pathlib.Path:
        """A file with these bytes at these places, and holes elsewhere."""
        path = self.folder / name
        with open(path, "wb") as file:
            for place, data in pieces:
                file.seek(place)
                file.write(data)
            try:
                file.truncate(max(size, file.tell()))
            except OSError as why:
                self.fail(f"no file of {size} bytes can stand among temporary files, in {self.folder}: {why}")
        if os.stat(path).st_blocks * 512 > 2**26:
            self.fail(f"temporary files have no holes, in {self.folder}: set TMPDIR")
        return path

    def names(self) -> list[str]:
        """All below the folder."""
        return sorted(str(path.relative_to(self.folder)) for path in self.folder.rglob("*"))

    def split(self, *words: object, full: str | None = None, most: int | None = None, given: int = -3) -> Answer:
        """Runs the program in the folder; nothing may stand on standard output."""
        surroundings = dict(os.environ, LD_PRELOAD=str(self.shim))
        if full:
            surroundings["FULL"] = full

        def bound() -> None:
            if most:
                signal.signal(signal.SIGXFSZ, signal.SIG_IGN)
                resource.setrlimit(resource.RLIMIT_FSIZE, (most, most))

        ran = subprocess.run(
            [SPLIT, *map(str, words)],
            cwd=self.folder,
            stdin=given,
            capture_output=True,
            env=surroundings,
            timeout=200,
            preexec_fn=bound,
        )
        self.assertEqual(ran.stdout, b"")
        return ran.returncode, ran.stderr.decode()

    def sizes(self, part: int) -> tuple[int, int]:
        """The sizes of the two files of a part."""
        packets = self.folder / "out" / f"part-{part:03}.pcap"
        return os.path.getsize(packets), os.path.getsize(packets.with_suffix(".records"))


class FullParts(Splits):
    def test_connection(self) -> None:
        """One connection fills part 2, and the record of another one has no room there. Other parts stand."""
        fills, other = port_in(1, 3), port_in(0, 3)
        no_room = port_in(1, 3, after=fills)
        big, last = 2**31 - 60, record_of("<", 2, tcp(no_room))
        first = 24 + len(record_of("<", 1, tcp(other)))
        self.write(
            "big.pcap",
            (0, HEADER + record_of("<", 1, tcp(other)) + long_record(tcp(fills), big)),
            (first + big, last + record_of("<", 3, tcp(other)) + record_of("<", 4, tcp(fills))),
        )
        why = f"connection-too-large 10.0.0.1:{no_room} 10.0.1.0:80"
        self.assertEqual(
            self.split("--parts", 3, "-o", "out", "big.pcap"), (3, f"h2audit-split: part 2 refused: {why}\n")
        )
        self.assertEqual(
            self.names(),
            [
                "big.pcap",
                "out",
                "out/part-001.pcap",
                "out/part-001.records",
                "out/part-003.pcap",
                "out/part-003.records",
                "out/split.txt",
            ],
        )
        self.assertEqual(
            (self.folder / "out" / "split.txt").read_text(), f"h2audit-split 1\nparts 3\npart 2 refused {why}\n"
        )
        stands = HEADER + record_of("<", 1, tcp(other)) + record_of("<", 3, tcp(other))
        self.assertEqual((self.folder / "out" / "part-001.pcap").read_bytes(), stands)
        self.assertEqual((self.folder / "out" / "part-001.records").read_bytes(), struct.pack(">QQ", 1, 4))
        self.assertEqual(self.sizes(3), (24, 0))

    def test_no_endpoints(self) -> None:
        """The only part is full by a record that names no endpoints, and comes in a pipe."""
        path = self.write("big.pcap", (0, HEADER + long_record(b"\x60", 2**31 - 24)), size=2**31)
        with subprocess.Popen(["cat", path], stdout=subprocess.PIPE) as cat:
            assert cat.stdout
            answer = self.split("--parts", 1, "-o", "out", given=cat.stdout.fileno())
        self.assertEqual(answer, (3, "h2audit-split: part 1 refused: too-large\n"))
        self.assertEqual(self.names(), ["big.pcap", "out", "out/split.txt"])
        self.assertEqual(
            (self.folder / "out" / "split.txt").read_text(), "h2audit-split 1\nparts 1\npart 1 refused too-large\n"
        )

    def test_not_full(self) -> None:
        """A part of 2^31 - 1 bytes stands."""
        self.write("big.pcap", (0, HEADER + long_record(tcp(40000), MOST - 24)), size=MOST)
        self.assertEqual(self.split("--parts", 1, "-o", "out", "big.pcap"), (0, ""))
        self.assertEqual(
            self.names(), ["big.pcap", "out", "out/part-001.pcap", "out/part-001.records", "out/split.txt"]
        )
        self.assertEqual(self.sizes(1), (MOST, 8))
        self.assertEqual((self.folder / "out" / "split.txt").read_text(), "h2audit-split 1\nparts 1\n")


class Many(Splits):
    def test_records(self) -> None:
        """More than 10,000,000 records, each of which has no byte."""
        count = 10_000_003
        self.write("many.pcap", (0, HEADER), size=24 + 16 * count)
        self.assertEqual(self.split("--parts", 2, "-o", "out", "many.pcap"), (0, ""))
        half = count // 2
        self.assertEqual(
            (self.sizes(1), self.sizes(2)), ((24 + 16 * half, 8 * half), (24 + 16 * (half + 1), 8 * (half + 1)))
        )
        with open(self.folder / "out" / "part-002.records", "rb") as numbers:
            numbers.seek(-8, os.SEEK_END)
            self.assertEqual(struct.unpack(">Q", numbers.read()), (count,))

    def test_parts(self) -> None:
        """As many parts as are asked for, whose numbers have three digits."""
        (self.folder / "few.pcap").write_bytes(HEADER + record_of("<", 1, tcp(40000)))
        for count in (1, 2, 77, 500):
            with self.subTest(count):
                self.assertEqual(self.split("--parts", count, "-o", "out", "few.pcap"), (0, ""))
                parts = [f"out/part-{part:03}.{kind}" for part in range(1, count + 1) for kind in ("pcap", "records")]
                self.assertEqual(self.names(), ["few.pcap", "out", *parts, "out/split.txt"])
                self.assertEqual((self.folder / "out" / "split.txt").read_text(), f"h2audit-split 1\nparts {count}\n")
                subprocess.run(["rm", "-r", self.folder / "out"], check=True)


class FullDisks(Splits):
    """The file is named, and no part is left."""

    def capture(self, records: int) -> None:
        packets = [tcp(40000 + number % 50) for number in range(records)]
        body = b"".join(record_of("<", number, packet) for number, packet in enumerate(packets, 1))
        (self.folder / "a.pcap").write_bytes(HEADER + body)

    def left_nothing(self, named: str, answer: Answer) -> None:
        self.assertEqual(answer, (4, f"h2audit-split: cannot write: {named}\n"))
        self.assertEqual(self.names(), ["a.pcap"])

    def test_each_file(self) -> None:
        """Few bytes are written at the flush, and more while records are dealt."""
        for records in (10, 20_000):
            self.capture(records)
            for name in ("part-001.pcap", "part-001.records", "part-003.pcap", "part-003.records", "split.txt"):
                with self.subTest(name, records=records):
                    self.left_nothing(f"out/{name}", self.split("--parts", 3, "-o", "out", "a.pcap", full=name))

    def test_limit(self) -> None:
        """A file that may grow no further, at the first bytes and later."""
        for records, most in ((1, 10), (1, 30), (20_000, 100_000)):
            with self.subTest(most):
                self.capture(records)
                self.left_nothing("out/part-001.pcap", self.split("--parts", 1, "-o", "out", "a.pcap", most=most))

    def test_what_stood_stays(self) -> None:
        """A folder that is there is not taken for one that was made."""
        self.capture(10)
        (self.folder / "out").mkdir()
        (self.folder / "out" / "part-001.pcap").write_text("mine")
        self.assertEqual(
            self.split("--parts", 1, "-o", "out", "a.pcap", full=".pcap"),
            (4, "h2audit-split: cannot make folder: out\n"),
        )
        self.assertEqual((self.folder / "out" / "part-001.pcap").read_text(), "mine")

    def test_later_files(self) -> None:
        """Nor is a part left where a later file is wrong."""
        self.capture(10)
        (self.folder / "cut.pcap").write_bytes(HEADER + record_of("<", 1, tcp(40000))[:-1])
        for words, answer in (
            (["a.pcap", "missing"], (4, "h2audit-split: cannot open: missing\n")),
            (["a.pcap", "."], (4, "h2audit-split: cannot read: .\n")),
            (["cut.pcap", "a.pcap"], (3, "h2audit-split: cut.pcap refused: cut-record\n")),
            (["."], (4, "h2audit-split: cannot read: .\n")),
        ):
            with self.subTest(words):
                self.assertEqual(self.split("--parts", 2, "-o", "out", *words), answer)
                self.assertEqual(self.names(), ["a.pcap", "cut.pcap"])

    def test_texts(self) -> None:
        """Help and version on a full disk, in a closed pipe and without standard output."""
        for word in ("--help", "--version"):
            for form in (f"{word} > /dev/full", f"{word} >&-", f"{word} | true"):
                with self.subTest(form):
                    ran = subprocess.run(
                        ["bash", "-c", f'trap "" PIPE; "$0" {form}; exit ${{PIPESTATUS[0]}}', SPLIT],
                        capture_output=True,
                        text=True,
                        timeout=60,
                    )
                    if form.endswith("true") and ran.returncode == 0:
                        continue  # written before the pipe was closed
                    self.assertEqual((ran.returncode, ran.stdout, ran.stderr), (4, "", "h2audit-split: write failed\n"))


class Names(Splits):
    def test_escaped(self) -> None:
        """What a terminal would act on is told by its code, and letters of any script are not."""
        for name, told in (
            ("a\x1b[31mb", "a\\x1b[31mb"),
            ("a\nb\tc\rd", "a\\nb\\tc\\rd"),
            ("a\x7fb\x9bc", "a\\x7fb\\x9bc"),
            ("a\u202eb", "a\\u202eb"),
            ("a\U000e0041b", "a\\U000e0041b"),
            ("Zürich 東京 'x' \\ \"", "Zürich 東京 'x' \\ \""),
        ):
            with self.subTest(told):
                self.assertEqual(
                    self.split("--parts", 1, "-o", "out", name), (4, f"h2audit-split: cannot open: {told}\n")
                )
                (self.folder / "a.pcap").write_bytes(HEADER)
                (self.folder / name).write_bytes(HEADER[:20])
                self.assertEqual(
                    self.split("--parts", 1, "-o", "out", "a.pcap", name),
                    (3, f"h2audit-split: {told} refused: short-header\n"),
                )
                self.assertEqual(
                    self.split("--parts", 1, "-o", name, "a.pcap"), (4, f"h2audit-split: cannot make folder: {told}\n")
                )
                status, said = self.split("--parts", name)
                self.assertEqual((status, told.replace("\\n", "\n") in said), (2, True))

    def test_full(self) -> None:
        (self.folder / "a.pcap").write_bytes(HEADER)
        self.assertEqual(
            self.split("--parts", 1, "-o", "o\x1bt", "a.pcap", full="part-001.pcap"),
            (4, "h2audit-split: cannot write: o\\x1bt/part-001.pcap\n"),
        )

    def test_no_text(self) -> None:
        ran = subprocess.run(
            [SPLIT, b"--parts", b"1", b"-o", b"out", b"\xff\x1b"], cwd=self.folder, capture_output=True, timeout=60
        )
        self.assertEqual((ran.returncode, ran.stdout, ran.stderr), (2, b"", b"error: a word is not text\n"))
        self.assertEqual(self.names(), [])


if __name__ == "__main__":
    (SPLIT,) = needed()
    unittest.main()
