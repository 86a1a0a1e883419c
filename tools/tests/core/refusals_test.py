"""Refuses each growth, thread, read and write of a program in turn: python3 -m tools.tests.core.refusals_test PROGRAM

refuse.c is loaded before the C library and makes one call fail. A run whose call is refused either says so, with the
status and the line that docs/STATUS.md names and nothing on standard output, or gives the same answer as a run that
meets no refusal. Only after a failed write is there more on standard output: a beginning of the report. So once the
first byte is written no memory is asked for, but for a thread. A thread that cannot be had changes nothing, and neither
does a read or a write of a single byte.

A report is written in parts: the lines on the capture, and then pages of so many entries each. An entry is one line, or
the three lines that a section begins with.
"""

import itertools
import os
import pathlib
import resource
import struct
import subprocess
import tempfile
import unittest

from bench.wire import CLIENT, SERVER, Capture, Connection, frame, window_update
from tests.programs import needed

RUNS = ("$H2AUDIT",)
TOP = pathlib.Path(__file__).resolve().parents[3]

HEADERS, PADDED, END_HEADERS = 1, 8, 4
OUT_OF_MEMORY = (5, b"", b"h2audit: out of memory\n")
READ_FAILED = (4, b"", b"h2audit: read failed\n")
WRITE_FAILED = (4, b"h2audit: write failed\n")
WORDS_REFUSED = (
    b"error: invalid value '0' for '--workers <N>': 0 is not in 1..=64\n\n" b"For more information, try '--help'.\n"
)
Answer = tuple[int, bytes, bytes]  # status, standard output, standard error
BAD_MAGIC = b"h2audit: capture refused: bad-magic\n"
# How many entries a page has with one worker, and with several where there are that many entries for each.
PAGE_OF_ONE, PAGE_OF_EACH = 1024, 4096


def one_frame(one: Connection, side: int, data: bytes) -> None:
    """A frame in a record of its own."""
    one.send(side, data, most=len(data))


def padded_stall(capture: Capture) -> None:
    """Content that uses up both windows of its side."""
    one = Connection(capture, 40000)
    one_frame(one, CLIENT, frame(HEADERS, END_HEADERS, 1))
    for _ in range(3):
        one_frame(one, CLIENT, frame(0, 0, 1, bytes(16384)))
    one_frame(one, CLIENT, frame(0, PADDED, 1, bytes([10]) + bytes(16382)))


def first_error_below_overflow(capture: Capture) -> None:
    """An error of one stream, and after it one of the connection."""
    one = Connection(capture, 40000)
    for stream in (1, 3):
        one_frame(one, CLIENT, frame(HEADERS, END_HEADERS, stream))
    one_frame(one, SERVER, window_update(9, 1))
    one_frame(one, SERVER, window_update(0, 2147418113))
    one_frame(one, CLIENT, frame(0, 0, 11))


def many_connections(capture: Capture) -> None:
    """Connections enough for several workers, strays, and a record of no byte."""
    for port in range(40000, 40006):
        one = Connection(capture, port)
        one.send(CLIENT, frame(HEADERS, END_HEADERS, 1) + frame(0, 0, 1, bytes(100)))
        one.send(SERVER, frame(4, 0, 0, struct.pack(">HI", 4, 0)))
        one.send(CLIENT, frame(4, 1, 0))
    capture.segment((50000, 80), CLIENT, 1, 0x10, b"a")
    capture.record(b"")


def long_connection(capture: Capture) -> None:
    """Frames enough for several workers to share one connection."""
    one = Connection(capture, 40000)
    for stream in range(1, 401, 2):
        one.send(CLIENT, frame(HEADERS, END_HEADERS, stream))
        for _ in range(12):
            one.send(CLIENT, frame(0, 0, stream, bytes(50)))
            one.send(SERVER, window_update(0, 50))


def several_reads(capture: Capture) -> None:
    """Strays enough that a capture is met and let go of several times while it is read."""
    for _ in range(1600):
        capture.segment((50000, 80), CLIENT, 1, 0x10, bytes(1400))


def several_pages(capture: Capture) -> None:
    """Frames enough that four workers fill their pages more than once, where their credits are shown."""
    one = Connection(capture, 40000)
    one.send(CLIENT, frame(HEADERS, END_HEADERS, 1))
    one.send(CLIENT, 17000 * frame(0, 0, 1, b"a"))


def parts_of(report: bytes, entries: int) -> list[bytes]:
    """The parts in which a report is written whose pages have so many entries."""
    lines, pages, left = b"", list[bytes](), 0
    for line in report.splitlines(keepends=True):
        if line.startswith(b"flow ") or (left == 0 and not pages and not line.startswith(b"connection ")):
            # It goes with the line before it.
            lines += line
            continue
        if left == 0:
            pages.append(lines)
            lines, left = b"", entries
        lines += line
        left -= 1
    return [*pages, lines]


class Refusals(unittest.TestCase):
    folder: tempfile.TemporaryDirectory[str]
    shim: pathlib.Path
    met: pathlib.Path
    captures: dict[str, pathlib.Path]

    @classmethod
    def setUpClass(cls) -> None:
        cls.folder = tempfile.TemporaryDirectory()
        cls.addClassCleanup(cls.folder.cleanup)
        home = pathlib.Path(cls.folder.name)
        cls.shim, cls.met = home / "refuse.so", home / "met"
        source = pathlib.Path(__file__).with_name("refuse.c")
        subprocess.run(["cc", "-O2", "-shared", "-fPIC", "-o", cls.shim, source], check=True)
        cls.captures = {}
        for script in (
            padded_stall,
            first_error_below_overflow,
            many_connections,
            long_connection,
            several_reads,
            several_pages,
        ):
            path = cls.captures[script.__name__] = home / script.__name__
            with open(path, "wb") as file:
                script(Capture(file))
        header = struct.pack("<IHHIIII", 0xA1B2C3D4, 2, 4, 0, 0, 262144, 1)
        for name, data in (("no_record", header), ("pcapng", b"\n\r\r\n" + bytes(20))):
            cls.captures[name] = home / name
            cls.captures[name].write_bytes(data)

    def run_program(
        self,
        words: list[str],
        refused: str = "none 0",
        source: pathlib.Path | None = None,
        most_memory: int | None = None,
    ) -> tuple[Answer, bool]:
        """Status and both outputs, and whether the refused call was made."""
        self.met.unlink(missing_ok=True)

        def bound() -> None:
            if most_memory:
                resource.setrlimit(resource.RLIMIT_AS, (most_memory, most_memory))

        surroundings = dict(os.environ, LD_PRELOAD=str(self.shim), REFUSE=refused, MET=str(self.met))
        with open(source or os.devnull, "rb") as given:
            ended = subprocess.run(
                [PROGRAM, *words], stdin=given, capture_output=True, env=surroundings, timeout=60, preexec_fn=bound
            )
        return (ended.returncode, ended.stdout, ended.stderr), self.met.exists()

    def each_refused(
        self, kind: str, words: list[str], source: pathlib.Path | None = None
    ) -> tuple[Answer, list[Answer]]:
        """The answer of a run with no refusal, and then of each run in which the first, second .. call is refused."""
        whole, _ = self.run_program(words, source=source)
        answers: list[Answer] = []
        answer, met = self.run_program(words, f"{kind} 1", source)
        while met:
            answers.append(answer)
            answer, met = self.run_program(words, f"{kind} {len(answers) + 1}", source)
        self.assertEqual(answer, whole)
        return whole, answers

    def growths(self, words: list[str], status: int, source: pathlib.Path | None = None) -> None:
        whole, answers = self.each_refused("growth", words, source)
        self.assertEqual(whole[0], status)
        self.assertEqual(answers[:1], [OUT_OF_MEMORY])
        for number, answer in enumerate(answers, 1):
            self.assertIn(answer, (whole, OUT_OF_MEMORY), f"growth {number}")

    def test_endings(self) -> None:
        for words, status, starts, said in (
            (["--help"], 0, b"Audits the HTTP/2 flow control", b""),
            ([str(self.captures["padded_stall"])], 0, b"capture records ", b""),
            ([str(self.captures["first_error_below_overflow"])], 1, b"capture records ", b""),
            (["--workers", "0"], 2, b"", WORDS_REFUSED),
            ([str(self.captures["pcapng"])], 3, b"", BAD_MAGIC),
            (["/nothing/there"], 4, b"", b"h2audit: read failed\n"),
        ):
            with self.subTest(words):
                (ended, text, line), _ = self.run_program(words)
                self.assertEqual((ended, text[: len(starts)], line), (status, starts, said))
                self.assertEqual(text == b"", starts == b"")

    def test_refused_header_is_all_that_is_kept(self) -> None:
        path = pathlib.Path(self.folder.name) / "long"
        with open(path, "wb") as file:
            file.write(b"\n\r\r\n")
            file.truncate(3 << 30)
        answer, _ = self.run_program([str(path)], most_memory=64 << 20)
        self.assertEqual(answer, (3, b"", BAD_MAGIC))

    def test_growths(self) -> None:
        for name, workers, status in (
            ("padded_stall", 1, 0),
            ("padded_stall", 2, 0),
            ("first_error_below_overflow", 2, 1),
            ("many_connections", 2, 0),
            ("long_connection", 4, 0),
            ("several_pages", 1, 0),
            ("several_pages", 4, 0),
            ("no_record", 4, 0),
            ("pcapng", 4, 3),
        ):
            with self.subTest(name, workers=workers):
                self.growths(["--workers", str(workers), "--frames", str(self.captures[name])], status)
        with self.subTest("standard input"):
            self.growths([], 0, self.captures["padded_stall"])

    def test_growths_of_words(self) -> None:
        for words, status in ((["--help"], 0), (["--workers", "0"], 2), (["/nothing/there"], 4)):
            with self.subTest(words):
                self.growths(words, status)

    def test_growths_once_written(self) -> None:
        for name, workers in itertools.product(self.captures, (1, 4)):
            with self.subTest(name, workers=workers):
                words = ["--workers", str(workers), "--frames", str(self.captures[name])]
                whole, _ = self.run_program(words)
                answer, met = self.run_program(words, "late-growth 1")
                self.assertEqual(answer, whole)
                # Those of threads, which fill pages side by side.
                self.assertEqual(met, workers > 1 and name in ("long_connection", "several_pages"))
                # With those before the first write.
                self.assertEqual(self.run_program(words, "late-growth 0"), (OUT_OF_MEMORY, True))

    def test_threads(self) -> None:
        for name, more in (
            ("many_connections", ["--block", "64"]),
            ("long_connection", ["--frames", "--block", "64"]),
            ("several_pages", ["--frames"]),
        ):
            with self.subTest(name):
                words = ["--workers", "4", "--groups", "8", *more, str(self.captures[name])]
                whole, answers = self.each_refused("thread", words)
                self.assertNotEqual(answers, [])
                self.assertEqual(set(answers), {whole})

    def test_reads(self) -> None:
        for name in self.captures:
            with self.subTest(name):
                path = str(self.captures[name])
                _, answers = self.each_refused("read", [path])
                self.assertEqual(set(answers), {READ_FAILED})
                whole, answers = self.each_refused("read-one", [path])
                self.assertEqual(set(answers), {whole})

    def test_writes(self) -> None:
        for name in ("no_record", "padded_stall"):
            path = str(self.captures[name])
            for kind, most in (("write", None), ("write-none", None), ("drip", 3)):
                with self.subTest(name, kind=kind):
                    self.failed_writes(kind, [path], PAGE_OF_ONE, most)
            whole, answers = self.each_refused("write-one", [path])
            self.assertEqual(set(answers), {whole})

    def test_writes_of_pages(self) -> None:
        for workers, entries, parts in ((1, PAGE_OF_ONE, 35), (4, PAGE_OF_EACH, 10)):
            words = ["--workers", str(workers), "--frames", str(self.captures["several_pages"])]
            for kind in ("write", "write-none"):
                with self.subTest(workers=workers, kind=kind):
                    self.assertEqual(self.failed_writes(kind, words, entries), parts)
            with self.subTest(workers=workers, kind="write-one"):
                whole, answers = self.each_refused("write-one", words)
                self.assertEqual(answers, parts * [whole])

    def failed_writes(self, kind: str, words: list[str], entries: int, most: int | None = None) -> int:
        """Each write fails in turn, after those that took what comes before: a part, or so many bytes of it at most.
        Answers how many writes there are.
        """
        whole, answers = self.each_refused(kind, words)
        taken = b""
        wanted = []
        for part in parts_of(whole[1], entries):
            step = most or len(part)
            wanted += [taken + part[:at] for at in range(0, len(part), step)]
            taken += part
        self.assertEqual(taken, whole[1])
        self.assertEqual([text for _, text, _ in answers], wanted)
        self.assertEqual({(status, line) for status, _, line in answers}, {WRITE_FAILED})
        return len(answers)


if __name__ == "__main__":
    (PROGRAM,) = needed()
    unittest.main()
