"""Splits captures, audits the parts and merges their reports: python3 -m tests.split_test H2AUDIT SPLIT..

Each part has to be what parts.py makes of the capture, byte for byte, and the merged report has to be that of h2audit
over the whole capture. The captures are those of examples/ and random ones, with every kind of packet and with
records that are cut, damaged or longer than the splitter's buffer.
"""

import pathlib
import random
import shutil
import signal
import struct
import subprocess
import tempfile
import unittest
from collections.abc import Iterator

from tests.parts import parts_of, records_of
from tests.programs import needed
from tools.tests.companions import companion

TOP = pathlib.Path(__file__).resolve().parents[1]

MERGE = companion("h2audit-merge")
HELP = (TOP / "tests" / "split_help.txt").read_text()
VERSION = (TOP / "VERSION").read_text()
PREFACE = b"PRI * HTTP/2.0\r\n\r\nSM\r\n\r\n" + bytes.fromhex("000000 04 00 00000000")
DATA = bytes.fromhex("000005 00 00 00000001") + b"hello"
MAGICS = {"<": (0xA1B2C3D4, 0xA1B23C4D), ">": (0xA1B2C3D4, 0xA1B23C4D)}
# Longer than what the splitter reads at a time.
LONG = 300_000


def header_of(order: str, magic: int, link: int) -> bytes:
    return struct.pack(order + "IHHIIII", magic, 2, 4, 0, 0, 262144, link)


def record_of(order: str, number: int, packet: bytes, original: int | None = None) -> bytes:
    seconds, fraction = 1_700_000_000 + number, number % 1000
    return struct.pack(order + "IIII", seconds, fraction, len(packet), original or len(packet)) + packet


def datagram_of(
    source: int, target: int, protocol: int, payload: bytes, flags: int = 0, total: int | None = None
) -> bytes:
    size = 20 + len(payload) if total is None else total
    head = struct.pack(">BBHHHBBH", 0x45, 0, size % 65536, 0, flags, 64, protocol, 0)
    return head + struct.pack(">II", source, target) + payload


def segment_of(ports: tuple[int, int], sequence: int, flags: int, payload: bytes = b"") -> bytes:
    return struct.pack(">HHIIBBHHH", *ports, sequence % 2**32, 0, 0x50, flags, 65535, 0, 0) + payload


class Traffic:
    """Random packets of a dozen connections, and others."""

    def __init__(self, seed: int) -> None:
        self.random = random.Random(seed)
        self.sent: dict[tuple[tuple[int, int], tuple[int, int]], int] = {}

    def tcp(self) -> bytes:
        dice = self.random
        client = 0x0A000000 + dice.randrange(3), 40000 + dice.randrange(4)
        server = 0x0A000100, 80 + dice.randrange(2)
        sides = (client, server) if dice.random() < 0.6 else (server, client)
        (source, from_port), (target, to_port) = sides
        begun = self.sent.setdefault(sides, 0)
        flags, payload = 0x10, b""
        if begun == 0 and dice.random() < 0.7:
            flags = 0x02 if sides[0] == client else 0x12
            self.sent[sides] = 1
        elif sides[0] == client and begun == 1:
            payload = PREFACE
        else:
            payload = DATA if dice.random() < 0.8 else bytes(dice.randrange(2000))
        if payload:
            self.sent[sides] = max(begun, 1) + len(payload)
        return datagram_of(source, target, 6, segment_of((from_port, to_port), begun, flags, payload))

    def other(self) -> bytes:
        dice = self.random
        kind = dice.randrange(6)
        source = 0x0A000000 + dice.randrange(3)
        segment = segment_of((40000 + dice.randrange(4), 80 + dice.randrange(2)), 7, 0x10, bytes(8))
        if kind == 0:
            return datagram_of(1, 2, 17, bytes(30))
        if kind == 1:
            return datagram_of(source, 0x0A000100, 6, segment, flags=0x2000)
        if kind == 2:
            return self.tcp()[: dice.randrange(60)]
        if kind == 3:
            return b"\x60" + bytes(dice.randrange(80))
        if kind == 4:
            return datagram_of(source, 0x0A000100, 6, segment, total=dice.randrange(90))
        return datagram_of(0x0A000002, 0x0A000100, 6, segment_of((40001, 81), 9, 0x10, bytes(LONG)), total=0)

    def capture(self, order: str, magic: int, link: int, count: int) -> bytes:
        dice = self.random
        records = []
        for number in range(count):
            packet = self.tcp() if dice.random() < 0.85 else self.other()
            if link == 1:
                tag = b"\x81\x00\x00\x07" if dice.random() < 0.2 else b""
                packet = bytes(12) + tag + (b"\x08\x00" if packet[:1] != b"\x60" else b"\x86\xdd") + packet
            original = len(packet)
            if dice.random() < 0.05:
                packet = packet[: dice.randrange(len(packet) + 1)]
            records.append(record_of(order, number, packet, original))
        return header_of(order, magic, link) + b"".join(records)


def random_captures() -> Iterator[tuple[str, bytes]]:
    """Whole captures in each format, then cut and damaged ones."""
    for seed, order in enumerate("<><>"):
        link = (1, 101, 101, 1)[seed]
        whole = Traffic(seed).capture(order, MAGICS[order][seed // 2], link, 400)
        yield f"random {seed}", whole
        dice = random.Random(seed)
        for cut in (24, 25, 39, 40, 41, 120, len(whole) - 1, dice.randrange(len(whole)), dice.randrange(len(whole))):
            yield f"random {seed} cut at {cut}", whole[:cut]
        for turn in range(6):
            damaged = bytearray(whole)
            for _ in range(3):
                damaged[dice.randrange(24, len(damaged))] = dice.randrange(256)
            yield f"random {seed} damaged {turn}", bytes(damaged)


def passed_over_first() -> bytes:
    """Pairs that never open, of which packets that are passed over come first, in another order than their segments."""
    pairs = [(0x0A000000 + place, segment_of((50000 + place, 80), 1, 0x10, bytes(8))) for place in range(8)]
    fragments = [datagram_of(source, 0x0A000100, 6, segment, flags=0x2000) for source, segment in reversed(pairs)]
    past_end = [datagram_of(source, 0x0A000100, 6, segment, total=60) for source, segment in reversed(pairs)]
    segments = [datagram_of(source, 0x0A000100, 6, segment) for source, segment in pairs]
    packets = enumerate(fragments + past_end + segments)
    return header_of("<", 0xA1B2C3D4, 101) + b"".join(record_of("<", number, packet) for number, packet in packets)


def captures() -> Iterator[tuple[str, bytes]]:
    for path in sorted((TOP / "examples").glob("*.pcap")):
        yield path.stem, path.read_bytes()
    # Once for each number of parts.
    for turn in range(5):
        yield f"passed over first {turn}", passed_over_first()
    yield from random_captures()


def run(*words: object, given: bytes | None = None) -> tuple[int, bytes, bytes]:
    ran = subprocess.run([str(word) for word in words], input=given, capture_output=True, timeout=120)
    return ran.returncode, ran.stdout, ran.stderr


def read_parts(folder: pathlib.Path, count: int) -> list[tuple[bytes, bytes]]:
    parts = [folder / f"part-{number:03}.pcap" for number in range(1, count + 1)]
    return [(part.read_bytes(), part.with_suffix(".records").read_bytes()) for part in parts]


def split(program: pathlib.Path, folder: pathlib.Path, count: int, capture: bytes, pieces: list[bytes]) -> pathlib.Path:
    """Splits a capture, which is given in one file, in several, or on standard input where there is none."""
    paths = []
    for index, piece in enumerate(pieces):
        paths.append(folder / f"piece-{index}.pcap")
        paths[-1].write_bytes(piece)
    answer = run(program, "--parts", count, "-o", folder / "parts", *paths, given=None if paths else capture)
    assert answer == (0, b"", b""), answer
    return folder / "parts"


def merged(program: pathlib.Path, parts: pathlib.Path, count: int, words: list[str]) -> tuple[int, bytes, bytes]:
    for number in range(1, count + 1):
        status, report, said = run(program, *words, parts / f"part-{number:03}.pcap")
        assert status in (0, 1) and not said, said
        (parts / f"part-{number:03}.report").write_bytes(report)
    return run(MERGE, parts)


def rotated(capture: bytes) -> list[bytes]:
    """The capture in three files, each with the header."""
    records, rest = records_of(capture)
    third = len(records) // 3
    bodies = [b"".join(records[:third]), b"".join(records[third : 2 * third]), b"".join(records[2 * third :]) + rest]
    return [capture[:24] + body for body in bodies]


def refusals(program: pathlib.Path) -> list[str]:
    """What is refused: words, files, and what the program says."""
    little, big = header_of("<", 0xA1B2C3D4, 1), header_of(">", 0xA1B2C3D4, 1)
    nanos, raw = header_of("<", 0xA1B23C4D, 1), header_of("<", 0xA1B2C3D4, 101)
    record = record_of("<", 1, bytes(60))
    files = {
        "good": little + record,
        "cut": little + record[:-1],
        "big": big,
        "nanos": nanos,
        "raw": raw,
        "short": little[:23],
        "magic": b"notes" * 8,
        "version": little[:4] + b"\x03" + little[5:],
        "cooked": header_of("<", 0xA1B2C3D4, 113),
    }
    calls = [
        ("--parts 2 -o out good cut", 0, ""),
        ("--parts 2 -o out cut good", 3, "h2audit-split: cut refused: cut-record\n"),
        ("--parts 2 -o out good big", 3, "h2audit-split: big refused: another-format\n"),
        ("--parts 2 -o out good nanos", 3, "h2audit-split: nanos refused: another-format\n"),
        ("--parts 2 -o out good raw", 3, "h2audit-split: raw refused: another-link-type\n"),
        ("--parts 2 -o out good magic", 3, "h2audit-split: magic refused: bad-magic\n"),
        ("--parts 2 -o out short", 3, "h2audit-split: capture refused: short-header\n"),
        ("--parts 2 -o out magic", 3, "h2audit-split: capture refused: bad-magic\n"),
        ("--parts 2 -o out version", 3, "h2audit-split: capture refused: bad-version\n"),
        ("--parts 2 -o out cooked", 3, "h2audit-split: capture refused: link-type\n"),
        ("--parts 2 -o out missing", 4, "h2audit-split: cannot open: missing\n"),
        ("--parts 2 -o out .", 4, "h2audit-split: cannot read: .\n"),
        ("--parts 2 -o good good", 4, "h2audit-split: cannot make folder: good\n"),
        ("--parts 2 -o none/out good", 4, "h2audit-split: cannot make folder: none/out\n"),
        ("--parts 0 -o out good", 2, None),
        ("--parts 501 -o out good", 2, None),
        ("--parts 2 good", 2, None),
        ("-o out good", 2, None),
        ("--unknown", 2, None),
        ("--help", 0, HELP),
        ("--version", 0, f"h2audit-split {VERSION}"),
    ]
    wrong = []
    for words, status, text in calls:
        with tempfile.TemporaryDirectory() as folder:
            for name, content in files.items():
                (pathlib.Path(folder) / name).write_bytes(content)
            ran = subprocess.run([program, *words.split()], cwd=folder, capture_output=True, text=True, timeout=60)
            said = ran.stderr + ran.stdout
            if ran.returncode != status or (said != text if text is not None else not ran.stderr.startswith("error: ")):
                wrong.append(f"{words}: {ran.returncode} {said!r}")
            if status and {path.name for path in pathlib.Path(folder).iterdir()} != set(files):
                wrong.append(f"{words}: something is left of a split that did not end")
    return wrong


def merge_refusals(audit: pathlib.Path, program: pathlib.Path) -> list[str]:
    """What h2audit-merge says of folders in which something is missing or does not fit."""
    capture = passed_over_first() + Traffic(9).capture("<", 0xA1B2C3D4, 101, 200)[24:]
    wrong = []
    with tempfile.TemporaryDirectory() as made:
        whole, parts = split(program, pathlib.Path(made), 3, capture, []), pathlib.Path(made, "damaged")
        merged(audit, whole, 3, [])
        for name, content, text in damages_of(whole):
            shutil.copytree(whole, parts)
            (parts / name).unlink()
            if content is not None:
                (parts / name).write_bytes(content)
            status, _, said = run(MERGE, parts)
            if status != 3 or text not in said.decode() or said.count(b"\n") != 1:
                wrong.append(f"merge, {text}: {status} {said.decode()!r}")
            shutil.rmtree(parts)
    return wrong


def damages_of(parts: pathlib.Path) -> list[tuple[str, bytes | None, str]]:
    """A file, what it holds instead, or None where it is missing, and what h2audit-merge says of it."""
    first, second = ((parts / f"part-00{number}.report").read_bytes() for number in (1, 2))
    return [
        ("split.txt", None, "no split.txt"),
        ("split.txt", b"parts 3\n", "is no summary"),
        ("split.txt", b"h2audit-split 1\nparts 3\npart 2 refused too-large\n", "part 2 was refused"),
        ("part-002.report", None, "part-002.report is missing"),
        ("part-002.report", b"", "line 1 is not"),
        ("part-002.report", first, "is not"),
        ("part-002.report", second[:-9], "is not one of"),
        ("part-003.records", b"1234567", "is no list"),
        ("part-003.records", b"", "is not the report of this part"),
        ("part-001.pcap", b"", "has no file header"),
        ("part-001.pcap", (parts / "part-001.pcap").read_bytes()[:24], "is not one of"),
    ]


def merge_endings(audit: pathlib.Path, program: pathlib.Path) -> list[str]:
    """How h2audit-merge ends where its standard output takes nothing, and by Ctrl-C in the middle of its work; and what
    it says of itself.
    """
    capture = (TOP / "examples" / "negative_window.pcap").read_bytes()
    with tempfile.TemporaryDirectory() as made:
        parts = split(program, pathlib.Path(made), 1, capture, [])
        merged(audit, parts, 1, [])
        report = parts / "part-001.report"
        head, connection = report.read_bytes().split(b"\n", 1)
        report.write_bytes(head + b"\n" + connection * 2000)  # more than a pipe holds
        full = run("sh", "-c", '"$0" "$1" > /dev/full', MERGE, parts)
        closed = run("bash", "-c", '"$0" "$1" | true; exit "${PIPESTATUS[0]}"', MERGE, parts)
        helped = [run("sh", "-c", f'"$0" {word} > /dev/full', MERGE) for word in ("--help", "--version", "-V")]
        named = run(MERGE, parts / "re\x1b[31md")
        # What a shell runs in the background ignores Ctrl-C, and so would its child.
        signal.signal(signal.SIGINT, signal.default_int_handler)
        with subprocess.Popen([MERGE, parts], stdout=subprocess.PIPE, stderr=subprocess.PIPE) as child:
            assert child.stdout and child.stderr
            child.stdout.read(1)
            child.send_signal(signal.SIGINT)
            interrupted = child.wait(120), child.stderr.read()
    found = full, closed, *helped, interrupted
    no_space = b"No space left on device"
    wanted = (
        (4, b"", b"h2audit-merge: %b: standard output\n" % no_space),
        (141, b"", b""),
        *[(4, b"", b"h2audit-merge: standard output: %b\n" % no_space)] * 3,
        (-signal.SIGINT, b""),
    )
    if found != wanted or named[0] != 3 or b"\x1b" in named[2]:
        return [f"merge ends so: {found}, {named}"]
    return []


class Splits(unittest.TestCase):
    def test_refusals(self) -> None:
        for program in PROGRAMS:
            self.assertEqual(refusals(program), [])

    def test_merge(self) -> None:
        for program in PROGRAMS:
            self.assertEqual(merge_refusals(AUDIT, program) + merge_endings(AUDIT, program), [])

    def test_captures(self) -> None:
        for program in PROGRAMS:
            for turn, (name, capture) in enumerate(captures()):
                with self.subTest(name, program=program):
                    self.check(program, capture, turn)

    def check(self, program: pathlib.Path, capture: bytes, turn: int) -> None:
        """Compares parts and merged reports of one capture."""
        count = (1, 2, 3, 5, 16)[turn % 5]
        forms: tuple[list[bytes], ...] = ([capture], rotated(capture), [])
        words = ["--frames"] if turn % 2 else []
        with tempfile.TemporaryDirectory() as made:
            parts = split(program, pathlib.Path(made), count, capture, forms[turn % 3])
            self.assertTrue(read_parts(parts, count) == parts_of(capture, count), "parts")
            self.assertEqual(merged(AUDIT, parts, count, words), run(AUDIT, *words, given=capture))


if __name__ == "__main__":
    AUDIT, *PROGRAMS = [pathlib.Path(name) for name in needed()]
    unittest.main()
