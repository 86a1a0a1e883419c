"""Tests the shapes of bench/generate.py, and bench/measure.py, measure_fleet.py and measure_why.py with programs that
stand in for those that they measure: tools/tests/documents/bench_test.py
"""

import collections
import os
import pathlib
import subprocess
import sys
import tempfile
import unittest

from hpack import Decoder

from bench.generate import TALKS
from bench.talks import HEADERS
from bench.wire import PREFACE

TOP = pathlib.Path(__file__).resolve().parents[3]
COUNTS = "#!/bin/sh\nwc -c\n"
OTHER = "#!/bin/sh\ncksum\n"
GENERATES = '#!/bin/sh\n[ "$1" = flat ] && head -c "${2}000" /dev/zero\n'
# Answers for h2audit, with the capture by its name or on standard input.
AUDITS = """#!/bin/sh
[ "$1" = --version ] && exec echo h2audit 1.0.0
[ $# = 2 ] && cat > /dev/null
echo capture records 0 segments 0 snapped 0 not-ipv4 0 fragments 0 not-tcp 0 refused 0
"""
# Answers for h2audit-why, h2audit-any and the page.
ANSWERS = """#!/bin/sh
[ "$3" = --json ] && echo '{}' || echo '3 connections, 2 requests, 1.234 s. No rule was broken.'
"""
AUDITS_ANY = """#!/bin/sh
echo capture records 0 segments 0 snapped 0 not-ipv4 0 fragments 0 not-tcp 0 refused 0
for count in 5 7; do echo connection 1 client 1.2.3.4:1 server 1.2.3.4:80 record 1 http2 frames $count; done
"""
SHOWS = '#!/bin/sh\n: > "$3"\n'
Side = tuple[bytes, bytes]  # who sends, and who receives


def generated(shape: str, megabytes: float) -> bytes:
    with tempfile.TemporaryDirectory() as folder:
        path = pathlib.Path(folder, "capture.pcap")
        words = [sys.executable, "-m", "bench.generate", shape, str(megabytes), str(path)]
        subprocess.run(words, cwd=TOP, check=True)
        return path.read_bytes()


def sent(capture: bytes) -> dict[Side, bytearray]:
    """What each side of each connection sends, where all comes in order."""
    sides: dict[Side, bytearray] = {}
    at = 24
    while at < len(capture):
        end = at + 16 + int.from_bytes(capture[at + 8 : at + 12], "little")
        packet = capture[at + 16 : end]
        source, destination = packet[26:30] + packet[34:36], packet[30:34] + packet[36:38]
        payload = packet[34 + 4 * (packet[46] >> 4) :]
        sides.setdefault((source, destination), bytearray()).extend(payload)
        at = end
    return sides


def frames(octets: bytearray) -> list[tuple[int, int, bytes]]:
    """Kind, flags and payload of each frame."""
    found, at = [], octets.startswith(PREFACE) * len(PREFACE)
    while at + 9 <= len(octets):
        end = at + 9 + int.from_bytes(octets[at : at + 3], "big")
        found.append((octets[at + 3], octets[at + 4], bytes(octets[at + 9 : end])))
        at = end
    return found


class Shapes(unittest.TestCase):
    def test_same_bytes(self) -> None:
        """Each process makes the same, of the size that is asked for but for what ends the last turn."""
        for shape in TALKS:
            made = generated(shape.__name__, 0.3)
            self.assertEqual(made, generated(shape.__name__, 0.3), shape.__name__)
            self.assertTrue(300000 <= len(made) < 500000, (shape.__name__, len(made)))

    def test_field_blocks(self) -> None:
        """A decoder of each side reads them, with what else a request has."""
        for shape, wanted in (("web", {":path", "cookie", "etag"}), ("api", {":path", "traceparent", "grpc-status"})):
            names: collections.Counter[str] = collections.Counter()
            for octets in sent(generated(shape, 0.5)).values():
                decoder = Decoder()
                for kind, flags, payload in frames(octets):
                    if kind == HEADERS:
                        names.update(name for name, _ in decoder.decode(payload[5 if flags & 0x20 else 0 :]))
            self.assertLessEqual(wanted, set(names))
            self.assertGreater(names[":path"], 100)

    def test_many_frames(self) -> None:
        """What decides how long a shape takes, of each megabyte: frames, and HEADERS among them."""
        for shape, count, headers in (("mixed", 19100, 800), ("many", 3700, 1200), ("grpc", 6000, 2000),
                                      ("requests", 9100, 6100), ("web", 900, 440), ("api", 6000, 2650)):  # fmt: skip
            kinds = [kind for octets in sent(generated(shape, 1)).values() for kind, _, _ in frames(octets)]
            for wanted, found in ((count, len(kinds)), (headers, kinds.count(HEADERS))):
                self.assertAlmostEqual(found / wanted, 1, delta=0.05, msg=f"{shape}: {found}")


class Measure(unittest.TestCase):
    def setUp(self) -> None:
        folder = tempfile.TemporaryDirectory()
        self.addCleanup(folder.cleanup)
        self.folder = pathlib.Path(folder.name)
        for name, text in (("counts", COUNTS), ("same", COUNTS), ("other", OTHER), ("generates", GENERATES)):
            (self.folder / name).write_text(text)
            os.chmod(self.folder / name, 0o755)

    def run_with(self, *words: str) -> subprocess.CompletedProcess[str]:
        names = [str(self.folder / word) if (self.folder / word).is_file() else word for word in words]
        return subprocess.run([sys.executable, "-m", "bench.measure", *names], cwd=TOP, capture_output=True, text=True)

    def refused(self, why: str, *words: str) -> None:
        run = self.run_with(*words)
        self.assertEqual((2, "measure.py: " + why.format(self.folder) + "\n"), (run.returncode, run.stderr))

    def test_lines(self) -> None:
        run = self.run_with("counts", "--runs", "1", "--shapes", "bulk", "0.1", "0.2")
        self.assertEqual((0, ""), (run.returncode, run.stderr))
        lines = [line.split() for line in run.stdout.splitlines()[2:]]
        self.assertEqual(["bulk", "bulk"], [line[0] for line in lines])
        self.assertEqual([9, 9], [len(line) for line in lines])

    def test_peer_and_older_program(self) -> None:
        run = self.run_with(
            "counts",
            "--peer",
            "same",
            "--beside",
            "other",
            "--runs",
            "1",
            "--shapes",
            "flat",
            "--generator",
            "generates",
            "10",
            "20",
        )
        self.assertEqual((0, ""), (run.returncode, run.stderr))
        lines = [line.split() for line in run.stdout.splitlines()[2:]]
        self.assertEqual([("flat", "0.01"), ("flat", "0.02")], [tuple(line[:2]) for line in lines])
        self.assertEqual([14, 14], [len(line) for line in lines])

    def test_missing(self) -> None:
        for option in ("--peer", "--beside", "--generator"):
            self.refused("there is no program /no/such", "counts", option, "/no/such")
        self.refused("there is no program /no/such", "/no/such")
        self.refused("there is no shape flat", "counts", "--shapes", "flat")

    def test_another_report(self) -> None:
        self.refused(
            "of shape bulk, {0}/other has another report than {0}/counts",
            "counts",
            "--peer",
            "other",
            "--runs",
            "1",
            "--shapes",
            "bulk",
            "0.1",
        )

    def test_no_capture(self) -> None:
        self.refused(
            "{0}/generates makes no capture of shape round with 1 MB",
            "counts",
            "--generator",
            "generates",
            "--shapes",
            "round",
            "1",
        )


class Why(unittest.TestCase):
    def setUp(self) -> None:
        folder = tempfile.TemporaryDirectory()
        self.addCleanup(folder.cleanup)
        self.folder = pathlib.Path(folder.name)
        for name, text in (("why", ANSWERS), ("any", AUDITS_ANY), ("page", SHOWS), ("tshark", COUNTS)):
            self.write(name, text)

    def write(self, name: str, text: str) -> None:
        path = self.folder / name
        path.write_text(text)
        path.chmod(0o755)

    def run_with(self, *words: str) -> subprocess.CompletedProcess[str]:
        named = {"--why": "why", "--any": "any", "--h2audit": "any", "--page": "page", "--tshark": "tshark"}
        words = tuple(str(word) for name, file in named.items() for word in (name, self.folder / file)) + words
        words = (sys.executable, "-m", "bench.measure_why", *words, "--runs", "1", "--shapes", "web")
        return subprocess.run(words, cwd=TOP, capture_output=True, text=True)

    def test_rows(self) -> None:
        """A line for each size, from the second on with how the time grew; and what an earlier program took."""
        run = self.run_with("--before", str(self.folder / "why"), "0.1", "0.2")
        self.assertEqual("", run.stderr)
        lines = [line.split() for line in run.stdout.splitlines()[1:]]
        self.assertEqual([["web", "2", "12"]] * 2, [[line[0], *line[2:4]] for line in lines])
        self.assertEqual([False, True], ["growth" in line for line in lines])
        self.assertEqual([True] * 2, ["before" in line for line in lines])
        self.assertEqual(run.returncode, int(any("ABOVE:" in line for line in lines)))

    def test_above(self) -> None:
        """What takes too long is named."""
        self.write("why", ANSWERS + "i=0; while [ $i -lt 100000 ]; do i=$((i + 1)); done\n")
        run = self.run_with("0.1")
        self.assertEqual((1, ""), (run.returncode, run.stderr))
        self.assertRegex(run.stdout.splitlines()[1], "  ABOVE: why, steps.*, tshark")

    def test_refused(self) -> None:
        self.write("why", "#!/bin/sh\necho no memory >&2; exit 5\n")
        why = self.folder / "why"
        run = self.run_with("0.1")
        self.assertEqual(2, run.returncode)
        self.assertRegex(run.stderr, f"measure_why.py: {why} --h2audit .* answers 5: no memory\n")


class Fleet(unittest.TestCase):
    def test_side_by_side(self) -> None:
        """xargs and h2audit-fleet, with 1, 2 and 4 workers, and whether the bound holds."""
        with tempfile.TemporaryDirectory() as folder:
            program = pathlib.Path(folder, "h2audit")
            program.write_text(AUDITS)
            program.chmod(0o755)
            run = subprocess.run(
                [sys.executable, "-m", "bench.measure_fleet", program, "5", "0.01"],
                cwd=TOP,
                capture_output=True,
                text=True,
            )
        self.assertEqual((0, ""), (run.returncode, run.stderr))
        _, _, _, *lines, last = run.stdout.splitlines()
        names = ["xargs -P 4", *(f"h2audit-fleet --jobs {jobs}" for jobs in (1, 2, 4))]
        self.assertEqual([line[:24].strip() for line in lines], names)
        self.assertEqual([4] * 4, [len(line[24:].split()) for line in lines])
        self.assertRegex(last, r"^\d+\.\d\d s of \d+\.\d\d, which is .*: (within|ABOVE)$")


if __name__ == "__main__":
    unittest.main()
