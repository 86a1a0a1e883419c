"""Tests of h2audit-any --map, which takes the report of an earlier import back: import_map_test.py PROGRAM

PROGRAM is h2audit. What is wanted of a report is what h2audit-any prints of the original.
"""

import pathlib
import subprocess
import tempfile
import unittest

from tests.programs import named
from tools.tests import import_tools as tools

RUNS = ("$H2AUDIT",)
QUICK = True
PROGRAM = next(iter(named()), "h2audit")
NO_MAP = "no map of h2audit-import, version 1 or 2"


def run(*words: object, given: bytes = b"") -> tuple[int, bytes, str]:
    """Status, standard output and standard error."""
    ran = subprocess.run([str(word) for word in words], input=given, capture_output=True)
    return ran.returncode, ran.stdout, ran.stderr.decode()


class Back(unittest.TestCase):
    def setUp(self) -> None:
        held = tempfile.TemporaryDirectory(prefix="h2audit-test-")
        self.addCleanup(held.cleanup)
        self.made, self.map = (pathlib.Path(held.name, name) for name in ("out.pcap", "out.map"))

    def imported(self, *words: object) -> bytes:
        """The report of what an import made, in h2audit's words."""
        self.assertIn(run(tools.IMPORT, "-o", self.made, "-m", self.map, *words)[0], (0, 6), words)
        return run(PROGRAM, "--frames", self.made)[1]

    def test_each_capture(self) -> None:
        """Captures of TLS, with their keys and without, and examples: the report and the status of h2audit-any."""
        captures = [(tools.capture_named(name), tools.key_log_of(name)) for name in tools.names()]
        captures += [(capture, []) for capture, keys in captures if keys]
        captures += [(capture, []) for capture in sorted(tools.EXAMPLES.glob("*.pcap"))]
        statuses = set()
        for capture, keys in captures:
            wanted = run(tools.ANY, "--h2audit", PROGRAM, "--frames", *keys, capture)
            report = self.imported(*keys, capture)
            self.assertEqual(run(tools.ANY, "--map", self.map, given=report), wanted, f"{capture} {keys}")
            statuses.add(wanted[0])
        self.assertEqual(statuses, {0, 1, 6})

    def test_bad_maps(self) -> None:
        """What is no map, or is cut within any line, is named."""
        report = self.imported(*tools.key_log_of("mixed"), tools.capture_named("mixed"))
        whole = self.map.read_bytes()
        lines = whole.splitlines(True)
        record = next(line for line in lines if line.startswith(b"record "))
        for text in (
            b"",
            b"\xff",
            b"h2audit-map 3\n" + whole[14:],
            b"".join(lines[:3]),
            whole.replace(record, b""),
            whole.replace(b"record 1 ", b"record one "),
            whole.replace(record, b"record 1\n"),
            *(whole[:-size] for size in (1, 20, 200, 2000)),
        ):
            self.map.write_bytes(text)
            status, said, error = run(tools.ANY, "--map", self.map, given=report)
            self.assertEqual((status, said, error), (4, b"", f"h2audit-any: {self.map}: {NO_MAP}\n"), text[-80:])
        self.map.write_bytes(whole + b"a line that a later version has\n")
        self.assertEqual(run(tools.ANY, "--map", self.map, given=report)[::2], (0, ""))

    def test_refused(self) -> None:
        """Maps of several files, reports that are none, and words that mean nothing beside a map."""
        example = tools.EXAMPLES / "stream_overrun_go.pcap"
        report = self.imported(example)
        self.assertEqual(run(tools.ANY, "--map", self.made.parent / "none", given=report)[0], 4)
        no_report = (4, "h2audit-any: h2audit: what it said is no report\n")
        for text in (b"", b"of no interest\n", b"\xff\n", report.replace(b" record 1", b" record 999999")):
            self.assertEqual(run(tools.ANY, "--map", self.map, given=text)[::2], no_report, text[:80])
        for words in ((example,), ("-k", example), ("--parts", "2"), ("--frames",), ("--h2audit", PROGRAM)):
            found = run(tools.ANY, "--map", self.map, *words, given=report)
            self.assertEqual(
                found, (2, b"", "h2audit-any: --map takes a report on standard input, and no option but --rows\n")
            )
        report = self.imported(example, example)
        said = f"h2audit-any: {self.map}: a map of several files, whose packets it does not number through\n"
        self.assertEqual(run(tools.ANY, "--map", self.map, given=report), (4, b"", said))


if __name__ == "__main__":
    unittest.main()
