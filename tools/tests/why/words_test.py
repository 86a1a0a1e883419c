"""Tests of what h2audit-why says: its words, warnings, colours, files, statuses, and what is left behind.

    python3 -m tools.tests.why.words_test [H2AUDIT] [TEST..]
"""

import contextlib
import os
import pathlib
import pty
import re
import struct
import subprocess
import sys
import time
import unittest
from collections.abc import Iterator

from tools.tests.companions import UNREAD, companion
from tools.tests.why_tools import TOP, WHY, OnCaptures, has_programs, programs_of, ran, said_of

RUNS = ("$H2AUDIT",)
TIMED = True


def records_of(capture: bytes) -> Iterator[bytes]:
    """The records of a capture, each with its header."""
    at = 24
    while at < len(capture):
        end = at + 16 + int(struct.unpack_from("<I", capture, at + 8)[0])
        yield capture[at:end]
        at = end


class Words(OnCaptures):
    """The command line, colours, width, standard input, several files."""

    EXAMPLE = TOP / "examples" / "leaked_connection_credit_nginx.pcap"

    def test_colours(self) -> None:
        plain = ran(self.EXAMPLE).stdout
        self.assertNotIn(b"\x1b", plain)
        coloured = ran("--color", "always", self.EXAMPLE).stdout
        self.assertIn(b"\x1b[33m", coloured)
        self.assertEqual(ran("--color", "never", self.EXAMPLE).stdout, plain)

    def test_terminal(self) -> None:
        """On a terminal there are colours, without NO_COLOR, and lines fold at its width."""
        for more, has_colours in (({"TERM": "xterm"}, True), ({"NO_COLOR": "1"}, False)):
            leader, follower = pty.openpty()
            surroundings = {name: word for name, word in os.environ.items() if name != "NO_COLOR"}
            words = [WHY, self.EXAMPLE]
            with subprocess.Popen(words, stdout=follower, env={**surroundings, "COLUMNS": "70", **more}) as child:
                os.close(follower)
                text = b""
                with contextlib.suppress(OSError):  # the terminal ends with its last writer
                    while octets := os.read(leader, 4096):
                        text += octets
            os.close(leader)
            self.assertEqual((child.returncode, b"\x1b[" in text), (0, has_colours))
            lines = re.sub(r"\x1b\[\d+m", "", text.decode()).splitlines()
            self.assertLessEqual(max(map(len, lines)), 70)

    def test_width(self) -> None:
        lines = ran("--width", "60", self.EXAMPLE).stdout.decode().splitlines()
        self.assertLessEqual(max(map(len, lines)), 60)
        self.assertTrue(all(line[:1] != "G" for line in lines))
        self.assertGreater(len(lines), len(ran(self.EXAMPLE).stdout.decode().splitlines()))

    def test_standard_input(self) -> None:
        octets = self.EXAMPLE.read_bytes()
        named = ran(self.EXAMPLE)
        for words in ((), ("-",)):
            run = ran(*words, stdin=octets)
            self.assertEqual((run.returncode, run.stdout), (named.returncode, named.stdout))

    def test_worst_first(self) -> None:
        """Hung requests come first, then those that were held back longest; --all shows every one."""
        for words in ((), ("--all",)):
            text = ran(*words, self.EXAMPLE).stdout.decode()
            self.assertLess(text.index("stream 19"), text.index("stream 9 "))
        self.assertEqual(text.count("GET /"), 10)

    def test_several_files(self) -> None:
        """Two files are one capture; a packet is named with its file."""
        first, second = TOP / "examples" / "stream_overrun_go.pcap", self.EXAMPLE
        found = said_of(str(second), str(first))
        self.assertEqual(found["files"], [str(second), str(first)])
        self.assertEqual([one["opened"]["file"] for one in found["connections"]], [1, 2])
        self.assertIn(f"packet 12 of {first}", ran(second, first).stdout.decode())

    def test_wrong_order(self) -> None:
        """Files in the wrong order are said before all else, and --sort puts them right."""
        octets = self.EXAMPLE.read_bytes()
        records = list(records_of(octets))
        (self.folder / "g2").write_bytes(octets[:24] + b"".join(records[:40]))
        (self.folder / "g10").write_bytes(octets[:24] + b"".join(records[40:]))
        words = [str(self.folder / "g10"), str(self.folder / "g2")]
        found = said_of(*words)
        self.assertEqual(found["warnings"][0]["kind"], "files-out-of-order")
        self.assertIn("g10 ends", found["warnings"][0]["text"])
        self.assertEqual(said_of("--sort", *words)["warnings"], [])

    def test_late_packets(self) -> None:
        """Packets of two queues: the warning names the option, with which there is neither fault nor warning."""
        late = str(TOP / "tests" / "answer" / "packets_late_in_file.pcap")
        found = said_of(late)
        self.assertEqual([one["kind"] for one in found["warnings"]], ["times-go-back"])
        self.assertTrue(found["warnings"][0]["text"].endswith("may be wrong (--reorder)"))
        self.assertNotEqual(found["summary"]["verdict"], "stalls")
        found = said_of("--reorder", late)
        self.assertEqual((found["warnings"], found["connections"][0]["faults"]), ([], []))

    def test_doubled(self) -> None:
        """Each packet came twice, as where a bridge and its port are both captured."""
        octets = self.EXAMPLE.read_bytes()
        made = octets[:24] + b"".join(2 * record for record in records_of(octets))
        (self.folder / "doubled.pcap").write_bytes(made)
        found = said_of(str(self.folder / "doubled.pcap"))
        self.assertEqual([one["kind"] for one in found["warnings"]], ["doubled"])
        self.assertEqual(said_of(str(self.EXAMPLE))["warnings"], [])

    def test_one_direction(self) -> None:
        octets = self.EXAMPLE.read_bytes()
        made = octets[:24]
        for record in records_of(octets):
            if struct.unpack_from(">H", record, 16 + 14 + 20)[0] != 20740:  # the server's port
                made += record
        (self.folder / "one.pcap").write_bytes(made)
        run = ran(self.folder / "one.pcap")
        self.assertEqual(run.returncode, 6)
        self.assertIn(b"one direction alone was captured", run.stdout)
        self.assertNotIn(b"No rule was broken", run.stdout)

    def test_statuses(self) -> None:
        self.assertEqual(ran("--nothing").returncode, 2)
        self.assertEqual(ran("--width", "3", self.EXAMPLE).returncode, 2)
        self.assertEqual(ran(TOP / "examples" / "stream_overrun_go.pcap").returncode, 1)
        self.assertEqual(ran(self.EXAMPLE).returncode, 0)
        self.assertEqual(ran("--h2audit", "/nothere", self.EXAMPLE).returncode, 4)
        self.assertEqual(ran("--h2audit", "/bin/false", self.EXAMPLE).returncode, 4)

    def test_rows(self) -> None:
        """--rows goes with what is about the report alone."""
        rows = str(self.folder / "rows")
        for words in (("--quiet",), ("--json",), ("--compare", "a", "b"), ("--report", rows)):
            run = ran("--rows", rows, *words)
            self.assertEqual((run.returncode, run.stdout, len(run.stderr.splitlines())), (2, b"", 1), words)

    def test_report(self) -> None:
        """One run writes the rows, and what h2audit-any prints, with its status."""
        for path in sorted((TOP / "examples").glob("*.pcap")):
            rows, report = self.folder / "rows", self.folder / "report"
            run = ran("--rows", rows, "--report", report, path)
            other = subprocess.run([companion("h2audit-any"), path], capture_output=True)
            self.assertEqual((run.returncode, run.stdout), (other.returncode, b""))
            self.assertEqual(report.read_bytes(), other.stdout)
            self.assertEqual(ran("--rows", "-", path).stdout, rows.read_bytes())
            self.assertEqual(ran("--rows", rows, "--report", "-", path).stdout, other.stdout)

    def test_audit(self) -> None:
        """Rows by a report that is there are the same, and what is no report of that capture is named."""
        capture, report = str(self.EXAMPLE), self.folder / "report"
        other = str(TOP / "examples" / "stream_stalls_nghttpd.pcap")
        report.write_bytes(self.audited(capture))
        self.assertEqual(ran("--rows", "-", "--audit", report, capture).stdout, ran("--rows", "-", capture).stdout)
        run = ran("--rows", "-", "--audit", report, other)
        self.assertEqual((run.returncode, run.stdout), (4, b""))
        self.assertRegex(run.stderr.decode(), "^h2audit-why: the report is not about the capture that was made: .*\n$")
        report.write_bytes(self.audited(capture, other))
        self.assertEqual(ran("--rows", "-", "--audit", report, capture).returncode, 4)
        # With some parts alone, connections that they lack are left out. What counts packets stands in the first row.
        report.write_bytes(self.audited(capture))
        both = ran("--rows", "-", "--audit", report, capture, other)
        self.assertEqual(both.returncode, 0)
        self.assertEqual(both.stdout.splitlines()[2:], ran("--rows", "-", capture).stdout.splitlines()[2:])

    def test_damaged_report(self) -> None:
        """A report that was cut or changed is refused by name."""
        capture = str(TOP / "examples" / "paused_stream_node.pcap")
        whole, report = self.audited(capture), self.folder / "report"
        is_other = "the report is not about the capture that was made: "
        huge = b" 99999999999999999999 "
        for octets, status, why in (
            (whole[:322], 3, "line 5 is no line of a report"),
            (whole.replace(b"of all frames", b"stopped at frame 99999"), 4, is_other),
            (re.sub(rb"frame \d+ (.*stall-begin)", rb"frame 99999 \1", whole), 4, is_other),
            (re.sub(rb"time \d+ (.*stall-begin)", b"time" + huge + rb"\1", whole), 3, "no line of a report"),
            (b"", 3, "not a report of h2audit"),
        ):
            self.assertNotEqual(octets, whole, why)
            report.write_bytes(octets)
            run = ran("--rows", "-", "--audit", report, capture)
            self.assertEqual((run.returncode, run.stdout), (status, b""), run.stderr)
            self.assertRegex(run.stderr.decode(), f"^h2audit-why: .*{why}.*\n$")

    def audited(self, *captures: str) -> bytes:
        """The report of what an import makes of captures."""
        words = [os.environ["H2AUDIT"], str(self.made_of(*captures))]
        return subprocess.run(words, capture_output=True).stdout

    def test_full(self) -> None:
        """Where nothing can be written, one line says so."""
        for words in (["--help"], ["--version"], [str(self.EXAMPLE)], ["--json", str(self.EXAMPLE)]):
            with open("/dev/full", "wb") as full:
                run = subprocess.run([WHY, *words], stdout=full, stderr=subprocess.PIPE)
            self.assertEqual(run.returncode, 4)
            self.assertRegex(run.stderr.decode(), "^h2audit-why: .*No space left on device\n$")

    def test_proved(self) -> None:
        """It says what rests on the proved report."""
        self.assertIn("proved report", ran(self.EXAMPLE).stdout.decode())
        causes = [one["cause"] for one in said_of(str(self.EXAMPLE))["connections"][0]["requests"]]
        self.assertTrue(all(one["proved"] == (one["kind"] == "connection-window") for one in causes))

    def test_nothing_is_left(self) -> None:
        """What holds plaintext has no name, and h2audit ends with the program, also where that is interrupted."""
        home = self.folder / "tmp"
        home.mkdir()
        surroundings = {**os.environ, "TMPDIR": str(home)}
        subprocess.run([WHY, self.EXAMPLE], env=surroundings, capture_output=True)
        self.assertEqual(list(home.iterdir()), [])
        slow, running = self.folder / "slow", self.folder / "running"
        slow.write_text(f"#!/bin/sh\necho $$ > {running}.part\nmv {running}.part {running}\nexec sleep 60\n")
        slow.chmod(0o755)
        words = [str(WHY), "--h2audit", str(slow), str(self.EXAMPLE)]
        for signal in (2, 15, 1):
            child = subprocess.Popen(words, env=surroundings, stdout=subprocess.PIPE, stderr=subprocess.PIPE)
            while not running.exists():
                self.assertIsNone(child.poll())
                time.sleep(0.01)
            audit = int(running.read_text())
            running.unlink()
            self.assertEqual(list(home.iterdir()), [])
            child.send_signal(signal)
            said = child.communicate(timeout=30)
            self.assertEqual((child.returncode, said), (-signal, (b"", b"")))
            self.assertFalse(pathlib.Path(f"/proc/{audit}").exists())

    def test_failures_leave_nothing(self) -> None:
        """A folder of temporary files that is full, and an h2audit that is killed: one line says so. Where nobody reads
        any more nothing is said.
        """
        home, killed = self.folder / "tmp", self.folder / "killed"
        home.mkdir()
        killed.write_text("#!/bin/sh\nkill -9 $$\n")
        killed.chmod(0o755)
        full = f"{home}, the folder of temporary files \\(TMPDIR\\): File too large"
        surroundings = {**os.environ, "TMPDIR": str(home), "WHY": str(WHY), "P": str(self.EXAMPLE), "K": str(killed)}
        for script, why in (
            ("(sleep 0.2; exec $WHY --all $P) | true", None),
            ("(sleep 0.2; exec $WHY --json $P) | true", None),
            ("trap '' XFSZ; ulimit -f 0; $WHY $P", full),
            ("$WHY --h2audit $K $P", f"{killed}: ended by signal 9"),
        ):
            words = ["bash", "-c", f"{script}; exit ${{PIPESTATUS[0]}}"]
            run = subprocess.run(words, env=surroundings, capture_output=True, timeout=60)
            self.assertEqual((run.returncode, run.stdout), (4 if why else UNREAD, b""), script)
            self.assertRegex(run.stderr.decode(), f"^h2audit-why: {why}\n$" if why else "^$")
            self.assertEqual(list(home.iterdir()), [])


if __name__ == "__main__":
    sys.argv = programs_of(sys.argv)
    if not has_programs():
        sys.exit("h2audit or h2audit-import is not built")
    unittest.main()
