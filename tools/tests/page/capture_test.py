"""Tests of h2audit-page on captures, by the programs that it runs. why_forms_test has what a page says.

    python3 -m tools.tests.page.capture_test [H2AUDIT] [TEST..]
"""

import contextlib
import html
import io
import os
import pathlib
import re
import signal
import subprocess
import sys
import tempfile
import time
import unittest
from unittest import mock

from h2audit.page.program import arguments
from h2audit.page.sources import audit_of
from h2audit.page.top import asked
from h2audit.report.charts import copy
from h2audit.report.command import BUFFER
from h2audit.report.progress import Line
from tools.tests.why_tools import TOP, WHY, has_programs, programs_of

RUNS = ("$H2AUDIT",)
QUICK = True
TIMED = True
PAGE = TOP / "tools" / "h2audit-page"
EXAMPLES = sorted((TOP / "examples").glob("*.pcap"))


def ran(*words: str | pathlib.Path, stdin: bytes = b"", **more: str) -> subprocess.CompletedProcess[bytes]:
    environment = {**os.environ, **more}
    return subprocess.run([PAGE, *words], input=stdin, capture_output=True, timeout=200, env=environment)


def page(*words: str | pathlib.Path, stdin: bytes = b"") -> str:
    done = ran(*words, "-o", "-", stdin=stdin)
    assert (done.returncode, done.stderr) == (0, b""), done.stderr
    return done.stdout.decode()


def text_of(document: str) -> str:
    return html.unescape(re.sub(r"<script.*?</script>|<style.*?</style>|<[^>]*>", "\n", document, flags=re.S))


class Examples(unittest.TestCase):
    def test_sums_hold_the_longest(self) -> None:
        """In each row of whom to ask the time of all is no less than that of its longest request."""
        self.enterContext(mock.patch.dict(os.environ, {"H2AUDIT_WHY": str(WHY)}))
        for capture in EXAMPLES:
            audit = audit_of(arguments([str(capture), "-o", "-"]))
            for one in asked(audit):
                self.assertGreaterEqual(one.nanos, one.longest, capture.name)

    def test_no_requests(self) -> None:
        capture = TOP / "examples" / "leaked_connection_credit_nginx.pcap"
        self.assertIn("GET /f20k.bin", page(capture))
        document = page(capture, "--no-requests", "--title", "A page")
        self.assertNotIn("f20k", text_of(document))
        self.assertIn("Requests, those with trouble first", document)

    def test_standard_input(self) -> None:
        capture = TOP / "examples" / "leaked_connection_credit_nginx.pcap"
        words = ("--title", "A page")
        self.assertEqual(page("-", *words, stdin=capture.read_bytes()), page(capture, *words))

    def test_several_files(self) -> None:
        """Findings are named by the packet of their file, as the terminal names them."""
        first, second = (TOP / "examples" / f"{name}.pcap" for name in ("tiny_window_lighttpd", "stream_overrun_go"))
        shown = text_of(page(first, second, "--sort"))
        self.assertIn("frame 7, packet 12 of ", shown)

    def test_late_packets(self) -> None:
        """In order of time no rule was broken, on the page as in the report below it."""
        late = TOP / "tests" / "answer" / "packets_late_in_file.pcap"
        self.assertIn("(--reorder)", text_of(page(late)))
        shown = text_of(page(late, "--reorder"))
        self.assertNotIn("(--reorder)", shown)
        self.assertIn("No rule was broken", shown)

    def test_of_a_report_as_before(self) -> None:
        report = TOP / "examples" / "stream_overrun_go.frames.report"
        self.assertIn("Made by h2audit-page from a report of h2audit.", page(report))


class Progress(unittest.TestCase):
    """What h2audit-why shows on a terminal, the page's line shows; a pipe gets what went wrong alone."""

    # It shows how far it is to a terminal alone, and then fails.
    FAILS = """
if test -t 2; then
    printf '\\rh2audit-why: 5 of 9 MB' >&2
    sleep 0.1
    printf '\\rh2audit-why: 7 of 9 MB' >&2
    printf '\\r                       \\r' >&2
fi
echo 'h2audit-why: capture refused: bad-magic: a.pcap' >&2
exit 3
"""

    def setUp(self) -> None:
        folder = tempfile.TemporaryDirectory()
        self.addCleanup(folder.cleanup)
        self.program = pathlib.Path(folder.name, "stand-in")

    def begun(self, script: str, stderr: int) -> subprocess.Popen[bytes]:
        self.program.write_text("#!/bin/sh\n" + script)
        self.program.chmod(0o755)
        environment = {**os.environ, "H2AUDIT_WHY": str(self.program)}
        return subprocess.Popen([PAGE, EXAMPLES[0], "-o", "/dev/null"], stderr=stderr, env=environment)

    def on_terminal(self, script: str, number: int = 0) -> tuple[int, str]:
        """The status of a run, which may get a signal, and all that its terminal got."""
        master, slave = os.openpty()
        running = self.begun(script, slave)
        os.close(slave)
        text = b""
        with contextlib.suppress(OSError):
            while octets := os.read(master, 4096):
                text += octets
                if number and b"5 of 9" in text:
                    running.send_signal(number)
                    number = 0
        os.close(master)
        return running.wait(60), text.decode()

    def test_on_a_terminal(self) -> None:
        status, text = self.on_terminal(self.FAILS)
        line, nothing = "\rh2audit-page: {} of 9 MB", "\r" + " " * len("h2audit-page: 5 of 9 MB") + "\r"
        said = "h2audit-page: capture refused: bad-magic: a.pcap\r\n"
        self.assertEqual((status, text), (3, line.format(5) + line.format(7) + nothing + said))

    def test_on_a_pipe(self) -> None:
        with self.begun(self.FAILS, subprocess.PIPE) as running:
            assert running.stderr
            said = running.stderr.read()
        self.assertEqual((running.returncode, said), (3, b"h2audit-page: capture refused: bad-magic: a.pcap\n"))

    def test_a_signal(self) -> None:
        """The line is gone, and nothing is said."""
        script = "printf '\\rh2audit-why: 5 of 9 MB\\r' >&2\nexec sleep 100\n"
        status, text = self.on_terminal(script, signal.SIGTERM)
        self.assertEqual((status, text.split("\r")[2:]), (-signal.SIGTERM, [" " * len("h2audit-page: 5 of 9 MB"), ""]))

    def test_standard_input(self) -> None:
        """It is copied first, and how much of it is told from two seconds on, twice a second at most."""
        line = Line()
        line.is_shown = True
        with mock.patch.object(Line, "write") as write, mock.patch("time.monotonic") as now:
            now.side_effect = [line.next + more for more in (-0.01, 0, 0, 0.4, 0.6, 0.6)]
            source = io.BytesIO(bytes(4 * BUFFER))
            with tempfile.TemporaryFile() as to:
                copy(source, to, line)
        told = [call.args[0].partition(": ")[2].rstrip() for call in write.call_args_list]
        self.assertEqual(told, ["reading: 0.5 MB", "reading: 1.0 MB"])


class Endings(unittest.TestCase):
    def test_refusals(self) -> None:
        """The reasons of the programs that it runs, on one line."""
        capture = str(EXAMPLES[0])
        with tempfile.NamedTemporaryFile() as damaged:
            damaged.write(b"\xd4\xc3\xb2\xa1" + bytes(5))
            damaged.flush()
            for status, words in (
                (3, [damaged.name]),
                (4, [capture, "/nowhere/at all"]),
                (4, ["-k", "/nowhere/keys", capture]),
                (2, [str(TOP / "examples" / "stream_overrun_go.report"), capture]),
            ):
                done = ran(*words, "-o", "/dev/null")
                self.assertEqual((done.returncode, done.stderr.count(b"\n")), (status, 1), done.stderr)
                self.assertTrue(done.stderr.startswith(b"h2audit-page: "), done.stderr)
                self.assertNotIn(b"Traceback", done.stderr)

    def test_a_program_that_is_missing(self) -> None:
        done = ran(EXAMPLES[0], "-o", "/dev/null", H2AUDIT_WHY="/nowhere/h2audit-why")
        self.assertEqual((done.returncode, done.stderr.count(b"\n")), (4, 1))

    def test_nothing_is_left_behind(self) -> None:
        with tempfile.TemporaryDirectory() as folder:
            ran(EXAMPLES[0], "-o", f"{folder}/page.html", TMPDIR=folder)
            self.assertEqual(os.listdir(folder), ["page.html"])
            ran("-", "-o", f"{folder}/other.html", stdin=b"\xd4\xc3\xb2\xa1" + bytes(5), TMPDIR=folder)
            self.assertEqual(os.listdir(folder), ["page.html"])

    def test_a_signal_ends_all_of_it(self) -> None:
        """The programs that it runs end, and what holds plaintext goes."""
        with tempfile.TemporaryDirectory() as folder, tempfile.TemporaryDirectory() as place:
            slow = pathlib.Path(place, "slow")
            slow.write_text(f"#!/bin/sh\necho $$ > {place}/number\nexec sleep 100\n")
            slow.chmod(0o755)
            environment = {**os.environ, "TMPDIR": folder, "H2AUDIT_WHY": str(slow)}
            running = subprocess.Popen(
                [PAGE, "-", "-o", "/dev/null"], stdin=subprocess.PIPE, stderr=subprocess.PIPE, env=environment
            )
            number = pathlib.Path(place, "number")
            running.stdin and running.stdin.write(EXAMPLES[0].read_bytes())
            running.stdin and running.stdin.close()
            while not (number.exists() and number.read_text().strip()):
                self.assertIsNone(running.poll())
                time.sleep(0.02)
            running.terminate()
            said = running.stderr.read() if running.stderr else b""
            self.assertEqual((running.wait(60), said, os.listdir(folder)), (-signal.SIGTERM, b"", []))
            self.assertFalse(pathlib.Path("/proc", number.read_text().strip()).exists())
            if running.stderr:
                running.stderr.close()

    def test_a_signal_leaves_no_plaintext(self) -> None:
        """The programs that the page runs end with it, and what holds plaintext has no name, or goes."""
        with tempfile.TemporaryDirectory() as folder, tempfile.TemporaryDirectory() as place:
            slow = pathlib.Path(place, "slow")
            slow.write_text(f"#!/bin/sh\ntouch {place}/begun-$$\nexec sleep 100\n")
            slow.chmod(0o755)
            # h2audit-why waits for the audit of what it has imported.
            words = [str(PAGE), str(EXAMPLES[0]), "-o", "/dev/null"]
            with subprocess.Popen(words, env={**os.environ, "TMPDIR": folder, "H2AUDIT": str(slow)}) as running:
                while len(begun := list(pathlib.Path(place).glob("begun-*"))) < 1:
                    self.assertIsNone(running.poll())
                    time.sleep(0.02)
                running.terminate()
            self.assertEqual((running.returncode, os.listdir(folder)), (-signal.SIGTERM, []))
            numbers = [file.name.removeprefix("begun-") for file in begun]
            self.assertEqual([number for number in numbers if pathlib.Path("/proc", number).exists()], [])

    def test_nothing_audited(self) -> None:
        """The page says so, and which connections were not audited, and why."""
        capture = TOP / "examples" / "stream_overrun_go.pcap"
        with tempfile.NamedTemporaryFile(suffix=".pcap") as begun:
            begun.write(capture.read_bytes()[:24])
            begun.flush()
            shown = text_of(page(begun.name))
        self.assertIn("Nothing was audited", shown)
        self.assertNotIn("No rule was broken", shown)


if __name__ == "__main__":
    words = programs_of(sys.argv)
    if not has_programs():
        sys.exit("page_capture_test: h2audit or h2audit-import is not built")
    unittest.main(argv=words)
