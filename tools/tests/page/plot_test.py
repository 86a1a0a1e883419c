"""Tests of h2audit-plot over all reports with credit lines in examples/, over the pictures in docs/, and on bad input.

    python3 -m tools.tests.page.plot_test            runs the tests
    python3 -m tools.tests.page.plot_test --write    draws the pictures of docs/ anew
"""

import os
import pathlib
import re
import subprocess
import sys
import tempfile
import unittest
import xml.etree.ElementTree as xml

from h2audit.plot import drawing, program
from h2audit.plot.windows import chosen, connections_of
from tools.tests.companions import UNREAD
from tools.tests.running import ran
from tools.tests.signals import SIGNALS, hidden_in, signalled

QUICK = True
TIMED = True
TOP = pathlib.Path(__file__).resolve().parents[3]

PROGRAM = TOP / "tools" / "h2audit-plot"
EXAMPLES = TOP / "examples"
PICTURES = TOP / "docs" / "pictures"
# What is drawn of each report, where it is not everything.
CHOICES = {
    "leaked_connection_credit_nginx": ["--stream", "0"],
    "lost_segment": ["--by-frame"],
    "negative_window": ["--by-frame"],
    "negative_window_tomcat": ["--stream", "1"],
    "stream_overrun_go": ["--by-frame"],
    "use_after_reset": ["--by-frame"],
}


def answer(*words: str) -> tuple[int, str]:
    """The status of a run and its line on standard error."""
    return ran("h2audit-plot", program.main, *words)


def reports() -> list[pathlib.Path]:
    return sorted(EXAMPLES.glob("*.frames.report"))


def name_of(report: pathlib.Path) -> str:
    return report.name.removesuffix(".frames.report")


def draw(report: pathlib.Path, output: pathlib.Path | str, *choices: str) -> None:
    status, said = answer(str(report), "--output", str(output), *choices)
    assert (status, said) == (0, ""), (report, status, said)


class Examples(unittest.TestCase):
    """Each report is read whole, and each of its windows, stalls and faults is in the picture."""

    def test_each_report(self) -> None:
        self.assertTrue(reports())
        with tempfile.TemporaryDirectory() as folder:
            for report in reports():
                with self.subTest(report.name):
                    draw(report, pathlib.Path(folder, "picture.svg"))
                    self.judge(report.read_text(), pathlib.Path(folder, "picture.svg").read_text())

    def judge(self, report: str, picture: str) -> None:
        xml.fromstring(picture)
        windows = set(re.findall(r"(client|server) \w+-credit stream (\d+)", report))
        for side, stream in windows if len(windows) <= 8 else []:
            self.assertIn(f'id="credit-1-{side}-{stream}"', picture)
        for side, stream in re.findall(r"^stall (client|server) stream (\d+)", report, re.M):
            self.assertIn(f'id="stalls-1-{side}-{stream}"', picture)
        for frame, kind in re.findall(r"^frame (\d+) record .* (\S*(?:over|after|not-|zero-)\S*) stream", report, re.M):
            self.assertIn(f"frame {frame}: {kind} by the ", picture)

    def test_png(self) -> None:
        with tempfile.TemporaryDirectory() as folder:
            draw(reports()[0], pathlib.Path(folder, "picture.PNG"))
            self.assertEqual(pathlib.Path(folder, "picture.PNG").read_bytes()[:8], b"\x89PNG\r\n\x1a\n")

    def test_stalls_are_those_of_the_report(self) -> None:
        for report in reports():
            text = report.read_text()
            with report.open("rb") as file:
                windows = [window for one in connections_of(file) for window in one.windows]
            drawn = sorted(
                f"stall {window.side} stream {window.stream} from {begin.frame} "
                + (f"to {end.frame} nanos {end.time - begin.time}" if end else "open")
                for window in windows
                for begin, end in window.stalls
            )
            self.assertEqual(drawn, sorted(re.findall(r"^stall .*", text, re.M)), report.name)

    def test_who_broke_it(self) -> None:
        with tempfile.TemporaryDirectory() as folder:
            picture = pathlib.Path(folder, "picture.svg")
            draw(EXAMPLES / "connection_overflow_nginx.frames.report", picture)
            self.assertIn("frame 9: connection-overflow by the client", picture.read_text())
            draw(EXAMPLES / "stream_overrun_go.frames.report", picture)
            self.assertIn("frame 7: stream-overrun by the client", picture.read_text())


class Pictures(unittest.TestCase):
    """The pictures of docs/ are those of the reports."""

    def test_pictures(self) -> None:
        import matplotlib

        self.assertTrue(list(PICTURES.glob("*.svg")))
        for picture in PICTURES.glob("*.svg"):
            text = picture.read_text()
            by_another = f"{picture.name} was drawn by another matplotlib"
            self.assertIn(f"Matplotlib v{matplotlib.__version__},", text, by_another)
            with tempfile.TemporaryDirectory() as folder:
                again = pathlib.Path(folder, "again.svg")
                draw(EXAMPLES / f"{picture.stem}.frames.report", again, *CHOICES.get(picture.stem, []))
                self.assertTrue(
                    text == again.read_text(), f"{picture.name} is old: python3 -m tools.tests.page.plot_test --write"
                )


class Choices(unittest.TestCase):
    """Options choose what is drawn."""

    REPORT = EXAMPLES / "negative_window_tomcat.frames.report"

    def windows(self, *words: str) -> tuple[list[str], int]:
        asked = program.arguments([str(self.REPORT), *words])
        with self.REPORT.open("rb") as report:
            drawn, left_out = chosen(connections_of(report), asked)
        return [window.name for window in drawn], left_out

    def test_windows(self) -> None:
        self.assertEqual(self.windows(), (["server, connection", "server, stream 1", "server, stream 3"], 0))
        self.assertEqual(self.windows("--connection", "1", "--stream", "3"), (["server, stream 3"], 0))
        self.assertEqual(self.windows("--stream", "0"), (["server, connection"], 0))
        self.assertEqual(self.windows("--panels", "1"), (["server, stream 1"], 2))

    def test_standard_input_and_output(self) -> None:
        for form, begin in (("svg", b"<?xml"), ("png", b"\x89PNG")):
            with self.REPORT.open("rb") as report:
                run = subprocess.run([PROGRAM, "--by-frame", "--format", form], stdin=report, capture_output=True)
            self.assertEqual((run.returncode, run.stderr), (0, b""))
            self.assertTrue(run.stdout.startswith(begin))


class Reading(unittest.TestCase):
    """What helps to read a picture."""

    REPORT = EXAMPLES / "negative_window_tomcat.frames.report"

    def drawn(self, report: pathlib.Path, *words: str) -> str:
        with tempfile.TemporaryDirectory() as folder:
            draw(report, pathlib.Path(folder, "picture.svg"), *words)
            return pathlib.Path(folder, "picture.svg").read_text()

    def test_title(self) -> None:
        """The heading stands in the picture as it is, with what an SVG or a formula would take for more."""
        title = "Ticket <4711> & $x$\nof today"
        texts = [text.text for text in xml.fromstring(self.drawn(self.REPORT, "--title", title)).iter() if text.text]
        self.assertIn("Ticket <4711> & $x$ of today", texts)
        self.assertNotIn("Ticket", self.drawn(self.REPORT))

    def test_letters_of_another_font(self) -> None:
        """Nothing is said of letters that the font does not have."""
        self.assertEqual(answer(str(self.REPORT), "-o", "/dev/null", "--format", "png", "--title", "漢字"), (0, ""))

    def test_endpoints_are_no_formulas(self) -> None:
        report = self.REPORT.read_text().replace(" client 127.0.0.1:", " client $\\q$:")
        with tempfile.NamedTemporaryFile("w") as file:
            file.write(report)
            file.flush()
            texts = [text.text or "" for text in xml.fromstring(self.drawn(pathlib.Path(file.name))).iter()]
        self.assertTrue(any("client $\\q$:" in text for text in texts))

    def test_legend(self) -> None:
        """Shades of stalls are named, and faults, where there are some."""
        marks = {"credit": True, "stalled: credit used up": True, "fault": False}
        for report, faults in ((self.REPORT, False), (EXAMPLES / "stream_overrun_go.frames.report", True)):
            picture = self.drawn(report)
            self.assertIn('<g id="legend">', picture)
            for name, is_there in (marks | {"fault": faults}).items():
                self.assertEqual(f">{name}</text>" in picture, is_there, (report.name, name))

    def test_one_scale(self) -> None:
        """All panels have the same scale, so that heights tell of each other."""
        for report in reports():
            with report.open("rb") as file:
                windows, left_out = chosen(connections_of(file), program.arguments([str(report)]))
            axes = drawing.draw(windows, left_out, True).axes
            self.assertEqual(len({(axis.get_ylim(), axis.get_yscale()) for axis in axes}), 1, report.name)
            least, most = axes[0].get_ylim()
            values = [credit for window in windows for credit in drawing.heights(window)]
            self.assertTrue(least <= min(values) and max(values) <= most, report.name)


class BadInput(unittest.TestCase):
    """Each gives one line on standard error, and its status."""

    def refuses(self, text: bytes, why: str) -> None:
        with tempfile.NamedTemporaryFile() as file:
            file.write(text)
            file.flush()
            self.assertEqual(answer(file.name, "-o", "/dev/null"), (3, f"h2audit-plot: report refused: {why}\n"))

    def test_refused_reports(self) -> None:
        good = (EXAMPLES / "stream_overrun_go.frames.report").read_bytes()
        self.refuses(b"", "not a report of h2audit")
        self.refuses(b"\xff\xfe", "not a report of h2audit")
        self.refuses((EXAMPLES / "stream_overrun_go.pcap").read_bytes(), "not a report of h2audit")
        self.refuses(
            (EXAMPLES / "stream_overrun_go.report").read_bytes(),
            "the report has no credit lines: make it with h2audit --frames",
        )
        self.refuses(good.replace(b"nanos", b"nano"), "line 16 is no line of a report")
        self.refuses(
            good.split(b"\n", 1)[0] + b"\nframe 1 record 1 time 1 client stream-credit stream 1 value 1\n",
            "line 2 is no line of a report",
        )
        self.refuses(good[:-12], "line 17 is no line of a report")
        self.refuses(good.replace(b" client 127", b" client \x1b127"), "line 2 is no line of a report")
        self.refuses(good.replace(b"value 10000", b"value " + b"9" * 5000), "line 5 is no line of a report")

    def test_nothing_to_draw(self) -> None:
        report = str(EXAMPLES / "stream_overrun_go.frames.report")
        self.assertEqual(
            answer(report, "--connection", "2"), (3, "h2audit-plot: report refused: the report has no connection 2\n")
        )
        self.assertEqual(
            answer(report, "--stream", "3"),
            (3, "h2audit-plot: report refused: the report tells no credit of stream 3\n"),
        )

    def test_files(self) -> None:
        report = str(EXAMPLES / "stream_overrun_go.frames.report")
        missing = "/nowhere/at all"
        self.assertEqual(answer(missing), (4, f"h2audit-plot: {missing}: No such file or directory\n"))
        self.assertEqual(answer(report, "-o", missing), (4, f"h2audit-plot: {missing}: No such file or directory\n"))
        self.assertEqual(answer("/", "-o", missing), (4, "h2audit-plot: /: Is a directory\n"))

    def test_words(self) -> None:
        for words in (
            ["--connection", "0"],
            ["--stream", "-1"],
            ["--stream"],
            ["--format", "gif"],
            ["one", "two"],
            ["--panels", "65"],
            ["--panels", "9" * 5000],
        ):
            status, said = answer(*words)
            self.assertEqual((status, said.count("\n"), said.startswith("h2audit-plot: ")), (2, 1, True), words)

    def test_names(self) -> None:
        """The name of a picture says what it is: another ending is refused, and no file is left."""
        report = str(EXAMPLES / "stream_overrun_go.frames.report")
        with tempfile.TemporaryDirectory() as folder:
            for words, why in (
                (["a.jpg"], "a.jpg: no jpg is drawn, but svg or png"),
                (["a.PDF"], "a.PDF: no pdf is drawn, but svg or png"),
                (["a.png", "--format", "svg"], "a.png: its name says png, and --format svg"),
            ):
                output = str(pathlib.Path(folder, words[0]))
                status, said = answer(report, "-o", output, *words[1:])
                self.assertEqual((status, said.replace(f"{folder}/", "")), (2, f"h2audit-plot: {why}\n"))
            self.assertEqual(os.listdir(folder), [])
            for name, begin in (("a.PNG", b"\x89PNG"), ("a", b"<?xml"), ("a.4711", b"<?xml")):
                draw(pathlib.Path(report), pathlib.Path(folder, name))
                self.assertTrue(pathlib.Path(folder, name).read_bytes().startswith(begin), name)
            draw(pathlib.Path(report), pathlib.Path(folder, "a.picture"), "--format", "png")
            self.assertTrue(pathlib.Path(folder, "a.picture").read_bytes().startswith(b"\x89PNG"))

    def test_signals(self) -> None:
        """One while it reads, or while it draws, leaves no file and says nothing."""
        report = EXAMPLES / "stream_stalls_nghttpd.frames.report"
        begin = report.read_bytes().split(b"frame ", 1)[0] + b"".join(
            b"frame %d record 1 time 1 server connection-credit stream 0 value 1\n" % frame for frame in range(1, 5000)
        )
        with tempfile.TemporaryDirectory() as folder:
            words = ["-o", f"{folder}/picture.svg"]
            for one in SIGNALS:
                reads = signalled([PROGRAM, *words], begin, [one])
                draws = signalled([PROGRAM, report, *words], b"", [one], lambda: hidden_in(pathlib.Path(folder)))
                self.assertEqual((reads, draws, os.listdir(folder)), ((-one, b""), (-one, b""), []))

    def test_closed_files(self) -> None:
        for words in (["-"], [str(EXAMPLES / "stream_overrun_go.frames.report")]):
            run = subprocess.run(["bash", "-c", '"$0" "$@" <&- >&-', str(PROGRAM), *words], capture_output=True)
            said = b"h2audit-plot: input or output: Bad file descriptor\n"
            self.assertEqual((run.returncode, run.stderr), (4, said))

    def test_closed_pipe(self) -> None:
        report = EXAMPLES / "stream_stalls_nghttpd.frames.report"
        run = subprocess.run(["bash", "-c", 'set -o pipefail; "$0" "$1" | true', PROGRAM, report], capture_output=True)
        self.assertIn((run.returncode, run.stderr), [(0, b""), (UNREAD, b"")])


def write_pictures() -> None:
    for picture in PICTURES.glob("*.svg"):
        draw(EXAMPLES / f"{picture.stem}.frames.report", picture, *CHOICES.get(picture.stem, []))


if __name__ == "__main__":
    if sys.argv[1:] == ["--write"]:
        write_pictures()
    else:
        unittest.main()
