"""Tests of h2audit-page without a browser: what the page holds, what a large report becomes, and hostile reports."""

import base64
import hashlib
import html.parser
import io
import json
import math
import os
import pathlib
import random
import re
import subprocess
import tempfile
import unittest
import zlib
from typing import Any
from unittest import mock

from h2audit.page import chart_data, document, program, tables
from h2audit.page.library import Missing, library
from h2audit.page.model import Audit, read_audit
from h2audit.page.series import Series, series_of, thinned
from tools.tests.running import ran
from tools.tests.signals import SIGNALS, signalled

QUICK = True
TIMED = True
TOP = pathlib.Path(__file__).resolve().parents[3]
PROGRAM = TOP / "tools" / "h2audit-page"
EXAMPLES = TOP / "examples"

FINDING = re.compile(
    r"^frame (\d+) record (\d+) time (\d+) (client|server) ([a-z-]+) stream (\d+) value (-?\d+)$", re.M
)
HEAD = "capture records 9 segments 9 snapped 0 not-ipv4 0 fragments 0 not-tcp 0 refused 0\n"
BOTH_FLOWS = "flow client bytes 9 gap none tail 0\nflow server bytes 9 gap none tail 0\n"


Attributes = dict[str, str]


class Tags(html.parser.HTMLParser):
    """The elements of a page with their attributes, the text of its tables, and the text of its scripts and styles."""

    def __init__(self, text: str) -> None:
        super().__init__()
        self.elements: list[tuple[str, Attributes]] = []
        self.open: list[str] = []
        self.rows: list[tuple[Attributes, list[str]]] = []
        self.texts: dict[str, list[tuple[Attributes, str]]] = {"script": [], "style": []}
        self.policy = ""
        self.feed(text)

    def handle_starttag(self, tag: str, attributes: list[tuple[str, str | None]]) -> None:
        found = {name: value or "" for name, value in attributes}
        self.elements.append((tag, found))
        if tag == "meta" and found.get("http-equiv") == "Content-Security-Policy":
            self.policy = found["content"]
        elif tag not in ("meta", "input"):
            self.open.append(tag)
        if tag == "tr":
            self.rows.append((found, []))
        if tag in self.texts:
            self.texts[tag].append((found, ""))

    def handle_endtag(self, tag: str) -> None:
        assert self.open.pop() == tag, tag

    def handle_data(self, data: str) -> None:
        if self.open and self.open[-1] in self.texts:
            attributes, text = self.texts[self.open[-1]].pop()
            self.texts[self.open[-1]].append((attributes, text + data))
        elif "tr" in self.open:
            self.rows[-1][1].append(data)


def page_of(report: str, *more: str) -> str:
    """The page of a report's text."""
    done = subprocess.run([PROGRAM, "-", "-o", "-", *more], input=report.encode(), capture_output=True, timeout=200)
    assert (done.returncode, done.stderr) == (0, b""), done.stderr
    return done.stdout.decode()


def examples() -> list[pathlib.Path]:
    return sorted(EXAMPLES.glob("*.frames.report"))


class Examples(unittest.TestCase):
    def test_each_finding_is_in_a_row(self) -> None:
        """With its frame, its record, its side, its kind and its stream, in the order of the report."""
        for report in examples():
            with self.subTest(report.name):
                text = report.read_text()
                tags = Tags(page_of(text))
                found = [
                    (
                        one["data-frame"],
                        one["data-side"],
                        one["data-kind"],
                        one["data-stream"],
                        cells[1].replace(",", ""),
                    )
                    for one, cells in tags.rows
                    if "data-kind" in one
                ]
                wanted = [
                    (frame, side, kind, stream, record)
                    for frame, record, _, side, kind, stream, _ in FINDING.findall(text)
                    if not kind.endswith("-credit")
                ]
                self.assertEqual(found, wanted)
                self.assertTrue(
                    all(f"({one['data-kind']}); " in cells[-1] for one, cells in tags.rows if "data-kind" in one)
                )
                self.judge_windows(text, tags)

    def judge_windows(self, text: str, tags: Tags) -> None:
        """Each window has a row with its least, greatest and last credit."""
        credits: dict[tuple[str, str], list[int]] = {}
        for _, _, _, side, kind, stream, value in FINDING.findall(text):
            if kind.endswith("-credit"):
                credits.setdefault((side, stream), []).append(int(value))
        found = {one["id"]: cells[-3:] for one, cells in tags.rows if one.get("id", "").startswith("w1-")}
        for (side, stream), values in credits.items():
            self.assertEqual(
                found[f"w1-{side}-{stream}"], [f"{value:,}" for value in (min(values), max(values), values[-1])]
            )

    def test_words(self) -> None:
        """Written by hand, from the example's README."""
        text = page_of((EXAMPLES / "connection_overflow_nginx.frames.report").read_text())
        rows = ["|".join(cells) for _, cells in Tags(text).rows]
        self.assertIn(
            "the client, 127.0.0.1|connection-overflow|RFC 9113, 6.9.1|1|1|connection 1, frame 9, packet 15", rows
        )
        text = page_of((EXAMPLES / "negative_window_tomcat.frames.report").read_text())
        rows = ["|".join(cells) for _, cells in Tags(text).rows]
        self.assertIn("804.434 ms|server, 127.0.0.1:20840|stream 1|connection 1, frame 10, packet 18", rows)
        # The stalls of two streams, of which one lies in part within the other: each instant counts once.
        self.assertIn("the client, 127.0.0.1|its window of a stream|4|1|804.434 ms|1.609575 s", rows)
        self.assertIn("No rule was broken.", text)

    def test_without_credit(self) -> None:
        text = page_of((EXAMPLES / "stream_overrun_go.report").read_text())
        self.assertIn("Make it with h2audit --frames to have them.", text)
        self.assertNotIn("<script", text)
        self.assertIn("client sent 5,000 bytes past its credit on stream 1", text)

    def test_nothing_audited(self) -> None:
        text = page_of(HEAD + "connection 1 client 1.2.3.4:5 server 1.2.3.4:6 record 1 not-http2\n" + BOTH_FLOWS)
        self.assertIn("Nothing was audited", text)
        text = page_of(HEAD + "connection 1 client [::1]:5 server [::1]:6 record 1 refused no-key\n")
        self.assertIn("Verdict: not audited: one of TLS without a key in the key logs (-k).", text)
        said = "Not audited: 1 connection of TLS without a key in the key logs (-k): connection 1 ([::1]:5 to [::1]:6)."
        self.assertIn(said, text)

    def test_doubts(self) -> None:
        text = page_of(
            HEAD.replace("snapped 0", "snapped 3") + "record 9 cut\nunopened 1.2.3.4:5 1.2.3.4:6 segments 2\n"
            "connection 1 client 1.2.3.4:5 server 1.2.3.4:6 record 1 http2 frames 1\n"
            + BOTH_FLOWS.replace("gap none", "gap 7", 1)
            + "audit of all frames\n"
        )
        for said in (
            "(a gap)",
            "3 segments kept fewer bytes",
            "The capture ends within record 9",
            "1 pair of endpoints",
        ):
            self.assertIn(said, text)

    def test_title(self) -> None:
        self.assertIn("<h1>A &lt;b&gt; title</h1>", page_of(HEAD, "--title", "A <b> title"))


class Policy(unittest.TestCase):
    """The page loads nothing, and only the scripts and styles that it was made with count."""

    def test_policy(self) -> None:
        tags = Tags(page_of(examples()[0].read_text()))
        rules = dict(rule.strip().split(" ", 1) for rule in tags.policy.split(";"))
        self.assertEqual(
            {key: rules[key] for key in ("default-src", "base-uri", "form-action")},
            dict.fromkeys(("default-src", "base-uri", "form-action"), "'none'"),
        )
        for tag in ("script", "style"):
            run = [text for one, text in tags.texts[tag] if one.get("type") != "text/plain"]
            hashes = [f"'sha256-{base64.b64encode(hashlib.sha256(text.encode()).digest()).decode()}'" for text in run]
            self.assertEqual(rules[f"{tag}-src"].split(), hashes)
        self.assertEqual(set(rules), {"default-src", "base-uri", "form-action", "script-src", "style-src"})

    def test_no_address(self) -> None:
        """Nothing refers to another file."""
        for tag, attributes in Tags(page_of(examples()[0].read_text())).elements:
            self.assertFalse({"src", "action", "style", "onclick"} & attributes.keys(), tag)
            self.assertTrue(attributes.get("href", "#").startswith("#"), attributes)

    def test_licence(self) -> None:
        text = page_of(examples()[0].read_text())
        self.assertIn(f"dygraphs {library().version}, MIT licence", text)
        self.assertIn("The above copyright notice and this permission notice shall be", text)
        self.assertIn("@license", text)
        self.assertNotIn("sourceMappingURL", text)


class Hostile(unittest.TestCase):
    """Text of a report never becomes markup."""

    EVIL = (
        "<script>alert(1)</script>",
        '"><img/src=x/onerror=alert(1)>',
        "</script><b>",
        "'onload='x",
        "<!--",
        "&lt;b&gt;",
        "\x01\x7f",
    )

    def test_addresses(self) -> None:
        plain = Tags(self.page("1.2.3.4:5")).elements
        for evil in self.EVIL[:-1]:
            tags = Tags(self.page(evil))
            self.assertEqual([tag for tag, _ in tags.elements], [tag for tag, _ in plain], evil)
            self.assertEqual([sorted(one) for _, one in tags.elements], [sorted(one) for _, one in plain], evil)
        with self.assertRaisesRegex(AssertionError, "line 2 is no line of a report"):
            self.page(self.EVIL[-1])

    def page(self, address: str) -> str:
        return page_of(
            HEAD
            + f"connection 1 client {address} server {address} record 1 http2 frames 2\n"
            + BOTH_FLOWS
            + "frame 1 record 2 time 5 client stream-overrun stream 1 value -5\n"
            "frame 1 record 2 time 5 client stream-stall-begin stream 1 value -5\n"
            "frame 1 record 2 time 5 client stream-credit stream 1 value -5\n"
            "stall client stream 1 from 1 open\naudit of all frames\n"
        )

    def test_title(self) -> None:
        for evil in self.EVIL:
            self.assertEqual(
                [tag for tag, _ in Tags(page_of(HEAD, f"--title={evil}")).elements],
                [tag for tag, _ in Tags(page_of(HEAD)).elements],
            )

    def test_numbers(self) -> None:
        """Numbers of any size give a page or a reason, and never a traceback."""
        opening = HEAD + "connection 1 client 1.2.3.4:5 server 1.2.3.4:6 record 1 http2 frames 2\n"
        for frame, time, stream, value in (
            (1, 0, 1, 2**62),
            (2**62, 2**62, 2**31, -(2**62)),
            (1, 10**19, 1, 1),
            (0, 1, 0, 10**19),
        ):
            for kind in (
                "stream-credit",
                "stream-overrun",
                "wrong-stream",
                "stream-stall-end",
                "connection-stall-begin",
                "new-kind",
            ):
                line = f"frame {frame} record {time} time {time} client {kind} stream {stream} value {value}\n"
                status, said = answer(opening + line)
                self.assertIn(status, (0, 3), (line, said))

    def test_damaged_reports(self) -> None:
        """Whatever bytes are changed, there is a page or a reason, and never a traceback."""
        good = (EXAMPLES / "stream_overrun_go.frames.report").read_bytes()
        chance = random.Random(1)
        for _ in range(150):
            data = bytearray(good)
            for _ in range(chance.randrange(1, 4)):
                data[chance.randrange(len(data))] = chance.choice(b"0159- \nabz")
            status, said = answer(data.decode())
            self.assertIn(status, (0, 3))
            self.assertLessEqual(said.count("\n"), 1)

    def test_frames_that_go_back(self) -> None:
        line = "frame {} record 1 time 1 client stream-credit stream 1 value 1\n"
        opening = "connection 1 client 1.2.3.4:5 server 1.2.3.4:6 record 1 http2 frames 2\n"
        self.assertEqual(
            answer(HEAD + opening + line.format(2) + line.format(1)),
            (3, "h2audit-page: report refused: the frames of connection 1 go back\n"),
        )

    def test_numbers_that_are_too_large(self) -> None:
        """A frame or a time that no 64 bits hold, and one that would be negative in them."""
        opening = "connection 1 client 1.2.3.4:5 server 1.2.3.4:6 record 1 http2 frames 2\n"
        for frame, time, kind, why in (
            ("9" * 20, 1, "stream-overrun", "is no line of a report"),
            (1, "9" * 20, "stream-overrun", "is no line of a report"),
            (1, 1 << 63, "stream-stall-begin", "has a number that is too large"),
            (1 << 63, 1, "stream-credit", "has a number that is too large"),
        ):
            line = f"frame {frame} record 1 time {time} client {kind} stream 1 value -5\n"
            self.assertEqual(
                answer(HEAD + opening + line), (3, f"h2audit-page: report refused: line 3 {why}\n"), (frame, time)
            )


def answer(report: str, *words: str) -> tuple[int, str]:
    """The status of a run over a report's text, and its line on standard error."""
    with tempfile.NamedTemporaryFile() as file:
        file.write(report.encode())
        file.flush()
        return ran("h2audit-page", program.main, file.name, "-o", "/dev/null", *words)


class Refusals(unittest.TestCase):
    def test_reports(self) -> None:
        good = (EXAMPLES / "stream_overrun_go.report").read_text()
        self.assertEqual(answer(""), (3, "h2audit-page: report refused: not a report of h2audit\n"))
        self.assertEqual(answer("{}"), (3, "h2audit-page: report refused: not a report of h2audit\n"))
        self.assertEqual(
            answer(good.replace("nanos", "nano")), (3, "h2audit-page: report refused: line 8 is no line of a report\n")
        )

    def test_words(self) -> None:
        for words in ((), ("a",), ("a", "-o"), ("a", "-o", "c", "b"), ("a", "-o", "c", "--none")):
            done = subprocess.run([PROGRAM, *words], capture_output=True, text=True)
            self.assertEqual((done.returncode, done.stderr.count("\n"), done.stdout), (2, 1, ""), words)

    def test_files(self) -> None:
        report = examples()[0]
        for words in (["/nowhere/at all", "-o", "/dev/null"], [str(report), "-o", "/nowhere/at all"]):
            done = subprocess.run([PROGRAM, *words], capture_output=True, text=True)
            self.assertEqual(
                (done.returncode, done.stderr), (4, "h2audit-page: /nowhere/at all: No such file or directory\n")
            )

    def test_signals(self) -> None:
        """One while it reads ends it without a word."""
        begin = large(1, 4000, 50).encode()
        with tempfile.TemporaryDirectory() as folder:
            for one in SIGNALS:
                done = signalled([PROGRAM, "-", "-o", f"{folder}/page.html"], begin, [one])
                self.assertEqual((done, os.listdir(folder)), ((-one, b""), []))

    def test_closed_files(self) -> None:
        for words in (["-", "-o", "/dev/null"], [str(examples()[0]), "-o", "-"]):
            done = subprocess.run(["bash", "-c", '"$0" "$@" <&- >&-', PROGRAM, *words], capture_output=True)
            said = b"h2audit-page: input or output: Bad file descriptor\n"
            self.assertEqual((done.returncode, done.stderr), (4, said))

    def test_no_library(self) -> None:
        with self.assertRaisesRegex(
            Missing, r"^/nowhere/dygraph.js is missing \(Debian: apt-get install libjs-dygraphs\)$"
        ):
            library("/nowhere")
        with mock.patch("h2audit.page.program.library", lambda: library("/nowhere")):
            status, said = answer(HEAD)
        self.assertEqual((status, said.count("\n")), (7, 1))

    def test_another_library(self) -> None:
        with tempfile.TemporaryDirectory() as folder:
            for name in ("dygraph.js", "dygraph.min.js", "dygraph.min.css"):
                pathlib.Path(folder, name).write_text("something else")
            with self.assertRaisesRegex(Missing, "has another library than libjs-dygraphs"):
                library(folder)


def large(windows: int, lines: int, every: int) -> str:
    """A report of so many windows with so many credit lines each, of which each so many are a stall of two lines."""
    parts = [HEAD, "connection 1 client 1.2.3.4:5 server 1.2.3.4:6 record 1 http2 frames 9\n", BOTH_FLOWS]
    frame, state = 0, 1
    for line in range(lines):
        for stream in range(1, 2 * windows, 2):
            frame += 1
            state = state * 1103515245 % 2**31
            place = f"frame {frame} record {frame} time {10**18 + frame * 1000 + state % 1000} server"
            if line % every == every - 2:
                parts.append(
                    f"{place} stream-stall-begin stream {stream} value 0\n"
                    f"{place} stream-credit stream {stream} value 0\n"
                )
            elif line % every == every - 1:
                parts.append(
                    f"{place} stream-stall-end stream {stream} value 9\n{place} stream-credit stream {stream} value 9\n"
                )
            else:
                parts.append(f"{place} stream-credit stream {stream} value {state % 10**6 + 1}\n")
    return "".join(parts)


def crowded(connections: int, lines: int, every: int) -> str:
    """A report of so many connections of two windows with so many credit lines each; each so many have a stall."""
    parts, record, state = [HEAD], 0, 1
    for number in range(1, connections + 1):
        parts.append(f"connection {number} client 10.0.0.1:{number % 60000 + 1} server 10.0.0.2:443 ")
        parts.append(f"record {record + 1} http2 frames {lines}\n" + BOTH_FLOWS)
        for frame in range(1, lines + 1):
            record += 1
            state = state * 1103515245 % 2**31
            place = f"frame {frame} record {record} time {10**18 + record * 1000 + state % 1000} server"
            if number % every == 0 and frame in (2, 4):
                parts.append(f"{place} stream-stall-{'begin' if frame == 2 else 'end'} stream 1 value {frame}\n")
            parts.append(f"{place} stream-credit stream 1 value {state % 10**5 + 1}\n")
            parts.append(f"{place} connection-credit stream 0 value {state % 10**6 + 1}\n")
        parts.append("audit of all frames\n")
    return "".join(parts)


def unpacked(charts: chart_data.Packed) -> dict[str, Any]:
    found: dict[str, Any] = json.loads(zlib.decompress(base64.b64decode(charts.text)))
    return found


def audit_of(text: str) -> Audit:
    return read_audit(io.BytesIO(text.encode()))


def shades_of(series: Series) -> list[tuple[int, int, int]]:
    """The frames at both ends of each shade, up to the last where it has none, and how many stalls it stands for."""
    frames = series.frames
    return [(frames[begin], frames[-1 if end is None else end], number) for begin, end, number in series.stalls]


class Thinning(unittest.TestCase):
    """What is thinned keeps both ends of each stall, each fault, and the extremes; the page says that it is thinned."""

    def test_marks_and_extremes_are_kept(self) -> None:
        for window in audit_of(large(3, 4000, 50)).windows:
            whole = series_of(window)
            self.assertEqual(len(whole.frames), 4000)
            for most in (1000, 60, 16):
                less = thinned(whole, most, 10**9)
                self.assertLess(len(less.frames), most + 3 * 2 * 80)
                self.assertEqual(shades_of(less), shades_of(whole))
                self.judge_extremes(whole, less, most)

    def judge_extremes(self, whole: Series, less: Series, most: int) -> None:
        """The least and the greatest of the whole and of each stretch are there, each at its place."""
        place = dict(zip(less.frames, zip(less.times, less.credits)))
        known = dict(zip(whole.frames, zip(whole.times, whole.credits)))
        self.assertTrue(all(known[frame] == point for frame, point in place.items()))
        length = -(-2 * len(whole.frames) // most)
        for begin in range(0, len(whole.frames), length):
            stretch = range(begin, min(begin + length, len(whole.frames)))
            values = [whole.credits[at] for at in stretch]
            kept = [whole.credits[at] for at in stretch if whole.frames[at] in place]
            self.assertEqual((min(kept), max(kept)), (min(values), max(values)))

    def test_faults_are_kept(self) -> None:
        text = large(1, 9000, 9000).replace("server stream-stall-begin", "server zero-stream-grant")
        faults = re.sub(
            r"(?m)^(frame \d*77 record \d+ time \d+) server (stream-credit) (stream 1) value \d+$",
            r"\1 server stream-overrun \3 value -1\n\1 server \2 \3 value -1",
            text,
        )
        window = audit_of(faults).windows[0]
        self.assertEqual(len(window.faults), 91)
        less = thinned(series_of(window), 16, 10**9)
        self.assertEqual([less.frames[one[0]] for one in less.faults], [note.finding.frame for note in window.faults])
        least = thinned(series_of(window), 2, 10)
        self.assertLessEqual(len(least.faults), 2 * 10)
        self.assertEqual((least.marked, sum(one[3] for one in least.faults)), (91, 91))
        kinds = [note.finding.kind for note in window.faults]
        for kind in set(kinds):
            self.assertEqual(sum(one[3] for one in least.faults if one[1] == (kind, False)), kinds.count(kind))

    def test_points_at_ends_without_credit_lines(self) -> None:
        """A reset ends a stall with no credit line; the chart has a point there all the same."""
        text = (EXAMPLES / "stream_overrun_go.frames.report").read_text()
        window = audit_of(text).windows[0]
        series = series_of(window)
        self.assertEqual(list(zip(series.frames, series.credits)), [(5, 10000), (6, 0), (7, -5000), (8, -5000)])
        self.assertEqual((series.stalls, series.faults), ([(1, 3, 1)], [(2, ("stream-overrun", False), -5000, 1)]))

    def test_faults_whose_window_has_no_chart(self) -> None:
        """They stand in the charts of their connection: here one on a stream that was never opened."""
        charts = chart_data.packed(audit_of((EXAMPLES / "use_after_reset.frames.report").read_text()))
        said = unpacked(charts)
        self.assertEqual((said["elsewhere"][0::4], said["elsewhere"][1::4]), ([0], [8]))
        self.assertEqual((charts.marked, charts.marks_in_report), (2, 2))

    def test_too_many_marks_share_a_shade(self) -> None:
        whole = series_of(audit_of(large(1, 4000, 4)).windows[0])
        self.assertEqual(len(whole.stalls), 1000)
        less = thinned(whole, 60, 100)
        self.assertLessEqual(len(less.stalls), 100)
        self.assertEqual(less.merged, 1000 - sum(one[2] == 1 for one in less.stalls))
        shades = shades_of(less)
        begun = [(begin, end) for begin, end, _ in shades_of(whole)]
        for first, last, number in shades:
            self.assertEqual(sum(first <= begin and end <= last for begin, end in begun), number)
        self.assertEqual(sum(number for _, _, number in shades), 1000)

    def test_extremes_of_many_windows(self) -> None:
        """Where there is room for nothing else, each window has its first, last, least and greatest credit."""
        for window in audit_of(crowded(30, 40, 3)).windows:
            series = series_of(window)
            values = series.credits
            less = thinned(series, 2, 1)
            self.assertLessEqual(len(less.frames), 4 + 3 * len(window.stalls))
            self.assertEqual((less.frames[0], less.frames[-1]), (series.frames[0], series.frames[-1]))
            self.assertLessEqual({values[0], min(values), max(values), values[-1]}, set(less.credits))

    def test_every_window_has_a_chart(self) -> None:
        """Many windows are thinned to their extremes before one of them has no chart."""
        audit = audit_of(crowded(1000, 20, 7))
        with mock.patch.object(chart_data, "MOST_BYTES", 60_000):
            charts = chart_data.packed(audit)
        said = unpacked(charts)
        self.assertEqual((len(said["points"]), charts.windows, charts.left_out), (2000, 2000, []))
        self.assertLess(max(said["points"]), 7)
        stalls = sum(len(window.stalls) for window in audit.windows)
        self.assertEqual((charts.marked, charts.marks_in_report, sum(said["stalls"][2::3])), (stalls, stalls, stalls))

    def test_one_window_takes_no_room_from_others(self) -> None:
        """Where one window has more stalls than all others have credit lines, it is thinned and they have charts."""
        small = crowded(1500, 6, 10**9).partition("\n")[2].replace("connection 1 c", "connection 0 c")
        report = large(1, 8000, 4) + small
        with mock.patch.object(chart_data, "MOST_BYTES", 60_000):
            charts = chart_data.packed(audit_of(report))
        self.assertEqual((charts.windows, charts.left_out, charts.marked), (3001, [], 2000))

    def test_windows_that_are_left_out_are_told(self) -> None:
        """How many they are, by which rule, and what they have together."""
        report = crowded(300, 20, 7)
        with mock.patch.object(chart_data, "MOST_BYTES", 4000):
            charts = chart_data.packed(audit_of(report))
        left_out = charts.left_out
        self.assertEqual(len(unpacked(charts)["points"]) + len(left_out), 600)
        self.assertTrue(all(not window.stalls for window in left_out))
        credits = [value for window in left_out for value in window.credits]
        said = tables.thinning(charts)
        self.assertIn(f"{600 - len(left_out)} of 600 windows have a chart", said)
        self.assertIn(f"credits from {min(credits):,} to {max(credits):,}", said)
        self.assertIn("The charts mark every fault and every stall.", said)
        with mock.patch.object(chart_data, "MOST_BYTES", 1000):
            charts = chart_data.packed(audit_of(report))
        self.assertLess(charts.marked, charts.marks_in_report)
        self.assertIn(f"The charts mark {charts.marked} of {charts.marks_in_report} faults", tables.thinning(charts))

    def test_a_small_page_is_whole(self) -> None:
        for report in examples():
            charts = chart_data.packed(audit_of(report.read_text()))
            said = unpacked(charts)
            lines = len(re.findall("-credit stream", report.read_text()))
            self.assertGreaterEqual(charts.points, lines)
            self.assertEqual((charts.merged, charts.left_out, tables.thinning(charts)), (0, [], ""))
            self.assertEqual(sum(said["points"]), len(said["frames"]))

    def test_every_size_fits(self) -> None:
        """Where the bound is small, the charts of one report go through all that is given up, and stay below it."""
        audit = audit_of(large(60, 400, 10))
        for bound in (400_000, 60_000, 30_000, 10_000, 3_000, 500):
            with mock.patch.object(chart_data, "MOST_BYTES", bound):
                charts = chart_data.packed(audit)
            self.assertLessEqual(len(charts.text) * 3 // 4, bound)


class LargeTables(unittest.TestCase):
    """What a large report has and the tables lack is said, and what is said is so."""

    def test_rows_are_as_many_as_is_said(self) -> None:
        report = crowded(700, 20, 2)
        audit = audit_of(report)
        charts = chart_data.packed(audit)
        for times in (2, 1, 0.1):
            text = document.page_with(audit, "A page", library(), charts, times)
            tags = Tags(text)
            findings = sum("data-kind" in one for one, _ in tags.rows)
            windows = sum(bool(re.match(r"w\d+-", one.get("id", ""))) for one, _ in tags.rows)
            sections = sum(one.get("class") == "connection" for _, one in tags.elements)
            for number, whole, what in (
                (findings, 700, "findings, of the connections in full"),
                (windows, 1400, "windows, of the connections in full"),
                (sections, 700, "connections in full"),
            ):
                self.assertIn(f"<li>{number:,} of {whole:,} {what}", text)
            self.judge_links(tags)

    def judge_links(self, tags: Tags) -> None:
        names = {one["id"] for _, one in tags.elements if "id" in one}
        self.assertLessEqual({one["href"][1:] for tag, one in tags.elements if tag == "a"}, names)

    def test_the_last_rows_have_the_extremes(self) -> None:
        """What is said of windows without a row, of connections that are not in full, and of those not in the list."""
        audit = audit_of(crowded(700, 20, 2))
        choice = tables.chosen(audit, 0.1)
        rest = [one for one in audit.connections if id(one) not in choice.sections]
        credits = [value for one in rest for window in one.windows.values() for value in window.credits]
        said = tables.others(audit, choice)
        self.assertIn(f"<td>{min(credits):,}</td><td>{max(credits):,}</td>", said)
        self.assertIn(f"<td>{2 * len(rest):,} windows</td>", said)
        self.assertIn("<td>650 connections more</td>", tables.connections(audit, choice))

    def test_faults_of_the_summary_have_a_row(self) -> None:
        """The first of each rule that was broken is in the tables, though thousands of others come before it."""
        line = "frame {0} record {0} time {0} client {1} stream 1 value 0\n"
        report = crowded(1, 4, 9) + "connection 2 client 1.2.3.4:5 server 1.2.3.4:6 record 1 http2 frames 9\n"
        report += "".join(line.format(at, "zero-stream-grant") for at in range(1, 4001))
        tags = Tags(page_of(report + line.format(4001, "after-end") + "audit of all frames\n"))
        self.judge_links(tags)
        kinds = [one["data-kind"] for one, _ in tags.rows if "data-kind" in one]
        self.assertEqual((kinds.count("after-end"), kinds.count("zero-stream-grant")), (1, 4000))


class Contrast(unittest.TestCase):
    """The colours of the page reach the contrasts of WCAG 2.2: 4.5 for text (1.4.3), 3 for what is drawn (1.4.11)."""

    TEXT = [
        ("text", "ground"),
        ("text", "raised"),
        ("muted", "ground"),
        ("muted", "raised"),
        ("link", "ground"),
        ("fault", "ground"),
        ("text", "stall"),
    ]
    DRAWN = [
        ("line", "ground"),
        ("line", "stall"),
        ("fault", "ground"),
        ("fault", "stall"),
        ("stall-edge", "ground"),
        ("rule", "ground"),
        ("rule", "raised"),
        ("ink", "stream-stall"),
        ("ink", "connection-stall"),
        ("ink", "tcp"),
        ("ink", "idle"),
    ]

    def test_both_schemes(self) -> None:
        style = (TOP / "h2audit" / "page" / "assets" / "page.css").read_text()
        schemes = [
            dict(re.findall(r"--([a-z-]+): (#[0-9a-f]{6})", root))
            for root in re.findall(r":root \{(.*?)\}", style, re.S)
        ]
        light, dark = schemes[0], schemes[1]
        self.assertEqual(light.keys(), dark.keys())
        for scheme in (light, dark, {**light, **schemes[2]}):
            for least, pairs in ((4.5, self.TEXT), (3, self.DRAWN)):
                for one, other in pairs:
                    self.assertGreaterEqual(contrast(scheme[one], scheme[other]), least, (one, other, scheme))


def luminance(colour: str) -> float:
    """WCAG 2.2, relative luminance."""
    parts = [int(colour[at : at + 2], 16) / 255 for at in (1, 3, 5)]
    red, green, blue = (part / 12.92 if part <= 0.04045 else math.pow((part + 0.055) / 1.055, 2.4) for part in parts)
    return 0.2126 * red + 0.7152 * green + 0.0722 * blue


def contrast(one: str, other: str) -> float:
    light, dark = sorted((luminance(one), luminance(other)), reverse=True)
    return (light + 0.05) / (dark + 0.05)


if __name__ == "__main__":
    unittest.main()
