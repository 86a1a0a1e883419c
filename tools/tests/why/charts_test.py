"""Tests of h2audit-why --charts and --windows: a capture shows the credits and the findings that its report tells.

    python3 -m tools.tests.why.charts_test [H2AUDIT] [TEST..]
"""

import json
import os
import pathlib
import subprocess
import sys
import tempfile
import unittest

from tools.tests.why.captures_test import EXAMPLES, SCHEMA, TLS
from tools.tests.why_tools import TOP, WHY, Json, has_programs, programs_of, ran, said_of, words_for

RUNS = ("$H2AUDIT",)
# What of a finding stands in a report too.
TOLD = ("frame", "packet", "time", "side", "kind", "stream", "value", "broke", "section", "text", "blame", "other")


def charts(*words: str) -> Json:
    done = ran("--charts", *words)
    assert done.returncode in (0, 1, 6), done.stderr
    found: Json = json.loads(done.stdout)
    return found


def windows(report: bytes) -> Json:
    done = ran("--windows", "-", stdin=report)
    assert (done.returncode, done.stderr) == (0, b"")
    found: Json = json.loads(done.stdout)
    return found


def lines_of(window: Json) -> list[tuple[int, int, int]]:
    """The changes of a credit: there are points besides, at findings and where a connection begins and ends."""
    found, last = [], None
    for frame, time, credit in zip(window["frames"], window["times"], window["credits"]):
        if frame and credit != last:
            found.append((frame, time, credit))
        last = credit
    return found


def credits_of(report: str) -> list[tuple[str, int, int, int, int]]:
    """Side, stream, frame, time and value of each line of credit."""
    lines = [line.split() for line in report.splitlines() if "-credit stream " in line]
    return [(line[6], int(line[9]), int(line[1]), int(line[5]), int(line[11])) for line in lines]


class Examples(unittest.TestCase):
    def test_a_capture_shows_what_its_report_tells(self) -> None:
        for capture in EXAMPLES:
            with self.subTest(capture.name):
                report = capture.with_suffix(".frames.report").read_bytes()
                shown, told = charts(str(capture)), windows(report)
                self.assertEqual(shown["capture"], told["capture"])
                for one, other in zip(shown["connections"], told["connections"], strict=True):
                    self.judge(one["charts"], other["charts"])

    def judge(self, one: Json, other: Json) -> None:
        for name in ("form", "record", "frames", "flows", "stopped_at"):
            self.assertEqual(one[name], other[name], name)
        found = [[[finding[name] for name in TOLD] for finding in of["findings"]] for of in (one, other)]
        self.assertEqual(found[0], found[1])
        shown, told = ({(of["side"], of["stream"]): of for of in charts["windows"]} for charts in (one, other))
        self.assertEqual(shown.keys(), told.keys())
        for key, window in shown.items():
            self.assertEqual(lines_of(window), lines_of(told[key]), key)
            for name in ("changes", "least", "greatest", "last"):
                self.assertEqual(window[name], told[key][name], (key, name))
            self.assertEqual(window["changes"], len(lines_of(window)), key)

    def test_the_credits_of_a_report(self) -> None:
        """Each line of credit is a point."""
        for capture in EXAMPLES:
            report = capture.with_suffix(".frames.report").read_text()
            wanted = sorted(credits_of(report))
            (one,) = windows(report.encode())["connections"]
            found = [
                (window["side"], window["stream"], *line)
                for window in one["charts"]["windows"]
                for line in lines_of(window)
            ]
            self.assertEqual(sorted(found), wanted, capture.name)

    def test_schema(self) -> None:
        import jsonschema  # type: ignore[import]

        of_capture = jsonschema.Draft202012Validator(SCHEMA)
        of_report = jsonschema.Draft202012Validator({**SCHEMA["$defs"]["windows"], "$defs": SCHEMA["$defs"]})
        for capture in EXAMPLES + TLS:
            of_capture.validate(charts(*words_for(capture)))
        for capture in EXAMPLES:
            for form in (".frames.report", ".report"):
                if (report := capture.with_suffix(form)).exists():
                    of_report.validate(windows(report.read_bytes()))

    def test_what_a_report_has_not_audited(self) -> None:
        """By reason, in the words of an answer; a report has one word where the SYN ACK is not there."""
        forms = ("http2 frames 2", "no-handshake", "not-http2", "refused no-key", "refused gap 12", "not-http2",
                 "no-preface", "refused no-handshake")  # fmt: skip
        lines = ["capture records 9 segments 9 snapped 0 not-ipv4 0 fragments 0 not-tcp 0 refused 0"]
        lines += [f"connection {number} client 10.0.0.1:{number} server 10.0.0.2:2 record {number} {form}"
                  for number, form in enumerate(forms, 1)]  # fmt: skip
        found = [tuple(one.values()) for one in windows("\n".join([*lines, ""]).encode())["not_audited"]]
        self.assertEqual(
            found,
            [
                ("gap 12", 1, "1 connection of TLS that could not be read (gap 12)"),
                ("no-handshake", 2, "2 connections whose SYN ACK was not captured"),
                ("no-key", 1, "1 connection of TLS without a key in the key logs (-k)"),
                ("no-preface", 1, "1 connection whose client sent no whole preface of HTTP/2"),
                ("not-http2", 2, "2 connections that spoke no HTTP/2, or began by an upgrade"),
            ],
        )

    def test_beside_json(self) -> None:
        """It has what --json has, where nothing is too much."""
        for capture in EXAMPLES:
            shown = charts(str(capture))
            for one in shown["connections"]:
                del one["charts"]
            whole = said_of(capture)
            self.assertEqual({name: shown[name] for name in whole}, whole)


class Many(unittest.TestCase):
    """Where there is more than a page shows, it has what has most trouble, and the extremes of points."""

    def of_shape(self, shape: str, megabytes: int) -> tuple[Json, str, Json]:
        """What is shown of a capture, what its report tells, and all that is said of it."""
        with tempfile.TemporaryDirectory() as folder:
            capture = pathlib.Path(folder, "capture.pcap")
            words = [sys.executable, "-m", "bench.generate", shape, str(megabytes), str(capture)]
            subprocess.run(words, check=True, capture_output=True, cwd=TOP)
            report = subprocess.run([os.environ["H2AUDIT"], "--frames", capture], capture_output=True).stdout
            return charts(str(capture)), report.decode(), said_of(capture)

    def test_requests_and_windows(self) -> None:
        shown, report, whole = self.of_shape("requests", 1)
        self.assertEqual({name: shown[name] for name in ("summary", "warnings")},
                         {name: whole[name] for name in ("summary", "warnings")})  # fmt: skip
        self.assertGreater(whole["summary"]["requests"], 2 * 1024)
        ranked = sorted((rank(one, request), one["number"], request["stream"])
                        for one in whole["connections"] for request in one["requests"])  # fmt: skip
        found = [(one["number"], request["stream"]) for one in shown["connections"] for request in one["requests"]]
        self.assertEqual(len(found), 1024)
        ranks = {(number, stream): place for place, (_, number, stream) in enumerate(ranked)}
        worst = ranked[1023][0]
        self.assertTrue(all(ranked[ranks[key]][0] <= worst for key in found))
        self.judge(shown, report)

    def test_thinned_points(self) -> None:
        self.judge(*self.of_shape("mixed", 3)[:2])

    def judge(self, shown: Json, report: str) -> None:
        """Points are lines of the report, and what is left out has its extremes."""
        streams, others, points, lines = 0, 0, 0, set(credits_of(report))
        for one, other in zip(shown["connections"], windows(report.encode())["connections"], strict=True):
            known = {(window["side"], window["stream"]): window for window in other["charts"]["windows"]}
            for window in one["charts"]["windows"]:
                whole = known.pop((window["side"], window["stream"]))
                for name in ("changes", "least", "greatest", "last"):
                    self.assertEqual(window[name], whole[name])
                found = {(window["side"], window["stream"], *line) for line in lines_of(window)}
                self.assertTrue(found <= lines, (window["side"], window["stream"]))
                self.assertLessEqual({window["least"], window["greatest"]}, set(window["credits"]))
                streams += bool(window["stream"])
                points += len(window["frames"])
            rest = one["charts"]["other_windows"]
            self.assertEqual(rest["number"], len(known))
            if known:
                self.assertEqual(rest["least"], min(window["least"] for window in known.values()))
                self.assertEqual(rest["greatest"], max(window["greatest"] for window in known.values()))
            others += rest["number"]
        self.assertTrue(streams == 2048 if others else streams <= 2048, (streams, others))
        self.assertLess(points, 2 * 32768)


def rank(one: Json, request: Json) -> tuple[bool, bool, int, int]:
    faults = {fault["stream"] for fault in one["faults"]}
    held = sum(request[side]["shares"][name] for side in ("client", "server")
               for name in ("stream_stall", "connection_stall", "tcp"))  # fmt: skip
    return request["stream"] not in faults, not request["hung"], -held, -request["cause"]["nanos"]


# Which share of a direction's life stands for which kind of cause; of an application, for which why.
SHARES = {
    "stream-window": "stream_stall",
    "connection-window": "connection_stall",
    "tcp": "tcp",
    "before": "waiting",
    "between": "idle",
}
Instants = dict[int, list[tuple[int, int]]]


class WhomToAsk(unittest.TestCase):
    """The sums over all requests, taken once more from those that --json prints."""

    def test_captures(self) -> None:
        for capture in EXAMPLES + TLS:
            with self.subTest(capture.name):
                words = words_for(capture)
                shown = charts(*words)["asked"]
                self.assertEqual([one["nanos"] for one in shown], sorted((one["nanos"] for one in shown), reverse=True))
                found = {tuple(one[name] for name in ("side", "peer", "kind", "why")): one for one in shown}
                wanted = sums_of(said_of(*words))
                self.assertEqual(found.keys(), wanted.keys())
                for key, (longest, instants) in wanted.items():
                    one = found[key]
                    self.assertEqual((one["times"], one["longest"]), (len(longest), max(longest)), key)
                    self.assertEqual(one["connections"], len(instants), key)
                    self.assertEqual(one["nanos"], sum(map(covered, instants.values())), key)


def sums_of(said: Json) -> dict[tuple[str | None, ...], tuple[list[int], Instants]]:
    found: dict[tuple[str | None, ...], tuple[list[int], Instants]] = {}
    for one in said["connections"]:
        peers = {"client": one["client"].rpartition(":")[0], "server": one["server"], None: None}
        for request in one["requests"]:
            cause = request["cause"]
            if share := SHARES.get(cause["kind"]) or SHARES.get(cause["why"]):
                why = "round-trip" if cause["why"] == "unshown" else cause["why"]
                key = cause["ask"], peers[cause["ask"]], cause["kind"], why
                longest, instants = found.setdefault(key, ([], {}))
                longest.append(cause["nanos"])
                instants.setdefault(one["number"], []).extend(stretches(request, cause, share))
    return found


def stretches(request: Json, cause: Json, share: str) -> list[tuple[int, int]]:
    """Its spans; where these do not tell all of it, as of stalls that do not show, one stretch of as much time."""
    opened = request["opened"]["time"]
    spans = [span for span in request[cause["side"]]["spans"] or () if span[2] == share]
    if sum(nanos for _, nanos, _ in spans) < cause["nanos"]:
        begin = cause["first"]["time"] if cause["first"] else opened
        return [(begin, begin + cause["nanos"])]
    return [(opened + begin, opened + begin + nanos) for begin, nanos, _ in spans]


def covered(stretches: list[tuple[int, int]]) -> int:
    """How long at least one of them goes on."""
    nanos, reached = 0, 0
    for begin, end in sorted(stretches):
        nanos += max(end - max(begin, reached), 0)
        reached = max(reached, end)
    return nanos


class Words(unittest.TestCase):
    def test_what_does_not_go_together(self) -> None:
        one = str(EXAMPLES[0])
        for words in ((one, "--charts", "--json"), ("--windows", "-", one), ("--charts", "--compare", one, one),
                      ("--windows", "-", "--quiet")):  # fmt: skip
            done = subprocess.run([str(WHY), *words], capture_output=True, text=True, input="")
            self.assertEqual((done.returncode, done.stderr.count("\n"), done.stdout), (2, 1, ""), words)

    def test_refused_reports(self) -> None:
        for report, why in ((b"", "not a report of h2audit"), (b"capture\n", "not a report of h2audit")):
            done = ran("--windows", "-", stdin=report)
            self.assertEqual((done.returncode, done.stderr.decode()), (3, f"h2audit-why: report refused: {why}\n"))
        done = ran("--windows", "/nowhere/at all")
        self.assertEqual(
            (done.returncode, done.stderr), (4, b"h2audit-why: /nowhere/at all: No such file or directory\n")
        )


if __name__ == "__main__":
    words = programs_of(sys.argv)
    if not has_programs():
        sys.exit("why_charts_test: h2audit or h2audit-import is not built")
    unittest.main(argv=words)
