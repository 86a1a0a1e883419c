"""Tests of what h2audit-why does for jobs of CI: reasons to fail, statuses, and the JUnit file.

    python3 -m tools.tests.why.ci_test [H2AUDIT] [TEST..]
"""

import os
import pathlib
import re
import struct
import subprocess
import sys
import unittest
import xml.etree.ElementTree as ElementTree
from collections import Counter

from tests.captures import PREFACE, SYN, SYN_ACK, Capture, capture_of, frame
from tests.reports_test import rows
from tools.tests.why_tools import (
    TOP,
    WHY,
    Json,
    OnCaptures,
    Refused,
    has_programs,
    in_turn,
    programs_of,
    ran,
    said_of,
    suites_of,
)

RUNS = ("$H2AUDIT",)
QUICK = True
SCHEMA = pathlib.Path(__file__).with_name("junit.xsd")
EXAMPLES = sorted((TOP / "examples").glob("*.pcap"))
TLS = sorted((TOP / "tests" / "tls").glob("*.pcap"))
REASONS = (
    "fault", "certain-fault", "joined-fault", "stall", "hung", "tcp", "error", "unanswered", "status", "gap", "cut",
    "not-audited",
)  # fmt: skip
# The reasons that hold in each example: found by hand, from the descriptions in examples/README.md.
BROKEN = {"fault", "certain-fault"}
BY_HAND = {
    "connection_overflow_nginx": BROKEN | {"error", "hung", "not-audited", "stall"},
    "leaked_connection_credit_nginx": {"stall"},
    "lost_segment": {"gap", "not-audited"},
    "negative_window": {"unanswered"},
    "negative_window_tomcat": {"stall"},
    "paused_stream_node": {"stall"},
    "round_trip_client_side": {"stall"},
    "round_trip_server_side": {"stall"},
    "stream_overrun_go": BROKEN | {"error", "unanswered"},
    "stream_stalls_nghttpd": set[str](),
    "tiny_window_lighttpd": set[str](),
    "use_after_reset": BROKEN | {"not-audited", "unanswered"},
    "zero_increment_nginx": BROKEN | {"error", "hung", "not-audited", "stall"},
}
SECOND = 1_000_000
# The place of TCP's window in a record, behind its time.
WINDOW = 8 + 14 + 20 + 14
FIELDS = "HEX 000003 01 05 00000001 828684"
# Status 200, 500, 100, and trailers with a grpc-status of 14 and of 0.
ANSWERED = "S HEX 000001 01 05 00000001 88\n"
FAILED = "S HEX 000001 01 05 00000001 8e\n"
INFORMED = "S HEX 000005 01 04 00000001 4803313030\n"
GRPC = "S HEX 000001 01 04 00000001 88\nS HEX {length} 01 05 00000001 00 0b 677270632d737461747573 {status}\n"
# By the reason that holds in it alone; each record is a tenth of a second after the one before.
ALONE = {
    "hung": f"opened\nC {FIELDS}\nS HEADERS 1\n" + 4 * "S DATA 1 16383\n" + "S DATA 1 3\nS PING\nC PING\n",
    "tcp": f"opened\nC {FIELDS}\nS HEADERS 1\nS AT 5128 DATA 1 100\nS AT 5028 HEX 00005b 00 00 00000001 {91 * '00'}\n"
           "S AT 5237 DATA 1 0 END_STREAM\n",
    "error": f"opened\nC {FIELDS}\n{ANSWERED}S HEX 000008 07 00 00000000 00000001 00000002\n",
    "unanswered": f"opened\nC {FIELDS}\n{INFORMED}S PING\nC PING\n",
    "status": f"opened\nC {FIELDS}\n{FAILED}",
    "gap": f"opened\nC {FIELDS}\nS HEADERS 1\nS AT 9000 PING\n",
    "not-audited": "opened\nC PING\nSEGMENT 1 2 3 4 5 16 PING\n",
}  # fmt: skip

# No row of tests/reports has TCP that holds back a request, an error's code, or a fault that rests on what is inferred.
ALONE_ONLY = ("tcp", "error", "status", "joined-fault")


def slower(octets: bytes, step: int = SECOND // 10) -> bytes:
    """A capture with so many microseconds from each record to the next, and with wide TCP windows."""
    made, at, number = bytearray(octets[:24]), 24, 0
    while at < len(octets):
        kept = struct.unpack_from("<I", octets, at + 8)[0]
        number += 1
        time = 1_000 * SECOND + number * step
        record = bytearray(octets[at + 8 : at + 16 + kept])
        if kept >= 54:
            record[WINDOW : WINDOW + 2] = b"\xff\xff"
        made += struct.pack("<II", time // SECOND, time % SECOND) + record
        at += 16 + kept
    return bytes(made)


def expected(found: Json) -> set[str]:
    """The reasons that hold, by the document of --json."""
    audited = [one for one in found["connections"] if one["outcome"] == "http2"]
    requests = [request for one in audited for request in one["requests"]]
    faults = [fault for one in audited for fault in one["faults"]]
    kinds = {request["cause"]["kind"] for request in requests}
    holds = {
        "fault": bool(faults),
        "certain-fault": any(fault["certainty"] == "certain" for fault in faults),
        "stall": bool(kinds & {"stream-window", "connection-window"}),
        "hung": any(request["hung"] for request in requests),
        "tcp": "tcp" in kinds,
        "error": any(signal["code"] for one in audited for signal in one["signals"]),
        "unanswered": any(is_unanswered(request) for request in requests),
        "status": any((one["status"] or 0) >= 500 or one["grpc_status"] for one in requests),
        "cut": any(warning["kind"] == "cut" for warning in found["warnings"]),
        "gap": any(one["gaps"] for one in audited),
        "not-audited": not audited or bool(found["not_audited"]) or "the audit stopped" in str(stops(audited)),
    }
    return {reason for reason, is_so in holds.items() if is_so}


def is_unanswered(request: Json) -> bool:
    """Whether the server sent nothing on it, as far as that was captured, or an informational status alone."""
    answer, ended = request["server"], request["ended"]
    is_refused = request["stream"] % 2 == 0 and (ended["how"], ended["side"]) == ("RST_STREAM", "client")
    is_informational = answer["content"] == 0 and (request["status"] or 200) < 200
    return (answer["first"] is None or is_informational) and not request["end_unseen"] and not is_refused


def stops(audited: list[Json]) -> list[str]:
    return ["the audit stopped" for one in audited if one["stopped_at"]]


def held(path: pathlib.Path) -> set[str]:
    """The reasons of which each fails the run."""
    said = ran("--quiet", "--fail-on", ",".join(REASONS), path).stderr.decode()
    return set(re.findall(r"^h2audit-why: failed: ([a-z-]+): ", said, re.M))


class Jobs(OnCaptures):
    def capture(self, octets: bytes) -> pathlib.Path:
        path = self.folder / "capture.pcap"
        path.write_bytes(octets)
        return path

    def junit(self, path: pathlib.Path, *words: str) -> tuple[int, ElementTree.Element]:
        """The status of a run, and its JUnit file, which is valid."""
        file = self.folder / "junit.xml"
        run = ran("--junit", file, "--quiet", *words, path)
        self.assertEqual(run.stdout, b"")
        check = subprocess.run(["xmllint", "--noout", "--schema", SCHEMA, file], capture_output=True, text=True)
        self.assertEqual(check.returncode, 0, check.stderr)
        return run.returncode, ElementTree.fromstring(file.read_bytes())


class Reasons(Jobs):
    def test_examples(self) -> None:
        """Each reason fails the examples of which it holds, and no other; found by hand, and by --json."""
        self.assertEqual({path.stem for path in EXAMPLES}, set(BY_HAND))
        for path in EXAMPLES:
            with self.subTest(path.name):
                self.assertEqual(held(path), BY_HAND[path.stem])
                self.assertEqual(held(path), expected(said_of(path)))

    def test_alone(self) -> None:
        """A capture for each reason beside the rest."""
        for reason, script in ALONE.items():
            with self.subTest(reason):
                others = {"stall"} if reason == "hung" else set()
                self.assertEqual(held(self.capture(slower(capture_of(script)))), {reason} | others)

    def test_answers(self) -> None:
        """What is no answer, what is a failure of the server, and what was not captured whole."""
        failed = GRPC.format(length="000010", status="02 3134")
        for script, reasons in (
            (ANSWERED, set[str]()),
            ("", {"unanswered"}),
            (INFORMED + FAILED, {"status"}),
            (failed, {"status"}),
            (GRPC.format(length="00000f", status="01 30"), set[str]()),
            ("S DATA 1 5 END_STREAM\n", set[str]()),
            ("S AT 9000 PING\n", {"gap"}),
        ):
            capture = self.capture(slower(capture_of(f"opened\nC {FIELDS}\n{script}")))
            self.assertEqual(held(capture) - {"not-audited"}, reasons, script)
        run = ran("--quiet", "--fail-on", "status", self.capture(slower(capture_of(f"opened\nC {FIELDS}\n{failed}"))))
        self.assertIn("grpc-status 14 UNAVAILABLE", run.stderr.decode())

    def test_cut(self) -> None:
        """A file that ends within a packet is named, and a clean answer is then one of a part."""
        octets = slower(capture_of(f"opened\nC {FIELDS}\n{ANSWERED}C PING\n"))
        path = self.capture(octets)
        self.assertEqual((held(path), said_of(path)["summary"]["verdict"]), (set(), "clean"))
        path = self.capture(octets[:-1])
        self.assertEqual(held(path), {"cut"})
        (warning,) = said_of(path)["warnings"]
        packets = said_of(path)["summary"]["packets"]
        self.assertEqual(warning["text"], f"{path} ends within packet {packets + 1}: what followed is not in it")
        self.assertIn("No rule was broken in what was audited.", ran(path).stdout.decode())

    def test_rows(self) -> None:
        """The captures of tests/reports, slowed so that stalls count, and those of TLS without their keys."""
        times: Counter[str] = Counter()
        captures = [slower(capture_of(text.partition("-- ")[0])) if not text.startswith("bytes") else
                    capture_of(text.partition("-- ")[0]) for _, text in rows()]  # fmt: skip
        for octets in captures + [path.read_bytes() for path in TLS]:
            path = self.capture(octets)
            try:
                found = said_of(path)
            except Refused:
                continue
            holds = held(path)
            self.assertEqual(holds, expected(found))
            times.update(holds)
            times["none"] += not holds
        self.assertTrue(all(times[reason] for reason in (*REASONS, "none") if reason not in ALONE_ONLY), times)


class Statuses(Jobs):
    def test_each(self) -> None:
        """What fails has status 1 and one line for each reason; what is not asked for does not fail."""
        broken, stalled = TOP / "examples" / "stream_overrun_go.pcap", TOP / "examples" / "paused_stream_node.pcap"
        cases: list[tuple[pathlib.Path, list[str], int, int]] = [
            (broken, [], 1, 0),
            (broken, ["--quiet"], 1, 1),
            (broken, ["--fail-on", "fault,error"], 1, 2),
            (broken, ["--fail-on", "stall"], 0, 0),
            (stalled, [], 0, 0),
            (stalled, ["--fail-on", "stall", "--fail-on", "fault"], 1, 1),
            (stalled, ["--fail-on", "hung,tcp,gap,not-audited,error,certain-fault"], 0, 0),
            (stalled, ["--fail-stall", "2.3s"], 1, 1),
            (stalled, ["--fail-stall", "2301ms"], 0, 0),
            (stalled, ["--fail-life", "2301ms"], 0, 0),
            (stalled, ["--fail-life", "2.3s"], 1, 1),
            (stalled, ["--fail-life", "1us", "--fail-on", "unanswered,status,cut"], 1, 1),
            (stalled, ["--require-http2"], 0, 0),
        ]
        for path, words, status, lines in cases:
            with self.subTest(words=words, path=path.name):
                run = ran(*words, path)
                said = run.stderr.decode().splitlines()
                self.assertEqual((run.returncode, len(said)), (status, lines), said)
                self.assertTrue(all(line.startswith("h2audit-why: failed: ") for line in said))
                self.assertEqual(not run.stdout, "--quiet" in words)

    def test_nothing_audited(self) -> None:
        path = self.capture(capture_of("handshake"))
        cases: list[tuple[list[str], int]] = [
            ([], 6), (["--quiet"], 6), (["--fail-on", "fault"], 6), (["--require-http2"], 1),
            (["--fail-on", "not-audited"], 1),
        ]  # fmt: skip
        for words, status in cases:
            self.assertEqual(ran(*words, path).returncode, status, words)

    def test_wrong_words(self) -> None:
        for words in (["--fail-on", "slow"], ["--fail-on", ""], ["--fail-stall", "100"], ["--fail-stall", "-1ms"]):
            run = ran(*words, EXAMPLES[0])
            self.assertEqual((run.returncode, run.stdout, len(run.stderr.splitlines())), (2, b"", 1), words)

    def test_no_file(self) -> None:
        """A JUnit file that cannot be written is status 4; of a capture that is refused there is none."""
        run = ran("--junit", self.folder / "nowhere" / "junit.xml", EXAMPLES[0])
        self.assertEqual((run.returncode, run.stdout, len(run.stderr.splitlines())), (4, b"", 1))
        file = self.folder / "junit.xml"
        self.assertEqual(ran("--junit", file, self.capture(b"no capture at all, but text")).returncode, 3)
        self.assertFalse(file.exists())


class JUnit(Jobs):
    def test_names(self) -> None:
        """The file is valid, and names each connection and each request; its counts are those of what it holds."""
        for path in EXAMPLES + TLS:
            with self.subTest(path.name):
                status, top = self.junit(path, "--fail-on", "fault,stall,error,not-audited")
                found = said_of(path)
                suites = {suite.get("name"): [case.get("name") for case in suite] for suite in top}
                wanted = {pathlib.Path(found["files"][0]).name: ["capture"]}
                for one, name in zip(found["connections"], suites_of(found)):
                    wanted[name] = ["connection", *in_turn(one["requests"])]
                self.assertEqual(suites, wanted)
                self.counts(top, top.findall("testsuite/testcase"))
                for suite in top:
                    self.counts(suite, suite.findall("testcase"))
                self.assertEqual(status == 1, top.find(".//failure") is not None)

    def counts(self, of: ElementTree.Element, cases: list[ElementTree.Element]) -> None:
        failed = sum(case.find("failure") is not None for case in cases)
        skipped = sum(case.find("skipped") is not None for case in cases)
        numbers = [of.get(name) for name in ("tests", "failures", "errors", "skipped")]
        self.assertEqual(numbers, [str(len(cases)), str(failed), "0", str(skipped)])

    def test_hostile(self) -> None:
        """Paths, debug texts and names of files with whatever bytes there are make valid XML; secrets stay out."""
        fields = bytearray(b"\x82\x86\x00\x05:path")
        path = bytes(range(1, 256)).replace(b"?", b"") + "\ufffe\U0001f600]]>&\"'<".encode() + b"\xed\xa0\x80?secret=1"
        fields += b"\x7f" + bytes([0x80 | (len(path) - 127) & 127, (len(path) - 127) >> 7]) + path
        capture = Capture()
        capture.syn("C", 1000, SYN)
        capture.syn("S", 5000, SYN_ACK)
        capture.send("C", PREFACE + frame(4, 0, 0) + frame(1, 5, 1, bytes(fields)))
        capture.send("S", frame(4, 0, 0) + frame(7, 0, 0, struct.pack(">II", 0, 2) + bytes(range(256))))
        strange = self.folder / "a\x1b\n<b>\udcff.pcap"
        strange.write_bytes(capture.bytes)
        status, top = self.junit(strange, "--fail-on", "error")
        self.assertEqual(status, 1)
        names = [case.get("name") or "" for case in top.findall("testsuite/testcase")]
        self.assertTrue(names[2].startswith("GET "), names)
        self.assertIn("\\x1b", names[2])
        self.assertNotIn("secret", ElementTree.tostring(top, "unicode"))
        hidden = self.junit(strange, "--no-requests")[1]
        self.assertEqual([case.get("name") for case in hidden.findall("testsuite/testcase")][2], "request")


class Recipes(Jobs):
    """The line of h2audit-why in each job of docs/RECIPES.md."""

    LINE = re.compile(r"h2audit-why [^'\n]*")

    def test_jobs(self) -> None:
        text = (TOP / "docs" / "RECIPES.md").read_text().partition("\n## A job of CI")[2].partition("\n## ")[0]
        jobs = re.findall(r"^```yaml\n(.*?)^```$", text, re.M | re.S)
        self.assertEqual(len(jobs), 2)
        for job in jobs:
            (line,) = self.LINE.findall(job)
            (file,) = set(re.findall(r"\S+\.xml", job.replace("'", " ")))
            for name, status in (("stream_stalls_nghttpd", 0), ("paused_stream_node", 1), ("lost_segment", 1)):
                (self.folder / "capture.pcap").write_bytes((TOP / "examples" / f"{name}.pcap").read_bytes())
                (self.folder / "keys.log").write_text("# no secrets\n")
                surroundings = {**os.environ, "PATH": f"{WHY.parent}:{os.environ['PATH']}"}
                run = subprocess.run(["bash", "-c", line], cwd=self.folder, env=surroundings, capture_output=True)
                self.assertEqual(run.returncode, status, run.stderr)
                top = ElementTree.fromstring((self.folder / file).read_bytes())
                self.assertEqual(top.find(".//failure") is not None, status == 1)


if __name__ == "__main__":
    sys.argv = programs_of(sys.argv)
    if not has_programs():
        sys.exit("h2audit or h2audit-import is not built")
    unittest.main()
