"""Tests that all forms in which h2audit-why answers say the same of each request, and of each connection that was not
audited, over all captures of the repository: text, JSON, lines of JSON, charts, rows, JUnit, the page, and a comparison
with itself.

    python3 -m tools.tests.why.forms_test [H2AUDIT] [TEST..]
"""

import json
import pathlib
import re
import sys
import unittest
import xml.etree.ElementTree as ElementTree
from collections.abc import Iterator
from typing import Any

from h2audit.report.words import time_of
from tools.tests import page_forms
from tools.tests.import_tools import capture_named, packets_in, pcap_of
from tools.tests.why.captures_test import SCHEMA
from tools.tests.why_tools import TOP, Json, OnCaptures, has_programs, in_turn, programs_of, ran, suites_of, words_for

RUNS = ("$H2AUDIT",)
FOLDERS = ("examples", "tests/tls", "tests/corpus", "tests/answer", "tests/causes")
ENDINGS = (".pcap", ".pcapng", ".gz", ".zst")
CAPTURES = [path for folder in FOLDERS for path in sorted((TOP / folder).iterdir()) if path.suffix in ENDINGS]
OPENED = ("nghttp-nghttpd-13", "small-window-v6", "stream-overrun-go", "h2load-node-many")
CUT = [*sorted((TOP / "examples").glob("*.pcap")), *map(capture_named, OPENED)]
# The members of a line that say which connection it is of.
OF_LINE = ("h2audit_why", "connection", "client_address", "server_address")
# A page shows so many requests.
MOST_SHOWN = 1024
# The columns of a row of a request, behind its connection (h2audit/fleet/schema.sql).
COLUMNS = (
    "stream", "name", "method", "path", "authority", "status", "grpc_status", "promised_on", "opened_packet",
    "opened_frame", "opened_time", "nanos", "stalled", "hung", "ended_how", "ended_side", "ended_code", "ended_packet",
    "ended_frame", "ended_time", "kind", "why", "side", "ask", "cause_nanos", "first", "last", "proved", "text",
    "needed_window", "grade", "opened_before",
)  # fmt: skip
Named = dict[tuple[int, int], Any]
# A line of text about a request: its name, stream, status, life, what is said, and the packets.
LINE = re.compile(
    r"  .*  stream (\d+)(?: \(opened before the capture\))? +(?:-|\d+)(?: grpc \S+)?  +([\d.,]+ (?:ns|µs|ms|s))   (.*)"
)
REASONS = "fault,stall,hung,tcp,error,gap,not-audited,unanswered,status,cut"


def packet(at: Json | None) -> int | None:
    return at["packet"] if at else None


def unread(found: Json) -> list[tuple[int, str]]:
    """The connections that were not audited, and why."""
    some = [one for one in found["connections"] if one["outcome"] != "http2"]
    return [(one["number"], one["reason"] or one["outcome"]) for one in some]


def of_document(found: Json) -> Iterator[tuple[tuple[int, int], Json]]:
    for connection in found["connections"]:
        for request in connection["requests"]:
            yield (connection["number"], request["stream"]), request


class Forms(OnCaptures):
    """The document of JSON is compared with each other form."""

    def test_all(self) -> None:
        import jsonschema  # type: ignore[import]

        validator = jsonschema.Draft202012Validator(SCHEMA)
        self.assertGreater(len(CAPTURES), 100)
        requests = 0
        for capture in CAPTURES:
            with self.subTest(capture.name):
                found = self.forms_of(capture, words_for(capture), validator)
                requests += sum(len(one["requests"]) for one in found["connections"]) if found else 0
        self.assertGreater(requests, 150)

    def test_joined(self) -> None:
        """Captures that are cut at a third and at two: most of their connections began before."""
        import jsonschema

        validator = jsonschema.Draft202012Validator(SCHEMA)
        joined = 0
        for sample in CUT:
            for part in (1, 2):
                with self.subTest(f"{sample.name} from {part} of 3"):
                    packets, link = packets_in(sample)
                    capture = self.folder / "cut.pcap"
                    capture.write_bytes(pcap_of(packets[len(packets) * part // 3 :], link))
                    words = [str(capture), *words_for(sample)[1:]]
                    found = self.forms_of(capture, words, validator)
                    joined += sum(one["joined"] is not None for one in found["connections"]) if found else 0
        self.assertGreater(joined, 2 * len(CUT) - 5)

    def forms_of(self, capture: pathlib.Path, words: list[str], validator: Any) -> Json | None:
        """What the document says, which is compared with each other form."""
        run = ran("--json", *words)
        if run.returncode == 3:
            return None
        found: Json = json.loads(run.stdout)
        said = dict(of_document(found))
        validator.validate(found)
        self.lines(said, words)
        self.charts(said, words)
        self.rows(found, said, words)
        self.text(found, words)
        self.junit(found, said, words)
        self.compared(said, capture, words)
        charted, page = page_forms.page_of(words)
        validator.validate(charted)
        page_forms.judge(self, found, page)
        return found

    def lines(self, said: Named, words: list[str]) -> None:
        lines = [json.loads(line) for line in ran("--json-lines", *words).stdout.splitlines()]
        by_line = {(line["connection"], line["stream"]): {name: line[name] for name in line if name not in OF_LINE}
                   for line in lines}  # fmt: skip
        self.assertEqual(by_line, said)

    def charts(self, said: Named, words: list[str]) -> None:
        """What a page shows of requests is what the document has."""
        shown = dict(of_document(json.loads(ran("--charts", *words).stdout)))
        self.assertEqual(shown, {place: said[place] for place in shown})
        self.assertEqual(len(shown), min(len(said), MOST_SHOWN))

    def rows(self, found: Json, said: Named, words: list[str]) -> None:
        lines = ran("--rows", "-", *words).stdout.decode().splitlines()[1:]
        all_rows = [json.loads(line) for line in lines]
        self.assertEqual(
            [row[1:] for row in all_rows if row[0] == "reasons"], [[number, why] for number, why in unread(found)]
        )
        rows = [row for row in all_rows if row[0] == "requests"]
        self.assertEqual({(row[1], row[2]) for row in rows}, set(said))
        for _, connection, *values in rows:
            row = dict(zip(COLUMNS, values, strict=True))
            request = said[connection, row["stream"]]
            cause = request["cause"]
            self.assertEqual(
                [row[name] for name in ("kind", "why", "side", "ask", "cause_nanos", "text")],
                [cause[name] for name in ("kind", "why", "side", "ask", "nanos", "text")],
            )
            self.assertEqual([row["first"], row["last"]], [packet(cause["first"]), packet(cause["last"])])
            self.assertEqual(
                [row["opened_time"], row["nanos"], bool(row["hung"]), row["ended_how"], row["ended_time"]],
                [request["opened"]["time"], request["nanos"], request["hung"], request["ended"]["how"],
                 request["ended"]["at"] and request["ended"]["at"]["time"]],
            )  # fmt: skip
            self.assertEqual([row["grade"], bool(row["opened_before"])], [cause["grade"], request["opened_before"]])
        self.joined_rows(found, all_rows)

    def joined_rows(self, found: Json, rows: list[Any]) -> None:
        """How connections are joined; where something is inferred, also each stall and each fault with its grade."""
        told = {row[1]: row[-1] for row in rows if row[0] == "connections"}
        for one in found["connections"]:
            how = one["joined"] and ("exact" if one["joined"]["exact"] else "inferred")
            self.assertEqual(told[one["number"]], how)
            stalls = [(row[3], row[4], row[5], row[6], row[7], row[9]) for row in rows
                      if row[:2] == ["stalls", one["number"]]]  # fmt: skip
            faults = [(row[6], row[7], row[8], row[11]) for row in rows
                      if row[:2] == ["findings", one["number"]] and row[10] != "nobody"]  # fmt: skip
            if how == "inferred":
                frames = [[stall[end] and stall[end]["frame"] for end in ("begin", "end")] for stall in one["stalls"]]
                self.assertEqual(stalls, [(stall["side"], stall["stream"], *at, stall["nanos"], stall["grade"])
                                          for stall, at in zip(one["stalls"], frames)])  # fmt: skip
                grade = {"joined": "joined"}
                self.assertEqual(sorted(faults), sorted((fault["side"], fault["kind"], fault["stream"],
                                 grade.get(fault["certainty"], "certain")) for fault in one["faults"]))  # fmt: skip

    def text(self, found: Json, words: list[str]) -> None:
        """The cause of a request stands in its line; where it is that of another one, that one is named."""
        text = ran("--all", *words).stdout.decode()
        for one in found["not_audited"]:
            self.assertIn(one["text"], " ".join(text.split()))
        self.assertLessEqual({why for _, why in unread(found)}, {one["reason"] for one in found["not_audited"]})
        parts = re.split(r"^connection (\d+)  ", text, flags=re.M)
        told = {int(number): part.splitlines() for number, part in zip(parts[1::2], parts[2::2])}
        for connection in found["connections"]:
            if connection["outcome"] != "http2":
                continue
            lines = [line for line in map(LINE.fullmatch, told[connection["number"]]) if line]
            by_stream = {int(line[1]): (line[2], line[3]) for line in lines}
            self.assertEqual(set(by_stream), {request["stream"] for request in connection["requests"]})
            for request in connection["requests"]:
                life, cause = by_stream[request["stream"]]
                self.assertEqual(life, time_of(request["nanos"]))
                if not cause.startswith(request["cause"]["text"]):
                    self.as_another(cause, request, by_stream)

    def as_another(self, said: str, request: Json, by_stream: dict[int, tuple[str, str]]) -> None:
        front, _, why = request["cause"]["text"].partition(": ")
        named = re.match(re.escape(front) + r": the connection's window, as stream (\d+)", said)
        assert named, (said, request["cause"]["text"])
        self.assertEqual(request["cause"]["kind"], "connection-window")
        self.assertIn(why, by_stream[int(named[1])][1])

    def junit(self, found: Json, said: Named, words: list[str]) -> None:
        file = self.folder / "junit.xml"
        ran("--quiet", "--fail-on", REASONS, "--junit", file, *words)
        top = ElementTree.fromstring(file.read_bytes())
        for connection, name in zip(found["connections"], suites_of(found)):
            (suite,) = [suite for suite in top if suite.get("name") == name]
            own, *cases = suite.findall("testcase")
            self.assertEqual([case.get("name") for case in cases], in_turn(connection["requests"]))
            why = dict(unread(found)).get(connection["number"])
            told = [
                line for line in (own.findtext("failure") or "").splitlines() if line.startswith("not-audited: not")
            ]
            self.assertEqual(bool(told), why is not None)
            if why is not None:
                (words_of_it,) = [one["text"] for one in found["not_audited"] if one["reason"] == why]
                said_of_it = re.sub(r"^[\d,]+ connections?", "a connection", words_of_it)
                self.assertEqual(told, [f"not-audited: not audited ({why}): {said_of_it}"])
            self.assertEqual(len(cases), len(connection["requests"]))
            for case, request in zip(cases, connection["requests"]):
                self.case(case, request)

    def case(self, case: ElementTree.Element, request: Json) -> None:
        cause = request["cause"]
        self.assertEqual(case.get("time"), f"{request['nanos'] // 10**6 / 1000:.3f}")
        which, _, text = (case.findtext("system-out") or "").partition("\n")
        self.assertTrue(which.endswith(f", stream {request['stream']}"), which)
        self.assertEqual(text.strip(), cause["text"].strip())
        told = (case.findtext("failure") or "").splitlines()
        failed = dict(line.partition(": ")[::2] for line in told)
        wanted = {
            "hung": request["hung"],
            "stall": cause["kind"] in ("stream-window", "connection-window"),
            "tcp": cause["kind"] == "tcp",
            "status": (request["status"] or 0) >= 500 or bool(request["grpc_status"]),
        }
        self.assertEqual({reason for reason in wanted if reason in failed}, {one for one in wanted if wanted[one]})
        for reason in {"hung", "stall", "tcp"} & set(failed):
            self.assertIn(cause["text"], failed[reason])

    def compared(self, said: Named, capture: pathlib.Path, words: list[str]) -> None:
        """A capture beside itself: nothing changed, and both halves say what the document says."""
        run = ran("--json", *words[1:], "--compare", capture, capture)
        pairs = json.loads(run.stdout)["requests"]
        for pair in pairs:
            self.assertEqual(pair["before"], pair["after"])
            self.assertEqual((pair["change"], pair["life_change"]), ("same", "same"))
            half = pair["before"]
            request = said[half["connection"], half["stream"]]
            for name in ("nanos", "opened", "hung", "status", "grpc_status", "cause"):
                self.assertEqual(half[name], request[name])
        self.assertEqual(len(pairs), sum(bool(request["name"]) for request in said.values()))


if __name__ == "__main__":
    sys.argv = programs_of(sys.argv)
    if not has_programs():
        sys.exit("h2audit or h2audit-import is not built")
    unittest.main()
