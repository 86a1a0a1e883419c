"""Tests the trace of h2audit-why, which Perfetto shows: its form, by a schema, and that it says what --json says.

Start it from the top of the repository as tools.tests.why.trace_test [H2AUDIT]; without H2AUDIT it takes the program
that is built.
"""

import json
import pathlib
import struct
import subprocess
import sys
import unittest
from collections import defaultdict
from typing import Any

from tools.tests.why_tools import TOP, Json, OnCaptures, has_programs, programs_of, ran, said_of, words_for

RUNS = ("$H2AUDIT",)
QUICK = True
SCHEMA = TOP / "companions" / "why" / "trace.schema.json"
# Captures of proxies: of another one's time, of tries, of two proxies one behind the other, and of equal requests.
PROXIES = (
    "examples/slow_client_haproxy", "tests/legs/f_haproxy", "tests/legs/m_caddy_haproxy", "tests/legs/w_caddy",
    "tests/legs/k_nginx", "tests/legs/mixed_caddy",
)  # fmt: skip
GENERATE = ["/usr/bin/python3", "-m", "bench.generate"]
# What a trace of many requests may have, which a browser opens at once.
MOST_BYTES = 30_000_000
Row = tuple[int, int]


def without_first(path: pathlib.Path, records: int) -> bytes:
    """A capture of little endian that begins so many records later."""
    whole, at = path.read_bytes(), 24
    for _ in range(records):
        at += 16 + struct.unpack_from("<I", whole, at + 8)[0]
    return whole[:24] + whole[at:]


def nanos(microseconds: float) -> int:
    return round(microseconds * 1000)


def slices_of(trace: Json) -> dict[Row, Row]:
    """The rows of requests, by connections and streams."""
    found = {}
    for event in trace["traceEvents"]:
        if event["ph"] == "X" and event["cat"] == "request" and "stream" in event["args"]:
            found[event["pid"], event["args"]["stream"]] = event["pid"], event["tid"]
    return found


def request_at(found: Json, number: int, stream: int) -> Json:
    (connection,) = [one for one in found["connections"] if one["number"] == number]
    (request,) = [one for one in connection["requests"] if one["stream"] == stream]
    said: Json = request
    return said


class Traces(OnCaptures):
    def trace(self, *words: str | pathlib.Path) -> Json:
        """The trace of captures, which has the form of the schema."""
        import jsonschema  # type: ignore[import]

        file = self.folder / "trace.json"
        ran("--quiet", "--trace", file, *words)
        found: Json = json.loads(file.read_bytes())
        if len(found["traceEvents"]) < 20_000:
            jsonschema.validate(found, json.loads(SCHEMA.read_bytes()))
        return found

    def test_captures(self) -> None:
        """The trace of each capture of the repository says what --json says."""
        number = 0
        for path in sorted(TOP.glob("examples/*.pcap")) + sorted(TOP.glob("tests/tls/*.pcap*")):
            words = words_for(path)
            with self.subTest(path.name):
                found, trace = said_of(*words), self.trace(*words)
                number += len(trace["traceEvents"])
                self.same(found, trace)
        self.assertGreater(number, 3_000)

    def same(self, found: Json, trace: Json) -> None:
        self.assertEqual(trace["otherData"]["begin"], str(found["summary"]["begin"]))
        self.assertEqual(trace["otherData"]["shown"], found["summary"]["requests"])
        by_kind: dict[Any, list[Json]] = defaultdict(list)
        for event in trace["traceEvents"]:
            by_kind[event["pid"], event["ph"], event.get("cat")].append(event)
        for one in found["connections"]:
            events = {kind: by_kind.get((one["number"], *kind), []) for kind in
                      (("X", "request"), ("X", "share"), ("i", "fault"), ("i", "signal"))}  # fmt: skip
            if one["outcome"] != "http2":
                self.assertFalse(any(events.values()))
                continue
            begin = found["summary"]["begin"]
            for members, kind in (("faults", "fault"), ("signals", "signal")):
                wanted = [(said.get("kind") or said["word"], said["at"]) for said in one[members]]
                told = [(event["name"], event["args"]["at"]) for event in events["i", kind]]
                self.assertEqual(told, wanted)
                for event in events["i", kind]:
                    self.assertEqual(nanos(event["ts"]) + begin, event["args"]["at"]["time"])
            self.requests(one, events["X", "request"], events["X", "share"], begin)

    def requests(self, one: Json, slices: list[Json], shares: list[Json], begin: int) -> None:
        """Each request has a slice, and each instant of it a share inside; so has the client's content."""
        wanted = [
            (request["opened"]["time"] - begin, request["nanos"], request["stream"]) for request in one["requests"]
        ]
        own = [event for event in slices if "stream" in event["args"]]
        told = [(nanos(event["ts"]), nanos(event["dur"]), event["args"]["stream"]) for event in own]
        self.assertEqual(told, wanted)
        of_client = [request for request in one["requests"] if request["client"]["content"]]
        contents = [event["args"]["content"] for event in slices if "content" in event["args"]]
        self.assertEqual(contents, [request["client"]["content"] for request in of_client])
        rows: dict[Row, list[Json]] = defaultdict(list)
        for event in shares:
            rows[event["pid"], event["tid"]].append(event)
        for event, request in zip(own, one["requests"]):
            self.assertEqual(event["args"]["said"], request["cause"]["text"])
            self.of_direction(rows.get((event["pid"], event["tid"]), []), request, request["server"], begin)
            if request["client"]["content"]:
                self.of_direction(rows.get((event["pid"], event["tid"] + 1), []), request, request["client"], begin)
            self.assertEqual(event["args"]["legs"], request["legs"] and request["legs"]["text"])

    def of_direction(self, told: list[Json], request: Json, direction: Json, begin: int) -> None:
        at = request["opened"]["time"] - begin
        wanted = [[start + at, length, name] for start, length, name in direction["spans"] or []]
        self.assertEqual([[nanos(one["ts"]), nanos(one["dur"]), one["name"]] for one in told], wanted)

    def test_proxies(self) -> None:
        """The row of a front request says whose each instant was, and an arrow leads to each try of the back leg."""
        arrows = told = 0
        for name in PROXIES:
            path = TOP / f"{name}.pcap.gz"
            with self.subTest(name):
                found, trace = said_of(path), self.trace(path)
                self.same(found, trace)
                told += self.whose(found, trace)
                arrows += self.arrows(found, trace)
        self.assertTrue(arrows > 50 and told > 50, (arrows, told))

    def whose(self, found: Json, trace: Json) -> int:
        begin, rows = found["summary"]["begin"], defaultdict(list)
        for event in trace["traceEvents"]:
            if event["ph"] == "X" and event["cat"] == "whose":
                rows[event["pid"], event["tid"] - 2].append([nanos(event["ts"]), nanos(event["dur"]), event["name"]])
        wanted = {}
        for (number, stream), row in slices_of(trace).items():
            request = request_at(found, number, stream)
            opened = request["opened"]["time"] - begin
            parts = (request["legs"] or {"parts": None})["parts"]
            if parts:
                wanted[row] = [[at + opened, length, f"{who}: {why}" if why else who] for at, length, who, why in parts]
        self.assertEqual(rows, wanted)
        return len(wanted)

    def arrows(self, found: Json, trace: Json) -> int:
        """Each stands at the opening of the back request, within the slices of both."""
        begin, rows = found["summary"]["begin"], slices_of(trace)
        ends: dict[int, dict[str, Json]] = defaultdict(dict)
        for event in trace["traceEvents"]:
            if event["ph"] in "sf":
                self.assertNotIn(event["ph"], ends[event["id"]])
                ends[event["id"]][event["ph"]] = event
        said = sorted(
            [(one["s"]["pid"], one["s"]["tid"]), (one["f"]["pid"], one["f"]["tid"]), one["f"]["args"]["grade"]]
            for one in ends.values()
        )
        wanted = []
        for (number, stream), row in rows.items():
            for leg in (request_at(found, number, stream)["legs"] or {"carried_by": None})["carried_by"] or ():
                wanted.append([row, rows[leg["connection"], leg["stream"]], leg["grade"]])
        self.assertEqual(said, sorted(wanted))
        places = {row: place for place, row in rows.items()}
        for one in ends.values():
            for end in one.values():
                request = request_at(found, *places[end["pid"], end["tid"]])
                after = nanos(end["ts"]) + begin - request["opened"]["time"]
                self.assertTrue(0 <= after <= request["nanos"])
                self.assertTrue(end["ph"] == "s" or after == 0)
        return len(ends)

    def test_windows(self) -> None:
        """The credit of each window is that of the charts."""
        for name in ("stream_stalls_nghttpd", "negative_window_tomcat", "stream_overrun_go"):
            path = TOP / "examples" / f"{name}.pcap"
            charts, trace = json.loads(ran("--charts", path).stdout), self.trace(path)
            begin = charts["summary"]["begin"]
            told: dict[str, list[tuple[int, int]]] = defaultdict(list)
            for event in trace["traceEvents"]:
                if event["ph"] == "C":
                    told[event["name"]].append((nanos(event["ts"]) + begin, event["args"]["bytes"]))
            wanted = {}
            for window in charts["connections"][0]["charts"]["windows"]:
                stream = f"stream {window['stream']}" if window["stream"] else "the connection"
                points = list(zip(window["times"], window["credits"]))
                wanted[f"{window['side']}'s credit on {stream}"] = points
            self.assertEqual(told, {name: points for name, points in wanted.items() if points})
            self.assertTrue(told)

    def test_joined(self) -> None:
        """A connection that began before the capture has its requests too."""
        path = self.folder / "joined.pcap"
        path.write_bytes(without_first(TOP / "examples" / "paused_stream_node.pcap", 4))
        found = said_of(path)
        self.assertEqual((found["summary"]["audited"], found["connections"][0]["joined"] is None), (1, False))
        self.same(found, self.trace(path))

    def test_many(self) -> None:
        """Those with most trouble are shown, and so many spans that a browser opens the file."""
        path = self.folder / "many.pcap"
        subprocess.run([*GENERATE, "requests", "3", path], cwd=TOP, check=True)
        trace = self.trace(path)
        about = trace["otherData"]
        self.assertEqual(about["shown"], 1024)
        self.assertGreater(about["requests"], 5_000)
        self.assertLess((self.folder / "trace.json").stat().st_size, MOST_BYTES)

    def test_refused(self) -> None:
        """There is no trace of a capture that is refused, nor half of one on a full disk."""
        path = self.folder / "trace.json"
        refused = self.folder / "refused"
        refused.write_bytes(b"no capture at all, but text")
        self.assertEqual((ran("--trace", path, refused).returncode, path.exists()), (3, False))
        self.assertEqual(ran("--quiet", "--trace", "/dev/full", TOP / "examples/paused_stream_node.pcap").returncode, 4)


if __name__ == "__main__":
    sys.argv = programs_of(sys.argv)
    if not has_programs():
        sys.exit("h2audit or h2audit-import is not built")
    unittest.main()
