"""Tests of what h2audit-why says of connections that began before the capture: captures that are cut, and scripts whose
answer is known.

    python3 -m tools.tests.why.joined_test [H2AUDIT] [TEST..]
"""

import json
import pathlib
import sys
import unittest
import xml.etree.ElementTree as ElementTree

from tests.captures import frame, number
from tools.tests.import_tools import Packet, pcap_of
from tools.tests.joined_cuts import GET, RAW, SYN, hexed, packets_of, packets_of_script, segment_of
from tools.tests.why_tools import TOP, Json, OnCaptures, has_programs, programs_of, ran, said_of

RUNS = ("$H2AUDIT",)
QUICK = True
SCHEMA = json.loads((TOP / "companions" / "why" / "schema.json").read_text())
FLOW_CONTROL_ERROR = 3
REQUEST = f"C {hexed(frame(1, 5, 7, GET))}"
ANSWER = f"S {hexed(frame(1, 4, 7, bytes([0x88])))}"
# A request and its answer, by which the sides are known.
KNOWN = [REQUEST, ANSWER]


def rounds(stream: int, length: int, count: int, *also: str) -> list[str]:
    """Content, a pause, a grant, and content at once."""
    step = [f"S DATA {stream} {length}", *["C"] * 20, f"C WINDOW_UPDATE {stream} {length}", *also]
    return step * count + [f"S DATA {stream} {length}"]


def wide(data: bytes) -> bytes:
    """The packet with a wide TCP window, so that TCP holds back nothing."""
    at = (data[0] & 15) * 4 + 14
    return data[:at] + b"\xff\xff" + data[at + 2 :]


class OnScripts(OnCaptures):
    def capture_of(self, packets: list[Packet]) -> pathlib.Path:
        path = self.folder / "capture.pcap"
        path.write_bytes(pcap_of([Packet(one.nanos, wide(one.data), one.original) for one in packets], RAW))
        return path

    def script(self, *lines: str) -> pathlib.Path:
        return self.capture_of(packets_of_script(list(lines)))

    def one(self, path: pathlib.Path) -> Json:
        (connection,) = said_of(str(path))["connections"]
        found: Json = connection
        return found

    def text(self, path: pathlib.Path, *words: str) -> str:
        """The answer as text, whose lines are not folded."""
        return ran(*words, path).stdout.decode()

    def status(self, path: pathlib.Path, *words: str) -> int:
        return ran("--quiet", *words, path).returncode


class Inferred(OnScripts):
    """What rests on windows that are inferred says so."""

    def test_a_stream_that_was_open(self) -> None:
        path = self.script(*KNOWN, *rounds(5, 700, 6))
        connection = self.one(path)
        joined = connection["joined"]
        self.assertEqual((joined["sides"], joined["exact"], joined["open"]), ("fields", None, [5]))
        self.assertEqual(joined["server"], {"offset": 0, "bits": joined["server"]["bits"]})
        (window,) = [one for one in joined["windows"] if one["stream"] == 5]
        self.assertEqual((window["credit"], window["grade"], window["touches"]), (700, "strong", 6))
        self.assertGreaterEqual(window["bits"], 16)
        request = next(one for one in connection["requests"] if one["stream"] == 5)
        self.assertEqual((request["opened_before"], request["name"]), (True, None))
        self.assertEqual((request["cause"]["grade"], request["cause"]["proved"]), ("strong", False))
        self.assertEqual({one["grade"] for one in connection["stalls"]}, {"strong"})
        text = self.text(path)
        self.assertEqual(connection["settings"], [], "none that was made up")
        self.assertIn("began before the capture: client and server are told by the fields of requests", text)
        self.assertIn("frames are read from the first byte of the client's on", text)
        self.assertIn("(name unknown)  stream 5 (opened before the capture)", text)
        words = "[inferred: the server stopped 6 times at the same byte, and went on only after a grant]"
        self.assertIn(words, text)
        self.assertIn("behind a beginning that was made up", text)

    def test_numbers_are_of_what_was_captured(self) -> None:
        """Frames count from the first that was captured, and packets are those of the capture."""
        connection = self.one(self.script(*KNOWN, *rounds(5, 700, 6)))
        self.assertEqual(connection["frames"], 2 + 13)
        first = connection["stalls"][0]
        self.assertEqual((first["begin"]["frame"], first["begin"]["packet"]), (3, 3))
        self.assertEqual((first["end"]["frame"], first["end"]["packet"]), (4, 24))
        self.assertEqual(connection["opened"]["packet"], 1)

    def test_new_streams(self) -> None:
        """Streams that opened since tell the initial window."""
        connection = self.one(self.script(REQUEST, *rounds(7, 1023, 6)))
        (window,) = [one for one in connection["joined"]["windows"] if one["window"] == "initial"]
        self.assertEqual((window["credit"], window["grade"], window["stream"]), (1023, "strong", None))
        (request,) = connection["requests"]
        self.assertEqual((request["opened_before"], request["cause"]["grade"]), (False, "strong"))

    def test_one_touch(self) -> None:
        """A single long pause."""
        lines = ["S DATA 5 1000"] * 5 + ["S DATA 5 300", *["C"] * 500, "C WINDOW_UPDATE 5 4000", *["S DATA 5 1000"] * 4]
        text = self.text(self.script(*KNOWN, *lines))
        self.assertIn("[likely: the server stopped for 501 ms, and went on only after a grant]", text)

    def test_silent_since_the_beginning(self) -> None:
        """A stall that began before the capture begins at its first packet, and at no frame."""
        lines = ["C PING", "S PING", *["C"] * 400, "C WINDOW_UPDATE 5 1000", "S DATA 5 700"]
        connection = self.one(self.script(*lines))
        (stall,) = connection["stalls"]
        self.assertEqual((stall["begin"]["frame"], stall["begin"]["packet"]), (None, 1))
        self.assertEqual(stall["end"]["packet"], 403)
        (request,) = connection["requests"]
        self.assertGreater(request["server"]["shares"]["stream_stall"], 400_000_000)
        self.assertIn("was silent since the capture began", request["cause"]["text"])

    def test_either_of_two_windows(self) -> None:
        """Two windows that were at their bounds in the same pauses are one sentence, the stream's first."""
        lines = rounds(5, 700, 2, "C WINDOW_UPDATE 0 700")
        found = said_of(str(self.script(*KNOWN, *lines)))
        (connection,) = found["connections"]
        grades = {one["window"]: one["grade"] for one in connection["joined"]["windows"]}
        self.assertEqual(grades["stream"], "either", grades)
        request = next(one for one in connection["requests"] if one["stream"] == 5)
        self.assertEqual((request["cause"]["kind"], request["cause"]["grade"]), ("stream-window", "either"))
        self.assertIn("[likely, by its own window or the connection's]", request["cause"]["text"])


class Unclaimed(OnScripts):
    """What cannot be known is not said."""

    def test_a_window_that_was_never_used_up(self) -> None:
        path = self.script(*KNOWN, "S DATA 5 900", "C WINDOW_UPDATE 5 900", "S DATA 5 800", *["C"] * 90, "S DATA 5 9")
        connection = self.one(path)
        self.assertEqual(connection["stalls"], [])
        self.assertIn("No rule was broken in what was audited. No side was seen to use up its credit.", self.text(path))
        (window,) = [one for one in connection["joined"]["windows"] if one["stream"] == 5]
        self.assertEqual((window["grade"], window["least"], window["can_stall"]), ("bound", 900, True))
        text = self.text(path)
        words = "no stall of the server can be told on stream 5: it was not seen to use up its credit, of 900 bytes"
        self.assertIn(words, text)
        self.assertIn("no stall can be told", text.split("stream 5 (opened")[1])

    def test_no_stall_even_by_the_bound(self) -> None:
        lines = ["S DATA 5 900", "S DATA 5 800 END_STREAM", "S PING", "C PING"]
        connection = self.one(self.script(*KNOWN, *lines))
        (window,) = [one for one in connection["joined"]["windows"] if one["stream"] == 5]
        self.assertEqual((window["least"], window["can_stall"]), (1700, False))
        text = "\n".join(connection["joined"]["text"])
        self.assertIn("no stall of the server on stream 5: 1,700 bytes or more", text)

    def test_no_application_where_a_window_may_be_why(self) -> None:
        """A pause at the least credit is not the application's, and one at more credit is."""
        end = ["S DATA 5 1 END_STREAM", "S PING", "C PING"]
        pause = ["C"] * 90
        grants = ["C WINDOW_UPDATE 5 9000", "C WINDOW_UPDATE 0 9000"]
        lines = ["S DATA 5 900", *pause, *grants, *pause, *["S DATA 5 900"] * 2, *end]
        low = self.one(self.script(*KNOWN, *lines))
        request = next(one for one in low["requests"] if one["stream"] == 5)
        self.assertEqual(request["cause"]["kind"], "none")
        lines = ["S DATA 5 900", *pause, *["S DATA 5 900"] * 2, *end]
        high = self.one(self.script(*KNOWN, *lines))
        request = next(one for one in high["requests"] if one["stream"] == 5)
        self.assertEqual((request["cause"]["kind"], request["cause"]["side"]), ("application", "server"))
        self.assertNotIn("bytes of credit", request["cause"]["text"])

    def test_a_request_that_ended_before(self) -> None:
        """The client is not blamed for a request whose own end lies before the capture."""
        connection = self.one(self.script(*KNOWN, "S DATA 5 900", *["C"] * 90, "S DATA 5 900", "S PING", "C PING"))
        request = next(one for one in connection["requests"] if one["stream"] == 5)
        self.assertEqual((request["client"]["nanos"], request["client"]["first"]), (0, None))
        self.assertNotEqual(request["cause"]["ask"], "client")

    def test_times_that_go_back(self) -> None:
        packets = packets_of_script([*KNOWN, *rounds(5, 700, 6), "S HEX 000004 08 00 00000000 00000000"])
        packets[-1], packets[-2] = packets[-2], packets[-1]
        path = self.capture_of(packets)
        connection = self.one(path)
        self.assertEqual((connection["stalls"], connection["faults"]), ([], []))
        self.assertTrue(connection["joined"]["doubtful"])
        self.assertIn("so no stall and no fault is claimed", self.text(path))

    def test_overruns(self) -> None:
        """One that was answered is told by the answer; behind settings that were seen it is certain on new streams."""
        answer = f"C {hexed(frame(3, 0, 5, number(FLOW_CONTROL_ERROR)))}"
        path = self.script(*KNOWN, *rounds(5, 700, 6), "S DATA 5 50", answer)
        found = said_of(str(path))
        self.assertEqual((found["connections"][0]["faults"], found["summary"]["verdict"]), ([], "errors"))
        self.assertEqual(self.status(path), 0)
        self.assertEqual(self.status(path, "--fail-on", "error"), 1)
        self.assertIn("the client sent RST_STREAM FLOW_CONTROL_ERROR", self.text(path))
        certain = ["C SETTINGS 4 100", "S ACK", *KNOWN, "S DATA 7 101", "S PING", "C PING"]
        path = self.script(*certain)
        (fault,) = self.one(path)["faults"]
        self.assertEqual((fault["kind"], fault["certainty"]), ("stream-overrun", "certain"))
        self.assertEqual(self.status(path), 1)

    def test_names(self) -> None:
        """What stood in a dynamic table before the capture is unknown; what is there is not."""
        block = bytes([0x82, 0xBE, 0x87])
        connection = self.one(path := self.script(f"C {hexed(frame(1, 5, 7, block))}", ANSWER, "S PING", "C PING"))
        (request,) = connection["requests"]
        self.assertEqual((request["method"], request["path"]), ("GET", None))
        self.assertIn("GET (path unknown)", self.text(path))

    def test_one_direction(self) -> None:
        lines = [line for line in rounds(5, 700, 6) if line.startswith("S")]
        packets = packets_of_script(lines)
        data = [one.data[:28] + number(7 + at) + one.data[32:] for at, one in enumerate(packets)]
        acked = [Packet(one.nanos, octets, one.original) for one, octets in zip(packets, data)]
        found = said_of(str(self.capture_of(acked)))
        self.assertEqual([one["reason"] for one in found["not_audited"]], ["one-direction"])
        self.assertEqual(found["summary"]["verdict"], "nothing-audited")


class Status(OnScripts):
    """Nothing that is inferred fails a run that does not ask for it."""

    def test_certain_faults(self) -> None:
        path = self.script(*KNOWN, "C WINDOW_UPDATE 7 0", "S PING", "C PING")
        (fault,) = self.one(path)["faults"]
        self.assertEqual((fault["kind"], fault["certainty"]), ("zero-stream-grant", "certain"))
        self.assertEqual((self.status(path), self.status(path, "--fail-on", "joined-fault")), (1, 0))
        self.assertEqual(self.status(path, "--no-joined"), 6)
        self.assertIn("1 connection that began before the capture", self.text(path, "--no-joined"))

    def test_inferred_faults(self) -> None:
        """Which streams were open is inferred."""
        path = self.script("S DATA 9 10", "S DATA 5 10", REQUEST)
        connection = self.one(path)
        self.assertEqual([(one["kind"], one["certainty"]) for one in connection["faults"]], [("not-opened", "joined")])
        self.assertIn("it rests on what is inferred", connection["faults"][0]["doubt"])
        statuses = [self.status(path, "--fail-on", reason) for reason in ("fault", "certain-fault", "joined-fault")]
        self.assertEqual((self.status(path), statuses), (0, [0, 0, 1]))

    def test_inferred_stalls(self) -> None:
        path = self.script(*KNOWN, *rounds(5, 700, 6))
        self.assertEqual((self.status(path), self.status(path, "--fail-on", "stall")), (0, 1))

    def test_nothing_to_join(self) -> None:
        path = self.script(*[f"C {hexed(b'no frames of HTTP/2. ' * 99)}"] * 9)
        self.assertEqual(self.status(path), 6)

    def test_ends_have_none(self) -> None:
        path = self.script(*KNOWN, *rounds(5, 700, 6))
        self.assertEqual(ran("--ends", path, path).returncode, 6)

    def test_rows(self) -> None:
        """The status of rows is that of faults that are not inferred; the report of h2audit-any has none of these."""
        certain = ["C WINDOW_UPDATE 7 0", "S PING", "C PING"]
        inferred = ["S DATA 9 10", "S DATA 5 10", REQUEST]
        for lines, status in (([*KNOWN, *rounds(5, 700, 6)], 0), ([*KNOWN, *certain], 1), (inferred, 0)):
            path, rows, report = self.script(*lines), self.folder / "rows", self.folder / "report"
            self.assertEqual(ran("--rows", rows, "--report", report, path).returncode, status)
            all_rows = map(json.loads, rows.read_text().splitlines()[1:])
            self.assertEqual([row[-1] for row in all_rows if row[0] == "connections"], ["inferred"])
            self.assertEqual([line.split()[0] for line in report.read_text().splitlines()], ["capture", "unopened"])
            self.assertEqual(ran("--no-joined", "--rows", rows, path).returncode, 6)
            self.assertFalse(any('"connections"' in line for line in rows.read_text().splitlines()))


class Forms(OnScripts):
    def test_schema(self) -> None:
        try:
            import jsonschema  # type: ignore[import]
        except ImportError:
            self.skipTest("without jsonschema")
        validator = jsonschema.Draft202012Validator(SCHEMA)
        paths = [self.script(*KNOWN, *rounds(5, 700, 6)), TOP / "examples" / "paused_stream_node.pcap"]
        for path in paths:
            validator.validate(said_of(str(path)))
            validator.validate(json.loads(ran("--charts", path).stdout))

    def test_junit(self) -> None:
        path = self.script(*KNOWN, *rounds(5, 700, 6))
        self.assertEqual(self.status(path, "--junit", str(self.folder / "junit.xml")), 0)
        top = ElementTree.fromstring((self.folder / "junit.xml").read_bytes())
        said = [one.text or "" for one in top.iter("system-out")]
        self.assertTrue(any("\nbegan before the capture" in one for one in said), said)
        self.assertTrue(any("[inferred: the server stopped 6 times" in one for one in said), said)

    def test_charts_begin_with_what_is_inferred(self) -> None:
        document = json.loads(ran("--charts", self.script(*KNOWN, *rounds(5, 700, 6))).stdout)
        windows = document["connections"][0]["charts"]["windows"]
        (window,) = [one for one in windows if one["stream"] == 5 and one["side"] == "server"]
        self.assertEqual((window["credits"][0], window["frames"][0]), (700, 0))


class Cuts(OnScripts):
    """Captures of the repository."""

    def packets(self, name: str) -> list[Packet]:
        return packets_of(TOP / "examples" / f"{name}.pcap")

    def test_exact(self) -> None:
        """Where the handshake alone was lost all is as of the whole, and a line says so."""
        packets = self.packets("stream_overrun_go")
        whole = self.one(self.capture_of(packets))
        for lost, word in ((2, "SYN"), (18, "SYN ACK"), (None, "handshake")):
            flags = [segment_of(one.data).flags & 0x12 for one in packets]
            left = [one for one, flag in zip(packets, flags) if flag & SYN == 0 or lost not in (None, flag)]
            path = self.capture_of(left)
            connection = self.one(path)
            self.assertEqual(len(connection["faults"]), len(whole["faults"]))
            self.assertEqual([one["grade"] for one in connection["stalls"]], [None] * len(whole["stalls"]))
            self.assertEqual(connection["frames"], whole["frames"])
            self.assertEqual(self.status(path), 1)
            self.assertIn(f"its {word} was not captured, and nothing is inferred", self.text(path))

    def test_a_segment_that_the_border_divides(self) -> None:
        """What stands before the first frame is neither missing nor sent again."""
        found = said_of(str(self.capture_of(self.packets("paused_stream_node")[10:])))
        (connection,) = found["connections"]
        self.assertEqual(connection["joined"]["server"]["offset"], 139)
        self.assertEqual((found["warnings"], connection["uncaptured"]), ([], {"client": 0, "server": 0}))
        shares = [request["server"]["shares"]["tcp"] for request in connection["requests"]]
        self.assertEqual(shares, [0] * len(shares))

    def test_stalls_are_those_of_the_whole(self) -> None:
        """Each stall that is told of a cut capture, with its packets and its frames, is one of the whole."""
        told = 0
        for name in ("stream_stalls_nghttpd", "round_trip_server_side", "tiny_window_lighttpd"):
            packets = self.packets(name)
            whole = self.one(self.capture_of(packets))
            for cut in (len(packets) // 3, len(packets) // 2):
                connection = self.one(self.capture_of(packets[cut:]))
                known = {stall_of(one, cut, 0) for one in whole["stalls"]}
                shift = whole["frames"] - connection["frames"]
                for one in connection["stalls"]:
                    if one["begin"]["frame"] is not None and one["end"] is not None:
                        self.assertIn(stall_of(one, 0, shift), known, f"{name} cut {cut}")
                        told += 1
        self.assertGreater(told, 20)


def stall_of(one: Json, before: int, shift: int) -> tuple[object, ...]:
    """Side, stream, packets and frames of a stall: packets behind a cut, frames as of the whole."""
    begin, end = one["begin"], one["end"]
    packets = [at and at["packet"] - before for at in (begin, end)]
    frames = [at and at["frame"] + shift for at in (begin, end)]
    return one["side"], one["stream"], *packets, *frames


if __name__ == "__main__":
    sys.argv = programs_of(sys.argv)
    if not has_programs():
        sys.exit("h2audit or h2audit-import is not built")
    unittest.main()
