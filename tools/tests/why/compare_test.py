"""Tests of h2audit-why --compare: requests before and after a change, of generated captures and of real peers.

    python3 -m tools.tests.why.compare_test [H2AUDIT] [TEST..]
"""

import json
import pathlib
import re
import struct
import sys
import unittest
from contextlib import ExitStack

from tests.captures import PREFACE, SYN, SYN_ACK, Capture, frame
from tools.tests import peers as why_peers
from tools.tests.peers import Peers, can_capture, captured, nghttpd, nginx, proxy_to
from tools.tests.why.ci_test import slower
from tools.tests.why.hostile_test import block
from tools.tests.why_tools import TOP, Json, OnCaptures, has_programs, programs_of, ran

RUNS = ("$H2AUDIT",)
QUICK = True
SCHEMA = json.loads((TOP / "companions" / "why" / "schema.json").read_text())
ROUND_TRIP = 0.24
EXAMPLES = TOP / "examples"


def compare(*words: str | pathlib.Path) -> Json:
    """What --json says of two captures, which the schema holds."""
    import jsonschema  # type: ignore[import]

    run = ran("--json", "--compare", *words)
    if run.returncode not in (0, 1, 6):
        raise AssertionError(f"status {run.returncode}: {run.stderr.decode()}")
    found: Json = json.loads(run.stdout)
    jsonschema.Draft202012Validator({**SCHEMA["$defs"]["compare"], "$defs": SCHEMA["$defs"]}).validate(found)
    return found


def turns(found: Json) -> list[tuple[str, int, int | None, int | None]]:
    """Each pair: its name and turn, and the stream before and after."""
    return [(one["name"], one["turn"], one["before"] and one["before"]["stream"],
             one["after"] and one["after"]["stream"]) for one in found["requests"]]  # fmt: skip


class Generated(OnCaptures):
    def capture(self, name: str, *asked: str) -> pathlib.Path:
        """A capture of requests for these paths, by GET or the method before them, on streams 1, 3, .."""
        made = Capture()
        made.syn("C", 1000, SYN)
        made.syn("S", 5000, SYN_ACK)
        made.send("C", PREFACE + frame(4, 0, 0))
        made.send("S", frame(4, 0, 0) + frame(4, 1, 0))
        for turn, words in enumerate(asked):
            method, path = (word.encode() for word in words.rpartition(" ")[::2])
            fields = ((b":method", method or b"GET"), (b":scheme", b"http"), (b":path", path), (b":authority", b"x"))
            made.send("C", frame(1, 5, 2 * turn + 1, block(*fields)))
            made.send("S", frame(1, 5, 2 * turn + 1, b"\x88"))
        file = self.folder / name
        file.write_bytes(made.bytes)
        return file

    def test_matching(self) -> None:
        """By name and turn, in any order, also where some are new or gone; a query does not tell them apart."""
        before = self.capture("before", "/a", "/b", "/a?x=1", "/gone", "/a")
        after = self.capture("after", "/new", "/a", "/a?y=2", "/b")
        found = compare(before, after)
        self.assertEqual(turns(found), [
            ("GET /a", 1, 1, 3), ("GET /a", 2, 5, 5), ("GET /a", 3, 9, None), ("GET /b", 1, 3, 7),
            ("GET /gone", 1, 7, None), ("GET /new", 1, None, 1),
        ])  # fmt: skip
        text = ran("--compare", before, after).stdout.decode()
        self.assertIn("3 requests in both, 1 new, 2 gone.", text)
        for line in ("GET /a (3 of 3)  gone: ", "GET /gone        gone: ", "GET /new         new: "):
            self.assertIn(line, text)
        with_query = turns(self.with_query(before, after))
        self.assertIn(("GET /a?x=1", 1, 5, None), with_query)

    def test_methods(self) -> None:
        """Another method of the same path is another request."""
        found = compare(self.capture("before", "/a", "HEAD /a"), self.capture("after", "HEAD /a", "PUT /a"))
        self.assertEqual(turns(found), [("GET /a", 1, 1, None), ("HEAD /a", 1, 3, 1), ("PUT /a", 1, None, 3)])
        self.assertEqual([one["method"] for one in found["requests"]], ["GET", "HEAD", "PUT"])

    def test_lives(self) -> None:
        """A life grew or shrank by 1 ms, and by a tenth of the shorter one."""
        octets = self.capture("capture", "/a", "/b").read_bytes()
        for before, after, change, words in (
            (10_000, 11_000, "longer", "2 lived longer, 0 shorter."),
            (10_000, 10_999, "same", "0 lived longer, 0 shorter."),
            (20_000, 21_999, "same", "0 lived longer, 0 shorter."),
            (20_000, 22_000, "longer", "2 lived longer, 0 shorter."),
            (1_000, 1_999, "same", "0 lived longer, 0 shorter."),
            (22_000, 20_000, "shorter", "0 lived longer, 2 shorter."),
        ):
            files = [self.folder / "before", self.folder / "after"]
            for file, step in zip(files, (before, after)):
                file.write_bytes(slower(octets, step))
            found = compare(*files)
            self.assertEqual([one["life_change"] for one in found["requests"]], 2 * [change], (before, after))
            self.assertIn(f"None of those in both was stalled. {words}", ran("--compare", *files).stdout.decode())

    def with_query(self, before: pathlib.Path, after: pathlib.Path) -> Json:
        found: Json = json.loads(ran("--json", "--query", "--compare", before, after).stdout)
        return found

    def test_unnamed(self) -> None:
        """Requests whose names are damaged are counted, and matched with none."""
        before = self.capture("before", "/a")
        octets = before.read_bytes()
        broken = self.folder / "broken"
        fields = octets.index(block((b":method", b"GET")))
        broken.write_bytes(octets[:fields] + b"\xff" * 3 + octets[fields + 3 :])
        found = compare(before, broken)
        self.assertEqual((turns(found), found["unnamed"]), ([("GET /a", 1, 1, None)], {"before": 0, "after": 1}))
        self.assertIn("Without a name, so not matched: 0 before, 1 after.",
                      ran("--compare", before, broken).stdout.decode())  # fmt: skip

    def test_faults(self) -> None:
        """Faults stand side by side. The status, the reasons and the JUnit file are those of the capture after."""
        good, bad = EXAMPLES / "paused_stream_node.pcap", EXAMPLES / "stream_overrun_go.pcap"
        fault = {"broke": "client", "kind": "stream-overrun"}
        self.assertEqual(compare(good, bad)["faults"], [{**fault, "before": 0, "after": 1}])
        self.assertEqual(compare(bad, good)["faults"], [{**fault, "before": 1, "after": 0}])
        file = self.folder / "junit.xml"
        runs = [ran("--junit", file, "--compare", *pair) for pair in ((bad, good), (good, bad))]
        self.assertEqual([run.returncode for run in runs], [0, 1])
        self.assertIn("FAULT stream-overrun by the client: 1 -> 0", runs[0].stdout.decode())
        self.assertIn('name="POST /up"', file.read_text())

    def test_words(self) -> None:
        one = EXAMPLES / "paused_stream_node.pcap"
        cases: list[list[str | pathlib.Path]] = [
            [one, "--compare", one, one], ["--json-lines", "--compare", one, one], ["--compare", one],
            ["--no-requests", "--compare", one, one],
        ]  # fmt: skip
        for words in cases:
            run = ran(*words)
            self.assertEqual((run.returncode, run.stdout, len(run.stderr.splitlines())), (2, b"", 1), words)
        nothing = self.folder / "nothing"
        nothing.write_bytes(one.read_bytes()[:24])
        for pair in ((one, nothing), (nothing, one)):
            self.assertEqual(ran("--compare", *pair).returncode, 6)
        self.assertEqual(ran("--compare", one, self.folder / "nowhere").returncode, 4)

    def test_same_bytes(self) -> None:
        pair = (EXAMPLES / "paused_stream_node.pcap", EXAMPLES / "round_trip_server_side.pcap")
        for form in ((), ("--json",), ("--all",)):
            one, other = (ran(*form, "--compare", *pair) for _ in range(2))
            self.assertTrue(one.stdout)
            self.assertEqual(one.stdout, other.stdout)


@unittest.skipUnless(can_capture, "tcpdump on loopback needs root")
class Real(Peers):
    """Windows of 65,535 bytes over a round trip, then large ones."""

    def downloads(self, capture: pathlib.Path, window: str, *paths: str) -> None:
        with ExitStack() as stack:
            port = stack.enter_context(nghttpd(self.folder))
            near = stack.enter_context(proxy_to(port, ROUND_TRIP))
            stack.enter_context(captured(capture, port))
            for path in paths:
                why_peers.ran("nghttp", "-n", f"-w{window}", f"-W{window}", f"http://127.0.0.1:{near}{path}")

    def test_wider_window(self) -> None:
        """The stalls are gone, the requests are found again in another order, and the text says by how much."""
        before, after = self.folder / "before.pcap", self.folder / "after.pcap"
        self.downloads(before, "16", "/large", "/medium", "/large", "/gone")
        self.downloads(after, "24", "/medium", "/new", "/large", "/large")
        found = compare(before, after)
        by_name = {(one["name"], one["turn"]): one for one in found["requests"]}
        self.assertEqual(set(by_name), {("GET /large", 1), ("GET /large", 2), ("GET /medium", 1), ("GET /gone", 1),
                                        ("GET /new", 1)})  # fmt: skip
        self.assertIsNone(by_name["GET /gone", 1]["after"])
        self.assertIsNone(by_name["GET /new", 1]["before"])
        for turn in (1, 2):
            one = by_name["GET /large", turn]
            self.assertEqual(one["change"], "less")
            self.assertGreater(one["before"]["stalled_nanos"], one["before"]["nanos"] // 2)
            cause = one["before"]["cause"]
            self.assertEqual((cause["kind"], cause["ask"]), ("stream-window", "client"))
            self.assertLess(one["after"]["stalled_nanos"], one["after"]["nanos"] // 10)
        self.assertLess(found["stalled_nanos"]["after"], found["stalled_nanos"]["before"] // 10)
        text = ran("--compare", before, after).stdout.decode()
        self.assertRegex(text, r"Those in both were stalled for \S+ m?s -> .*: \d+ % less\. 2 stalled less, 0 more[.;]")
        self.assertEqual(len(re.findall(r"^  GET /large \([12] of 2\)  stalled \d+ % -> ", text, re.M)), 2)
        self.assertRegex(ran("--compare", after, before).stdout.decode(), r" s more\. 0 stalled less, 2 more[.;]")

    def test_slow_reader(self) -> None:
        """A client that grants a second late, then one that grants at once; nginx serves both."""
        captures = [self.folder / "before.pcap", self.folder / "after.pcap"]
        for pause, capture in zip((1.0, 0.0), captures):
            with nginx(self.folder) as port, captured(capture, port):
                client = why_peers.RawClient(port)
                client.get(1, "/large")
                client.read_until(lambda _: client.content(1) >= 65535)
                if pause:
                    client.read_until(lambda _: False, pause)
                client.write(frame(8, 0, 0, struct.pack(">I", 1 << 20)) + frame(8, 0, 1, struct.pack(">I", 1 << 20)))
                client.read_until(lambda _: client.content(1) >= 400_000)
                client.close()
        found = compare(*captures)
        (one,) = found["requests"]
        self.assertEqual((one["name"], one["change"]), ("GET /large", "less"))
        self.assertGreater(one["before"]["stalled_nanos"] - one["after"]["stalled_nanos"], 400_000_000)


if __name__ == "__main__":
    sys.argv = programs_of(sys.argv)
    if not has_programs():
        sys.exit("h2audit or h2audit-import is not built")
    unittest.main()
