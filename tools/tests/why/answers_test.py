"""Tests of h2audit-why on the captures of tests/answer/, whose true answers were found by hand, and on a connection
through a proxy that ends TCP.

    python3 -m tools.tests.why.answers_test [H2AUDIT] [TEST..]
"""

import struct
import sys
import unittest

from tests.captures import ACK, PREFACE, SYN, SYN_ACK, frame
from tools.tests.request_captures import Timed, request
from tools.tests.why_tools import TOP, Json, OnCaptures, has_programs, programs_of, said_of, text

RUNS = ("$H2AUDIT",)
QUICK = True
CAPTURES = TOP / "tests" / "answer"
MS = 1_000_000


class Answers(OnCaptures):
    def connection(self, name: str, number: int = 1) -> Json:
        found = said_of(CAPTURES / f"{name}.pcap")
        self.sums(found)
        connection: Json = found["connections"][number - 1]
        return connection

    def request(self, name: str, stream: int) -> Json:
        requests = self.connection(name)["requests"]
        return next(one for one in requests if one["stream"] == stream)

    def cause(self, request: Json, kind: str, why: str | None, ask: str | None) -> Json:
        cause: Json = request["cause"]
        self.assertEqual((cause["kind"], cause["why"], cause["ask"]), (kind, why, ask), cause)
        return cause

    def between(self, low: float, nanos: int, high: float) -> None:
        """The bounds are in milliseconds."""
        self.assertTrue(low * MS <= nanos <= high * MS, nanos / MS)

    def test_slow_first_answer(self) -> None:
        """Two reactions, and both when the application woke: TCP's round trip counts."""
        connection = self.connection("slow_first_answer")
        self.assertEqual(connection["round_trip"]["source"], "tcp")
        self.between(0, connection["round_trip"]["nanos"], 0.03)
        self.assertIn("the server's first answer took 922 ms", connection["notes"][0])
        cause = self.cause(connection["requests"][0], "application", "before", "server")
        self.assertIn("the server sent nothing on this stream for 970 ms", cause["text"])

    def test_syn_lost(self) -> None:
        """The SYN that was answered is the last one."""
        self.between(0, self.connection("syn_lost")["round_trip"]["nanos"], 0.3)

    def test_lost_before_answer(self) -> None:
        """The answer is there a round trip after the request, and waits behind a hole for 10.6 ms more."""
        request = self.request("lost_before_answer", 15)
        self.cause(request, "tcp", "hole", None)
        shares = request["server"]["shares"]
        self.between(10.5, shares["waiting"], 10.7)
        self.between(10.5, shares["tcp"], 12)

    def test_ten_downloads(self) -> None:
        for request in self.connection("ten_downloads_1MBs")["requests"]:
            cause = self.cause(request, "path", None, None)
            self.assertEqual(request["server"]["shares"]["idle"], 0)
            said = r"the server sent all the time: 1\.\d+ s at 9\d\d kB/s, shared by 10 streams"
            self.assertRegex(cause["text"], said)
        self.assertIn("the server sent other streams for", text("--width", "500", CAPTURES / "ten_downloads_1MBs.pcap"))

    def test_five_streams(self) -> None:
        for stream in (1, 3, 5, 7):
            self.cause(self.request("five_streams_in_turn", stream), "path", None, None)

    def test_longer_silence(self) -> None:
        cause = self.cause(self.request("longer_silence", 13), "application", "between", "server")
        self.assertEqual((cause["first"]["packet"], cause["last"]["packet"]), (13, 19))
        self.assertIn("the server sent nothing for 500 ms with 1,535 bytes of credit", cause["text"])

    def test_silence_before_goaway(self) -> None:
        cause = self.cause(self.request("silence_before_goaway", 1), "application", "between", "server")
        self.assertIn("the server sent nothing for 211 ms", cause["text"])

    def test_nagle(self) -> None:
        cause = self.cause(self.request("nagle", 3), "tcp", "nagle", "server")
        self.assertEqual((cause["first"]["packet"], cause["last"]["packet"]), (16, 18))
        self.between(44.3, cause["nanos"], 44.5)
        self.assertIn("TCP_NODELAY", cause["text"])

    def test_upload_without_end(self) -> None:
        """The server waits for an end that never comes: the client is asked, which sent no more."""
        request = self.request("upload_without_end", 1)
        cause = self.cause(request, "application", "between", "client")
        self.assertEqual((cause["first"]["packet"], request["ended"]["how"]), (14, "FIN"))
        self.assertIn("did not end it", cause["text"])

    def test_window_is_a_part(self) -> None:
        request = self.request("window_is_a_part", 3)
        self.cause(request, "application", "before", "server")
        self.assertEqual(request["life"], "804 ms: the server took 702 ms (87 %), its window 101 ms (13 %)")
        found = said_of(CAPTURES / "window_is_a_part.pcap")
        self.assertEqual((found["summary"]["held_back"], found["summary"]["verdict"]), (0, "stalls"))
        self.assertIn(request["life"], text("--width", "500", CAPTURES / "window_is_a_part.pcap"))


class Acknowledged(Timed):
    """A capture whose segments acknowledge all that came before from the other side, and have a TCP window."""

    def segment(self, source, target, seq, flags, payload=b"", kept=None):  # type: ignore[no-untyped-def]
        super().segment(source, target, seq, flags, payload, kept)
        other = "S" if source == self.ends["C"][0] else "C"
        tcp = self.last + 14 + 20
        struct.pack_into(">I", self.bytes, tcp + 8, self.next[other] if flags & ACK else 0)
        struct.pack_into(">H", self.bytes, tcp + 14, 65535)


class Proxies(Answers):
    def talk(self, pings: list[int], answer: int) -> Json:
        """A server behind a proxy, which acknowledges within 20 us what takes some ms to be answered: PINGs each by
        itself, then a request.
        """
        capture = Acknowledged()

        def say(side: str, micros: int, *frames: bytes) -> None:
            capture.now += micros
            capture.send(side, b"".join(frames))
            capture.now += 20
            capture.send("SC"["CS".index(side)], b"")

        capture.syn("C", 1000, SYN)
        capture.now += 20
        capture.syn("S", 5000, SYN_ACK)
        capture.now += 20
        capture.send("C", b"")
        say("C", 100, PREFACE, frame(4, 0, 0))
        say("S", 100, frame(4, 0, 0))
        say("C", 100, frame(4, 1, 0))
        for number, took in enumerate(pings):
            octets = number.to_bytes(8, "big")
            say("C", 1000, frame(6, 0, 0, octets))
            say("S", took * 1000, frame(6, 1, 0, octets))
        say("C", 1000, frame(1, 5, 1, request("POST", "/shop.Catalog/Get", "shop.example")))
        say("S", answer * 1000, frame(1, 4, 1, b"\x88"), frame(0, 0, 1, bytes(100)))
        say("S", 1000, frame(1, 5, 1, b"\x88"))
        path = self.folder / "capture.pcap"
        path.write_bytes(capture.bytes)
        connection: Json = said_of(path)["connections"][0]
        return connection

    def test_grpc_through_a_proxy(self) -> None:
        """PINGs that all take 41 ms tell of a way of 41 ms, where TCP's ends after some microseconds."""
        connection = self.talk([41, 42, 43], 44)
        self.assertEqual(connection["round_trip"]["source"], "http2")
        self.between(41, connection["round_trip"]["nanos"], 42)
        self.between(0, connection["round_trip"]["tcp"]["server"], 0.03)
        self.assertEqual(connection["requests"][0]["cause"]["kind"], "none")

    def test_an_application_that_takes_long(self) -> None:
        """PINGs that are not alike, or of which one is quick, tell of none."""
        for pings in ([41, 55, 90], [41, 1, 42, 43]):
            connection = self.talk(pings, 44)
            self.assertEqual(connection["round_trip"]["source"], "tcp")
            self.cause(connection["requests"][0], "application", "before", "server")


if __name__ == "__main__":
    sys.argv = programs_of(sys.argv)
    if not has_programs():
        sys.exit("h2audit or h2audit-import is not built")
    unittest.main()
