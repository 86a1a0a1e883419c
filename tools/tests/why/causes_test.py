"""Tests of h2audit-why with real servers and clients: what the answer says besides the cause (why_set_causes_test.py).

    python3 -m tools.tests.why.causes_test [H2AUDIT] [TEST..]
"""

import struct
import sys
import unittest
from contextlib import ExitStack
from typing import Any

from tools.tests.peers import (
    Peers,
    RawClient,
    caddy,
    can_capture,
    captured,
    frame,
    h2o,
    nghttpd,
    nginx,
    node,
    proxy_to,
    ran,
)
from tools.tests.why_tools import Json, by_port, has_programs, programs_of, request_of, said_of

RUNS = ("$H2AUDIT",)
# Far longer than a machine under load takes for an answer at once.
ROUND_TRIP = 0.24


@unittest.skipUnless(can_capture, "tcpdump on loopback needs root")
class Causes(Peers):
    def check(self, request: Json, kind: str, whys: tuple[str | None, ...], ask: str | None) -> None:
        """The cause is the one that is set, and who is asked is the one who caused it."""
        cause = request["cause"]
        self.assertEqual((cause["kind"], cause["ask"]), (kind, ask), cause)
        self.assertIn(cause["why"], whys, cause)

    def sums(self, found: Json) -> None:
        for connection in found["connections"]:
            for request in connection["requests"]:
                for side in ("client", "server"):
                    self.assertEqual(sum(request[side]["shares"].values()), request[side]["nanos"])

    def download(self, port: int, *words: str, path: str = "/large") -> None:
        ran("nghttp", "-n", *words, f"http://127.0.0.1:{port}{path}")


class Windows(Causes):
    def at_either_end(self, server: Any) -> None:
        """65,535 bytes over a round trip: at the server the stalls show, at the client it is said that none does."""
        with ExitStack() as stack:
            port = stack.enter_context(server(self.folder))
            near = stack.enter_context(proxy_to(port, ROUND_TRIP))
            stack.enter_context(captured(self.capture, port, near))
            self.download(near, "-w16", "-W24")
        found = said_of(self.capture)
        self.sums(found)
        there, here = by_port(found, port), by_port(found, near)
        self.assertEqual((there["captured_at"], here["captured_at"]), ("server", "client"))
        for one in (there, here):
            self.assertEqual(one["round_trip"]["source"], "http2")
            self.assertGreater(one["round_trip"]["nanos"], 0.9 * ROUND_TRIP * 1e9)
        self.check(request_of(there, "/large"), "stream-window", ("round-trip",), "client")
        self.assertIn("a round trip of", request_of(there, "/large")["cause"]["text"])
        self.assertGreater(request_of(there, "/large")["needed_window"], 65535)
        self.assertEqual(request_of(there, "/large")["server"]["shares"]["tcp"], 0)
        self.check(request_of(here, "/large"), "stream-window", ("unshown",), "client")
        self.assertIn("may not show", here["limits"][0])

    def test_nginx(self) -> None:
        self.at_either_end(nginx)

    def test_nghttpd(self) -> None:
        self.at_either_end(nghttpd)

    def test_h2o(self) -> None:
        self.at_either_end(h2o)

    def test_upload(self) -> None:
        """The other way round: what a client sends waits for the server's window, and the server is asked."""
        with ExitStack() as stack:
            port = stack.enter_context(nghttpd(self.folder))
            near = stack.enter_context(proxy_to(port, ROUND_TRIP))
            stack.enter_context(captured(self.capture, port, near))
            ran("nghttp", "-n", "-d", self.folder / "large", f"http://127.0.0.1:{near}/small")
        found = said_of(self.capture)
        self.sums(found)
        self.check(request_of(by_port(found, near), "/small"), "stream-window", ("round-trip",), "server")
        self.check(request_of(by_port(found, port), "/small"), "stream-window", ("unshown",), "server")

    def test_named_settings(self) -> None:
        """Where an initial window is too small, the answer names the SETTINGS that set it and its acknowledgement."""
        with ExitStack() as stack:
            port = stack.enter_context(nginx(self.folder))
            near = stack.enter_context(proxy_to(port, ROUND_TRIP))
            stack.enter_context(captured(self.capture, port))
            self.download(near, "-w12", path="/medium")
        connection = by_port(said_of(self.capture), port)
        (setting,) = [one for one in connection["settings"] if one["side"] == "client"]
        self.assertEqual(setting["initial_window"], 4095)
        request = request_of(connection, "/medium")
        self.check(request, "stream-window", ("round-trip",), "client")
        self.assertIn(
            f"initial window 4,095 by its SETTINGS in packet {setting['at']['packet']}, acknowledged in packet "
            f"{setting['acknowledged']['packet']}", request["cause"]["text"]
        )  # fmt: skip


class Ends(Causes):
    def test_overflowing_settings(self) -> None:
        """SETTINGS that take a window above 2^31 - 1 are never acknowledged; the answer names them and the GOAWAY."""
        with caddy(self.folder) as port, captured(self.capture, port):
            client = RawClient(port)
            self.addCleanup(client.close)
            client.get(1, "/large")
            client.read_until(lambda _: client.content(1) >= 65535)
            client.write(frame(8, 0, 1, struct.pack(">I", (1 << 31) - 100_000)))
            client.write(frame(4, 0, 0, struct.pack(">HI", 4, (1 << 31) - 1)))
            client.read_until(lambda frames: any(kind == 7 for kind, _, _, _ in frames), 5)
            client.close()
        connection = by_port(said_of(self.capture), port)
        goaway = [one for one in connection["signals"] if one["word"] == "GOAWAY"]
        self.assertEqual([(one["side"], one["code_name"]) for one in goaway], [("server", "FLOW_CONTROL_ERROR")])
        self.assertEqual(len(connection["notes"]), 1, connection["notes"])
        for words in (
            "never acknowledged",
            "6.9.2",
            f"GOAWAY FLOW_CONTROL_ERROR in packet {goaway[0]['at']['packet']}",
        ):
            self.assertIn(words, connection["notes"][0])
        self.assertEqual(connection["faults"], [])

    def test_reset(self) -> None:
        """A server's application that fails resets its stream; another answers at once."""
        with node(self.folder) as port, captured(self.capture, port):
            for path in ("/at-once", "/reset"):
                self.download(port, path=path)
        found = said_of(self.capture)
        by_path = {one["path"]: one for connection in found["connections"] for one in connection["requests"]}
        ended = by_path["/reset"]["ended"]
        self.assertEqual((ended["how"], ended["side"], ended["code_name"]), ("RST_STREAM", "server", "INTERNAL_ERROR"))
        self.assertEqual(by_path["/at-once"]["ended"]["how"], "END_STREAM")
        self.assertEqual((found["summary"]["held_back"], found["summary"]["faults"]), (0, 0))


if __name__ == "__main__":
    sys.argv = programs_of(sys.argv)
    if not has_programs():
        sys.exit("h2audit or h2audit-import is not built")
    unittest.main()
